//! Positions one after the other, also where there are more than a list takes: as the list has them, or whole ones.

use crate::fault::Fault;
use crate::plan::bytes::{self, Plan};
use crate::plan::group::{Group, Origin};
use crate::plan::library;
use crate::plan::program::Atom;

/// So many positions a call of the library gives at most.
pub const AT_ONCE: usize = 256;

/// A way through the positions of a group. What does not show stands in the lowest bits of its plan: so its whole positions rise as what they show does,
/// and those that are alike in what shows come together.
pub struct Walk<'a> {
    group: &'a Group,
    plan: Plan,
    /// The bits of its plan that do not show.
    hidden: u64,
    /// For each bit that shows its place in this plan, and in the group's.
    shown: Vec<(usize, usize)>,
    most: usize,
}

impl<'a> Walk<'a> {
    /// In the order of the list, in its words: cut to what shows, each once.
    pub fn as_listed(group: &'a Group) -> Result<Walk<'a>, Fault> {
        let show = bytes::decode(&group.plan.bytes).show.unwrap_or(u64::MAX);
        let is_shown = |atom: &Atom| group.plan.bit(*atom).map_or(false, |bit| show >> bit & 1 == 1);
        let (shown, hidden): (Vec<Atom>, Vec<Atom>) = group.plan.atoms.iter().copied().partition(is_shown);
        let order: Vec<Atom> = hidden.iter().chain(&shown).copied().collect();
        let plan = if order == group.plan.atoms { group.plan.clone() } else { reordered(group, order)? };
        let places = shown.iter().filter_map(|&atom| Some((plan.bit(atom)?, group.plan.bit(atom)?))).collect();
        Ok(Walk { group, hidden: plan.word(&hidden), plan, shown: places, most: AT_ONCE })
    }

    /// Whole positions, with all relays and helpers, in the order of their words.
    pub fn of_wholes(group: &'a Group) -> Walk<'a> {
        Walk { group, plan: group.plan.clone(), hidden: 0, shown: (0..64).map(|bit| (bit, bit)).collect(), most: AT_ONCE }
    }

    /// Some positions above this one, or from the first on, at most so many; none where none is left.
    pub fn next(&mut self, above: Option<u64>, most: usize) -> Result<Vec<u64>, Fault> {
        let above = above.map(|position| self.whole(position) | self.hidden);
        let most = most.min(self.most);
        let wholes = library::next_positions(&self.plan.bytes, above, most).map_err(|refusal| self.group.refused(refusal))?;
        let mut found: Vec<u64> = wholes.iter().map(|&whole| self.cut(whole)).collect();
        found.dedup();
        // Where many are alike in what shows, the next call asks for fewer.
        self.most = if 2 * found.len() < wholes.len() { 1.max(self.most / 2) } else { AT_ONCE.min(2 * self.most) };
        Ok(found)
    }

    /// The bits of the group's plan that positions of this walk have.
    pub fn known(&self) -> u64 {
        self.shown.iter().fold(0, |word, &(_, theirs)| word | 1 << theirs)
    }

    fn whole(&self, position: u64) -> u64 {
        self.shown.iter().fold(0, |word, &(ours, theirs)| word | (position >> theirs & 1) << ours)
    }

    fn cut(&self, whole: u64) -> u64 {
        self.shown.iter().fold(0, |word, &(ours, theirs)| word | (whole >> ours & 1) << theirs)
    }
}

/// The group's plan with its bits in this order. One of bytes is made anew of what was read of it, if the library takes it.
fn reordered(group: &Group, order: Vec<Atom>) -> Result<Plan, Fault> {
    if matches!(group.origin, Origin::Bytes) {
        library::next(&group.plan.bytes, None).map_err(|refusal| group.refused(refusal))?;
    }
    Plan::in_order(&group.program, &group.layout, order)
}
