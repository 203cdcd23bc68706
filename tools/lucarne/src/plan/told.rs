//! A group's list cut to the relays that another list tells of, and whole positions behind cut ones.

use crate::fault::Fault;
use crate::plan::group::{Group, Origin};
use crate::plan::library::{self, MAX_POSITIONS};
use crate::plan::bytes::{self, Plan};
use crate::plan::program::Atom;
use crate::plan::reason::{self, Position};
use std::collections::{BTreeMap, BTreeSet};

/// So many settled positions are gone through for whole ones.
const MOST_STEPS: usize = 10_000;
/// So often a relay that is not told is raised or dropped.
const MOST_REPAIRS: usize = 500;

/// Lists the group cut to these relays. The cutting is the library's (SHOW).
pub fn list_by(group: &mut Group, told: u64) -> Result<(), Fault> {
    if group.plan.word(&group.shown()) != told {
        let shown: BTreeSet<Atom> = group.plan.up(told).into_iter().collect();
        group.program.shows = None;
        group.program.hidden = group.plan.atoms.iter().copied().filter(|atom| !shown.contains(atom)).collect();
        match group.origin {
            Origin::Bytes => group.plan.bytes = with_show(&group.plan.bytes, told),
            _ => group.plan = Plan::of(&group.program, &group.layout)?,
        }
    }
    group.list()
}

/// A plan with this word of SHOW. One that cannot be read to its END stays as it is, for the library to refuse.
fn with_show(bytes: &[u8], word: u64) -> Vec<u8> {
    let record = bytes::decode(bytes);
    let end = record.offsets.iter().copied().find(|&at| bytes[at] == bytes::SHOW || bytes[at] == bytes::END);
    match end.filter(|_| record.unread.is_none()) {
        Some(end) => bytes[..end].iter().copied().chain([bytes::SHOW]).chain(word.to_le_bytes()).chain([bytes::END]).collect(),
        None => bytes.to_vec(),
    }
}

/// For each listed position a settled one with all its atoms that shows so, as far as a walk through all of them finds it.
pub fn wholes(group: &Group) -> Result<BTreeMap<u64, u64>, Fault> {
    let shown = bytes::decode(&group.plan.bytes).show.unwrap_or(u64::MAX);
    let next = |at: Option<u64>| library::next(&group.plan.bytes, at).map_err(|refusal| group.refused(refusal));
    let (mut wholes, mut steps) = (BTreeMap::new(), 0);
    let mut found = next(None)?;
    while let Some(whole) = found.filter(|_| wholes.len() < group.listing.positions.len() && steps < MOST_STEPS) {
        wholes.entry(whole & shown).or_insert(whole);
        steps += 1;
        found = next(Some(whole))?;
    }
    Ok(wholes)
}

/// All settled positions with all their atoms, where they are no more than a list takes.
pub fn all_wholes(group: &Group) -> Result<Option<Vec<u64>>, Fault> {
    let refused = |refusal| group.refused(refusal);
    let wholes = library::next_positions(&group.plan.bytes, None, MAX_POSITIONS).map_err(refused)?;
    let is_all = match wholes.last() {
        Some(&last) if wholes.len() == MAX_POSITIONS => library::next(&group.plan.bytes, Some(last)).map_err(refused)?.is_none(),
        _ => true,
    };
    Ok(Some(wholes).filter(|_| is_all))
}

/// A whole position behind one that tells what shows alone: a settled one, or else one filled in as the rules ask.
pub fn whole_of(group: &Group, position: u64) -> Result<u64, Fault> {
    let shown = match bytes::decode(&group.plan.bytes).show {
        Some(shown) if position & !shown == 0 => shown,
        _ => return Ok(position),
    };
    let next = |at: Option<u64>| library::next(&group.plan.bytes, at).map_err(|refusal| group.refused(refusal));
    let mut found = next(None)?;
    for _ in 0..MOST_STEPS {
        match found {
            Some(whole) if whole & shown == position => return Ok(whole),
            Some(whole) => found = next(Some(whole))?,
            None => return Ok(group.plan.word(&complete(group, shown, position, 0))),
        }
    }
    let what = format!("{:016x} tells what shows alone, and too many positions stand behind what shows", position);
    Err(Fault::new(what).hint("give a whole position, as lucarne next --whole writes it"))
}

/// A whole position with the told relays as they are: the others are taken from a settled one, and then raised and dropped as the rules ask.
pub fn complete(group: &Group, told: u64, up: u64, near: u64) -> Position {
    let program = &group.program;
    let fixed: BTreeSet<Atom> = group.plan.up(told).into_iter().collect();
    let given = bytes::given(program);
    let mut whole: Position =
        group.plan.up(up & told | near & !told).into_iter().chain(given.iter().copied().filter(|atom| !fixed.contains(atom))).collect();
    for _ in 0..MOST_REPAIRS {
        let raised = wanting(group, &whole, &fixed);
        let dropped =
            whole.iter().copied().find(|atom| !fixed.contains(atom) && !given.contains(atom) && !is_supported(group, &whole, *atom));
        match (raised, dropped) {
            (Some(atom), _) => drop(whole.insert(atom)),
            (None, Some(atom)) => drop(whole.remove(&atom)),
            (None, None) => break,
        }
    }
    whole
}

/// An atom that is not told and whose rising keeps a broken rule; a helper rather than a relay.
fn wanting(group: &Group, whole: &Position, fixed: &BTreeSet<Atom>) -> Option<Atom> {
    let program = &group.program;
    let broken = program.rules.iter().filter(|rule| reason::holds(program, rule, whole) && rule.head.is_disjoint(whole));
    let untold = broken.flat_map(|rule| rule.head.iter().copied()).filter(|atom| !fixed.contains(atom));
    untold.max_by_key(|&atom| program.atoms[atom].is_helper)
}

/// Whether a rule's body holds and no other relay of its head is up.
fn is_supported(group: &Group, whole: &Position, atom: Atom) -> bool {
    let program = &group.program;
    let alone = |head: &BTreeSet<Atom>| head.contains(&atom) && head.intersection(whole).count() == 1;
    program.rules.iter().any(|rule| alone(&rule.head) && reason::holds(program, rule, whole))
}
