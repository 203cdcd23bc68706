//! What a plan is blamed on: its least position, or the few constraints that empty it.

use crate::lister::{self, Blame, Plan, Refusal};
use crate::random::Random;
use crate::tally::{listed, Tally};
use crate::{is_small, library, same};
use std::collections::BTreeMap;

/// Up to so many atoms in heads every set of them is tried for each constraint.
const VERY_FEW_ATOMS: u32 = 8;

/// What the lent words hold before a call.
const PATTERN: u64 = 0xa5a5_a5a5_a5a5_a5a5;

/// How often each kind of answer was compared.
#[derive(Default)]
pub struct BlameTally {
    kinds: BTreeMap<&'static str, u64>,
    by_definition: u64,
}

impl BlameTally {
    fn note(&mut self, plan: &Plan, blame: Blame) {
        let all = (0..plan.rules.len()).filter(|&rule| plan.rules[rule].head == 0).fold(0u64, |word, rule| word | 1 << rule);
        let kind = match blame {
            Blame::Position(_) => "a position",
            Blame::Held(0) if all == 0 => "no constraint at all",
            Blame::Held(0) => "headed rules alone empty",
            Blame::Held(held) if held == all => "all constraints held",
            Blame::Held(held) if held.count_ones() == 1 => "one held",
            Blame::Held(_) => "several held",
        };
        *self.kinds.entry(kind).or_default() += 1;
        if let Blame::Held(held) = blame {
            self.note_word(plan, held);
        }
    }

    /// Counts words of which a neighbouring reading would have made another one.
    fn note_word(&mut self, plan: &Plan, held: u64) {
        let mut note = |kind: &'static str| *self.kinds.entry(kind).or_default() += 1;
        if going_down(plan) != held {
            note("another word going down");
        }
        if (0..plan.rules.len()).any(|rule| held >> rule & 1 == 1 && !plan.rules[rule].uses.is_empty()) {
            note("a use in a held constraint");
        }
        if plan.given_atoms() != 0 {
            note("given atoms");
        }
    }

    pub fn print(&self) {
        println!("what plans are blamed on: {}; by trying all sets for each constraint: {} plans", listed(&self.kinds), self.by_definition);
    }
}

/// The word of the same pass, going down by rule number.
fn going_down(plan: &Plan) -> u64 {
    let headed: Vec<_> = plan.rules.iter().filter(|rule| rule.head != 0).cloned().collect();
    let left = lister::answer_sets(&headed, plan.given_atoms());
    let constraints: Vec<usize> = (0..plan.rules.len()).filter(|&rule| plan.rules[rule].head == 0).collect();
    let is_empty = |held: u64| {
        left.iter().all(|&position| constraints.iter().any(|&rule| held >> rule & 1 == 1 && plan.rules[rule].body_holds(position)))
    };
    let all = constraints.iter().fold(0u64, |word, rule| word | 1 << rule);
    constraints.iter().rev().fold(all, |held, rule| if is_empty(held & !(1 << rule)) { held & !(1 << rule) } else { held })
}

/// The answer for a plan whose settled positions may be known, rising; its graph plays no part, and only reading can refuse.
pub fn compare(bytes: &[u8], settled: Option<&[u64]>, random: &mut Random, tally: &mut Tally) -> Result<(), String> {
    let plan = match lister::read(bytes) {
        Ok(plan) => plan,
        Err(refusal) => return ask(bytes, Err(refusal), random),
    };
    let blame = match settled {
        Some([least, ..]) => Blame::Position(*least),
        _ if is_small(&plan) => lister::blame(bytes).expect("a plan that reads well"),
        _ => return Ok(()),
    };
    if lister::head_atoms(&plan.rules).count_ones() <= VERY_FEW_ATOMS {
        tally.blames.by_definition += 1;
        same("blame by trying all and by the headed rules' answer sets", lister::blame_by_trying_all(bytes), Ok(blame))?;
    }
    tally.blames.note(&plan, blame);
    ask(bytes, Ok(blame), random)
}

/// One call with none to three lent words, which hold a pattern before: the reply and every word.
pub fn ask(bytes: &[u8], blame: Result<Blame, Refusal>, random: &mut Random) -> Result<(), String> {
    let room = random.below(4);
    let (mut expected, mut found) = (vec![PATTERN; room], vec![PATTERN; room]);
    let reply = library::blame(bytes, &mut found);
    same("reply to what is blamed", lister::hand_blame(blame, &mut expected), reply)?;
    same("words lent for what is blamed", expected, found)
}
