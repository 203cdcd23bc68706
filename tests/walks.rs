//! One position after the other: from where the next one is asked for, and what the library must hand out.

use crate::lister::{self, From, Plan, Refusal, LIST_WORDS};
use crate::random::Random;
use crate::tally::Tally;
use crate::{is_small, library, same, Outcome};

/// So many steps from the start are made on a refused plan; one that is listed is walked whole.
const STEPS: usize = 40;

/// More steps than any walk that is made whole.
const WHOLE: usize = 10_000;

/// What the lent words hold before a step.
const PATTERN: u64 = 0xa5a5_a5a5_a5a5_a5a5;

/// Steps on a plan whose settled positions are known, rising; its graph plays no part, and only reading can refuse.
pub fn compare(bytes: &[u8], outcome: &Outcome, settled: Option<&[u64]>, random: &mut Random, tally: &mut Tally) -> Result<(), String> {
    match (lister::read(bytes), settled) {
        (Err(refusal), _) => refused(bytes, refusal, random, tally),
        (Ok(plan), Some(settled)) => {
            tally.walks.note_plan(outcome, settled);
            let positions = chosen(&plan, settled, random);
            if is_small(&plan) {
                check_lister(bytes, settled, random.pick(&positions))?;
            }
            walk(bytes, settled, if outcome.is_ok() { WHOLE } else { STEPS }, tally)?;
            several(bytes, From::Start, settled, random)?;
            positions.iter().try_for_each(|&position| several(bytes, From::Above(position), settled, random))?;
            positions.into_iter().map(From::Above).try_for_each(|from| {
                let next = lister::next_of(settled, from);
                step(bytes, from, Ok(next), random.below(4), tally)
            })
        }
        (Ok(_), None) => Ok(()),
    }
}

/// The lister against itself: the next position by trying one set after the other, and out of the list.
fn check_lister(bytes: &[u8], settled: &[u64], position: u64) -> Result<(), String> {
    [From::Start, From::Above(position)].into_iter().try_for_each(|from| {
        same(&format!("next position by trying and by the list, {:x?}", from), lister::next(bytes, from), Ok(lister::next_of(settled, from)))
    })
}

/// From the start to the end, one position in a call and 256 in a call.
pub fn compare_whole(bytes: &[u8], settled: &[u64], tally: &mut Tally) -> Result<(), String> {
    walk(bytes, settled, WHOLE, tally)?;
    walk_by_calls(bytes, settled)
}

/// Calls for 256 positions, each above the last one found, until one is not full.
fn walk_by_calls(bytes: &[u8], settled: &[u64]) -> Result<(), String> {
    let (mut from, mut met) = (From::Start, Vec::new());
    loop {
        let (mut found, mut count) = ([PATTERN; LIST_WORDS], [PATTERN]);
        same("reply to a call for 256 positions", 0, library::next_positions(bytes, from, &mut found, &mut count))?;
        let written = &found[..found.len().min(count[0] as usize)];
        met.extend(written);
        match written.last() {
            Some(&position) if written.len() == found.len() && met.len() <= settled.len() => from = From::Above(position),
            _ => return same("positions met in calls of 256", settled, &met[..]),
        }
    }
}

/// From the start, each step above what the last one found, until none is left or so many are made.
fn walk(bytes: &[u8], settled: &[u64], steps: usize, tally: &mut Tally) -> Result<(), String> {
    let mut from = From::Start;
    for _ in 0..steps {
        let expected = lister::next_of(settled, from);
        step(bytes, from, Ok(expected), 2, tally)?;
        match expected {
            Some(position) => from = From::Above(position),
            None => {
                tally.walks.ended += 1;
                tally.walks.longest = tally.walks.longest.max(settled.len());
                return Ok(());
            }
        }
    }
    Ok(())
}

/// Positions near to and far from settled ones, and places of a long walk that are far from its start.
fn chosen(plan: &Plan, settled: &[u64], random: &mut Random) -> Vec<u64> {
    let heads = lister::head_atoms(&plan.rules) | plan.given_atoms();
    let mut positions = vec![0, u64::MAX, random.word(), random.word() & heads];
    if settled.is_empty() {
        return positions;
    }
    for _ in 0..2 {
        let (one, other) = (random.pick(settled), random.pick(settled));
        positions.extend([one, one ^ random.atoms_of(heads, 1), one ^ random.atoms_of(!0, 1), one.wrapping_sub(1), one | other]);
    }
    if settled.len() > STEPS {
        let last = settled.len() - 1;
        let places = [LIST_WORDS - 2, LIST_WORDS - 1, LIST_WORDS, last - 1, last];
        positions.extend(places.iter().filter_map(|&place| settled.get(place)));
    }
    positions
}

/// A plan that does not read well hands out nothing, from wherever it is asked.
fn refused(bytes: &[u8], refusal: Refusal, random: &mut Random, tally: &mut Tally) -> Result<(), String> {
    for from in [From::Start, From::Above(0), From::Above(random.word())] {
        step(bytes, from, Err(refusal), random.below(4), tally)?;
        several(bytes, from, &[], random)?;
    }
    Ok(())
}

/// One step with so many lent words, which hold a pattern before: the reply and every word.
fn step(bytes: &[u8], from: From, next: Result<Option<u64>, Refusal>, room: usize, tally: &mut Tally) -> Result<(), String> {
    let (mut expected, mut found) = (vec![PATTERN; room], vec![PATTERN; room]);
    let reply = library::next(bytes, from, &mut found);
    tally.walks.note(&next);
    same(&format!("reply to a step, {:x?}", from), lister::hand_out(next, &mut expected), reply)?;
    same(&format!("words lent for a step, {:x?}", from), expected, found)
}

/// Several positions in one call, with any number of lent words, often one more than there are: the reply, the number and every word.
fn several(bytes: &[u8], from: From, settled: &[u64], random: &mut Random) -> Result<(), String> {
    let left = settled.iter().filter(|&&position| from.is_ahead(position)).count().min(LIST_WORDS);
    let room = random.pick(&[0, 1, 2, 7, left, left + 1]);
    let (mut found, mut count) = (vec![PATTERN; room], [PATTERN; 2]);
    let reply = library::next_positions(bytes, from, &mut found, &mut count);
    let (mut words, mut number) = (vec![PATTERN; room], [PATTERN; 2]);
    let expected = lister::hand_out_many(bytes, from, |place| lister::next_of(settled, place), &mut words, &mut number);
    same(&format!("reply to a call for {} positions, {:x?}", room, from), expected, reply)?;
    same(&format!("number of {} positions, {:x?}", room, from), number, count)?;
    same(&format!("words lent for several positions, {:x?}", from), words, found)
}
