//! Whole sheets judged: which sheets are drawn for a plan, and what the library must reply.

use crate::lister::{self, Plan, Refusal, LIST_WORDS, POSITION_BYTES};
use crate::random::Random;
use crate::tally::Tally;
use crate::{library, same};

/// Sheets for a plan whose settled positions are known, rising; its graph plays no part, and only reading can refuse the plan.
pub fn compare(bytes: &[u8], settled: Option<&[u64]>, random: &mut Random, tally: &mut Tally) -> Result<(), String> {
    match (lister::read(bytes), settled) {
        (Err(_), _) => damaged(random).iter().try_for_each(|sheet| compare_sheet(bytes, &[], sheet, tally)),
        (Ok(plan), Some(settled)) => {
            let sheets = drawn(&plan, settled, &tally.met, random);
            sheets.iter().try_for_each(|sheet| compare_sheet(bytes, settled, sheet, tally))?;
            if !settled.is_empty() {
                tally.met = settled.to_vec();
            }
            Ok(())
        }
        (Ok(_), None) => Ok(()),
    }
}

fn compare_sheet(bytes: &[u8], settled: &[u64], sheet: &[u8], tally: &mut Tally) -> Result<(), String> {
    let reply = lister::judge_sheet(bytes, sheet, |position| settled.binary_search(&position).is_ok());
    tally.note_sheet(sheet.len() / POSITION_BYTES, &reply);
    let shown = format!("reply for a sheet of {} bytes: {:02x?}", sheet.len(), sheet);
    same(&shown, reply.unwrap_or_else(Refusal::code), library::judge_sheet(bytes, sheet))?;
    compare_missing(bytes, settled, sheet)
}

/// What the sheet lacks: the least settled position that is not on it.
fn compare_missing(bytes: &[u8], settled: &[u64], sheet: &[u8]) -> Result<(), String> {
    let missing = lister::missing(bytes, sheet, |place| lister::next_of(settled, place));
    let (mut expected, mut found) = ([0, 0], [0, 0]);
    let reply = library::missing(bytes, sheet, &mut found);
    same(&format!("reply for what a sheet lacks: {:02x?}", sheet), lister::hand_out(missing, &mut expected), reply)?;
    same(&format!("words lent for what a sheet lacks: {:02x?}", sheet), expected, found)
}

/// For a plan that does not read well: the empty sheet, one that is too long and one that is not of whole positions.
fn damaged(random: &mut Random) -> Vec<Vec<u8>> {
    let (long, lone) = (LIST_WORDS + random.between(1, 40), random.below(12));
    let words = |length: usize, random: &mut Random| (0..length).map(|_| random.word()).collect::<Vec<u64>>();
    vec![Vec::new(), laid(&words(long, random)), uneven(&words(lone, random), random)]
}

/// Settled ones, then sheets with others among them, and each kind of sheet that is none.
fn drawn(plan: &Plan, settled: &[u64], met: &[u64], random: &mut Random) -> Vec<Vec<u8>> {
    let passing = passing(settled, random);
    let changed = changed(plan, &passing, random);
    let mut sheets = vec![laid(&passing), laid(&changed), laid(&mixed(settled, met, random)), uneven(&changed, random)];
    if random.chance(15) {
        let long = LIST_WORDS + random.between(1, 3);
        sheets.push(laid(&(0..long).map(|place| *changed.get(place % changed.len().max(1)).unwrap_or(&0)).collect::<Vec<u64>>()));
    }
    if plan.shown.is_some() {
        sheets.push(laid(&passing.iter().map(|position| position & plan.shown_atoms()).collect::<Vec<u64>>()));
    }
    sheets
}

/// Settled positions in any order, with repeats; often none, one or 256 of them.
fn passing(settled: &[u64], random: &mut Random) -> Vec<u64> {
    if settled.is_empty() {
        return Vec::new();
    }
    let length = match random.below(12) {
        0 => random.pick(&[0, 1, LIST_WORDS - 1, LIST_WORDS, LIST_WORDS]),
        1 => random.below(LIST_WORDS + 1),
        _ => random.below(12),
    };
    (0..length).map(|_| random.pick(settled)).collect()
}

/// One position, often the first or the last, or several, changed by one atom of a head or by any.
fn changed(plan: &Plan, passing: &[u64], random: &mut Random) -> Vec<u64> {
    let heads = lister::head_atoms(&plan.rules) | plan.given_atoms();
    let mut positions = passing.to_vec();
    if positions.is_empty() {
        return vec![random.word() & heads];
    }
    let last = positions.len() - 1;
    for _ in 0..random.pick(&[1, 1, 2, 3]) {
        let place = random.below(last + 1);
        let place = random.pick(&[0, last / 2, last, place]);
        let atoms = if random.chance(70) { heads } else { !0 };
        positions[place] ^= random.atoms_of(atoms, 1);
    }
    positions
}

/// Settled positions with those of another plan among them.
fn mixed(settled: &[u64], met: &[u64], random: &mut Random) -> Vec<u64> {
    let mut positions = passing(settled, random);
    positions.truncate(LIST_WORDS - 3);
    for _ in 0..if met.is_empty() { 0 } else { random.between(1, 3) } {
        positions.insert(random.below(positions.len() + 1), random.pick(met));
    }
    positions
}

/// The bytes of the positions, lowest first.
fn laid(positions: &[u64]) -> Vec<u8> {
    positions.iter().flat_map(|position| position.to_le_bytes()).collect()
}

/// The same with up to seven bytes more, or fewer.
fn uneven(positions: &[u64], random: &mut Random) -> Vec<u8> {
    let mut bytes = laid(positions);
    let rest = random.between(1, POSITION_BYTES - 1);
    if random.chance(50) {
        bytes.extend((0..rest).map(|_| random.byte()));
    } else {
        bytes.truncate(bytes.len().saturating_sub(rest));
    }
    bytes
}
