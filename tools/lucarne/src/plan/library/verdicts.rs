//! Whole sheets judged, what they lack, and the constraints that leave a plan without a position.

use super::{Refusal, CODE_STEP, MAX_POSITIONS};

const ALL_SETTLED: u64 = 256;

extern "C" {
    fn lucarnecress_judge_sheet(plan: *const u8, plan_length: usize, positions: *const u8, length: usize) -> u64;
    fn lucarnecress_missing(
        plan: *const u8,
        plan_length: usize,
        positions: *const u8,
        length: usize,
        found: *mut u64,
        found_length: usize,
    ) -> u64;
    fn lucarnecress_blame(plan: *const u8, plan_length: usize, found: *mut u64, found_length: usize) -> u64;
}

/// For each of these positions, with all its atoms, whether it is settled. A call tells the first that is not, so the next one goes on behind it.
pub fn judge_all(plan: &[u8], positions: &[u64]) -> Result<Vec<bool>, Refusal> {
    let mut settled = vec![true; positions.len()];
    let mut at = 0;
    while at < positions.len() {
        let some = &positions[at..positions.len().min(at + MAX_POSITIONS)];
        let bytes = in_bytes(some);
        match unsafe { lucarnecress_judge_sheet(plan.as_ptr(), plan.len(), bytes.as_ptr(), bytes.len()) } {
            ALL_SETTLED => at += some.len(),
            place if place < some.len() as u64 => {
                settled[at + place as usize] = false;
                at += place as usize + 1;
            }
            code => return Err(Refusal::of(code)),
        }
    }
    Ok(settled)
}

fn in_bytes(positions: &[u64]) -> Vec<u8> {
    positions.iter().flat_map(|position| position.to_le_bytes()).collect()
}

/// The least settled position, with all its atoms, that is not among these, of which there are at most 256; none where they are full.
pub fn missing(plan: &[u8], positions: &[u64]) -> Result<Option<u64>, Refusal> {
    let (sheet, mut found) = (in_bytes(positions), [0u64]);
    let code = unsafe { lucarnecress_missing(plan.as_ptr(), plan.len(), sheet.as_ptr(), sheet.len(), found.as_mut_ptr(), found.len()) };
    match code {
        0 => Ok(None),
        1 => Ok(Some(found[0])),
        code => Err(Refusal::of(code)),
    }
}

/// What a plan has: a position, of which this is the least, or none, with the rules that are to blame as a word.
#[derive(Clone, Copy, Debug, PartialEq, Eq)]
pub enum Blame {
    Position(u64),
    Constraints(u64),
}

pub fn blame(plan: &[u8]) -> Result<Blame, Refusal> {
    let mut found = [0u64];
    match unsafe { lucarnecress_blame(plan.as_ptr(), plan.len(), found.as_mut_ptr(), found.len()) } {
        0 => Ok(Blame::Constraints(found[0])),
        1 => Ok(Blame::Position(found[0])),
        code if code >= CODE_STEP => Err(Refusal::of(code)),
        code => Err(Refusal { number: 0, spot: code as usize }),
    }
}
