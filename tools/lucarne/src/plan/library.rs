//! The proved library behind its C interface: declarations and safe wrappers. What is declared here stands in include/lucarnecress.h.

pub mod questions;
pub mod readings;
pub mod verdicts;

const TABLE_WORDS: usize = 4352;
const LAST_LIST: usize = 4096;
const COUNTS: usize = 17;
const LAST_COUNT: usize = 16;
const SHEET_BYTES: usize = 4366;
const CODE_STEP: u64 = 65536;
/// More positions than this are in no list.
pub const MAX_POSITIONS: usize = 256;

extern "C" {
    fn lucarnecress_list(
        plan: *const u8,
        plan_length: usize,
        table: *mut u64,
        table_length: usize,
        counts: *mut u64,
        counts_length: usize,
    ) -> u64;
    fn lucarnecress_judge(plan: *const u8, plan_length: usize, position: u64) -> u64;
    fn lucarnecress_first(plan: *const u8, plan_length: usize, found: *mut u64, found_length: usize) -> u64;
    fn lucarnecress_next(plan: *const u8, plan_length: usize, position: u64, found: *mut u64, found_length: usize) -> u64;
    fn lucarnecress_first_positions(
        plan: *const u8,
        plan_length: usize,
        found: *mut u64,
        found_length: usize,
        count: *mut u64,
        count_length: usize,
    ) -> u64;
    fn lucarnecress_next_positions(
        plan: *const u8,
        plan_length: usize,
        position: u64,
        found: *mut u64,
        found_length: usize,
        count: *mut u64,
        count_length: usize,
    ) -> u64;
    fn lucarnecress_sheet(plan: *const u8, plan_length: usize, sheet: *mut u8, sheet_length: usize) -> u64;
}

/// The number of a refusal and its spot.
#[derive(Clone, Copy, Debug, PartialEq, Eq)]
pub struct Refusal {
    pub number: u64,
    pub spot: usize,
}

impl Refusal {
    fn of(code: u64) -> Refusal {
        Refusal { number: code / CODE_STEP, spot: (code % CODE_STEP) as usize }
    }
}

/// A plan's lists: how many positions each unit has, and those of the last list, cut to what shows.
#[derive(Clone, Debug, Default)]
pub struct Listing {
    pub unit_counts: Vec<u64>,
    pub positions: Vec<u64>,
}

pub fn list(plan: &[u8]) -> Result<Listing, Refusal> {
    let (mut table, mut counts) = (vec![0u64; TABLE_WORDS], [0u64; COUNTS]);
    let code = unsafe { lucarnecress_list(plan.as_ptr(), plan.len(), table.as_mut_ptr(), table.len(), counts.as_mut_ptr(), counts.len()) };
    if code != 0 {
        return Err(Refusal::of(code));
    }
    let count = counts[LAST_COUNT] as usize;
    Ok(Listing { unit_counts: counts[..LAST_COUNT].to_vec(), positions: table[LAST_LIST..LAST_LIST + count].to_vec() })
}

/// Whether a position with all its atoms is settled.
pub fn judge(plan: &[u8], position: u64) -> Result<bool, Refusal> {
    match unsafe { lucarnecress_judge(plan.as_ptr(), plan.len(), position) } {
        0 => Ok(false),
        1 => Ok(true),
        code => Err(Refusal::of(code)),
    }
}

/// The least settled position of all, or the least above this one.
pub fn next(plan: &[u8], above: Option<u64>) -> Result<Option<u64>, Refusal> {
    let mut found = [0u64];
    let code = unsafe {
        match above {
            None => lucarnecress_first(plan.as_ptr(), plan.len(), found.as_mut_ptr(), found.len()),
            Some(position) => lucarnecress_next(plan.as_ptr(), plan.len(), position, found.as_mut_ptr(), found.len()),
        }
    };
    match code {
        0 => Ok(None),
        1 => Ok(Some(found[0])),
        code => Err(Refusal::of(code)),
    }
}

/// The least settled positions of all, or those above this one, rising: so many, and fewer only if no other is left.
pub fn next_positions(plan: &[u8], above: Option<u64>, most: usize) -> Result<Vec<u64>, Refusal> {
    let (mut found, mut count) = (vec![0u64; most], [0u64]);
    let (words, number) = (found.as_mut_ptr(), count.as_mut_ptr());
    let code = unsafe {
        match above {
            None => lucarnecress_first_positions(plan.as_ptr(), plan.len(), words, most, number, count.len()),
            Some(position) => lucarnecress_next_positions(plan.as_ptr(), plan.len(), position, words, most, number, count.len()),
        }
    };
    if code != 0 {
        return Err(Refusal::of(code));
    }
    found.truncate(count[0] as usize);
    Ok(found)
}

/// The plan's sheet as `settle` writes it.
pub fn sheet(plan: &[u8]) -> Vec<u8> {
    let mut sheet = vec![0; SHEET_BYTES];
    let length = unsafe { lucarnecress_sheet(plan.as_ptr(), plan.len(), sheet.as_mut_ptr(), sheet.len()) };
    sheet.truncate(length as usize);
    sheet
}
