//! The proved library behind its C interface: declarations and safe wrappers.

use crate::lister::{From, COUNTS};

/// A sheet never needs more bytes than this.
const SHEET_BYTES: usize = 5000;

// The build names the library: static as a rule, shared where it is exchanged between runs.
extern "C" {
    fn lucarnecress_list(
        plan: *const u8,
        plan_len: usize,
        table: *mut u64,
        table_len: usize,
        counts: *mut u64,
        counts_len: usize,
    ) -> u64;
    fn lucarnecress_judge(plan: *const u8, plan_len: usize, position: u64) -> u64;
    fn lucarnecress_judge_sheet(plan: *const u8, plan_len: usize, positions: *const u8, positions_len: usize) -> u64;
    fn lucarnecress_first(plan: *const u8, plan_len: usize, found: *mut u64, found_len: usize) -> u64;
    fn lucarnecress_next(plan: *const u8, plan_len: usize, position: u64, found: *mut u64, found_len: usize) -> u64;
    fn lucarnecress_first_positions(
        plan: *const u8,
        plan_len: usize,
        found: *mut u64,
        found_len: usize,
        count: *mut u64,
        count_len: usize,
    ) -> u64;
    fn lucarnecress_next_positions(
        plan: *const u8,
        plan_len: usize,
        position: u64,
        found: *mut u64,
        found_len: usize,
        count: *mut u64,
        count_len: usize,
    ) -> u64;
    fn lucarnecress_missing(
        plan: *const u8,
        plan_len: usize,
        positions: *const u8,
        positions_len: usize,
        found: *mut u64,
        found_len: usize,
    ) -> u64;
    fn lucarnecress_blame(plan: *const u8, plan_len: usize, found: *mut u64, found_len: usize) -> u64;
    fn lucarnecress_sheet(plan: *const u8, plan_len: usize, sheet: *mut u8, sheet_len: usize) -> u64;
    fn lucarnecress_reading_number(reading: u16) -> u64;
    fn lucarnecress_reading_of(number: u64) -> u64;
    fn lucarnecress_reading_sum(a: u16, b: u16) -> u64;
    fn lucarnecress_reading_compare(reading: u16, limit: u16) -> u64;
    fn lucarnecress_reading_largest(bytes: *const u8, bytes_len: usize, found: *mut u64, found_len: usize) -> u64;
    fn lucarnecress_count(list: *const u64, list_len: usize, questions: *mut u64, questions_len: usize) -> u64;
    fn lucarnecress_common(list: *const u64, list_len: usize, atoms: *mut u64, atoms_len: usize) -> u64;
    fn lucarnecress_rows(list: *const u64, list_len: usize, count: u64, rows: *mut u64, rows_len: usize) -> u64;
    fn lucarnecress_positions_of_rows(rows: *const u64, rows_len: usize, count: u64, list: *mut u64, list_len: usize) -> u64;
}

/// Lists a plan into the lent table and counts; 0 or the code of a refusal.
pub fn list(plan: &[u8], table: &mut [u64], counts: &mut [u64; COUNTS]) -> u64 {
    unsafe {
        lucarnecress_list(plan.as_ptr(), plan.len(), table.as_mut_ptr(), table.len(), counts.as_mut_ptr(), COUNTS)
    }
}

/// 1 for settled, 0 for not settled, or the code of a refusal.
pub fn judge(plan: &[u8], position: u64) -> u64 {
    unsafe { lucarnecress_judge(plan.as_ptr(), plan.len(), position) }
}

/// 256 where all positions are settled, the place of the first that is not, or the code of a refusal.
pub fn judge_sheet(plan: &[u8], positions: &[u8]) -> u64 {
    unsafe { lucarnecress_judge_sheet(plan.as_ptr(), plan.len(), positions.as_ptr(), positions.len()) }
}

/// 1 with the least position of all, or above one, in the lent words; 0 if none is left, or the code of a refusal.
pub fn next(plan: &[u8], from: From, found: &mut [u64]) -> u64 {
    let (words, room) = (found.as_mut_ptr(), found.len());
    match from {
        From::Start => unsafe { lucarnecress_first(plan.as_ptr(), plan.len(), words, room) },
        From::Above(position) => unsafe { lucarnecress_next(plan.as_ptr(), plan.len(), position, words, room) },
    }
}

/// 0 with the least positions of all, or above one, in the lent words and their number in the count; or the code of a refusal.
pub fn next_positions(plan: &[u8], from: From, found: &mut [u64], count: &mut [u64]) -> u64 {
    let (words, room) = (found.as_mut_ptr(), found.len());
    let (number, space) = (count.as_mut_ptr(), count.len());
    match from {
        From::Start => unsafe { lucarnecress_first_positions(plan.as_ptr(), plan.len(), words, room, number, space) },
        From::Above(position) => unsafe {
            lucarnecress_next_positions(plan.as_ptr(), plan.len(), position, words, room, number, space)
        },
    }
}

/// 0 where every settled position is on the sheet, 1 with the least that is not in the lent words, or the code of a refusal.
pub fn missing(plan: &[u8], positions: &[u8], found: &mut [u64]) -> u64 {
    let (sheet, length) = (positions.as_ptr(), positions.len());
    unsafe { lucarnecress_missing(plan.as_ptr(), plan.len(), sheet, length, found.as_mut_ptr(), found.len()) }
}

/// 1 with the least position, 0 with the held constraints in the lent words, or the code of a refusal.
pub fn blame(plan: &[u8], found: &mut [u64]) -> u64 {
    unsafe { lucarnecress_blame(plan.as_ptr(), plan.len(), found.as_mut_ptr(), found.len()) }
}

/// The sheet's bytes; a length beyond the buffer is reported as it is.
pub fn sheet(plan: &[u8]) -> Result<Vec<u8>, u64> {
    let mut buffer = vec![0xa5; SHEET_BYTES];
    let length = write_sheet(plan, &mut buffer);
    if length > SHEET_BYTES as u64 {
        return Err(length);
    }
    buffer.truncate(length as usize);
    Ok(buffer)
}

/// Writes the sheet into a lent buffer; its length, or 0 if the buffer is too short.
pub fn write_sheet(plan: &[u8], buffer: &mut [u8]) -> u64 {
    unsafe { lucarnecress_sheet(plan.as_ptr(), plan.len(), buffer.as_mut_ptr(), buffer.len()) }
}

/// The whole number of a reading, 65,535 for not measured, or the code of a refusal.
pub fn reading_number(reading: u16) -> u64 {
    unsafe { lucarnecress_reading_number(reading) }
}

/// The reading of a whole number or of 65,535, or the code of a refusal.
pub fn reading_of(number: u64) -> u64 {
    unsafe { lucarnecress_reading_of(number) }
}

/// 65,536 times the carry plus the reading, or the code of a refusal.
pub fn reading_sum(a: u16, b: u16) -> u64 {
    unsafe { lucarnecress_reading_sum(a, b) }
}

/// 0 below, 1 equal, 2 above, 65,535 not measured, or the code of a refusal.
pub fn reading_compare(reading: u16, limit: u16) -> u64 {
    unsafe { lucarnecress_reading_compare(reading, limit) }
}

/// 1 with reading and place in the lent words, 0 if none is measured, or the code of a refusal.
pub fn reading_largest(bytes: &[u8], found: &mut [u64]) -> u64 {
    unsafe { lucarnecress_reading_largest(bytes.as_ptr(), bytes.len(), found.as_mut_ptr(), found.len()) }
}

/// Fills in the counts of the questions; 0 or the code of a refusal.
pub fn count(list: &[u64], questions: &mut [u64]) -> u64 {
    unsafe { lucarnecress_count(list.as_ptr(), list.len(), questions.as_mut_ptr(), questions.len()) }
}

/// Writes the atoms up in all positions and those up in some, as far as there is room.
pub fn common(list: &[u64], atoms: &mut [u64]) -> u64 {
    unsafe { lucarnecress_common(list.as_ptr(), list.len(), atoms.as_mut_ptr(), atoms.len()) }
}

/// Writes the rows of a list; 0 or the code of a refusal.
pub fn rows(list: &[u64], count: u64, rows: &mut [u64]) -> u64 {
    unsafe { lucarnecress_rows(list.as_ptr(), list.len(), count, rows.as_mut_ptr(), rows.len()) }
}

/// Writes the list of rows; 0 or the code of a refusal.
pub fn positions_of_rows(rows: &[u64], count: u64, list: &mut [u64]) -> u64 {
    unsafe { lucarnecress_positions_of_rows(rows.as_ptr(), rows.len(), count, list.as_mut_ptr(), list.len()) }
}
