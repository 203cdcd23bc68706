//! Drop-away readings in packed decimal: two bytes to a reading, four digits, tenths of a millisecond.

use super::{Refusal, CODE_STEP};
use std::cmp::Ordering;

/// The one reading whose digits may be above 9.
pub const NOT_MEASURED: u64 = 0xffff;

extern "C" {
    fn lucarnecress_reading_number(reading: u16) -> u64;
    fn lucarnecress_reading_of(number: u64) -> u64;
    fn lucarnecress_reading_compare(reading: u16, limit: u16) -> u64;
    fn lucarnecress_reading_largest(bytes: *const u8, bytes_length: usize, found: *mut u64, found_length: usize) -> u64;
}

/// Every answer is below the least code of a refusal.
fn answer(code: u64) -> Result<u64, Refusal> {
    if code < CODE_STEP {
        return Ok(code);
    }
    Err(Refusal::of(code))
}

/// The tenths of a millisecond of a reading, if it was measured.
pub fn number(reading: u16) -> Result<Option<u64>, Refusal> {
    let number = answer(unsafe { lucarnecress_reading_number(reading) })?;
    Ok(Some(number).filter(|&number| number != NOT_MEASURED))
}

/// The reading of so many tenths of a millisecond.
pub fn reading_of(number: u64) -> Result<u16, Refusal> {
    answer(unsafe { lucarnecress_reading_of(number) }).map(|reading| reading as u16)
}

/// A reading against a limit, if both are measured.
pub fn compare(reading: u16, limit: u16) -> Result<Option<Ordering>, Refusal> {
    Ok(match answer(unsafe { lucarnecress_reading_compare(reading, limit) })? {
        0 => Some(Ordering::Less),
        1 => Some(Ordering::Equal),
        2 => Some(Ordering::Greater),
        _ => None,
    })
}

/// The largest measured reading of a run with its lowest place from 0; none where nothing was measured.
pub fn largest(run: &[u8]) -> Result<Option<(u16, usize)>, Refusal> {
    let mut found = [0u64; 2];
    let code = unsafe { lucarnecress_reading_largest(run.as_ptr(), run.len(), found.as_mut_ptr(), found.len()) };
    let is_found = answer(code)? == 1;
    Ok(Some((found[0] as u16, found[1] as usize)).filter(|_| is_found))
}
