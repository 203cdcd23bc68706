//! Readings in packed decimal by plain arithmetic, written from document 02, S-5, alone: the hexadecimal text of a
//! reading is the decimal text of its number.

use std::cmp::{Ordering, Reverse};

pub const NOT_MEASURED: u16 = 0xffff;

/// Above the carry of a sum, and above the spot of a refusal.
const STEP: u64 = 65_536;

/// A refusal as one number. Hosts are told no spot above 65,535.
fn refused(spot: usize) -> u64 {
    STEP * 20 + (spot as u64).min(STEP - 1)
}

/// The number that a reading says, or none if it is not measured; an error if a digit is above 9.
fn says(reading: u16) -> Result<Option<u64>, ()> {
    if reading == NOT_MEASURED {
        return Ok(None);
    }
    format!("{:04x}", reading).parse().map(Some).map_err(|_| ())
}

/// The reading of a number up to 9999.
fn packed(number: u64) -> u64 {
    u64::from_str_radix(&number.to_string(), 16).unwrap()
}

/// What the readings say, or the refusal for the first that is bad.
fn said(readings: impl Iterator<Item = Result<Option<u64>, ()>>) -> Result<Vec<Option<u64>>, u64> {
    readings.enumerate().map(|(place, reading)| reading.map_err(|_| refused(place))).collect()
}

fn both(a: u16, b: u16) -> Result<Option<(u64, u64)>, u64> {
    Ok(match said([a, b].into_iter().map(says))?[..] {
        [Some(x), Some(y)] => Some((x, y)),
        _ => None,
    })
}

fn either(answer: Result<u64, u64>) -> u64 {
    answer.unwrap_or_else(|code| code)
}

pub fn number(reading: u16) -> u64 {
    either(said([reading].into_iter().map(says)).map(|said| said[0].unwrap_or(NOT_MEASURED.into())))
}

pub fn reading_of(number: u64) -> u64 {
    match number {
        0..=9999 => packed(number),
        65_535 => 65_535,
        _ => refused(0),
    }
}

pub fn sum(a: u16, b: u16) -> u64 {
    either(both(a, b).map(|numbers| match numbers {
        Some((x, y)) => (x + y) / 10_000 * STEP + packed((x + y) % 10_000),
        None => NOT_MEASURED.into(),
    }))
}

pub fn compare(reading: u16, limit: u16) -> u64 {
    either(both(reading, limit).map(|numbers| match numbers.map(|(x, y)| x.cmp(&y)) {
        Some(Ordering::Less) => 0,
        Some(Ordering::Equal) => 1,
        Some(Ordering::Greater) => 2,
        None => NOT_MEASURED.into(),
    }))
}

pub fn largest(bytes: &[u8], found: &mut [u64]) -> u64 {
    let readings = bytes.chunks(2).map(|pair| match pair {
        &[high, low] => says(u16::from_be_bytes([high, low])),
        _ => Err(()),
    });
    either(said(readings).map(|said| {
        let measured = said.iter().enumerate().filter_map(|(place, number)| number.map(|number| (number, Reverse(place))));
        let Some((number, Reverse(place))) = measured.max() else {
            return 0;
        };
        found.iter_mut().zip([packed(number), place as u64]).for_each(|(word, value)| *word = value);
        1
    }))
}
