//! Readings in packed decimal: which are tried, and that the library answers as plain arithmetic does.

use crate::packed::{self, NOT_MEASURED};
use crate::random::Random;
use crate::tally::Tally;
use crate::{library, same};

/// Readings at the edges of the digits, of the carry and of the exception.
const EDGES: [u16; 36] = [
    0x0000, 0x0001, 0x0009, 0x000a, 0x000f, 0x0010, 0x0090, 0x0099, 0x009a, 0x00a0, 0x0100, 0x0900, 0x0999, 0x0a00, 0x1000, 0x1234,
    0x4321, 0x4999, 0x5000, 0x5001, 0x8999, 0x9000, 0x9989, 0x9990, 0x9998, 0x9999, 0x999a, 0x99a9, 0x9a99, 0xa000, 0xa999, 0xf999,
    0xff99, 0xfff9, 0xfffe, 0xffff,
];

/// Whole numbers at the edges of what a reading can say, and far above.
const NUMBERS: [u64; 12] =
    [9_999, 10_000, 10_001, 39_321, 65_534, 65_535, 65_536, 131_071, 1 << 32, (1 << 32) + 5, 1 << 63, u64::MAX];

/// Every single reading, all pairs of edges, and so many drawn runs.
pub fn compare(runs: u64, seed: u64, tally: &mut Tally) {
    for reading in 0..=u16::MAX {
        tally.note_reading("single", single(reading));
    }
    for number in (0..10_000).chain(NUMBERS) {
        let compared = same(&format!("reading of {}", number), packed::reading_of(number), library::reading_of(number));
        tally.note_reading("numbers", compared);
    }
    for pair in EDGES.iter().flat_map(|&a| EDGES.iter().map(move |&b| (a, b))) {
        tally.note_reading("pairs", two(pair.0, pair.1));
    }
    for number in 0..runs {
        let mut random = Random::for_case(seed, number);
        let (bytes, room) = (drawn(&mut random), random.below(5));
        tally.note_reading("runs", run(&bytes, room));
    }
    for bad in [0, 65_534, 65_535, 65_536, 65_537] {
        tally.note_reading("long runs", run(&long(bad), 2));
    }
}

/// A reading by itself, beside edges, and as the number that it would be.
fn single(reading: u16) -> Result<(), String> {
    same(&format!("number of reading {:04x}", reading), packed::number(reading), library::reading_number(reading))?;
    same(&format!("reading of {}", reading), packed::reading_of(reading.into()), library::reading_of(reading.into()))?;
    for other in [0x0000, 0x0001, 0x5000, 0x9999, 0xa000, reading, NOT_MEASURED] {
        two(reading, other)?;
        two(other, reading)?;
    }
    Ok(())
}

fn two(a: u16, b: u16) -> Result<(), String> {
    same(&format!("sum of {:04x} and {:04x}", a, b), packed::sum(a, b), library::reading_sum(a, b))?;
    same(&format!("{:04x} against {:04x}", a, b), packed::compare(a, b), library::reading_compare(a, b))
}

/// Result and every word of a lent area with room for so many, which holds a pattern before.
fn run(bytes: &[u8], room: usize) -> Result<(), String> {
    let mut expected: Vec<u64> = (1..=room as u64).map(|i| i.wrapping_mul(0x9e37_79b9_7f4a_7c15)).collect();
    let mut found = expected.clone();
    let answer = packed::largest(bytes, &mut expected);
    let shown = if bytes.len() <= 64 { format!("{:02x?}", bytes) } else { format!("{} bytes", bytes.len()) };
    same(&format!("largest of {}", shown), answer, library::reading_largest(bytes, &mut found))?;
    same(&format!("words found in {}", shown), expected, found)
}

/// A run of readings of few values, so that the largest comes more than once; some not measured, a few bad, sometimes a lone byte.
fn drawn(random: &mut Random) -> Vec<u8> {
    let values: Vec<u16> = (0..random.between(1, 4)).map(|_| digits(random)).collect();
    let (unmeasured, bad) = (random.pick(&[0, 20, 100]), random.pick(&[0, 0, 10]));
    let mut bytes = Vec::new();
    for _ in 0..random.below(12) {
        let reading = match (random.chance(bad), random.chance(unmeasured)) {
            (true, _) => random.word() as u16,
            (_, true) => NOT_MEASURED,
            _ => random.pick(&values),
        };
        bytes.extend(reading.to_be_bytes());
    }
    if random.chance(15) {
        bytes.push(random.byte());
    }
    bytes
}

fn digits(random: &mut Random) -> u16 {
    (0..4).fold(0, |word, _| word * 16 + random.below(10) as u16)
}

/// 65,537 readings, of which one is bad; none if its number is beyond them.
fn long(bad: usize) -> Vec<u8> {
    (0..65_537).flat_map(|place| if place == bad { [0x00, 0x0a] } else { [0x12, 0x34] }).collect()
}
