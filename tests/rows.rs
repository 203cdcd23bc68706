//! A sheet by relay: which lists, rows and counts are drawn, and that the library writes what the plain loops write, and nothing else.

use crate::lister::{self, Refusal, LIST_WORDS};
use crate::random::Random;
use crate::tally::Tally;
use crate::{library, same};

/// Counts at the edges of a row's words and of the area, and far above.
const COUNTS: [u64; 12] = [0, 1, 2, 63, 64, 65, 128, 255, 256, 257, 1 << 32, u64::MAX];

/// Lengths of the two areas: too short, just long enough, with words behind.
const LENGTHS: [usize; 3] = [LIST_WORDS - 1, LIST_WORDS, LIST_WORDS + 4];

type Way<Answer> = fn(&[u64], u64, &mut [u64]) -> Answer;

/// Every pair of lengths with every count, and so many drawn areas.
pub fn compare(drawn: u64, seed: u64, tally: &mut Tally) {
    let lengths = LENGTHS.iter().flat_map(|&read| LENGTHS.iter().map(move |&written| (read, written)));
    let edges = lengths.flat_map(|(read, written)| COUNTS.iter().map(move |&count| (read, written, count)));
    for (number, (read, written, count)) in edges.enumerate() {
        let mut random = Random::for_case(seed, number as u64);
        tally.note_rows("edges", both(read, written, count, &mut random));
    }
    for number in 0..drawn {
        let mut random = Random::for_case(!seed, number);
        let (long, count) = (LIST_WORDS + random.below(300), random.below(LIST_WORDS + 1) as u64);
        tally.note_rows("drawn", both(long, LIST_WORDS + random.below(3), count, &mut random));
    }
}

/// There and back over drawn words, also behind the count; then back what the way there wrote.
fn both(read: usize, written: usize, count: u64, random: &mut Random) -> Result<(), String> {
    let area = words(read, random);
    let rows = one_way("rows", lister::rows, library::rows, &area, count, written, random)?;
    one_way("positions of rows", lister::positions_of_rows, library::positions_of_rows, &area, count, written, random)?;
    let back = one_way("positions of rows", lister::positions_of_rows, library::positions_of_rows, &rows, count, read, random)?;
    if read < LIST_WORDS || written < LIST_WORDS || count > LIST_WORDS as u64 {
        return Ok(());
    }
    let count = count as usize;
    same("there and back below the count", &area[..count], &back[..count])?;
    same("there and back from the count on", &vec![0; LIST_WORDS - count][..], &back[count..LIST_WORDS])
}

/// Answer and every word of the written area, which holds drawn words before.
fn one_way(
    what: &str,
    plain: Way<Result<(), Refusal>>,
    proved: Way<u64>,
    area: &[u64],
    count: u64,
    written: usize,
    random: &mut Random,
) -> Result<Vec<u64>, String> {
    let mut expected = words(written, random);
    let mut found = expected.clone();
    let answer = plain(area, count, &mut expected).map_or_else(Refusal::code, |_| 0);
    let shown = format!("{} of {} words, count {}, into {}", what, area.len(), count, written);
    same(&format!("answer for {}", shown), answer, proved(area, count, &mut found))?;
    same(&format!("{}: {:x?}", shown, area), &expected, &found)?;
    Ok(found)
}

/// Words with few, many or any bits set.
fn words(length: usize, random: &mut Random) -> Vec<u64> {
    let kind = random.below(4);
    let word = |random: &mut Random| match kind {
        0 => random.atoms_of(!0, 3),
        1 => !random.atoms_of(!0, 3),
        _ => random.word(),
    };
    (0..length).map(|_| word(random)).collect()
}
