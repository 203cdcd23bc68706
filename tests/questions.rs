//! Questions over a list: which lists and questions are drawn, and what the library must answer.

use crate::lister::{self, Refusal, LIST_WORDS, MAX_QUESTIONS, QUESTION_WORDS};
use crate::random::Random;
use crate::tally::Tally;
use crate::{library, same, Outcome};

/// Words that stand in the areas before, to see that the others are left alone.
const PATTERN: u64 = 0xa5a5_5a5a_c3c3_3c3c;

/// The longest drawn list.
const LONG_LIST: usize = LIST_WORDS + 44;

/// Counts and common atoms of one drawn list; of a listed plan sometimes its last list.
pub fn compare(outcome: &Outcome, random: &mut Random, tally: &mut Tally) -> Result<(), String> {
    let list = match outcome {
        Ok(listing) if random.chance(30) => listing.last.clone(),
        _ => drawn_list(random),
    };
    compare_counts(&list, drawn_questions(&list, random), tally)?;
    compare_common(&list, random)
}

fn compare_counts(list: &[u64], questions: Vec<u64>, tally: &mut Tally) -> Result<(), String> {
    let (mut expected, mut words) = (questions.clone(), questions);
    let result = library::count(list, &mut words);
    let outcome = lister::count(list, &mut expected);
    tally.note_questions(words.len() / QUESTION_WORDS, &outcome);
    same("result for questions", outcome.map_or_else(Refusal::code, |_| 0), result)?;
    same(&format!("questions over {:x?}", list), expected, words)
}

/// Into areas of none, one, two and more words.
fn compare_common(list: &[u64], random: &mut Random) -> Result<(), String> {
    let mut expected = vec![PATTERN; random.below(4)];
    let mut atoms = expected.clone();
    let result = library::common(list, &mut atoms);
    for (word, found) in expected.iter_mut().zip(lister::common(list)) {
        *word = found;
    }
    same("result for common atoms", 0, result)?;
    same(&format!("common atoms of {:x?}", list), expected, atoms)
}

/// Positions from a small store, so that some come again; empty and long lists too.
fn drawn_list(random: &mut Random) -> Vec<u64> {
    let length = match random.below(8) {
        0 => random.below(2),
        1 => random.between(LIST_WORDS - 1, LONG_LIST),
        _ => random.below(40),
    };
    let store: Vec<u64> = (0..random.between(1, 20)).map(|_| position(random)).collect();
    (0..length).map(|_| random.pick(&store)).collect()
}

/// Few or many atoms up, or any.
fn position(random: &mut Random) -> u64 {
    let (few, any) = (random.atoms_of(!0, 5), random.word());
    random.pick(&[few, !few, few & 0xff, any])
}

/// No question, 64 or 65 more often than others; a rest of up to two words; few atoms asked for, sometimes in both words.
fn drawn_questions(list: &[u64], random: &mut Random) -> Vec<u64> {
    let count = match random.below(6) {
        0 => random.pick(&[0, 1, MAX_QUESTIONS - 1, MAX_QUESTIONS, MAX_QUESTIONS + 1]),
        1 => random.between(MAX_QUESTIONS - 2, 2 * MAX_QUESTIONS),
        _ => random.below(12),
    };
    let mut words = Vec::new();
    for _ in 0..count {
        let base = if list.is_empty() { random.word() } else { random.pick(list) };
        let up = random.atoms_of(base, 3) | if random.chance(20) { random.atoms_of(!0, 1) } else { 0 };
        let dropped = random.atoms_of(!base, 3) | if random.chance(15) { random.atoms_of(up, 1) } else { 0 };
        words.extend([up, dropped, PATTERN]);
    }
    words.resize(words.len() + random.below(QUESTION_WORDS), PATTERN);
    words
}
