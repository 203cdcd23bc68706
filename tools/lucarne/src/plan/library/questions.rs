//! Questions over a list, the atoms of all its positions, and the list by relay.

use super::{Refusal, MAX_POSITIONS};

/// More questions than this are in no call.
pub const MAX_QUESTIONS: usize = 64;
const QUESTION_WORDS: usize = 3;
const ROWS: usize = 64;
const ROW_WORDS: usize = 4;

extern "C" {
    fn lucarnecress_count(list: *const u64, list_length: usize, questions: *mut u64, questions_length: usize) -> u64;
    fn lucarnecress_common(list: *const u64, list_length: usize, atoms: *mut u64, atoms_length: usize) -> u64;
    fn lucarnecress_rows(list: *const u64, list_length: usize, count: u64, rows: *mut u64, rows_length: usize) -> u64;
}

/// Atoms that are up and atoms that are dropped.
#[derive(Clone, Copy, Debug, Default, PartialEq, Eq)]
pub struct Question {
    pub up: u64,
    pub dropped: u64,
}

impl Question {
    /// Whether a position has every up atom and no dropped one.
    pub fn fits(&self, position: u64) -> bool {
        position & self.up == self.up && position & self.dropped == 0
    }
}

/// How many positions of the list fit each question: a call for every 64 of them.
pub fn count(list: &[u64], questions: &[Question]) -> Result<Vec<u64>, Refusal> {
    let mut counts = Vec::new();
    for some in questions.chunks(MAX_QUESTIONS) {
        let mut words: Vec<u64> = some.iter().flat_map(|question| [question.up, question.dropped, 0]).collect();
        let code = unsafe { lucarnecress_count(list.as_ptr(), list.len(), words.as_mut_ptr(), words.len()) };
        if code != 0 {
            return Err(Refusal::of(code));
        }
        counts.extend(words.chunks(QUESTION_WORDS).map(|words| words[QUESTION_WORDS - 1]));
    }
    Ok(counts)
}

/// The atoms up in all positions of the list, and those up in some.
pub fn common(list: &[u64]) -> (u64, u64) {
    let mut atoms = [0u64; 2];
    unsafe { lucarnecress_common(list.as_ptr(), list.len(), atoms.as_mut_ptr(), atoms.len()) };
    (atoms[0], atoms[1])
}

/// A list of at most 256 positions by atom: for each of the 64 whether it is up in each position.
pub fn rows(list: &[u64]) -> Result<Vec<Vec<bool>>, Refusal> {
    let mut whole = list.to_vec();
    whole.resize(MAX_POSITIONS.max(list.len()), 0);
    let mut rows = vec![0u64; ROWS * ROW_WORDS];
    let code = unsafe { lucarnecress_rows(whole.as_ptr(), whole.len(), list.len() as u64, rows.as_mut_ptr(), rows.len()) };
    if code != 0 {
        return Err(Refusal::of(code));
    }
    Ok(rows.chunks(ROW_WORDS).map(|row| (0..list.len()).map(|place| row[place / 64] >> (place % 64) & 1 == 1).collect()).collect())
}
