//! What was compared, and how it went.

use crate::blames::BlameTally;
use crate::counted_tally::CountedTally;
use crate::generator::Case;
use crate::lister::{Refusal, LIST_WORDS};
use crate::shown_tally::ShownTally;
use crate::table_tally::TableTally;
use crate::Outcome;
use std::collections::BTreeMap;

#[derive(Default)]
pub struct Tally {
    pub passed: u64,
    pub failed: u64,
    pub whole_programs: u64,
    pub tables: TableTally,
    pub walks: WalkTally,
    pub blames: BlameTally,
    pub shown: ShownTally,
    /// Settled positions of the last plan that had some: for sheets of another plan.
    pub met: Vec<u64>,
    pub counted: CountedTally,
    settled: u64,
    not_settled: u64,
    positions_refused: u64,
    questions: u64,
    questions_refused: u64,
    accepted: u64,
    full_lists: u64,
    refused: BTreeMap<u64, u64>,
    families: BTreeMap<&'static str, u64>,
    readings: BTreeMap<&'static str, u64>,
    rows: BTreeMap<&'static str, u64>,
    sheets: BTreeMap<&'static str, u64>,
}

/// The steps of walks from position to position.
#[derive(Default)]
pub struct WalkTally {
    /// Walks from the start to the end, and the most positions of one.
    pub ended: u64,
    pub longest: usize,
    found: u64,
    none_left: u64,
    refused: u64,
    plans: BTreeMap<&'static str, u64>,
}

impl WalkTally {
    /// Counts a plan whose settled positions are known, by what a list says of it.
    pub fn note_plan(&mut self, outcome: &Outcome, settled: &[u64]) {
        let kind = match outcome {
            Ok(_) => "listed",
            Err(refusal) if refusal.number == 15 => "a list too long",
            Err(_) => "graph refused",
        };
        *self.plans.entry(kind).or_default() += 1;
        if settled.len() > LIST_WORDS {
            *self.plans.entry("more than 256 positions").or_default() += 1;
        }
    }

    pub fn note(&mut self, next: &Result<Option<u64>, Refusal>) {
        match next {
            Ok(Some(_)) => self.found += 1,
            Ok(None) => self.none_left += 1,
            Err(_) => self.refused += 1,
        }
    }
}

impl Tally {
    /// Counts a plan; the first that differs is printed.
    pub fn note(&mut self, case: &Case, compared: Result<(), String>) {
        *self.families.entry(case.family).or_default() += 1;
        match compared {
            Ok(()) => self.passed += 1,
            Err(difference) => {
                if self.failed == 0 {
                    print_difference(case, &difference);
                }
                self.failed += 1;
            }
        }
    }

    /// Counts a reading, a pair or a run of them; the first difference is printed.
    pub fn note_reading(&mut self, kind: &'static str, compared: Result<(), String>) {
        *self.readings.entry(kind).or_default() += 1;
        self.note_apart("readings", compared);
    }

    /// Counts an area that goes there and back; the first difference is printed.
    pub fn note_rows(&mut self, kind: &'static str, compared: Result<(), String>) {
        *self.rows.entry(kind).or_default() += 1;
        self.note_apart("rows", compared);
    }

    /// Counts what is compared apart from plans.
    fn note_apart(&mut self, what: &str, compared: Result<(), String>) {
        match compared {
            Ok(()) => self.passed += 1,
            Err(difference) => {
                if self.failed == 0 {
                    println!("first difference, {}: {}", what, difference);
                }
                self.failed += 1;
            }
        }
    }

    pub fn note_outcome(&mut self, outcome: &Outcome) {
        match outcome {
            Ok(listing) => {
                self.accepted += 1;
                self.full_lists += u64::from(listing.last.len() == LIST_WORDS);
            }
            Err(refusal) => *self.refused.entry(refusal.number).or_default() += 1,
        }
    }

    pub fn note_position(&mut self, answer: &Result<bool, Refusal>) {
        match answer {
            Ok(true) => self.settled += 1,
            Ok(false) => self.not_settled += 1,
            Err(_) => self.positions_refused += 1,
        }
    }

    /// Counts a sheet of so many positions by its reply.
    pub fn note_sheet(&mut self, positions: usize, reply: &Result<u64, Refusal>) {
        let kind = match reply {
            Ok(place) if *place == LIST_WORDS as u64 && positions == LIST_WORDS => "all of 256 settled",
            Ok(place) if *place == LIST_WORDS as u64 => "all settled",
            Ok(0) => "not the first",
            Ok(place) if *place + 1 == positions as u64 => "not the last",
            Ok(_) => "not one between",
            Err(refusal) if refusal.number == 24 => "24",
            Err(_) => "refused in reading",
        };
        *self.sheets.entry(kind).or_default() += 1;
    }

    pub fn note_questions(&mut self, count: usize, answer: &Result<(), Refusal>) {
        match answer {
            Ok(()) => self.questions += count as u64,
            Err(_) => self.questions_refused += 1,
        }
    }

    pub fn print(&self, seed: u64) {
        println!("plans of seed {}: {}", seed, listed(&self.families));
        println!("accepted: {}, of these with 256 positions: {}", self.accepted, self.full_lists);
        println!("refused, by number: {}", listed(&self.refused));
        self.tables.print();
        self.shown.print();
        self.counted.print();
        println!("of each: result, table with the words behind it, counts, sheet");
        println!(
            "single positions: {} settled, {} not settled, {} refused",
            self.settled, self.not_settled, self.positions_refused
        );
        println!(
            "steps from position to position: {} found one, {} none left, {} refused; {} walks to the end, the longest of {}",
            self.walks.found, self.walks.none_left, self.walks.refused, self.walks.ended, self.walks.longest
        );
        println!("plans walked: {}", listed(&self.walks.plans));
        println!("sheets judged: {}", listed(&self.sheets));
        self.blames.print();
        println!("questions over lists: {} counted, {} times too many", self.questions, self.questions_refused);
        println!("last list against all answer sets of the whole program: {} plans", self.whole_programs);
        println!("readings: {}", listed(&self.readings));
        println!("sheets by relay, there and back: {}", listed(&self.rows));
        println!("{} passed, {} failed", self.passed, self.failed);
    }
}

pub fn listed<Name: std::fmt::Display>(counts: &BTreeMap<Name, u64>) -> String {
    counts.iter().map(|(name, count)| format!("{}: {}", name, count)).collect::<Vec<_>>().join(", ")
}

fn print_difference(case: &Case, difference: &str) {
    let hex: String = case.plan.iter().map(|byte| format!("{:02x}", byte)).collect();
    println!("first difference, {}, table of {} words: {}", case.family, case.table_words, difference);
    println!("  plan:    {}", hex);
}
