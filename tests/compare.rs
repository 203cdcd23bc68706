//! compare [count] [seed]: holds the proved library against the brute-force lister.
//!
//! The last line says how many plans passed and how many failed; the exit status is 1 if any failed.

mod blame_plans;
mod blames;
mod broken_plans;
mod counted_plans;
mod counted_tally;
mod draft;
mod encode;
mod generator;
mod library;
mod lister;
mod packed;
mod positions;
mod questions;
mod random;
mod readings;
mod rows;
mod samples;
mod sheets;
mod shown_plans;
mod shown_tally;
mod stop_plans;
mod table_plans;
mod table_tally;
mod tally;
mod text;
mod valid_plans;
mod walks;

use generator::Case;
use lister::{Listing, Plan, Refusal, COUNTS, TABLE_WORDS};
use random::Random;
use samples::Sample;
use tally::Tally;

const DEFAULT_COUNT: u64 = 20_000;
const DEFAULT_SEED: u64 = 1;

/// Up to so many atoms in heads every set of them is tried.
const FEW_ATOMS: u32 = 14;

/// Up to so many where the plan is refused: ten choices have twenty, and 1,024 positions.
const TEN_CHOICES: u32 = 20;

type Outcome = Result<Listing, Refusal>;

fn main() {
    let (count, seed) = (argument(1, DEFAULT_COUNT), argument(2, DEFAULT_SEED));
    let mut tally = Tally::default();
    for sample in samples::all() {
        let case = Case { family: "sample plans", plan: sample.plan.clone(), table_words: TABLE_WORDS, many_atoms: true };
        let compared = compare_sample(&sample, &case, seed, &mut tally);
        tally.note(&case, compared.map_err(|difference| format!("{}: {}", sample.name, difference)));
    }
    let cases = (0..).map(|number| (number, generator::case(seed, number)));
    let feasible = cases.filter(|(_, case)| case.many_atoms || lister::read(&case.plan).map_or(true, |plan| is_small(&plan)));
    for (number, case) in feasible.take(count as usize) {
        let compared = compare(&case, &mut Random::for_case(!seed, number), &mut tally);
        tally.note(&case, compared);
    }
    readings::compare(count, seed, &mut tally);
    rows::compare(count / 10, seed, &mut tally);
    tally.print(seed);
    std::process::exit(if tally.failed == 0 { 0 } else { 1 });
}

fn argument(place: usize, otherwise: u64) -> u64 {
    match std::env::args().nth(place) {
        Some(text) => text.parse().expect("usage: compare [count] [seed]"),
        None => otherwise,
    }
}

/// Are there so few atoms in heads that every set of them can be tried?
fn is_small(plan: &Plan) -> bool {
    lister::head_atoms(&plan.rules).count_ones() <= FEW_ATOMS
}

/// A sample's text and sheet and, where the lister can list it, everything else; it is walked from its start to its end.
fn compare_sample(sample: &Sample, case: &Case, seed: u64, tally: &mut Tally) -> Result<(), String> {
    let by_force = samples::by_force(sample.name);
    samples::check_text(sample)?;
    if !by_force && std::env::var_os("LIBRARY_BY_FORCE").is_some() {
        return Ok(());
    }
    compare_sheet(&sample.plan, &sample.sheet)?;
    if !by_force {
        // With a SHOW the sheet has cut positions, and uncut ones are too many to walk.
        let shows_all = lister::read(&sample.plan).is_ok_and(|plan| plan.shown.is_none());
        return if shows_all { walks::compare_whole(&sample.plan, &samples::positions(sample), tally) } else { Ok(()) };
    }
    compare(case, &mut Random::for_case(seed, 0), tally)?;
    if let Some(blame) = samples::blamed(sample.name) {
        blames::ask(&sample.plan, Ok(blame), &mut Random::for_case(seed, 0))?;
    }
    match lister::read(&sample.plan) {
        Ok(plan) => walks::compare_whole(&sample.plan, &lister::answer_sets(&plan.rules, plan.given_atoms()), tally),
        Err(_) => Ok(()),
    }
}

/// Everything the library says of one plan, or the first difference.
fn compare(case: &Case, random: &mut Random, tally: &mut Tally) -> Result<(), String> {
    let outcome = lister::list(&case.plan, TABLE_WORDS);
    let settled = settled_positions(&case.plan, &outcome);
    tally.tables.note(&case.plan, &outcome);
    tally.shown.note(&case.plan, &outcome);
    tally.counted.note(&case.plan, &outcome);
    compare_table(case, &outcome, tally)?;
    compare_sheet(&case.plan, &lister::sheet(&outcome))?;
    check_lister(&case.plan, &outcome, tally)?;
    positions::compare(case, &outcome, settled.as_deref().unwrap_or_default(), random, tally)?;
    walks::compare(&case.plan, &outcome, settled.as_deref(), random, tally)?;
    sheets::compare(&case.plan, settled.as_deref(), random, tally)?;
    blames::compare(&case.plan, settled.as_deref(), random, tally)?;
    questions::compare(&outcome, random, tally)
}

/// All settled positions, rising, where they are known; a refused graph does not hide them, nor do more than 256.
fn settled_positions(bytes: &[u8], outcome: &Outcome) -> Option<Vec<u64>> {
    if let Ok(listing) = outcome {
        return Some(listing.uncut.clone());
    }
    let plan = lister::read(bytes).ok()?;
    let is_tried = lister::head_atoms(&plan.rules).count_ones() <= TEN_CHOICES;
    is_tried.then(|| lister::answer_sets(&plan.rules, plan.given_atoms()))
}

/// Result, table and counts, with a lent table that holds a pattern before.
fn compare_table(case: &Case, outcome: &Outcome, tally: &mut Tally) -> Result<(), String> {
    let is_short = case.table_words < TABLE_WORDS;
    let outcome = if is_short { lister::list(&case.plan, case.table_words) } else { outcome.clone() };
    let mut expected: Vec<u64> = (1..=case.table_words as u64).map(|i| i.wrapping_mul(0x9e37_79b9_7f4a_7c15)).collect();
    let mut table = expected.clone();
    let mut counts = [u64::MAX; COUNTS];
    let result = library::list(&case.plan, &mut table, &mut counts);
    let expected_counts = lister::fill_table(&outcome, &mut expected);
    tally.note_outcome(&outcome);
    same("result", outcome.map_or_else(Refusal::code, |_| 0), result)?;
    same("counts", expected_counts, counts)?;
    match (0..table.len()).find(|&place| table[place] != expected[place]) {
        Some(place) => same(&format!("table word {}", place), expected[place], table[place]),
        None => Ok(()),
    }
}

fn compare_sheet(plan: &[u8], expected: &str) -> Result<(), String> {
    same("sheet", Ok(expected.to_string()), library::sheet(plan).map(|sheet| String::from_utf8_lossy(&sheet).into()))?;
    same("length of a sheet without room", 0, library::write_sheet(plan, &mut []))
}

/// The lister against itself: its joined inputs and, for the last list, all sets tried at once.
fn check_lister(bytes: &[u8], outcome: &Outcome, tally: &mut Tally) -> Result<(), String> {
    let plan = lister::read(bytes).unwrap_or_default();
    if let (Ok(listing), true) = (outcome, is_small(&plan)) {
        tally.whole_programs += 1;
        same("last list by units and by the whole program", &plan.cut(&lister::answer_sets(&plan.rules, plan.given_atoms())), &listing.last)?;
        same("inputs by definition", true, lister::inputs_are_by_definition(&plan, listing))?;
    }
    Ok(())
}

fn same<T: PartialEq + std::fmt::Debug>(what: &str, expected: T, actual: T) -> Result<(), String> {
    if expected == actual {
        return Ok(());
    }
    Err(format!("{}\n  lister:  {:?}\n  library: {:?}", what, expected, actual))
}
