//! The sample plans of `plans/`: readable text, plan bytes and the sheet that must be printed.

use crate::lister::Blame;
use crate::{lister, same, text};

pub struct Sample {
    pub name: &'static str,
    pub plan: Vec<u8>,
    pub sheet: String,
    text: &'static str,
}

macro_rules! samples {
    ($($name:literal),* $(,)?) => {
        /// All sample plans; their files are part of this program.
        pub fn all() -> Vec<Sample> {
            vec![$(Sample {
                name: $name,
                plan: include_bytes!(concat!("../plans/", $name, ".plan")).to_vec(),
                sheet: include_str!(concat!("../plans/", $name, ".sheet")).to_string(),
                text: include_str!(concat!("../plans/", $name, ".txt")),
            }),*]
        }
    };
}

/// Samples with too many atoms in heads, or positions before they are cut, for the lister; what their sheets are held against says tests/README.md.
const NOT_BY_FORCE: [&str; 3] = ["clingo-default-misses-all", "clingo-default-misses-ten", "show-two-of-sixteen"];

samples!(
    "bad-table",
    "bad-use",
    "blame-headed-rules-alone",
    "blame-two-groups",
    "blame-use-and-key",
    "circuit-01-end-only",
    "circuit-01-no-bytes",
    "circuit-02-choice",
    "circuit-03-holds-itself",
    "circuit-04-odd-loop",
    "circuit-05-even-loop",
    "circuit-06-saturation",
    "circuit-07-diamond",
    "circuit-08-split-constraint",
    "circuit-09-seen-constraint",
    "circuit-10-unseen-negation",
    "circuit-11-cycle",
    "circuit-12-eight-pairs",
    "circuit-12-nine-pairs",
    "circuit-12-nine-units",
    "clingo-default-misses-all",
    "clingo-default-misses-one",
    "clingo-default-misses-ten",
    "contradictory-body",
    "count-behind-given",
    "count-lost-edge",
    "count-lost-unit",
    "count-plan-p",
    "eleven-heads",
    "five-of-ten",
    "given-in-heads",
    "given-keys",
    "inner-list-wider",
    "nine-points",
    "plan-p",
    "plan-p-without-edge",
    "several-in-no-unit",
    "several-in-two-units",
    "several-negative-unseen",
    "several-on-cycles",
    "several-positive-unseen",
    "several-table-inputs-unseen",
    "show-few-of-many",
    "show-hides-given",
    "show-nothing",
    "show-nothing-of-none",
    "show-physical-relays",
    "show-still-too-long",
    "show-then-edge",
    "show-two-of-sixteen",
    "show-unit-too-long",
    "table-holds-itself",
    "table-in-inner-unit",
    "table-not-as-rules",
    "tables-in-two-units",
);

/// What some samples are blamed on, worked out by hand.
const BLAMED: [(&str, Blame); 8] = [
    ("blame-headed-rules-alone", Blame::Held(0)),
    ("blame-two-groups", Blame::Held(0x18)),
    ("blame-use-and-key", Blame::Held(0xc)),
    ("circuit-04-odd-loop", Blame::Held(0)),
    ("circuit-08-split-constraint", Blame::Held(0x4)),
    ("circuit-09-seen-constraint", Blame::Held(0x4)),
    ("plan-p", Blame::Position(0x2)),
    ("show-hides-given", Blame::Position(0x302)),
];

/// What a sample is blamed on, if that was worked out.
pub fn blamed(name: &str) -> Option<Blame> {
    BLAMED.iter().find(|known| known.0 == name).map(|known| known.1)
}

/// Can the lister list the sample?
pub fn by_force(name: &str) -> bool {
    !NOT_BY_FORCE.contains(&name)
}

/// The positions of a sample's sheet.
pub fn positions(sample: &Sample) -> Vec<u64> {
    sample.sheet.lines().skip(1).map(|line| u64::from_str_radix(line, 16).expect("a position in hexadecimal")).collect()
}

/// The text gives the bytes, the bytes survive the way to text and back, and the lister agrees, where it can list the plan.
pub fn check_text(sample: &Sample) -> Result<(), String> {
    same("bytes of the text", Ok(sample.plan.clone()), text::to_bytes(sample.text))?;
    same("bytes to text and back", Ok(sample.plan.clone()), text::to_bytes(&text::to_text(&sample.plan)))?;
    if !by_force(sample.name) {
        return Ok(());
    }
    same("known sheet", &sample.sheet, &lister::sheet(&lister::list(&sample.plan, lister::TABLE_WORDS)))
}
