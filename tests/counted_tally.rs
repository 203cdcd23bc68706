//! What became of the drawn COUNTs.

use crate::encode;
use crate::lister::{self, Refusal};
use crate::tally::listed;
use crate::Outcome;
use std::collections::BTreeMap;

#[derive(Default)]
pub struct CountedTally {
    /// Plans that begin with a COUNT, and those with a late one, by what became of it.
    plans: BTreeMap<&'static str, u64>,
}

impl CountedTally {
    pub fn note(&mut self, bytes: &[u8], outcome: &Outcome) {
        if let Some(kind) = kind(bytes, outcome) {
            *self.plans.entry(kind).or_default() += 1;
        }
    }

    pub fn print(&self) {
        println!("COUNTs: {}", listed(&self.plans));
    }
}

fn kind(bytes: &[u8], outcome: &Outcome) -> Option<&'static str> {
    let is_first = bytes.first() == Some(&encode::COUNT);
    match (lister::read(bytes), outcome) {
        (Ok(_), Ok(_)) if is_first => Some("right, and listed"),
        (Ok(_), Err(_)) if is_first => Some("right, and refused by graph or list"),
        (Err(Refusal { number: 23, .. }), _) => Some("wrong"),
        (Err(Refusal { number: 2, spot: 0 }), _) if is_first => Some("cut short"),
        (Err(Refusal { number: 4, spot }), _) if bytes.get(spot as usize) == Some(&encode::COUNT) => Some("late"),
        (Err(_), _) if is_first => Some("another fault before END"),
        _ => None,
    }
}
