//! What the drawn SHOWs show, and how often they matter.

use crate::lister::{self, Plan, LIST_WORDS};
use crate::tally::listed;
use crate::Outcome;
use std::collections::BTreeMap;

#[derive(Default)]
pub struct ShownTally {
    /// Plans that read and have a SHOW, by what shows.
    plans: BTreeMap<&'static str, u64>,
    /// How they are answered.
    lists: BTreeMap<&'static str, u64>,
}

impl ShownTally {
    pub fn note(&mut self, bytes: &[u8], outcome: &Outcome) {
        if let Ok(plan) = lister::read(bytes) {
            if plan.shown.is_some() {
                *self.plans.entry(kind(&plan)).or_default() += 1;
                self.note_list(&plan, outcome);
            }
        }
    }

    fn note_list(&mut self, plan: &Plan, outcome: &Outcome) {
        let hidden = !plan.shown_atoms();
        let kinds = match outcome {
            Ok(listing) => vec![
                ("accepted", true),
                ("fewer positions than uncut", listing.last.len() < listing.uncut.len()),
                ("over 256 uncut", listing.uncut.len() > LIST_WORDS),
                ("no position", listing.last.is_empty()),
                ("given atoms cut off", plan.given_atoms() & hidden != 0),
            ],
            Err(refusal) => vec![
                ("15 at a unit", refusal.number == 15 && refusal.spot < plan.units.len() as u64),
                ("15 at the last list", refusal.number == 15 && refusal.spot == plan.units.len() as u64),
            ],
        };
        for (kind, _) in kinds.iter().filter(|(_, is_so)| *is_so) {
            *self.lists.entry(kind).or_default() += 1;
        }
    }

    pub fn print(&self) {
        println!("SHOWs, by the atoms in heads that show: {}", listed(&self.plans));
        println!("plans with a SHOW: {}", listed(&self.lists));
    }
}

fn kind(plan: &Plan) -> &'static str {
    let heads = lister::head_atoms(&plan.rules);
    match heads & plan.shown_atoms() {
        _ if heads == 0 => "there are none",
        0 => "none",
        shown if shown == heads => "all",
        _ => "some",
    }
}
