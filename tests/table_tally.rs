//! What the drawn tables are, how often each kind was drawn, and how often they matter.

use crate::lister::{self, Plan, Refusal, Rule};
use crate::{encode, is_small, Outcome};
use std::collections::BTreeMap;

/// A rule is written out only if it gives at most so many rules.
const MOST_WRITTEN_OUT: usize = 4096;

#[derive(Default)]
pub struct TableTally {
    /// Plans that read and have a table.
    plans: u64,
    tables: BTreeMap<String, u64>,
    uses: BTreeMap<&'static str, u64>,
    /// Accepted plans with uses whose last list would be another one.
    lists: BTreeMap<&'static str, u64>,
    faults: BTreeMap<String, u64>,
}

impl TableTally {
    pub fn note(&mut self, bytes: &[u8], outcome: &Outcome) {
        match lister::read(bytes) {
            Ok(plan) => self.note_plan(&plan, outcome),
            Err(refusal) => self.note_fault(bytes, refusal),
        }
    }

    fn note_plan(&mut self, plan: &Plan, outcome: &Outcome) {
        self.plans += u64::from(!plan.tables.is_empty());
        (0..plan.tables.len()).for_each(|table| self.note_table(plan, table));
        plan.uses.iter().for_each(|numbers| self.note_use(plan, numbers));
        if let (Ok(listing), false, true) = (outcome, plan.uses.is_empty(), is_small(plan)) {
            self.note_lists(plan, &listing.last);
        }
    }

    fn note_table(&mut self, plan: &Plan, number: usize) {
        let table = &plan.tables[number];
        let mut note = |kind: String| *self.tables.entry(kind).or_default() += 1;
        note(format!("{} inputs", table.inputs.len()));
        if [0, !0 >> (64 - (1 << table.inputs.len()))].contains(&table.truth) {
            note("constant".to_string());
        }
        if plan.uses.iter().all(|numbers| usize::from(numbers[1]) != number) {
            note("unused".to_string());
        }
        if plan.tables[..number].contains(table) {
            note("equal to an earlier one".to_string());
        }
    }

    fn note_use(&mut self, plan: &Plan, &[number, table, sign]: &[u8; 3]) {
        let (rule, table_words) = (&plan.rules[usize::from(number)], &plan.tables[usize::from(table)]);
        let is_inner = plan.edges.iter().any(|edge| plan.units[edge.0] >> number & 1 == 1);
        let kinds = [
            ("must be true", sign == 0),
            ("must be false", sign == 1),
            ("with the other sign too", plan.uses.contains(&[number, table, 1 - sign])),
            ("in a constraint", rule.head == 0),
            ("of the rule's own head", rule.head & table_words.input_atoms() != 0),
            ("of a given atom", plan.given_atoms() & table_words.input_atoms() != 0),
            ("in a unit that depends on others", is_inner),
        ];
        for (kind, _) in kinds.iter().filter(|(_, is_so)| *is_so) {
            *self.uses.entry(kind).or_default() += 1;
        }
    }

    /// Other readings of a use, each on all sets: how many lists they would change.
    fn note_lists(&mut self, plan: &Plan, last: &[u64]) {
        let mut note = |kind: &'static str| *self.lists.entry(kind).or_default() += 1;
        note("all");
        if !last.is_empty() {
            note("not empty");
        }
        if judged_once(plan) != last {
            note("another one if uses are not judged at the subset");
        }
        let without: Vec<Rule> = plan.rules.iter().map(without_uses).collect();
        if lister::answer_sets(&without, plan.given_atoms()) != last {
            note("another one without the uses");
        }
        if let Some(rules) = written_out(&plan.rules) {
            let others = lister::answer_sets(&rules, plan.given_atoms());
            if others != last {
                note("another one with tables written out as rules");
            }
            if last.iter().any(|position| !others.contains(position)) {
                note("with a position that no such rules have");
            }
        }
    }

    /// Faults at a TABLE or USE, by what is wrong with it.
    fn note_fault(&mut self, bytes: &[u8], refusal: Refusal) {
        let command = &bytes[(refusal.spot as usize).min(bytes.len())..];
        let name = match command.first() {
            Some(&encode::TABLE) => "TABLE",
            Some(&encode::USE) => "USE",
            _ => return,
        };
        let what = match refusal.number {
            18 if command[1..9].iter().map(|byte| byte.count_ones()).sum::<u32>() > 6 => "18, inputs",
            18 => "18, truth bits",
            19 if command[3] > 1 => "19, sign",
            19 if is_repeat(bytes, refusal.spot as usize) => "19, repeat",
            19 => "19, absent",
            2 => "2",
            4 => "4",
            5 => "5",
            _ => "9",
        };
        *self.faults.entry(format!("{} {}", name, what)).or_default() += 1;
    }

    pub fn print(&self) {
        println!("tables, in {} plans that read: {}", self.plans, crate::tally::listed(&self.tables));
        println!("uses: {}", crate::tally::listed(&self.uses));
        println!("last lists of plans with uses: {}", crate::tally::listed(&self.lists));
        println!("faults at a TABLE or USE: {}", crate::tally::listed(&self.faults));
    }
}

/// Do the same four bytes stand among the USEs right before?
fn is_repeat(bytes: &[u8], spot: usize) -> bool {
    let command = &bytes[spot..spot + 4];
    let before = (1..=spot / 4).map(|back| &bytes[spot - 4 * back..][..4]);
    before.take_while(|other| other[0] == encode::USE).any(|other| other == command)
}

fn without_uses(rule: &Rule) -> Rule {
    Rule { uses: Vec::new(), ..rule.clone() }
}

/// The answer sets if uses were judged at the position alone, and erased in the subset test.
fn judged_once(plan: &Plan) -> Vec<u64> {
    let given = plan.given_atoms();
    let is_settled = |position: u64| {
        let rules: Vec<Rule> = plan.rules.iter().filter(|rule| rule.uses_hold(position)).map(without_uses).collect();
        lister::is_answer_set(&rules, given, position)
    };
    let chosen = lister::subsets(lister::head_atoms(&plan.rules) & !given);
    chosen.map(|chosen| chosen | given).filter(|&position| is_settled(position)).collect()
}

/// Rules without tables: one for each row of each table, with its inputs in the body words. None if they are too many.
fn written_out(rules: &[Rule]) -> Option<Vec<Rule>> {
    let mut written = Vec::new();
    for rule in rules {
        let mut bodies = vec![without_uses(rule)];
        for used in &rule.uses {
            let inputs = used.table.input_atoms();
            let rows: Vec<u64> = lister::subsets(inputs).filter(|&up| used.table.answer(up) == used.wanted).collect();
            if rows.len() * bodies.len() > MOST_WRITTEN_OUT {
                return None;
            }
            let with_row = |rule: &Rule, up: u64| Rule {
                positive: rule.positive | up,
                negative: rule.negative | inputs & !up,
                ..rule.clone()
            };
            bodies = bodies.iter().flat_map(|rule| rows.iter().map(move |&up| with_row(rule, up))).collect();
        }
        written.extend(bodies);
    }
    Some(written)
}
