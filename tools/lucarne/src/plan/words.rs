//! Refusals of plans that came as bytes, each number in words: spot to command to rule to text.

use crate::fault::Fault;
use crate::plan::layout::Layout;
use crate::plan::library::{Refusal, MAX_POSITIONS};
use crate::plan::bytes::{self, Plan, Record};
use crate::plan::program::{Program, Rule};

/// Faults of a command: number, what is wrong with it, what to do.
const COMMAND_FAULTS: [(u64, &str, &str); 12] = [
    (2, "is cut short", "send the rest, or add END (byte 00)"),
    (3, "is no command", "look at the command before it: are its operands complete?"),
    (4, "stands out of order, or a second time", "COUNT comes first, then GIVEN, TABLEs, RULEs, USEs, UNITs, EDGEs, SHOW, END"),
    (5, "is one too many: a plan holds 16 TABLEs, 64 RULEs, 256 USEs, 16 UNITs", "split the group, or join units"),
    (6, "has neither head nor body", "leave it out, or give it a body"),
    (7, "names a rule that is not there", "clear the bits from the count of rules on"),
    (8, "names a unit that is not there, or twice the same, or repeats an edge", "name two different units that are there, once"),
    (9, "bytes stand behind END", "cut the plan at END"),
    (
        18,
        "has over six inputs, or a truth bit past its rows",
        "split the bank, or clear the bits from two to the power of the input count on",
    ),
    (
        19,
        "names a rule or table that is not there, has a sign above 1, or is a repeat",
        "name a rule and a table that are there, once for each sign",
    ),
    (21, "wants an atom both up and dropped", "take the atom out of one word: such a rule can never act"),
    (23, "the plan declares other numbers than it has", "send it again: a command was lost or doubled on the way"),
];

/// Whether a refusal stops the library while it reads the plan's commands.
pub fn is_of_reading(number: u64) -> bool {
    COMMAND_FAULTS.iter().any(|fault| fault.0 == number)
}

/// A plan that was refused.
pub struct Refused<'a> {
    pub path: &'a str,
    pub record: &'a Record,
    pub program: &'a Program,
    pub layout: &'a Layout,
    pub plan: &'a Plan,
}

impl<'a> Refused<'a> {
    pub fn fault(&self, refusal: Refusal) -> Fault {
        let spot = refusal.spot;
        let (what, text, hint) = match refusal.number {
            10..=16 if refusal.number != 12 && refusal.number != 15 => self.of_rule(refusal),
            12 => (
                format!("unit {} depends on itself in a circle", self.unit(spot)),
                String::new(),
                "join the units of the circle, or drop an edge",
            ),
            15 if spot == self.record.units.len() => (
                format!("the plan has more than {} positions that differ in what shows", MAX_POSITIONS),
                String::new(),
                "lucarne next PLAN --all goes through all of them; for a list split the group, give keys, or show fewer atoms",
            ),
            15 => (
                format!("unit {} has more than {} positions", self.unit(spot), MAX_POSITIONS),
                String::new(),
                "lucarne next PLAN --all goes through all of the plan; for a list cut its choices, or put all rules into one unit",
            ),
            _ => self.of_command(refusal),
        };
        Fault::new(format!("{}: {} (refused {} at {})", self.path, what, refusal.number, spot)).text(text).hint(hint)
    }

    /// Faults of reading: the spot is a byte.
    fn of_command(&self, refusal: Refusal) -> (String, String, &'static str) {
        let (spot, (name, number)) = (refusal.spot, self.command_at(refusal.spot));
        let known = COMMAND_FAULTS.iter().find(|fault| fault.0 == refusal.number);
        let &(_, what, hint) = known.unwrap_or(&(0, "is refused", "see the table of refusals in docs/FORMAT.md"));
        let what = match refusal.number {
            2 if spot == self.plan.bytes.len() => format!("the plan ends at byte {}, before its END", spot),
            3 => format!("byte {}: {:02x} {}", spot, self.byte(spot), what),
            7 => format!("byte {}: {} {} {}; there are {}", spot, name, number, what, self.record.rules.len()),
            9 => format!("byte {}: {}", spot, what),
            23 => format!("{}: {}", what, self.declared()),
            _ => format!("byte {}: {} {} {}", spot, name, number, what),
        };
        let text = if refusal.number == 21 { self.rule_text(number) } else { String::new() };
        (what, text, hint)
    }

    /// What the plan declares, beside what was read.
    fn declared(&self) -> String {
        let [rules, units, edges] = self.record.declared.unwrap_or_default();
        let read = [self.record.rules.len(), self.record.units.len(), self.record.edges.len()];
        format!("{} rules, {} units, {} edges in place of {}, {}, {}", rules, units, edges, read[0], read[1], read[2])
    }

    /// Faults of the graph, and given atoms in heads: the spot is a rule.
    fn of_rule(&self, refusal: Refusal) -> (String, String, &'static str) {
        let (text, rule) = (self.rule_text(refusal.spot), refusal.spot);
        let what = match refusal.number {
            10 => format!("rule {} is in no unit", rule),
            11 => format!("rule {} has a head and is in several units: {}", rule, self.units_of(rule)),
            13 => format!(
                "rule {} looks at a dropped relay, or at a table's input, that is driven where its unit {} does not see it",
                rule,
                self.units_of(rule)
            ),
            14 => format!("rule {} shares relays with rules that its unit {} does not see", rule, self.units_of(rule)),
            _ => format!("rule {} drives a given atom", rule),
        };
        let hint = match refusal.number {
            10 => "put it into one",
            11 => "keep it in one",
            13 => "add the direct edge",
            14 => "add the direct edges to one unit that holds it",
            _ => "give the atom or derive it, not both",
        };
        (what, text, hint)
    }

    fn byte(&self, at: usize) -> u8 {
        self.plan.bytes.get(at).copied().unwrap_or(0)
    }

    /// The name of the command at a byte, and which one of its kind it is, from 0.
    fn command_at(&self, at: usize) -> (&'static str, usize) {
        let name = match self.byte(at) {
            bytes::COUNT => "COUNT",
            bytes::GIVEN => "GIVEN",
            bytes::TABLE => "TABLE",
            bytes::RULE => "RULE",
            bytes::USE => "USE",
            bytes::UNIT => "UNIT",
            bytes::EDGE => "EDGE",
            bytes::SHOW => "SHOW",
            _ => "END",
        };
        let before = self.record.offsets.iter().filter(|&&offset| offset < at && self.byte(offset) == self.byte(at));
        (name, before.count())
    }

    fn rule_text(&self, rule: usize) -> String {
        self.program.rules.get(rule).map_or(String::new(), |rule: &Rule| rule.text.clone())
    }

    fn unit(&self, unit: usize) -> String {
        self.layout.units.get(unit).map_or(unit.to_string(), |unit| unit.name.clone())
    }

    fn units_of(&self, rule: usize) -> String {
        let units: Vec<&str> = self.layout.units.iter().filter(|unit| unit.rules.contains(&rule)).map(|unit| unit.name.as_str()).collect();
        units.join(", ")
    }
}
