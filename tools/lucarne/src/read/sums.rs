//! Sums over relays as contact tables. Over at most six relays one table does; over more, tables over some of them tell by helpers which of the sums that
//! matter was reached, until six are left.
//!
//! What stands for relays is a digit: bits, each a relay or a helper, and the value of each code. Two sums of a group of digits are of one class where no
//! sum of the others tells them apart; a group is replaced by a digit with a code for each class. Such helpers say what holds at a position, and may not
//! hang on what the rule drives. Where they would, a helper is up from a class on (`Code::Rising`): nothing falls then by what is raised.

use crate::plan::program::Atom;
use crate::read::values::{holds_at, Values};
use std::collections::{BTreeMap, BTreeSet};

pub use crate::read::text::directives::MAX_INPUTS;

/// A relay, whether it counts up or dropped, and its weight.
pub type Part = (Atom, bool, i64);

/// How helpers tell a class: by its number in binary, or one from each class on.
#[derive(Clone, Copy, Debug, PartialEq, Eq)]
pub enum Code {
    Binary,
    Rising,
}

/// More sums than these are not told apart.
const MOST_SUMS: usize = 5000;

/// Tables by wires: those of the relays first, in their order, then one for each step.
#[derive(Clone, Debug)]
pub struct Network {
    /// The wires that a helper reads, and the rows in which it is up.
    pub steps: Vec<(Vec<usize>, u64)>,
    /// The wires that are left, and for each question the rows in which it holds.
    pub inputs: Vec<usize>,
    pub answers: Vec<u64>,
}

impl Network {
    /// How many tables it takes, at most.
    pub fn cost(&self) -> usize {
        self.steps.len() + self.answers.len()
    }
}

/// Wires, and the value of each code: bit k of a code is the k-th wire.
#[derive(Clone, Debug, PartialEq, Eq)]
struct Digit {
    wires: Vec<usize>,
    values: Vec<i64>,
}

/// The relays of a sum, each once, with what it adds dropped and up.
pub fn relays(parts: &[Part]) -> Vec<(Atom, i64, i64)> {
    let mut values: BTreeMap<Atom, (i64, i64)> = BTreeMap::new();
    for &(atom, up, weight) in parts {
        let value = values.entry(atom).or_default();
        *(if up { &mut value.1 } else { &mut value.0 }) += weight;
    }
    values.into_iter().map(|(atom, (dropped, up))| (atom, dropped, up)).collect()
}

/// Tables that tell whether the sum has one of these values, for each question; none where the sum cannot be split so.
pub fn network(relays: &[(Atom, i64, i64)], questions: &[Values], code: Code) -> Option<Network> {
    let mut digits: Vec<Digit> =
        relays.iter().enumerate().map(|(wire, &(_, dropped, up))| Digit { wires: vec![wire], values: vec![dropped, up] }).collect();
    let (mut steps, mut wires) = (Vec::new(), relays.len());
    while bits(&digits) > MAX_INPUTS {
        digits.sort_by_key(|digit| (std::cmp::Reverse(digit.wires.len()), digit.values.iter().map(|value| value.abs()).max(), digit.wires[0]));
        let group = best_group(&digits, questions, code)?;
        let (inputs, rows, values) = joined(&digits[group.from..group.to], &group.classes, code);
        digits.drain(group.from..group.to);
        digits.push(Digit { wires: (wires..wires + rows.len()).collect(), values });
        wires += rows.len();
        steps.extend(rows.into_iter().map(|row| (inputs.clone(), row)));
    }
    let inputs: Vec<usize> = digits.iter().flat_map(|digit| digit.wires.iter().copied()).collect();
    let answers = questions.iter().map(|values| rows_where(&digits, |sum| holds_at(values, sum))).collect();
    Some(Network { steps, inputs, answers })
}

fn bits(digits: &[Digit]) -> usize {
    digits.iter().map(|digit| digit.wires.len()).sum()
}

/// Neighbours among the digits, and the class of each of their sums.
struct Group {
    from: usize,
    to: usize,
    classes: BTreeMap<i64, usize>,
}

/// The group that takes the fewest tables, of those that leave at most six wires; else the one that saves most for each table.
fn best_group(digits: &[Digit], questions: &[Values], code: Code) -> Option<Group> {
    let wanted = bits(digits) - MAX_INPUTS;
    let mut best: Option<((bool, usize, usize), Group)> = None;
    for from in 0..digits.len() {
        for to in from + 1..=digits.len() {
            let before = bits(&digits[from..to]);
            let is_like = from > 0 && to < digits.len() && digits[from - 1].values == digits[to - 1].values; // one of these is enough
            if before > MAX_INPUTS || is_like {
                continue;
            }
            let classes = classes(digits, from, to, questions)?;
            let after = width(&classes, code);
            let saved = before.saturating_sub(after);
            if saved == 0 {
                continue;
            }
            let worth = if saved >= wanted { (true, 99 - after, saved) } else { (false, 100 * saved / after.max(1), saved) };
            if best.as_ref().map_or(true, |(other, _)| worth > *other) {
                best = Some((worth, Group { from, to, classes }));
            }
        }
    }
    best.map(|(_, group)| group)
}

/// How many helpers tell the classes apart.
fn width(classes: &BTreeMap<i64, usize>, code: Code) -> usize {
    let count = classes.values().max().map_or(0, |last| last + 1);
    match code {
        Code::Binary => (0..).find(|&bits| 1usize << bits >= count).unwrap_or(0),
        Code::Rising => count - 1,
    }
}

/// The class of each sum of a group, numbered in the order of sums; none where there are too many sums.
fn classes(digits: &[Digit], from: usize, to: usize, questions: &[Values]) -> Option<BTreeMap<i64, usize>> {
    let others: Vec<&Digit> = digits[..from].iter().chain(&digits[to..]).collect();
    let (inner, outer) = (sums(&digits[from..to].iter().collect::<Vec<_>>())?, sums(&others)?);
    let mut known: Vec<Vec<bool>> = Vec::new();
    let mut classes = BTreeMap::new();
    for sum in inner {
        let told: Vec<bool> = questions.iter().flat_map(|values| outer.iter().map(move |rest| holds_at(values, sum + rest))).collect();
        let class = known.iter().position(|other| *other == told).unwrap_or_else(|| {
            known.push(told);
            known.len() - 1
        });
        classes.insert(sum, class);
    }
    Some(classes)
}

/// All that these digits can be together.
fn sums(digits: &[&Digit]) -> Option<BTreeSet<i64>> {
    let mut found: BTreeSet<i64> = Some(0).into_iter().collect();
    for digit in digits {
        found = found.iter().flat_map(|sum| digit.values.iter().map(move |value| sum + value)).collect();
        if found.len() > MOST_SUMS {
            return None;
        }
    }
    Some(found)
}

/// The rows in which the sum of the digits is as wanted; bit k of a row's number is the k-th wire.
fn rows_where(digits: &[Digit], is_wanted: impl Fn(i64) -> bool) -> u64 {
    (0..1usize << bits(digits)).filter(|&row| is_wanted(sum_of(digits, row))).fold(0, |word, row| word | 1 << row)
}

fn sum_of(digits: &[Digit], row: usize) -> i64 {
    let mut shift = 0;
    digits.iter().fold(0, |sum, digit| {
        let code = row >> shift & ((1 << digit.wires.len()) - 1);
        shift += digit.wires.len();
        sum + digit.values[code]
    })
}

/// The wires of a group, the rows of each of its helpers, and the value of each code.
fn joined(group: &[Digit], classes: &BTreeMap<i64, usize>, code: Code) -> (Vec<usize>, Vec<u64>, Vec<i64>) {
    let inputs = group.iter().flat_map(|digit| digit.wires.iter().copied()).collect();
    let width = width(classes, code);
    // The lowest sum of a class stands for it.
    let mut lowest: Vec<i64> = Vec::new();
    classes.iter().for_each(|(&sum, &class)| lowest.extend(Some(sum).filter(|_| class == lowest.len())));
    let rows = |is_turned: bool| -> Vec<u64> {
        let is_up = |class: usize, bit: usize| match code {
            Code::Binary => (class >> bit & 1 == 1) != is_turned,
            Code::Rising => class > bit,
        };
        (0..width).map(|bit| rows_where(group, |sum| is_up(classes[&sum], bit))).collect()
    };
    // A helper that is up in one row alone needs no table.
    let is_turned = code == Code::Binary && width == 1 && rows(true)[0].count_ones() == 1;
    let class_of = |row: usize| match code {
        Code::Binary => row ^ usize::from(is_turned),
        Code::Rising => (0..width).rev().find(|bit| row >> bit & 1 == 1).map_or(0, |bit| bit + 1),
    };
    let values = (0..1 << width).map(|row| lowest[class_of(row).min(lowest.len() - 1)]).collect();
    (inputs, rows(is_turned), values)
}
