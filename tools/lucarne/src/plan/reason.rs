//! Why a position is not settled, in a planner's words: a rule that it breaks, or relays that nothing holds up.

use crate::plan::founded;
use crate::plan::group::Group;
use crate::plan::bytes;
use crate::plan::program::{Atom, Program, Rule};
use std::collections::{BTreeSet, VecDeque};

/// So many smaller positions are looked at for the one that keeps all rules.
const MOST_TRIED: usize = 5000;

pub type Position = BTreeSet<Atom>;

/// Whether the body of a rule holds.
pub fn holds(program: &Program, rule: &Rule, up: &Position) -> bool {
    let answer = |table: usize| {
        let table = &program.tables[table];
        let row = table.inputs.iter().enumerate().fold(0, |row, (k, atom)| row | usize::from(up.contains(atom)) << k);
        table.rows >> row & 1 == 1
    };
    rule.pos.is_subset(up) && rule.neg.is_disjoint(up) && rule.uses.iter().all(|&(table, wanted)| answer(table) == wanted)
}

/// The position of these relays with its helpers: each is up where a rule for it holds and no other relay of its head is up.
pub fn complete(group: &Group, relays: &Position) -> Position {
    let program = &group.program;
    let fixed: Position = relays.iter().copied().chain(bytes::given(program)).collect();
    let mut up = fixed.clone();
    for _ in 0..=program.rules.len() {
        let held = program.rules.iter().filter(|rule| holds(program, rule, &up) && rule.head.is_disjoint(relays));
        let helpers = held.flat_map(|rule| rule.head.iter().copied()).filter(|&atom| program.atoms[atom].is_helper);
        let next: Position = fixed.iter().copied().chain(helpers).collect();
        if next == up {
            break;
        }
        up = next;
    }
    up
}

/// What is wrong with a position, given with its helpers, that the library does not call settled.
pub fn why_not(group: &Group, up: &Position) -> String {
    let program = &group.program;
    if let Some(key) = wrong_key(program, up) {
        return key;
    }
    let broken = program.rules.iter().find(|rule| is_broken(program, rule, up));
    if let Some(rule) = broken {
        let does = if rule.head.is_empty() { "forbids it" } else { "is not kept" };
        return format!("{} {}: {}", rule.place(), does, rule.text);
    }
    match founded::without_unfounded(program, up).or_else(|| smaller(program, up)) {
        Some(less) => unheld(group, up, &less),
        None => "a smaller position keeps all rules".to_string(),
    }
}

/// A key that is not as it is set.
fn wrong_key(program: &Program, up: &Position) -> Option<String> {
    let given = bytes::given(program);
    let turned = given
        .iter()
        .find(|atom| !up.contains(atom))
        .map(|&atom| format!("the key {} is turned: it is up in every position", program.label(atom)));
    let released = up.iter().find(|atom| program.keys.contains_key(atom) && !given.contains(atom));
    turned.or_else(|| released.map(|&atom| format!("the key {} is released: it is dropped in every position", program.label(atom))))
}

fn is_broken(program: &Program, rule: &Rule, up: &Position) -> bool {
    holds(program, rule, up) && rule.head.is_disjoint(up)
}

/// A smaller position that keeps every rule whose body holds in this one. It is searched for from the top, so few relays are missing in it.
fn smaller(program: &Program, up: &Position) -> Option<Position> {
    let kept: Vec<&Rule> = program.rules.iter().filter(|rule| holds(program, rule, up)).collect();
    let given = bytes::given(program);
    let without = |position: &Position, atom: &Atom| position.iter().copied().filter(|other| other != atom).collect::<Position>();
    let mut open: VecDeque<Position> = up.difference(&given).map(|atom| without(up, atom)).collect();
    let mut seen: BTreeSet<Position> = open.iter().cloned().collect();
    while let Some(position) = open.pop_front() {
        let broken = kept.iter().find(|rule| is_broken(program, rule, &position));
        let rule = match broken {
            Some(rule) => rule,
            None => return Some(position),
        };
        let looked_at: Position =
            program.looks_at(rule).into_iter().filter(|atom| position.contains(atom) && !given.contains(atom)).collect();
        for atom in looked_at {
            let next = without(&position, &atom);
            if seen.len() < MOST_TRIED && seen.insert(next.clone()) {
                open.push_back(next);
            }
        }
    }
    None
}

fn unheld(group: &Group, up: &Position, less: &Position) -> String {
    let program = &group.program;
    let loose: Vec<Atom> = up.difference(less).copied().filter(|&atom| !program.atoms[atom].is_helper).collect();
    let names: Vec<&str> = loose.iter().map(|&atom| program.label(atom)).collect();
    let drives = |rule: &Rule, atom: &Atom| rule.head.contains(atom) && holds(program, rule, up);
    let has_driver = |atom: &Atom| program.rules.iter().any(|rule| drives(rule, atom));
    let alone = |atom: &Atom| program.rules.iter().any(|rule| drives(rule, atom) && rule.head.intersection(up).count() == 1);
    match names.as_slice() {
        [] => "a smaller position keeps all rules".to_string(),
        [name] if loose.iter().any(alone) => format!("{} only holds itself up", name),
        [name] => format!("nothing holds up {}", name),
        [first @ .., last] if loose.iter().any(has_driver) => format!("{} and {} only hold each other up", first.join(", "), last),
        [first @ .., last] => format!("nothing holds up {} and {}", first.join(", "), last),
    }
}
