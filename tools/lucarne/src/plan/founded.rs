//! Relays of a position that nothing holds up from outside: what cannot be driven from the keys on, rule by rule.

use crate::plan::bytes;
use crate::plan::program::{Atom, Program, Rule};
use crate::plan::reason::{holds, Position};
use std::collections::{BTreeMap, BTreeSet};

/// The position without relays that only hold each other up, as few of them as there are, if there are any. It keeps every rule whose body holds in
/// the whole one. There may be smaller positions where this finds none: of several relays of a head it takes all for driven.
pub fn without_unfounded(program: &Program, up: &Position) -> Option<Position> {
    let kept: Vec<&Rule> = program.rules.iter().filter(|rule| holds(program, rule, up)).collect();
    let loose: Position = up.difference(&founded(program, &kept, up)).copied().collect();
    let least = least_loop(program, &kept, &loose)?;
    Some(up.difference(&least).copied().collect())
}

/// What is driven step by step, from keys and from bodies that hold over what is driven already.
fn founded(program: &Program, kept: &[&Rule], up: &Position) -> Position {
    let mut founded: Position = bytes::given(program).intersection(up).copied().collect();
    loop {
        let driven = kept.iter().filter(|rule| holds(program, rule, &founded)).flat_map(|rule| rule.head.intersection(up).copied());
        let more: Vec<Atom> = driven.filter(|atom| !founded.contains(atom)).collect();
        if more.is_empty() {
            return founded;
        }
        founded.extend(more);
    }
}

/// Of the loose relays the fewest that look at no other loose ones.
fn least_loop(program: &Program, kept: &[&Rule], loose: &Position) -> Option<Position> {
    let mut looks_at: BTreeMap<Atom, Position> = loose.iter().map(|&atom| (atom, Position::new())).collect();
    for rule in kept {
        let inputs = rule.uses.iter().flat_map(|&(table, _)| program.tables[table].inputs.iter());
        let seen: Position = rule.pos.iter().chain(inputs).copied().filter(|atom| loose.contains(atom)).collect();
        rule.head.iter().for_each(|atom| looks_at.entry(*atom).or_default().extend(&seen));
    }
    loose.iter().map(|&atom| reached(&looks_at, atom)).min_by_key(BTreeSet::len)
}

/// A relay with all that it looks at, however indirectly. The smallest such set is one that looks at nothing outside.
fn reached(looks_at: &BTreeMap<Atom, Position>, atom: Atom) -> Position {
    let (mut reached, mut open) = (Position::new(), vec![atom]);
    while let Some(next) = open.pop() {
        if reached.insert(next) {
            open.extend(looks_at.get(&next).into_iter().flatten());
        }
    }
    reached
}
