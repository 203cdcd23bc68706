//! What a group's sheets say to clingo, for which directives are comments: keys of `%given` are not turned, and contact tables are never true.

use crate::plan::group::{Group, Options, Origin};
use crate::plan::layout::Circles;
use crate::plan::program::{Atom, Key, Program, Setting};
use crate::read::reader::{Grounding, Turns};
use crate::read::text::statements::Sheets;
use std::collections::BTreeSet;

type Names = BTreeSet<String>;

/// What clingo does not hear of, if without it the list is this one on the told relays: positions by the names that are up.
pub fn explains(group: &Group, told: &Names, theirs: &BTreeSet<Names>) -> Option<String> {
    let sheets = match &group.origin {
        Origin::Sheets(sheets) => sheets,
        _ => return None,
    };
    let (keys, tables) = (turned(&group.program, sheets), written(&group.program));
    let ways = [(true, false), (false, true), (true, true)];
    let fitting = ways.iter().filter(|(by_keys, by_tables)| (!keys.is_empty() || !by_keys) && (!tables.is_empty() || !by_tables));
    let found = fitting.into_iter().find(|(by_keys, by_tables)| {
        let mut program = group.program.clone();
        if *by_keys {
            keys.iter().filter_map(|name| program.find(name)).collect::<Vec<_>>().iter().for_each(|atom| release(&mut program, *atom));
        }
        if *by_tables {
            forget_tables(&mut program);
        }
        list(program, told).as_ref() == Some(theirs)
    })?;
    let mut what = Vec::new();
    what.extend(Some(format!("without the given keys ({})", keys.join(", "))).filter(|_| found.0));
    what.extend(Some(format!("without the contact tables ({})", tables.join(", "))).filter(|_| found.1));
    Some(what.join(" and "))
}

/// The keys that are turned by a directive or on the command line, and not by `#external NAME. [true]`.
fn turned(program: &Program, sheets: &Sheets) -> Vec<String> {
    let is_heard = |key: &Key| {
        let own = sheets.statements.iter().find(|statement| key.spot.as_ref() == Some(statement.spot()));
        own.map_or(false, |statement| statement.tokens.iter().any(|token| token.is("true")))
    };
    let turned = program.keys.iter().filter(|(_, key)| key.setting == Setting::Turned && !is_heard(key));
    turned.filter(|(&atom, _)| !program.atoms[atom].is_helper).map(|(&atom, _)| program.name(atom).to_string()).collect()
}

fn release(program: &mut Program, atom: Atom) {
    program.keys.entry(atom).and_modify(|key| key.setting = Setting::Released);
}

fn written(program: &Program) -> Vec<String> {
    program.tables.iter().filter(|table| table.is_written).map(|table| table.name.clone()).collect()
}

/// A table that nothing drives is false: rules that want it true never act.
fn forget_tables(program: &mut Program) {
    let is_written: Vec<bool> = program.tables.iter().map(|table| table.is_written).collect();
    program.rules.retain(|rule| !rule.uses.iter().any(|&(table, wanted)| is_written[table] && wanted));
    program.rules.iter_mut().for_each(|rule| rule.uses.retain(|&(table, _)| !is_written[table]));
    let up = program.atoms.iter().position(|atom| atom.is_helper && atom.name == "~up");
    // A constraint over tables alone needs a helper that is up.
    for rule in program.rules.iter_mut().filter(|rule| rule.head.is_empty() && rule.pos.is_empty() && rule.neg.is_empty()) {
        rule.pos.extend(up);
    }
}

/// The list by the names of the told relays.
fn list(mut program: Program, told: &Names) -> Option<BTreeSet<Names>> {
    program.shows = None;
    program.hidden = (0..program.atoms.len()).filter(|&atom| !told.contains(program.name(atom))).collect();
    let options =
        Options { paths: Vec::new(), grounding: Grounding::Auto, circles: Circles::Join, one_unit: true, turns: Turns::default() };
    let mut group = Group::of(String::new(), program, Origin::Ground(String::new()), &options).ok()?;
    group.list().ok()?;
    let names = |&position: &u64| group.plan.up(position).into_iter().map(|atom| group.program.name(atom).to_string());
    Some(group.listing.positions.iter().map(|position| names(position).filter(|name| told.contains(name)).collect()).collect())
}
