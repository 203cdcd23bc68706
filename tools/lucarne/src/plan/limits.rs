//! What a plan holds, said before the library would refuse it, with names and counts.

use crate::read::aspif::{Aspif, RawRule};
use crate::fault::Fault;
use crate::plan::layout::Layout;
use crate::plan::program::{Program, Rule};
use crate::show::html::counted;
use std::collections::BTreeSet;

pub const MAX_ATOMS: usize = 64;
pub const MAX_RULES: usize = 64;
pub const MAX_TABLES: usize = 16;
pub const MAX_USES: usize = 256;
pub const MAX_UNITS: usize = 16;
/// So many ground rules are looked at: simplifying never makes 64 of more.
const MAX_GROUND_RULES: usize = 1000;
/// So often they may look at relays.
const MAX_GROUND_PLACES: usize = 20_000;

/// A ground program that is far too large is refused before it is worked on.
pub fn ground_rules(aspif: &Aspif) -> Result<(), Fault> {
    let width = |rule: &RawRule| rule.body.literals.len().max(rule.body.sums.iter().map(|sum| sum.parts.len()).max().unwrap_or(0));
    if let Some(width) = aspif.rules.iter().map(width).find(|&width| width > MAX_GROUND_RULES) {
        return Err(Fault::new(format!("written out, a rule looks at {} relays; a plan holds {}", width, MAX_ATOMS))
            .hint("narrow the range of a condition or a sum"));
    }
    let places: usize = aspif.rules.iter().map(width).sum();
    if places > MAX_GROUND_PLACES {
        return Err(Fault::new(format!("written out, the rules look at relays {} times; a plan holds {} rules", places, MAX_RULES))
            .hint("split the group, or narrow the ranges of variables"));
    }
    // Facts stand outside the plan, and a choice takes a rule for each relay.
    let rules = aspif.rules.iter().filter(|rule| !rule.is_fact());
    written_rules(rules.map(|rule| if rule.is_choice { rule.heads.len() } else { 1 }).sum())
}

pub fn written_rules(count: usize) -> Result<(), Fault> {
    if count <= MAX_GROUND_RULES {
        return Ok(());
    }
    Err(Fault::new(format!("written out, the sheets have {} rules; a plan holds {}", count, MAX_RULES))
        .hint("split the group, or narrow the ranges of variables"))
}

/// The same for tables: some may be asked by nobody, but not so many.
pub fn written_tables(count: usize) -> Result<(), Fault> {
    if count <= MAX_GROUND_RULES {
        return Ok(());
    }
    Err(Fault::new(format!("the sheets have {} contact tables; a plan holds {}", count, MAX_TABLES)).hint("split the group"))
}

/// Rules, atoms and tables of a program against the most that a plan holds.
pub fn check(program: &Program) -> Result<(), Fault> {
    check_size(program)?;
    check_tables(program)
}

pub fn check_size(program: &Program) -> Result<(), Fault> {
    check_rules(program)?;
    check_atoms(program)
}

fn check_rules(program: &Program) -> Result<(), Fault> {
    if program.rules.len() <= MAX_RULES {
        return Ok(());
    }
    let what = format!("the group has {} rules; a plan holds {}: {}", program.rules.len(), MAX_RULES, by_sheet(program));
    Err(at(&program.rules[MAX_RULES], what).hint("split the group; a choice takes a rule for each relay, and #external keys take none"))
}

fn check_atoms(program: &Program) -> Result<(), Fault> {
    let atoms = program.used_atoms();
    if atoms.len() <= MAX_ATOMS {
        return Ok(());
    }
    let helpers = atoms.iter().filter(|&&atom| program.atoms[atom].is_helper).count();
    let (relays, helpers) = (counted(atoms.len() - helpers, "relay", "relays"), counted(helpers, "helper", "helpers"));
    let what = format!("the group has {} and {}; a plan holds {} together", relays, helpers, MAX_ATOMS);
    let what = format!("{}: {}", what, atoms_by_sheet(program));
    let late: BTreeSet<usize> = atoms[MAX_ATOMS..].iter().copied().collect();
    let rule = program.rules.iter().find(|rule| !late.is_disjoint(&program.looks_at(rule)));
    let fault = rule.map_or_else(|| Fault::new(what.clone()), |rule| at(rule, what.clone()));
    Err(fault.hint("split the group; a relay that is chosen takes two of the 64, and a key (#external) one"))
}

fn check_tables(program: &Program) -> Result<(), Fault> {
    if program.tables.len() > MAX_TABLES {
        let written: Vec<&str> = program.tables.iter().filter(|table| table.is_written).map(|table| table.name.as_str()).collect();
        let sums = program.tables.len() - written.len();
        let what = format!("the group has {} contact tables; a plan holds {}: ", program.tables.len(), MAX_TABLES);
        let own = if written.is_empty() { String::new() } else { format!(", and {} ({})", written.len(), written.join(", ")) };
        let what = format!("{}{} from sums{}", what, sums, own);
        return Err(Fault::new(what).hint("split the group, or write some of them out as rules"));
    }
    let uses: usize = program.rules.iter().map(|rule| rule.uses.len()).sum();
    if uses > MAX_USES {
        let what = format!("the rules ask contact tables {} times; a plan holds {}", uses, MAX_USES);
        return Err(Fault::new(what).hint("drive a helper by a table, and ask the helper"));
    }
    Ok(())
}

pub fn check_units(layout: &Layout) -> Result<(), Fault> {
    if layout.units.len() <= MAX_UNITS {
        return Ok(());
    }
    let names: Vec<&str> = layout.units.iter().map(|unit| unit.name.as_str()).collect();
    let what = format!("the group has {} units; a plan holds {}: {}", names.len(), MAX_UNITS, names.join(", "));
    Err(Fault::new(what).hint("join sheets: put them into one file, give them one %unit, or work all as one: --one-unit"))
}

fn at(rule: &Rule, what: String) -> Fault {
    Fault::new(what).spot(rule.spot.as_ref()).text(&rule.text)
}

/// How many rules each sheet has.
fn by_sheet(program: &Program) -> String {
    let count = |sheet: usize| program.rules.iter().filter(|rule| rule.sheet == Some(sheet)).count();
    let parts: Vec<String> = program.sheets.iter().enumerate().map(|(sheet, name)| format!("{} {}", name, count(sheet))).collect();
    parts.join(", ")
}

/// How many relays and helpers each sheet drives.
fn atoms_by_sheet(program: &Program) -> String {
    let driven = |sheet: usize| {
        program.rules.iter().filter(|rule| rule.sheet == Some(sheet)).flat_map(|rule| rule.head.iter()).collect::<BTreeSet<_>>().len()
    };
    let parts: Vec<String> = program.sheets.iter().enumerate().map(|(sheet, name)| format!("{} drives {}", name, driven(sheet))).collect();
    parts.join(", ")
}
