//! Plans as files: the bytes, and the names beside them, so that lists of numbers can be read later.

use crate::fault::Fault;
use crate::plan::group::Group;
use crate::plan::bytes::{self, Plan, Record};
use crate::plan::library;
use crate::plan::program::{Key, Program, Rule, Setting, Table};
use crate::plan::words;
use crate::read::sources;
use std::collections::{BTreeMap, BTreeSet};
use std::fs::{self, File};
use std::io::Read;
use std::path::{Path, PathBuf};

const FIRST_LINE: &str = "lucarne names 1";

/// X.names for X.plan.
pub fn names_path(plan: &Path) -> PathBuf {
    plan.with_extension("names")
}

/// Refuses to write names over a file that is there and holds none.
pub fn check_names(path: &Path) -> Result<(), Fault> {
    let mut start = vec![0; FIRST_LINE.len()];
    if fs::symlink_metadata(path).is_err() {
        return Ok(());
    }
    let read = File::open(path).and_then(|mut file| file.read_exact(&mut start));
    if read.is_ok() && start == FIRST_LINE.as_bytes() {
        return Ok(());
    }
    let what = format!("{} is there, and holds no names of a plan: they would be written over it", path.display());
    Err(Fault::new(what).hint("give the plan another name: its names go to a file of the same name that ends in .names"))
}

/// A sum over the bytes (FNV-1a), by which names are known to belong to a plan.
pub fn sum(bytes: &[u8]) -> u64 {
    bytes.iter().fold(0xcbf2_9ce4_8422_2325, |sum: u64, &byte| (sum ^ u64::from(byte)).wrapping_mul(0x0000_0100_0000_01b3))
}

/// The names of a group's plan, a line for each thing, parts between tabs.
pub fn names(group: &Group) -> String {
    let program = &group.program;
    let mut lines = vec![FIRST_LINE.to_string(), format!("sum\t{:016x}", sum(&group.plan.bytes))];
    for (bit, &atom) in group.plan.atoms.iter().enumerate() {
        let kind = if program.atoms[atom].is_helper { "helper" } else { "relay" };
        let label = program.labels.get(program.name(atom)).map_or(String::new(), |label| format!("\t{}", label));
        lines.push(format!("{}\t{}\t{}{}", kind, bit, program.name(atom), label));
    }
    let keys = program.keys.keys().filter(|&&atom| !program.atoms[atom].is_helper);
    lines.extend(keys.map(|&atom| format!("key\t{}\t{}", group.plan.bit(atom).unwrap_or(0), program.name(atom))));
    lines.extend(program.tables.iter().enumerate().map(|(number, table)| format!("table\t{}\t{}", number, table.name)));
    lines.extend(group.layout.units.iter().enumerate().map(|(number, unit)| format!("unit\t{}\t{}", number, unit.name)));
    lines.extend(
        program
            .rules
            .iter()
            .enumerate()
            .map(|(number, rule)| format!("rule\t{}\t{}\t{}", number, rule.place(), rule.text.replace('\t', " "))),
    );
    // What shows of a plan's facts stands in no byte of it.
    lines.extend(group.shown_always().iter().map(|name| format!("always\t\t{}", name)));
    lines.join("\n") + "\n"
}

/// What a file of names says: for each kind and number a name and a further part.
#[derive(Default)]
pub struct Names {
    parts: BTreeMap<(String, usize), (String, String)>,
    always: Vec<String>,
}

impl Names {
    /// The names beside a plan; none where there is no such file.
    pub fn beside(path: &Path, bytes: &[u8]) -> Result<Names, Fault> {
        let file = names_path(path);
        if !file.exists() {
            return Ok(Names::default());
        }
        let text = sources::to_text(&file.to_string_lossy(), sources::read_bytes(&file)?)?;
        let stale = || {
            Fault::new(format!("{} holds the names of another plan than {}", file.display(), path.display()))
                .hint("write both anew by lucarne compile, or take the names away")
        };
        let mut lines = text.lines();
        if lines.next() != Some(FIRST_LINE) || lines.next() != Some(format!("sum\t{:016x}", sum(bytes)).as_str()) {
            return Err(stale());
        }
        let mut names = Names::default();
        for line in lines {
            let parts: Vec<&str> = line.splitn(4, '\t').collect();
            match parts.as_slice() {
                ["always", _, name] => names.always.push(name.to_string()),
                [kind, number, name, rest @ ..] => {
                    let number = number.parse().map_err(|_| stale())?;
                    if *kind == "relay" && names.parts.iter().any(|((other, _), (known, _))| other == kind && known == name) {
                        return Err(stale());
                    }
                    names.parts.insert((kind.to_string(), number), (name.to_string(), rest.join("\t")));
                }
                _ => return Err(stale()),
            }
        }
        Ok(names)
    }

    fn get(&self, kind: &str, number: usize) -> Option<&(String, String)> {
        self.parts.get(&(kind.to_string(), number))
    }

    pub fn unit(&self, number: usize) -> String {
        self.get("unit", number).map_or(format!("unit{}", number), |(name, _)| name.clone())
    }
}

/// The program that a plan's bytes say; relays without a name are a0 to a63.
pub fn program_of(record: &Record, names: &Names) -> (Program, Plan) {
    let mut program = Program::new((0..record.units.len()).map(|unit| names.unit(unit)).collect());
    program.always = names.always.clone();
    let mut atoms = Vec::new();
    for bit in 0..64 {
        atoms.push(match (names.get("relay", bit), names.get("helper", bit)) {
            (Some((name, label)), _) => {
                if !label.is_empty() {
                    program.labels.insert(name.clone(), label.clone());
                }
                program.atom(name)
            }
            (None, Some((name, _))) => program.helper(name.trim_start_matches('~')),
            (None, None) if names.parts.is_empty() => program.atom(&format!("a{}", bit)),
            (None, None) => program.helper(&format!("bit{}", bit)),
        });
    }
    let plan = Plan { atoms, bytes: Vec::new() };
    let keys = (0..64).filter(|bit| record.given >> bit & 1 == 1 || names.get("key", *bit).is_some());
    for bit in keys {
        let setting = if record.given >> bit & 1 == 1 { Setting::Turned } else { Setting::Released };
        program.keys.insert(plan.atoms[bit], Key { setting, sheet: None, spot: None });
    }
    program.tables = record.tables.iter().enumerate().map(|(number, table)| table_of(&plan, names, number, table)).collect();
    add_rules(&mut program, &plan, record, names);
    if let Some(show) = record.show {
        let shown: BTreeSet<_> = plan.up(show).into_iter().collect();
        program.hidden = plan.atoms.iter().copied().filter(|atom| !shown.contains(atom)).collect();
    }
    (program, plan)
}

fn table_of(plan: &Plan, names: &Names, number: usize, &(inputs, truth): &(u64, u64)) -> Table {
    let name = names.get("table", number).map_or(format!("t{}", number), |(name, _)| name.clone());
    Table { name, spot: None, inputs: plan.up(inputs), rows: truth, is_written: true }
}

fn add_rules(program: &mut Program, plan: &Plan, record: &Record, names: &Names) {
    for (number, &[head, pos, neg]) in record.rules.iter().enumerate() {
        let uses = record.uses.iter().filter(|one| usize::from(one[0]) == number && usize::from(one[1]) < program.tables.len());
        let word = |word: u64| plan.up(word).into_iter().collect();
        let mut rule = Rule {
            head: word(head),
            pos: word(pos),
            neg: word(neg),
            uses: uses.map(|one| (usize::from(one[1]), one[2] == 0)).collect(),
            ..Rule::default()
        };
        rule.sheet = record.units.iter().position(|unit| unit >> number & 1 == 1);
        rule.text = match names.get("rule", number) {
            Some((place, text)) => format!("{}   ({})", text, place),
            None => program.written(&rule),
        };
        rule.number = Some(number);
        program.rules.push(rule);
    }
}

/// The bytes of a plan as a program with its layout. Whether they are a plan is the library's to say.
pub fn read(path: &Path, bytes: Vec<u8>) -> Result<(Program, Plan, Record, Names), Fault> {
    let names = Names::beside(path, &bytes)?;
    let record = bytes::decode(&bytes);
    if record.unread.is_some() {
        let taken = library::next(&bytes, None);
        record.account(&path.to_string_lossy(), &bytes, taken.map_or_else(|refusal| !words::is_of_reading(refusal.number), |_| true))?;
    }
    let (program, plan) = program_of(&record, &names);
    Ok((program, Plan { bytes, ..plan }, record, names))
}
