//! Sheets to a program: by the reader for ground text where it can, otherwise by gringo. Both hand over the same record.

use crate::read::aspif;
use crate::fault::{Fault, Spot};
use crate::read::gringo::{self, Lines};
use crate::plan::held;
use crate::plan::limits;
use crate::near;
use crate::plan::program::{signature, Atom, Key, Program, Rule, Setting, Table};
use crate::read::simplify::{join_rules, simplify};
use crate::read::text::ground::{self, Ground, GroundRule, Head, Stop};
use crate::read::text::shapes::constants;
use crate::read::text::statements::{Sheets, Statement};
use crate::read::text::tokens::Kind;
use crate::read::text::traps;
use crate::read::translate::{translate, Origins};
use std::collections::{BTreeMap, BTreeSet};
use std::sync::Arc;

/// Who reads the sheets: the ground reader where it can, gringo in any case, or never gringo. `Lineless` is for tests: gringo, and no rule has a line.
#[derive(Clone, Copy, Debug, PartialEq, Eq)]
pub enum Grounding {
    Auto,
    Always,
    Never,
    Lineless,
}

/// What the command line sets: keys, by name or label, against what the sheets say, and constants (NAME=VALUE).
#[derive(Clone, Debug, Default)]
pub struct Turns {
    pub turn: Vec<String>,
    pub release: Vec<String>,
    pub constants: Vec<String>,
}

/// The program of all sheets.
pub fn read_sheets(sheets: &Sheets, grounding: Grounding, turns: &Turns) -> Result<Program, Fault> {
    let mut program = Program::new(sheets.names.clone());
    program.shows = sheets.shows.clone();
    program.notes = sheets.notes.clone();
    program.notes.extend(traps::semicolons(sheets));
    add_tables(&mut program, sheets)?;
    let read = read_ground(sheets, &program, turns)?;
    let is_own = match (read, grounding) {
        (Ok(rules), Grounding::Auto | Grounding::Never) => {
            limits::written_rules(rules.iter().map(|(_, ground)| rules_of(ground)).sum())?;
            add_ground(&mut program, rules);
            true
        }
        (Err(asked), Grounding::Never) => return Err(asked.fault()),
        (read, _) => {
            let lines = if grounding == Grounding::Lineless { Lines::Leave } else { Lines::Find };
            let doubts = read.err().map_or(Vec::new(), |asked| asked.doubts);
            gringo::ground(&mut program, sheets, &given(sheets, turns), lines, &turns.constants, doubts)?;
            false
        }
    };
    set_keys(&mut program, sheets, turns)?;
    if is_own {
        add_opposites(&mut program); // gringo adds them itself
    }
    finish(&mut program, sheets)?;
    limits::check_size(&program)?; // so that no more are told of than a plan holds
    note_undriven(&mut program);
    held::note(&mut program);
    Ok(program)
}

/// Why gringo is asked: a statement that is its own, and statements that it may know or that have a slip.
struct Asked {
    larger: Option<Fault>,
    doubts: Vec<Fault>,
}

impl Asked {
    /// What to say where gringo is not to be asked.
    fn fault(self) -> Fault {
        let larger = self.larger.filter(|_| self.doubts.is_empty());
        larger.or_else(|| Fault::all(self.doubts).err()).unwrap_or_else(|| {
            Fault::new("a constant that is set on the command line asks for grounding").hint("let gringo do it: leave out --ground never")
        })
    }
}

/// What directives and the command line give, by name: no rule needs to drive it.
fn given(sheets: &Sheets, turns: &Turns) -> Vec<String> {
    let spot = Spot { file: Arc::from("--turn"), line: 1, column: 1 };
    let called = |name: &String| sheets.labels.iter().find(|label| label.label == *name).map_or(name.clone(), |label| label.atom.clone());
    let turned = turns.turn.iter().chain(&turns.release).map(called).filter(|name| ground::atom_of(name, &spot).is_ok());
    sheets.given.iter().map(|(atom, _)| atom.clone()).chain(turned).collect()
}

/// A program in the ground format of gringo, as one unit.
pub fn read_aspif(file: &str, text: &str, turns: &Turns) -> Result<Program, Fault> {
    let mut aspif = aspif::read(file, text)?;
    if aspif.is_empty() {
        return Err(Fault::new("the ground program is empty").hint("did gringo stop with an error?"));
    }
    limits::ground_rules(&aspif)?;
    simplify(&mut aspif);
    join_rules(&mut aspif);
    let mut program = Program::new(vec!["input".to_string()]);
    translate(&mut program, &aspif, Origins::Lines(file))?;
    program.always.append(&mut aspif.always);
    program.notes.append(&mut aspif.notes);
    for (atom, setting) in &aspif.externals {
        match aspif.names.get(atom) {
            Some(name) => program.add_key(name, Key { setting: *setting, sheet: Some(0), spot: None }),
            None if *setting == Setting::Released => {} // nothing drives it, so it is dropped in any case
            None => {
                return Err(
                    Fault::new(format!("the external atom {} of the ground program has no name", atom)).hint("show it: #show NAME/0.")
                )
            }
        }
    }
    turn_keys(&mut program, turns)?;
    settle_keys(&mut program)?;
    hold_bare_constraints(&mut program);
    limits::check_size(&program)?;
    note_undriven(&mut program);
    held::note(&mut program);
    Ok(program)
}

fn add_tables(program: &mut Program, sheets: &Sheets) -> Result<(), Fault> {
    limits::written_tables(sheets.tables.len())?;
    for table in &sheets.tables {
        let is_table = |name: &str| sheets.tables.iter().any(|other| other.name == name);
        if let Some((input, spot)) = table.inputs.iter().find(|(input, _)| is_table(input)) {
            return Err(Fault::at(spot, format!("{} is a contact table, and no input of another", input))
                .hint(format!("drive a helper by it, h :- {}, and read the helper", input)));
        }
        if let Some(before) = program.tables.iter().find(|before| before.name == table.name) {
            let first = before.spot.as_ref().map_or(String::new(), |spot| spot.line());
            return Err(Fault::at(&table.spot, format!("the table {} stands here a second time; first in {}", table.name, first))
                .hint("give it another name"));
        }
        let inputs = table.inputs.iter().map(|(input, _)| program.atom(input)).collect();
        program.tables.push(Table { name: table.name.clone(), spot: Some(table.spot.clone()), inputs, rows: table.rows, is_written: true });
    }
    Ok(())
}

type Read<'a> = Vec<(&'a Statement, Ground)>;

/// All statements by the ground reader, or why gringo is asked. What is wrong in any case is told at once, all of it.
fn read_ground<'a>(sheets: &'a Sheets, program: &Program, turns: &Turns) -> Result<Result<Read<'a>, Asked>, Fault> {
    let is_larger = |statement: &Statement| statement.tokens.iter().any(|token| matches!(token.kind, Kind::Variable | Kind::Range));
    // Where gringo reads the sheets, nothing is wrong in a fact but that it drives a table.
    let passes_facts = program.tables.is_empty() && sheets.statements.iter().any(is_larger);
    match read_statements(sheets, program, passes_facts, turns)? {
        Ok(_) if passes_facts => read_statements(sheets, program, false, turns),
        read => Ok(read),
    }
}

fn read_statements<'a>(
    sheets: &'a Sheets,
    program: &Program,
    passes_facts: bool,
    turns: &Turns,
) -> Result<Result<Read<'a>, Asked>, Fault> {
    let is_table = |name: &str| program.tables.iter().any(|table| table.name == name);
    let (mut read, mut larger, mut faults, mut doubts) = (Vec::new(), None, Vec::new(), Vec::new());
    let constants = constants(&sheets.statements, &turns.constants);
    for statement in sheets.statements.iter().filter(|statement| !(passes_facts && statement.is_plain_fact())) {
        if let Some(fault) = traps::misread(statement, &constants) {
            faults.push(fault);
            continue;
        }
        match ground::read(statement, &is_table) {
            Ok(ground) => read.push((statement, ground)),
            Err(Stop::Wrong(fault)) => faults.push(fault),
            Err(Stop::Doubtful(fault)) => doubts.push(fault),
            Err(Stop::Large(spot, what)) => {
                let fault = Fault::at(&spot, format!("{} asks for grounding", what)).text(statement.text());
                larger.get_or_insert_with(|| fault.hint("write the rules out, or let gringo do it: leave out --ground never"));
            }
        }
    }
    faults.extend(set_twice(&read));
    if !faults.is_empty() {
        faults.append(&mut doubts);
        faults.sort_by(|one, other| one.spot.cmp(&other.spot));
    }
    Fault::all(faults)?;
    let larger = larger.or_else(|| shared_choice(&read));
    let is_read = larger.is_none() && doubts.is_empty() && turns.constants.is_empty();
    Ok(if is_read { Ok(read) } else { Err(Asked { larger, doubts }) })
}

/// Two settings of one key.
fn set_twice(read: &Read) -> Option<Fault> {
    let mut settings: BTreeMap<&str, (Setting, &Statement)> = BTreeMap::new();
    for (statement, ground) in read {
        if let Ground::External(atom, setting) = ground {
            let (first, before) = *settings.entry(atom).or_insert((*setting, statement));
            if first != *setting {
                let what = format!("the key {} is set here otherwise than in {}", atom, before.spot().line());
                return Some(Fault::at(statement.spot(), what).text(statement.text()).hint("keep one of the two"));
            }
        }
    }
    None
}

/// `1 { .. } 1` over a relay that another rule drives is no disjunction; gringo writes out what it says.
fn shared_choice(read: &Read) -> Option<Fault> {
    let mut driven: BTreeMap<&str, usize> = BTreeMap::new();
    for (_, ground) in read {
        match ground {
            Ground::Rule(rule) => atoms_of(&rule.head).iter().for_each(|atom| *driven.entry(atom).or_default() += 1),
            Ground::External(atom, _) => *driven.entry(atom).or_default() += 1,
        }
    }
    read.iter().find_map(|(statement, ground)| match ground {
        Ground::Rule(GroundRule { head: Head::JustOne(atoms), .. }) => {
            let shared = atoms.is_empty() || atoms.iter().any(|atom| driven[atom.as_str()] > 1);
            Some(
                Fault::at(statement.spot(), "a choice with bounds over relays that other rules drive asks for grounding")
                    .text(statement.text()),
            )
            .filter(|_| shared)
        }
        _ => None,
    })
}

fn atoms_of(head: &Head) -> &[String] {
    match head {
        Head::AnyOf(atoms) | Head::Choice(atoms) | Head::JustOne(atoms) => atoms,
    }
}

/// How many rules a statement becomes: a choice one for each relay.
fn rules_of(ground: &Ground) -> usize {
    match ground {
        Ground::Rule(GroundRule { head: Head::Choice(atoms), .. }) => atoms.len(),
        Ground::Rule(_) => 1,
        Ground::External(..) => 0,
    }
}

fn add_ground(program: &mut Program, read: Read) {
    for (statement, ground) in read {
        match ground {
            Ground::External(atom, setting) => {
                let key = Key { setting, sheet: Some(statement.sheet), spot: Some(statement.spot().clone()) };
                program.add_key(&atom, key);
            }
            Ground::Rule(rule) => add_rule(program, statement, &rule),
        }
    }
}

fn add_rule(program: &mut Program, statement: &Statement, ground: &GroundRule) {
    let heads: Vec<Atom> = atoms_of(&ground.head).iter().map(|atom| program.atom(atom)).collect();
    let number = |program: &Program, name: &str| program.tables.iter().position(|table| table.name == name);
    let mut rule = Rule { sheet: Some(statement.sheet), spot: Some(statement.spot().clone()), text: statement.text(), ..Rule::default() };
    rule.pos = ground.pos.iter().map(|atom| program.atom(atom)).collect();
    rule.neg = ground.neg.iter().map(|atom| program.atom(atom)).collect();
    rule.uses = ground.uses.iter().filter_map(|(table, wanted)| Some((number(program, table)?, *wanted))).collect();
    match ground.head {
        Head::Choice(_) => program.choose(&heads, &rule),
        _ => program.rules.push(Rule { head: heads.into_iter().collect(), ..rule }),
    }
}

/// a and -a are never up together, where both can be up.
fn add_opposites(program: &mut Program) {
    let can_be_up = |program: &Program, atom: Atom| program.keys.contains_key(&atom) || program.driver(atom).is_some();
    for atom in 0..program.atoms.len() {
        let opposite = program.find(&format!("-{}", program.name(atom)));
        if let Some(opposite) = opposite.filter(|&opposite| can_be_up(program, atom) && can_be_up(program, opposite)) {
            let text = format!(":- {0}, -{0}.", program.name(atom));
            let sheet = program.driver(opposite).and_then(|rule| rule.sheet);
            program.rules.push(Rule { sheet, text, pos: [atom, opposite].iter().copied().collect(), ..Rule::default() });
        }
    }
}

/// A relay that no rule drives is dropped in every position: a slip of the pen, or a key without its `#external`.
fn note_undriven(program: &mut Program) {
    let driven: BTreeSet<Atom> =
        program.rules.iter().flat_map(|rule| rule.head.iter().copied()).chain(program.keys.keys().copied()).collect();
    let mut notes = Vec::new();
    for atom in program.used_atoms().into_iter().filter(|&atom| !driven.contains(&atom) && !program.atoms[atom].is_helper) {
        let reader = program.rules.iter().find(|rule| program.looks_at(rule).contains(&atom));
        let known = driven.iter().map(|&other| program.name(other)).filter(|name| !name.starts_with('~'));
        let hint = near::hint(program.name(atom), known, "a key is written #external NAME.");
        notes.push(format!(
            "{}: nothing drives {}: it is dropped in every position ({})",
            reader.map_or(String::new(), Rule::place),
            program.name(atom),
            hint
        ));
    }
    program.notes.extend(notes);
}

/// Labels, and the keys that directives and the command line set.
fn set_keys(program: &mut Program, sheets: &Sheets, turns: &Turns) -> Result<(), Fault> {
    for (atom, spot) in &sheets.given {
        if program.tables.iter().any(|table| table.name == *atom) {
            return Err(Fault::at(spot, format!("{} is a contact table, and no key", atom)).hint("give its inputs instead"));
        }
        if program.always.contains(atom) {
            return Err(
                Fault::at(spot, format!("the key {} is a fact of the sheets", atom)).hint("leave it out of %given, or take the fact out")
            );
        }
        program.add_key(atom, Key { setting: Setting::Turned, sheet: None, spot: Some(spot.clone()) });
    }
    labels(program, sheets)?;
    turn_keys(program, turns)
}

/// What only all rules together can tell.
fn finish(program: &mut Program, sheets: &Sheets) -> Result<(), Fault> {
    settle_keys(program)?;
    fold_always_into_tables(program);
    drop_unused_tables(program);
    note_idle_names(program, sheets);
    hold_bare_constraints(program);
    Ok(())
}

/// Keys that no rule looks at, and names in `#show` that no relay has: slips of the pen, as a rule.
fn note_idle_names(program: &mut Program, sheets: &Sheets) {
    let read: BTreeSet<Atom> = program.rules.iter().flat_map(|rule| program.looks_at(rule)).collect();
    let mut notes = Vec::new();
    for (&atom, key) in program.keys.iter().filter(|(atom, _)| !read.contains(atom)) {
        let place = key.spot.as_ref().map_or(String::new(), |spot| format!("{}: ", spot));
        let known = read.iter().map(|&other| program.name(other)).filter(|name| !name.starts_with('~'));
        let hint = near::nearest(program.name(atom), known).map_or(String::new(), |name| format!(" (is it {}?)", name));
        notes.push(format!("{}no rule looks at the key {}{}", place, program.name(atom), hint));
    }
    let relays = program.atoms.iter().filter(|atom| !atom.is_helper).map(|atom| &atom.name).chain(&program.always);
    let known: BTreeSet<(String, usize)> = relays.map(|name| signature(name)).collect();
    for ((name, arguments), spot) in sheets.show_spots.iter().filter(|(shown, _)| !known.contains(shown)) {
        let hint =
            near::nearest(name, known.iter().map(|(name, _)| name.as_str())).map_or(String::new(), |name| format!(" (is it {}?)", name));
        notes.push(format!("{}: #show names {}/{}, and no relay is called so{}", spot, name, arguments, hint));
    }
    program.notes.extend(notes);
}

/// A constraint over tables alone, or over nothing, would be a RULE of three zero words, which a plan refuses (6): it gets a helper that is given.
fn hold_bare_constraints(program: &mut Program) {
    let is_bare = |rule: &Rule| rule.head.is_empty() && rule.pos.is_empty() && rule.neg.is_empty();
    if !program.rules.iter().any(is_bare) {
        return;
    }
    let up = program.helper("up");
    program.keys.insert(up, Key { setting: Setting::Turned, sheet: None, spot: None });
    for rule in program.rules.iter_mut().filter(|rule| is_bare(rule)) {
        rule.pos.insert(up);
    }
}

fn turn_keys(program: &mut Program, turns: &Turns) -> Result<(), Fault> {
    let all = turns.turn.iter().map(|name| (name, Setting::Turned)).chain(turns.release.iter().map(|name| (name, Setting::Released)));
    let mut set: BTreeMap<Atom, Setting> = BTreeMap::new();
    for (name, setting) in all {
        let by_label = program.labels.iter().find(|(_, label)| *label == name).map(|(atom, _)| atom.clone());
        let atom = program.find(&by_label.unwrap_or_else(|| name.clone())).filter(|&atom| !program.atoms[atom].is_helper);
        let atom = atom.ok_or_else(|| {
            let known = program.keys.keys().map(|&key| program.name(key)).chain(program.labels.values().map(String::as_str));
            Fault::new(format!("no sheet knows the key {}", name)).hint(near::hint(
                name,
                known,
                "keys are written on a sheet: #external NAME.",
            ))
        })?;
        if *set.entry(atom).or_insert(setting) != setting {
            return Err(Fault::new(format!("the key {} is both turned and released", name)).hint("keep one of --turn and --release for it"));
        }
        program.keys.entry(atom).or_insert(Key { setting, sheet: None, spot: None }).setting = setting;
    }
    Ok(())
}

/// A free key is a choice, and a key that a rule drives is refused, as it would be in the plan (16).
fn settle_keys(program: &mut Program) -> Result<(), Fault> {
    for (&atom, key) in &program.keys {
        if let Some(rule) = program.driver(atom) {
            let place = key.spot.as_ref().map_or(" on the command line".to_string(), |spot| format!(" ({})", spot.line()));
            let what = format!("this rule drives {}, which is a key{}", program.name(atom), place);
            return Err(Fault::new(what)
                .spot(rule.spot.as_ref())
                .text(&rule.text)
                .hint("a relay is either given before the run or driven by rules"));
        }
    }
    let free: Vec<Atom> = program.keys.iter().filter(|(_, key)| key.setting == Setting::Free).map(|(&atom, _)| atom).collect();
    for atom in free {
        let text = format!("#external {}. [free]", program.name(atom));
        if let Some(Key { sheet, spot, .. }) = program.keys.remove(&atom) {
            program.choose(&[atom], &Rule { sheet, spot, text, ..Rule::default() });
        }
    }
    Ok(())
}

/// Facts that gringo folded away are up: a table loses these inputs.
fn fold_always_into_tables(program: &mut Program) {
    let always: BTreeSet<Atom> = program.always.iter().filter_map(|name| program.find(name)).collect();
    for table in &mut program.tables {
        while let Some(place) = table.inputs.iter().position(|input| always.contains(input)) {
            table.inputs.remove(place);
            let low = (1 << place) - 1;
            let row = |j: usize| (j & low) | 1 << place | (j & !low) << 1;
            table.rows = (0..1usize << table.inputs.len()).filter(|&j| table.rows >> row(j) & 1 == 1).fold(0, |word, j| word | 1 << j);
        }
    }
}

fn drop_unused_tables(program: &mut Program) {
    let used: BTreeSet<usize> = program.rules.iter().flat_map(|rule| rule.uses.iter().map(|&(table, _)| table)).collect();
    let number: BTreeMap<usize, usize> = used.iter().enumerate().map(|(new, &old)| (old, new)).collect();
    for (_, table) in program.tables.iter().enumerate().filter(|(old, _)| !used.contains(old)) {
        let place = table.spot.as_ref().map_or(String::new(), |spot| format!("{}: ", spot));
        program.notes.push(format!("{}no rule asks the table {}", place, table.name));
    }
    let mut old = 0;
    program.tables.retain(|_| {
        old += 1;
        used.contains(&(old - 1))
    });
    for rule in &mut program.rules {
        rule.uses = rule.uses.iter().map(|&(table, wanted)| (number[&table], wanted)).collect();
    }
}

/// Labels: each for a relay of the sheets, and none that could be taken for another relay.
fn labels(program: &mut Program, sheets: &Sheets) -> Result<(), Fault> {
    let words: BTreeSet<&str> = sheets
        .statements
        .iter()
        .flat_map(|statement| &statement.tokens)
        .filter(|token| token.kind == Kind::Name)
        .map(|token| token.text.as_str())
        .collect();
    for label in &sheets.labels {
        let (predicate, _) = signature(label.atom.trim_start_matches('-'));
        let is_known = program.find(&label.atom).is_some() || words.contains(predicate.as_str());
        if !is_known {
            let hint = near::hint(&predicate, words.iter().copied(), "take the label out, or write its rules");
            return Err(Fault::at(&label.spot, format!("no sheet knows the relay {}", label.atom)).hint(hint));
        }
        let other = program.labels.iter().find(|(atom, text)| **text == label.label && **atom != label.atom).map(|(atom, _)| atom.clone());
        let named = program.find(&label.label).filter(|&atom| program.name(atom) != label.atom).map(|atom| program.name(atom).to_string());
        if let Some(other) = other.or(named) {
            return Err(Fault::at(&label.spot, format!("\"{}\" is the relay {} already", label.label, other))
                .hint("each relay needs a label of its own"));
        }
        if let Some(before) = program.labels.get(&label.atom).filter(|before| **before != label.label) {
            return Err(
                Fault::at(&label.spot, format!("{} has the label \"{}\" already", label.atom, before)).hint("a relay has one label")
            );
        }
        program.labels.insert(label.atom.clone(), label.label.clone());
    }
    Ok(())
}
