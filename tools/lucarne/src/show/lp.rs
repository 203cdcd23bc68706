//! The group written out for clingo, keys and contact tables included, so that its list can be checked by another solver.

use crate::fault::Fault;
use crate::plan::bytes;
use crate::plan::group::{Group, Origin};
use crate::plan::program::{signature, Atom, Program, Rule, Setting, Table};
use crate::read::text::ground;
use crate::fault::Spot;
use crate::read::text::statements::{Sheets, Statement};
use crate::read::text::tokens::Kind;
use std::collections::BTreeSet;
use std::sync::Arc;

/// The group for clingo: `clingo 0` lists just the positions that show. Of a table that reads what it drives clingo has no form.
pub fn show(group: &Group, constants: &[String]) -> Result<String, Fault> {
    let head = "% For clingo: lists every settled position with clingo 0 --eq=0 --no-gamma.\n";
    match &group.origin {
        Origin::Sheets(sheets) => {
            let constants = constants.iter().map(|constant| format!("#const {}. [override]\n", constant.replacen('=', " = ", 1)));
            let text = sheets_text(group, sheets)?;
            Ok(format!("{}{}{}{}", head, constants.collect::<String>(), text, shown(&group.program)))
        }
        _ => Ok(head.to_string() + &named_text(group)?),
    }
}

/// `#show` of what shows, where not all does; contact tables, which are relays here, do not.
fn shown(program: &Program) -> String {
    if program.shows.is_none() && !program.tables.iter().any(|table| table.is_written) {
        return String::new();
    }
    let names = program.atoms.iter().filter(|atom| !atom.is_helper).map(|atom| &atom.name).chain(&program.always);
    let signatures: BTreeSet<(String, usize)> =
        names.filter(|name| program.is_shown_name(name) && !program.terms.contains(*name)).map(|name| signature(name)).collect();
    let lines = signatures.iter().map(|(name, arguments)| format!("#show {}/{}.\n", name, arguments));
    std::iter::once("#show.\n".to_string()).chain(lines).collect()
}

/// The sheets' own text, with keys as facts and the rows of contact tables as rules. `#show` is left out: clingo shows all, and it is cut here.
pub fn sheets_text(group: &Group, sheets: &Sheets) -> Result<String, Fault> {
    let program = &group.program;
    refuse_loops(program)?;
    let mut lines: Vec<String> = sheets.statements.iter().map(statement_text).collect();
    for (&atom, key) in program.keys.iter().filter(|(&atom, _)| !program.atoms[atom].is_helper) {
        let is_free = |statement: &Statement| statement.tokens[0].is("#external") && statement.text().contains("free");
        match key.setting {
            Setting::Turned => lines.push(format!("{}.", program.name(atom))),
            _ if sheets.statements.iter().any(is_free) => lines.push(format!(":- {}.", program.name(atom))),
            _ => {}
        }
    }
    for table in program.tables.iter().filter(|table| table.is_written) {
        lines.extend(rows_as_rules(table, &table.name, &|atom| program.name(atom).to_string()));
    }
    Ok(lines.join("\n") + "\n")
}

/// A key's setting is taken off, but for free ones: turned keys are facts behind.
fn statement_text(statement: &Statement) -> String {
    let is_setting = statement.tokens[0].is("#external") && !statement.tokens.iter().any(|token| token.is("free"));
    let end = statement.tokens.iter().position(|token| token.kind == Kind::Dot).filter(|_| is_setting);
    let tokens = end.map_or(statement.tokens.clone(), |end| statement.tokens[..=end].to_vec());
    Statement { tokens, ..statement.clone() }.text()
}

fn rows_as_rules(table: &Table, name: &str, call: &dyn Fn(Atom) -> String) -> Vec<String> {
    let rows = (0..1u64 << table.inputs.len()).filter(|&row| table.rows >> row & 1 == 1);
    rows.map(|row| {
        let body: Vec<String> = table
            .inputs
            .iter()
            .enumerate()
            .map(|(k, &atom)| format!("{}{}", if row >> k & 1 == 1 { "" } else { "not " }, call(atom)))
            .collect();
        format!("{}{}{}.", name, if body.is_empty() { "" } else { " :- " }, body.join(", "))
    })
    .collect()
}

/// A plan of bytes by numbers: atom i is ai, and table k is t'k.
pub fn plan_text(group: &Group) -> Result<String, Fault> {
    text_by(group, &|atom| format!("a{}", group.plan.bit(atom).unwrap_or(0)))
}

/// A plan by its names, as far as clingo takes them; all that shows is shown.
fn named_text(group: &Group) -> Result<String, Fault> {
    let spot = Spot { file: Arc::from("-"), line: 1, column: 1 };
    let is_name = |atom: Atom| !group.program.atoms[atom].is_helper && ground::atom_of(group.program.name(atom), &spot).is_ok();
    let call = |atom: Atom| if is_name(atom) { group.program.name(atom).to_string() } else { format!("a'{}", group.plan.bit(atom).unwrap_or(0)) };
    let mut text = text_by(group, &call)?;
    text += &group.program.always.iter().map(|name| format!("{}.\n", name)).collect::<String>();
    let always = group.shown_always().into_iter().map(|name| format!("#show {} : #true.\n", name));
    let relays = group.shown().into_iter().map(|atom| format!("#show {} : {}.\n", shown_as(&group.program, atom), call(atom)));
    Ok(text + "#show.\n" + &always.chain(relays).collect::<String>())
}

/// A name as a term: one that is none stands in quotation marks.
fn shown_as(program: &Program, atom: Atom) -> String {
    let name = program.name(atom);
    let spot = Spot { file: Arc::from("-"), line: 1, column: 1 };
    if ground::atom_of(name, &spot).is_ok() {
        name.to_string()
    } else {
        format!("\"{}\"", name.replace('\\', "\\\\").replace('"', "\\\""))
    }
}

fn text_by(group: &Group, call: &dyn Fn(Atom) -> String) -> Result<String, Fault> {
    let program = &group.program;
    refuse_loops(program)?;
    let mut lines: Vec<String> = bytes::given(program).iter().map(|&atom| format!("{}.", call(atom))).collect();
    for (number, table) in program.tables.iter().enumerate() {
        lines.extend(rows_as_rules(table, &format!("t'{}", number), call));
    }
    for rule in &program.rules {
        let heads: Vec<String> = rule.head.iter().map(|&atom| call(atom)).collect();
        let pos = rule.pos.iter().map(|&atom| call(atom));
        let neg = rule.neg.iter().map(|&atom| format!("not {}", call(atom)));
        let uses = rule.uses.iter().map(|&(table, wanted)| format!("{}t'{}", if wanted { "" } else { "not " }, table));
        let body: Vec<String> = pos.chain(neg).chain(uses).collect();
        lines.push(format!("{}{}{}.", heads.join(" ; "), if body.is_empty() { "" } else { " :- " }, body.join(", ")));
    }
    Ok(lines.join("\n") + "\n")
}

/// Rows written out as rules say the same only where no input of a table hangs on what a rule with it drives.
fn refuse_loops(program: &Program) -> Result<(), Fault> {
    for rule in program.rules.iter().filter(|rule| !rule.head.is_empty()) {
        let written = rule.uses.iter().filter(|&&(table, _)| program.tables[table].is_written);
        if written.flat_map(|&(table, _)| &program.tables[table].inputs).any(|&input| hangs_on(program, input, rule)) {
            let what = "clingo has no form for a contact table that reads what it drives";
            return Err(Fault::new(what)
                .spot(rule.spot.as_ref())
                .text(&rule.text)
                .hint("this group can be listed, and not compared: written out as rules such a table says something else"));
        }
    }
    Ok(())
}

fn hangs_on(program: &Program, atom: Atom, rule: &Rule) -> bool {
    let (mut seen, mut open) = (BTreeSet::new(), vec![atom]);
    while let Some(next) = open.pop() {
        if rule.head.contains(&next) {
            return true;
        }
        if seen.insert(next) {
            let drivers = program.rules.iter().filter(|rule| rule.head.contains(&next));
            open.extend(drivers.flat_map(|rule| program.looks_at(rule)));
        }
    }
    false
}
