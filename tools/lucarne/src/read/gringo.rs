//! Grounding by gringo, of the sheets as they are written. Which line a ground rule comes from is found beside that (`origins`).

use crate::read::aspif::{self, Aspif, Literal};
use crate::fault::{status, Fault};
use crate::plan::limits;
use crate::near;
use crate::read::origins;
use crate::plan::program::{signature, Atom, Key, Program, Rule, Table};
use crate::read::run::{self, Output};
use crate::read::simplify::{join_rules, simplify};
use crate::read::text::shapes::{constants, Place, Shape};
use crate::read::text::directives::SHOWN;
use crate::read::text::statements::{written, Sheets, Statement};
use crate::read::text::terms::Term;
use crate::read::text::tokens::Token;
use crate::read::translate::{translate, Origins};
use std::collections::BTreeSet;

/// gringo is ended when it has written so much: a plan holds 64 rules, and some rules have instances without end.
const MOST_BYTES: u64 = 16 << 20;

/// Whether the line of each rule is looked for. The list does not hang on it.
#[derive(Clone, Copy, Debug, PartialEq, Eq)]
pub enum Lines {
    Find,
    Leave,
}

/// Puts the rules of all statements into the program, written out by gringo. It must not fold away tables, nor what is given outside rules.
pub fn ground(
    program: &mut Program,
    sheets: &Sheets,
    given: &[String],
    lines: Lines,
    set: &[String],
    doubts: Vec<Fault>,
) -> Result<(), Fault> {
    let kept = program.tables.iter().map(|table| &table.name).chain(given);
    let externals: String = kept.map(|name| format!("#external {}.\n", name)).collect();
    let plain: String = sheets.statements.iter().map(|statement| written(statement.rule()) + "\n").collect();
    let written = call(sheets, &(plain + &externals), set).map_err(|fault| with_doubts(doubts, fault))?;
    program.notes.extend(told_by_gringo(&written.errors, sheets));
    let mut aspif = aspif::read("gringo's output", &written.text)?;
    limits::ground_rules(&aspif)?;
    let names = constants(&sheets.statements, set);
    let shapes: Vec<Shape> = sheets.statements.iter().map(|statement| Shape::of(statement, &names)).collect();
    aspif.tables = links(program, &aspif);
    program.notes.append(&mut aspif.notes);
    let keys = keys(program, &aspif, sheets, &shapes)?;
    program.notes.extend(undriven(program, &aspif, sheets, &shapes));
    simplify(&mut aspif);
    if lines == Lines::Find {
        origins::find(&mut aspif, &shapes);
    }
    join_rules(&mut aspif);
    name_terms(program, &mut aspif, sheets)?;
    translate(program, &aspif, Origins::Statements(&sheets.statements))?;
    program.always.append(&mut aspif.always);
    keys.into_iter().for_each(|(name, key)| program.add_key(&name, key));
    house_unknown(program, sheets, &shapes);
    Ok(())
}

/// Contact tables with their inputs, by gringo's numbers.
fn links(program: &Program, aspif: &Aspif) -> Vec<(Literal, Vec<Literal>)> {
    let atom = |name: &str| aspif.names.iter().find(|(_, other)| other.as_str() == name).map(|(&atom, _)| atom);
    let inputs = |table: &Table| table.inputs.iter().filter_map(|&input| atom(program.name(input))).collect();
    program.tables.iter().filter_map(|table| Some((atom(&table.name)?, inputs(table)))).collect()
}

/// What the own reader does not know, and gringo neither: first what we say of it, then what gringo says.
fn with_doubts(mut doubts: Vec<Fault>, fault: Fault) -> Fault {
    if doubts.is_empty() {
        return fault;
    }
    if fault.status == status::REFUSED {
        doubts.push(Fault { text: String::new(), hint: String::new(), ..fault });
    }
    Fault::all(doubts).err().unwrap_or_else(|| Fault::new("gringo refuses the sheets"))
}

/// Terms that are shown get their own names, which show whatever `#show` names.
fn name_terms(program: &mut Program, aspif: &mut Aspif, sheets: &Sheets) -> Result<(), Fault> {
    let term = |name: &str| name.strip_prefix(SHOWN)?.strip_prefix('(')?.strip_suffix(')').map(str::to_string);
    let known: BTreeSet<String> = aspif.names.values().chain(&aspif.always).chain(aspif.shown.iter().map(|(name, _)| name)).cloned().collect();
    let terms: Vec<String> = known.iter().filter_map(|name| term(name)).collect();
    if let Some(relay) = terms.iter().find(|term| known.contains(*term)) {
        let statement = sheets.statements.iter().find(|statement| statement.rule.is_some());
        let fault = Fault::new(format!("#show would print {} where the relay {} may be dropped", relay, relay));
        return Err(fault.spot(statement.map(Statement::spot)).hint("show a term that is no relay: #show is(X) : p(X)."));
    }
    aspif.names.values_mut().chain(&mut aspif.always).for_each(|name| *name = term(name).unwrap_or_else(|| name.clone()));
    program.terms.extend(terms);
    Ok(())
}

fn call(sheets: &Sheets, text: &str, set: &[String]) -> Result<Output, Fault> {
    let missing = "the sheets have variables, sums or conditions, and gringo, which writes them out, is not there";
    let set: Vec<String> = set.iter().map(|constant| format!("--const={}", constant)).collect();
    let options: Vec<&str> = ["--output=intermediate", "--warn=no-atom-undefined"].into_iter().chain(set.iter().map(String::as_str)).collect();
    let output = run::run_at_most("gringo", &options, text, missing, MOST_BYTES)?;
    if output.is_cut {
        return Err(Fault::new(format!("gringo writes more than {} MB for the sheets: does a rule go on without end?", MOST_BYTES >> 20))
            .hint("give what a rule counts an end: time(T+1) :- time(T), T < 10."));
    }
    if output.is_fine {
        return Ok(output);
    }
    Err(error(sheets, &output.errors))
}

/// gringo's first error at the token that it names: statements stand one to a line, with the text of the sheet.
fn error(sheets: &Sheets, errors: &str) -> Fault {
    let first = errors.lines().find(|line| line.contains(": error: "));
    let second = first.and_then(|first| errors.lines().skip_while(|line| *line != first).nth(1));
    let second = second.filter(|line| line.starts_with(' ')).map_or(String::new(), |line| format!(" {}", line.trim()));
    let told = first.and_then(|line| line.split_once(": error: ")).map_or(errors.trim(), |(_, told)| told);
    let note = errors.lines().find(|line| line.contains(": note: '"));
    let unsafe_name = note.and_then(|line| line.split_once(": note: '")).and_then(|(_, rest)| rest.split_once('\''));
    let place = note.or(first).and_then(place);
    let statement = place.and_then(|(line, _)| sheets.statements.get(line - 1));
    let fault = match unsafe_name {
        Some((name, _)) => Fault::new(format!("the variable {} gets no value", name))
            .hint("each variable must stand in a body atom without not, or in a range: p(X) :- track(X), not q(X)."),
        None => {
            let hint = "the sheet is read by gringo, since it has variables, sums or conditions";
            Fault::new(format!("gringo says: {}{}", told, second)).hint(hint)
        }
    };
    match (statement, place) {
        (Some(statement), Some((_, column))) => fault.spot(Some(&token_at(statement, column).spot)).text(statement.text()),
        _ => fault,
    }
}

/// Line and column of `-:LINE:COLUMN-..`.
fn place(message: &str) -> Option<(usize, usize)> {
    let mut parts = message.strip_prefix("-:")?.split(|sign: char| !sign.is_ascii_digit());
    Some((parts.next()?.parse().ok()?, parts.next()?.parse().ok()?))
}

fn token_at(statement: &Statement, column: usize) -> &Token {
    let mut end = 0;
    for (place, token) in statement.rule().iter().enumerate() {
        end += usize::from(place > 0 && token.gap) + token.text.len();
        if end >= column {
            return token;
        }
    }
    &statement.tokens[0]
}

/// What gringo tells beside its output: instances that it left out.
fn told_by_gringo(errors: &str, sheets: &Sheets) -> Vec<String> {
    let lines: Vec<&str> = errors.lines().chain(Some("")).collect();
    let told = lines.windows(2).filter_map(|pair| {
        let (line, column) = place(pair[0])?;
        let (_, what) = pair[0].split_once(": info: ").or_else(|| pair[0].split_once(": warning: "))?;
        let spot = sheets.statements.get(line - 1).map_or(String::new(), |statement| format!("{}: ", token_at(statement, column).spot));
        Some(format!("{}gringo says: {} {}", spot, what, pair[1].trim()))
    });
    told.collect()
}

/// Relays that bodies name and nothing drives. gringo leaves them out without a trace.
fn undriven(program: &Program, aspif: &Aspif, sheets: &Sheets, shapes: &[Shape]) -> Vec<String> {
    let outside = program.tables.iter().map(|table| &table.name).chain(sheets.given.iter().map(|(name, _)| name));
    let names: Vec<&String> = aspif.names.values().chain(&aspif.always).chain(outside).collect();
    let known: BTreeSet<&str> = names.iter().map(|name| name.as_str()).collect();
    let defined = defined(&sheets.statements);
    let is_driven = |place: &Place| {
        let mut heads = shapes.iter().flat_map(Shape::driven).filter(|head| head.term.may_meet(&place.term));
        // One that is written out must be there itself: a rule for others of its kind does not drive it.
        known.contains(place.term.text().as_str()) || heads.any(|head| !place.term.is_ground() || head.term == place.term)
    };
    let (mut notes, mut told) = (Vec::new(), BTreeSet::new());
    for place in shapes.iter().flat_map(Shape::looked_at) {
        let name = signature(&place.text);
        if is_driven(place) || defined.contains(&name) || !told.insert(&place.text) {
            continue;
        }
        let hint = near_name(place, &names);
        notes.push(format!("{}: nothing drives {}: it is dropped in every position ({})", place.spot, place.text, hint));
    }
    notes
}

/// The relay that may be meant; of one with variables its name alone.
fn near_name(place: &Place, names: &[&String]) -> String {
    let otherwise = "a key is written #external NAME.";
    if place.term.is_ground() {
        return near::hint(&place.text, names.iter().map(|name| name.as_str()), otherwise);
    }
    let heads: Vec<String> = names.iter().map(|name| signature(name).0).collect();
    near::hint(place.term.name(), heads.iter().map(String::as_str), otherwise)
}

/// What `#defined` names: it may well have no rule.
fn defined(statements: &[Statement]) -> BTreeSet<(String, usize)> {
    let statements = statements.iter().filter(|statement| statement.tokens[0].is("#defined"));
    statements
        .filter_map(|statement| {
            let text: String = statement.tokens[1..].iter().map(|token| token.text.as_str()).collect();
            let (name, number) = text.trim_end_matches('.').split_once('/')?;
            Some((name.to_string(), number.parse().ok()?))
        })
        .collect()
}

/// Externals are keys, each with the statement that names it. One that a fact drives is refused, as one that a rule drives.
fn keys(program: &Program, aspif: &Aspif, sheets: &Sheets, shapes: &[Shape]) -> Result<Vec<(String, Key)>, Fault> {
    let naming = |term: &Term| {
        let shape =
            shapes.iter().position(|shape| shape.is_external && shape.heads.iter().any(|head| head.term.fits(term, &mut Vec::new())));
        shape.map(|number| &sheets.statements[number])
    };
    let mut keys = Vec::new();
    for (atom, setting) in &aspif.externals {
        let name = match aspif.names.get(atom) {
            Some(name) if !program.tables.iter().any(|table| table.name == *name) => name,
            _ => continue,
        };
        let statement = naming(&origins::ground_term(name));
        let (sheet, spot) = (statement.map(|statement| statement.sheet), statement.map(|statement| statement.spot().clone()));
        keys.push((name.clone(), Key { setting: *setting, sheet, spot }));
    }
    if shapes.iter().any(|shape| shape.is_external) {
        if let Some((name, statement)) = aspif.always.iter().find_map(|name| Some((name, naming(&origins::ground_term(name))?))) {
            return Err(Fault::at(statement.spot(), format!("the key {} is a fact of the sheets", name))
                .text(statement.text())
                .hint("a relay is either given before the run or driven by rules"));
        }
    }
    Ok(keys)
}

/// A rule whose line is not known goes to the unit of what it drives, or of what looks at that.
fn house_unknown(program: &mut Program, sheets: &Sheets, shapes: &[Shape]) {
    let unknown: Vec<usize> = (0..program.rules.len()).filter(|&rule| program.rules[rule].line_unknown).collect();
    if unknown.is_empty() {
        return;
    }
    // Twice, and back: a helper's rule may stand before the one that looks at it.
    for number in unknown.iter().copied().chain(unknown.iter().rev().copied()) {
        let rule = &program.rules[number];
        let sheet = rule.sheet.or_else(|| home(program, rule)).or_else(|| written_home(program, rule, sheets, shapes));
        program.rules[number].sheet = sheet;
    }
    let texts: BTreeSet<&str> = unknown.iter().map(|&rule| program.rules[rule].text.as_str()).collect();
    let told = texts.into_iter().collect::<Vec<_>>().join(" ");
    program.notes.push(format!("on which line these rules stand is not known; they are worked in the unit of what they drive: {}", told));
}

/// The sheet of a rule that drives the same, or that looks at it.
fn home(program: &Program, rule: &Rule) -> Option<usize> {
    let with_sheet = || program.rules.iter().filter(|other| other.sheet.is_some());
    let shares = |other: &&Rule| !other.head.is_disjoint(&rule.head);
    let looks = |other: &&Rule| rule.head.iter().any(|atom: &Atom| program.looks_at(other).contains(atom));
    with_sheet().find(shares).or_else(|| with_sheet().find(looks)).and_then(|other| other.sheet)
}

/// The sheet of a statement that drives the same.
fn written_home(program: &Program, rule: &Rule, sheets: &Sheets, shapes: &[Shape]) -> Option<usize> {
    let written = |name: &str| if program.terms.contains(name) { format!("{}({})", SHOWN, name) } else { name.to_string() };
    let heads: Vec<Term> = rule.head.iter().map(|&atom| origins::ground_term(&written(program.name(atom)))).collect();
    let drives = |shape: &Shape| shape.driven().any(|place| heads.iter().any(|head| place.term.fits(head, &mut Vec::new())));
    let number = shapes.iter().position(|shape| !shape.is_external && drives(shape))?;
    Some(sheets.statements[number].sheet)
}
