//! The list held against clingo's, on the sheets as they stand: so the translation is tried with the search.

use super::args::Args;
use crate::fault::{status, Fault};
use crate::plan::group::{Group, Origin};
use crate::plan::library;
use crate::show::{lp, output};
use crate::plan::bytes;
use crate::plan::program::Program;
use crate::show::progress::Progress;
use crate::read::run;
use crate::read::theirs::clingo::{items, witnesses};
use crate::plan::reason::{self, Position};
use serde_json::Value;
use std::collections::{BTreeMap, BTreeSet};

/// So many positions are gone through for one that looks like a shown one.
const MOST_STEPS: usize = 100_000;

/// What shows of a position, by name.
type Shown = BTreeSet<String>;

/// Compares and tells who misses what; each differing position is judged alone by the library.
pub fn check(group: &Group, args: &Args) -> Result<i32, Fault> {
    let text = text_for_clingo(group, args)?;
    let constants = args.group.turns.constants.iter().map(|constant| format!("--const={}", constant));
    let options: Vec<String> = constants.chain(args.clingo_options.iter().cloned()).collect();
    let theirs = clingo(group, &text, &options)?;
    let ours: BTreeMap<Shown, u64> = group.listing.positions.iter().map(|&position| (our_names(group, position), position)).collect();
    let name = std::iter::once("clingo").chain(args.clingo_options.iter().map(String::as_str)).collect::<Vec<_>>().join(" ");
    let missed: Vec<u64> = ours.iter().filter(|(shown, _)| !theirs.contains_key(*shown)).map(|(_, &position)| position).collect();
    let added: Vec<(&Shown, &Shown)> = theirs.iter().filter(|(shown, _)| !ours.contains_key(*shown)).collect();
    let mut progress = Progress::new("judged", missed.len() + added.len());
    let mut out = format!("{}: {} positions; lucarne: {}\n", name, theirs.len(), ours.len());
    for &position in &missed {
        out += &format!("  {} misses: {}   ({})\n", name, group.told(position), judged_ours(group, position));
        progress.step();
    }
    for (shown, full) in &added {
        let told: Vec<&str> = shown.iter().map(|name| group.program.label_of(name)).collect();
        let told = if told.is_empty() { "(all dropped)".to_string() } else { told.join(", ") };
        out += &format!("  {} adds: {}   ({})\n", name, told, judged_theirs(group, full));
        progress.step();
    }
    drop(progress);
    output::write(args.output.as_deref(), out.as_bytes())?;
    Ok(if missed.is_empty() && added.is_empty() { status::FINE } else { status::NOT_FINE })
}

fn our_names(group: &Group, position: u64) -> Shown {
    let up = group.plan.up(position).into_iter().filter(|&atom| group.program.is_shown(atom));
    up.map(|atom| group.program.name(atom).to_string()).chain(group.shown_always().into_iter().map(str::to_string)).collect()
}

fn judged_ours(group: &Group, position: u64) -> String {
    match uncut(group, position) {
        Some(whole) if library::judge(&group.plan.bytes, whole) == Ok(true) => format!("{:016x}, judged alone: settled", whole),
        Some(whole) => format!("{:016x}, judged alone: NOT SETTLED, please report this", whole),
        None => "its whole position was not looked for".to_string(),
    }
}

/// A settled position that shows like this one.
fn uncut(group: &Group, position: u64) -> Option<u64> {
    let shown = bytes::decode(&group.plan.bytes).show.unwrap_or(u64::MAX);
    let mut next = library::next(&group.plan.bytes, None).ok()?;
    for _ in 0..MOST_STEPS {
        match next {
            Some(whole) if whole & shown == position => return Some(whole),
            Some(whole) => next = library::next(&group.plan.bytes, Some(whole)).ok()?,
            None => return None,
        }
    }
    None
}

fn judged_theirs(group: &Group, names: &Shown) -> String {
    let relays: Position = names.iter().filter_map(|name| group.program.find(name)).collect();
    let whole = reason::complete(group, &relays);
    match library::judge(&group.plan.bytes, group.plan.word(&whole)) {
        Ok(true) => "judged alone: SETTLED, please report this".to_string(),
        _ => format!("judged alone: not settled, {}", reason::why_not(group, &whole)),
    }
}

/// What clingo lists: what shows, with all that is up. Facts that clingo shows and the plan does not hold count as they do in our list.
fn clingo(group: &Group, text: &str, options: &[String]) -> Result<BTreeMap<Shown, Shown>, Fault> {
    // A ground program is for the solver alone.
    let mode: &[&str] = if matches!(group.origin, Origin::Ground(_)) { &["--mode=clasp"] } else { &[] };
    let all: Vec<&str> = mode.iter().copied().chain(["0", "--outf=2", "--warn=none"]).chain(options.iter().map(String::as_str)).collect();
    let output = run::run("clingo", &all, text, "clingo is not there, so there is nothing to hold the list against")?;
    let failed = || Fault::trouble(format!("clingo did not list the sheets: {}", output.errors.trim()));
    let answer: Value = serde_json::from_str(&output.text).map_err(|_| failed())?;
    if !["SATISFIABLE", "UNSATISFIABLE"].contains(&answer.get("Result").and_then(Value::as_str).unwrap_or("")) {
        return Err(failed());
    }
    let values = |witness: &'_ Value| witness.get("Value").map_or(Vec::new(), |value| items(value).to_vec());
    let names = |witness: &Value| values(witness).iter().filter_map(Value::as_str).filter_map(|name| name_of(group, name)).collect::<Shown>();
    Ok(witnesses(&answer["Call"])
        .map(names)
        .map(|full| (full.iter().filter(|name| shows(&group.program, name)).cloned().collect(), full))
        .collect())
}

/// The name of a relay that clingo lists, if it is one. Plans of bytes go to clingo by number: tables are t'0 and so on there.
fn name_of(group: &Group, name: &str) -> Option<String> {
    if !matches!(group.origin, Origin::Bytes) {
        return Some(name.to_string());
    }
    let bit = name.strip_prefix('a').and_then(|bit| bit.parse::<usize>().ok());
    bit.and_then(|bit| group.plan.atoms.get(bit)).map(|&atom| group.program.name(atom).to_string())
}

fn shows(program: &Program, name: &str) -> bool {
    let is_table = program.tables.iter().any(|table| table.is_written && table.name == name);
    !is_table && program.find(name).map_or_else(|| program.is_shown_name(name), |atom| program.is_shown(atom))
}

fn text_for_clingo(group: &Group, args: &Args) -> Result<String, Fault> {
    let turned = !args.group.turns.turn.is_empty() || !args.group.turns.release.is_empty();
    match &group.origin {
        Origin::Sheets(sheets) => lp::sheets_text(group, sheets),
        Origin::Ground(_) if turned => {
            Err(Fault::new("a ground program from the standard input goes to clingo as it is, with its keys as they are")
                .hint("leave out --turn and --release"))
        }
        Origin::Ground(text) => Ok(text.clone()),
        Origin::Bytes => lp::plan_text(group),
    }
}
