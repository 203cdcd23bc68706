//! What clingo prints, as text or by --outf=2: the names that are up; all others are dropped.

use super::{Line, List, Theirs};
use crate::fault::Fault;
use serde_json::Value;

const ANSWER: &str = "Answer: ";
const SATISFIABLE: &str = "SATISFIABLE";
const RESULTS: [&str; 3] = [SATISFIABLE, "UNSATISFIABLE", "UNKNOWN"];
const EARLY: &str = "clingo was stopped before it had looked for all positions; let it list all by: clingo 0";

/// Whether a line is one that clingo prints around its answers.
pub fn is_text(text: &str) -> bool {
    text.lines().any(|line| line.starts_with(ANSWER) || RESULTS.contains(&line.trim_end()) || line.starts_with("clingo version"))
}

pub fn read_text(list: &List, text: &str) -> Result<Theirs, Fault> {
    let mut theirs = Theirs { told: list.shown(), ..Theirs::default() };
    let lines: Vec<&str> = text.lines().collect();
    let mut faults = Vec::new();
    for (number, line) in answers(list, &lines)? {
        let up = list.of_names(number, &names(line), &mut faults);
        theirs.told |= up;
        theirs.lines.push(Line { place: format!("line {}", number), up, dropped_fact: None });
    }
    Fault::all(faults)?;
    let models = lines.iter().find(|line| line.starts_with("Models")).and_then(|line| line.split(':').nth(1)).map(str::trim);
    let is_satisfiable = lines.iter().any(|line| line.trim_end() == SATISFIABLE);
    check_count(list, &mut theirs, is_satisfiable, models.and_then(|models| models.trim_end_matches('+').parse().ok()))?;
    let is_early = lines.iter().any(|line| line.starts_with("Models") && line.trim_end().ends_with('+') || line.trim_end() == "UNKNOWN");
    theirs.notes.extend(Some(EARLY.to_string()).filter(|_| is_early));
    Ok(theirs)
}

/// What clingo says of its answers against those that are there.
fn check_count(list: &List, theirs: &mut Theirs, is_satisfiable: bool, models: Option<usize>) -> Result<(), Fault> {
    let count = theirs.lines.len();
    if is_satisfiable && count == 0 {
        let what = format!("{}: clingo found positions, and none is here", list.path);
        return Err(Fault::new(what).hint("let clingo print them: leave out -q"));
    }
    if let Some(models) = models.filter(|&models| models != count) {
        theirs.notes.push(format!("clingo counts {} positions, and here are {}", models, count));
    }
    Ok(())
}

/// The lines with answers, by number from 1: each behind an "Answer:", or without such lines all before the result.
fn answers<'a>(list: &List, lines: &[&'a str]) -> Result<Vec<(usize, &'a str)>, Fault> {
    let heads: Vec<usize> = (0..lines.len()).filter(|&place| lines[place].starts_with(ANSWER)).collect();
    if heads.is_empty() {
        let is_result = |line: &&str| RESULTS.contains(&line.trim_end());
        let end = lines.iter().position(is_result).unwrap_or(0);
        let is_bare = !lines[..end].iter().any(|line| line.starts_with("clingo version"));
        return Ok((0..end).filter(|_| is_bare).map(|place| (place + 1, lines[place])).collect());
    }
    let answer = |&head: &usize| {
        let cut = || {
            list.fault(head + 1, 1, "clingo's output ends behind this line")
                .text(lines[head])
                .hint("the list was cut: have clingo print it anew")
        };
        lines.get(head + 1).map(|&line| (head + 2, line)).ok_or_else(cut)
    };
    heads.iter().map(answer).collect()
}

/// The names of an answer with their columns: they stand between spaces, and strings in them may have spaces too.
fn names(line: &str) -> Vec<(usize, &str)> {
    let (mut names, mut start, mut column) = (Vec::new(), None, 0);
    let (mut is_quoted, mut is_escaped) = (false, false);
    for (place, sign) in line.char_indices() {
        column += 1;
        if sign.is_whitespace() && !is_quoted {
            names.extend(start.take().map(|(column, start)| (column, &line[start..place])));
            continue;
        }
        start.get_or_insert((column, place));
        match sign {
            _ if is_escaped => is_escaped = false,
            '\\' if is_quoted => is_escaped = true,
            '"' => is_quoted = !is_quoted,
            _ => {}
        }
    }
    names.extend(start.map(|(column, start)| (column, &line[start..])));
    names
}

/// The values of a list; anything else has none.
pub fn items(value: &Value) -> &[Value] {
    value.as_array().map_or(&[], Vec::as_slice)
}

/// The answers of all calls.
pub fn witnesses(calls: &Value) -> impl Iterator<Item = &Value> {
    items(calls).iter().filter_map(|call| call.get("Witnesses")).flat_map(items)
}

pub fn read_json(list: &List, text: &str) -> Result<Theirs, Fault> {
    let wrong = |what: &str| Fault::new(format!("{}: {}", list.path, what)).hint("clingo writes it by: clingo 0 --outf=2 SHEETS");
    let value: Value = serde_json::from_str(text).map_err(|_| wrong("this starts as JSON and is none"))?;
    let calls = value.get("Call").ok_or_else(|| wrong("this JSON has no Call, as clingo's output has"))?;
    let mut theirs = Theirs { told: list.shown(), ..Theirs::default() };
    let mut faults = Vec::new();
    for witness in witnesses(calls) {
        let place = format!("position {}", theirs.lines.len() + 1);
        let values = witness.get("Value").ok_or_else(|| wrong(&format!("{} has no Value", place)))?;
        let names = items(values).iter().map(|name| name.as_str().map(|name| (1, name))).collect::<Option<Vec<_>>>();
        let up = list.of_names(1, &names.ok_or_else(|| wrong(&format!("the Value of {} is no list of names", place)))?, &mut faults);
        theirs.told |= up;
        theirs.lines.push(Line { place, up, dropped_fact: None });
    }
    // A name's place within JSON is not kept.
    faults.iter_mut().for_each(|fault| {
        fault.spot = None;
        fault.what = format!("{}: {}", list.path, fault.what);
    });
    Fault::all(faults)?;
    let is_satisfiable = value.get("Result").and_then(Value::as_str) == Some(SATISFIABLE);
    let models = value.get("Models").and_then(|models| models.get("Number")).and_then(Value::as_u64);
    check_count(list, &mut theirs, is_satisfiable, models.map(|models| models as usize))?;
    let more = value.get("Models").and_then(|models| models.get("More")).and_then(Value::as_str);
    let is_unknown = value.get("Result").and_then(Value::as_str) == Some("UNKNOWN");
    theirs.notes.extend(Some(EARLY.to_string()).filter(|_| more == Some("yes") || is_unknown));
    Ok(theirs)
}
