//! Questions over the list: these up and those dropped, how many positions, and which relays are up in all of them and in some.

use super::args::Args;
use crate::fault::{status, Fault, Spot};
use crate::plan::group::Group;
use crate::plan::library::questions::{self, Question};
use crate::read::lookup::{self, Called};
use crate::show::output;
use crate::show::csv;
use crate::show::Form;
use crate::read::sources;
use std::path::Path;
use std::sync::Arc;

/// A question with its words for the answer.
struct Asked {
    question: Question,
    told: String,
}

pub fn run(args: &Args) -> Result<i32, Fault> {
    let group = Group::open(&args.group)?;
    let asked = match &args.file {
        Some(file) => of_file(&group, file)?,
        None => vec![of_text(&group, args.question()?)?],
    };
    output::notes(&group.notes, args.is_quiet);
    let list = &group.listing.positions;
    let all: Vec<Question> = asked.iter().map(|asked| asked.question).collect();
    let counts = questions::count(list, &all).map_err(|refusal| group.refused(refusal))?;
    let text = match (args.form, asked.as_slice()) {
        (Form::Csv, _) => table(&asked, &counts, list.len()),
        (_, [one]) if args.file.is_none() => one_answer(&group, one, counts[0]),
        _ => asked.iter().zip(&counts).map(|(asked, count)| format!("{:4} of {}  {}\n", count, list.len(), asked.told)).collect(),
    };
    output::write(args.output.as_deref(), text.as_bytes())?;
    Ok(if list.is_empty() { status::NOT_FINE } else { status::FINE })
}

fn table(asked: &[Asked], counts: &[u64], of: usize) -> String {
    let line = |asked: &Asked, count: &u64| csv::line([csv::heading(&asked.told), count.to_string(), of.to_string()]);
    csv::line(["question", "positions", "of"]) + &asked.iter().zip(counts).map(|(asked, count)| line(asked, count)).collect::<String>()
}

/// One question's answer, with the relays of the positions that fit.
fn one_answer(group: &Group, asked: &Asked, count: u64) -> String {
    let list = &group.listing.positions;
    let fitting: Vec<u64> = list.iter().copied().filter(|&position| asked.question.fits(position)).collect();
    let mut out = format!("{} of {} positions: {}\n", count, list.len(), asked.told);
    if fitting.is_empty() {
        return out;
    }
    let (all, some) = questions::common(&fitting);
    let shown = group.shown();
    let mut tell = |what: &str, fits: &dyn Fn(u64) -> bool| {
        let names: Vec<&str> =
            shown.iter().filter(|&&atom| fits(group.plan.word(&[atom]))).map(|&atom| group.program.label(atom)).collect();
        out += &format!("{}: {}\n", what, if names.is_empty() { "(none)".to_string() } else { names.join(", ") });
    };
    tell("up in all of them", &|bit| bit & all != 0);
    tell("up in some", &|bit| bit & some & !all != 0);
    tell("up in none", &|bit| bit & some == 0);
    out
}

/// A question a line; empty lines and those that start with % or # are left out.
fn of_file(group: &Group, path: &Path) -> Result<Vec<Asked>, Fault> {
    let bytes =
        sources::read_bytes(path).map_err(|fault| fault.hint("name a file with a question on each line, or - for the standard input"))?;
    let name = path.to_string_lossy();
    let text = sources::to_text(&name, bytes)?;
    let (mut asked, mut faults) = (Vec::new(), Vec::new());
    for (number, line) in text.lines().enumerate() {
        let line = line.trim();
        if line.is_empty() || line.starts_with(|sign| sign == '%' || sign == '#') {
            continue;
        }
        let spot = Spot { file: Arc::from(name.as_ref()), line: number + 1, column: 1 };
        match of_text(group, line) {
            Ok(one) => asked.push(one),
            Err(fault) => faults.push(fault.spot(Some(&spot))),
        }
    }
    Fault::all(faults)?;
    if asked.is_empty() {
        return Err(Fault::new(format!("{} asks nothing", name)).hint("write a question a line: gr_a,-t1_tr is gr_a up and t1_tr dropped"));
    }
    Ok(asked)
}

/// `a,-b`: a up and b dropped; so are `+a` and `not b`. An empty text asks for every position.
fn of_text(group: &Group, text: &str) -> Result<Asked, Fault> {
    let mut asked = Asked { question: Question::default(), told: String::new() };
    let mut told = Vec::new();
    for term in terms(text).into_iter().filter(|_| !text.trim().is_empty()) {
        let (called, name, is_up) = term_of(group, term).map_err(|fault| fault.text(text))?;
        add(group, &mut asked.question, called, is_up).map_err(|fault| fault.text(text))?;
        told.push(format!("{} {}", group.program.label_of(name), if is_up { "up" } else { "dropped" }));
    }
    asked.told = if told.is_empty() { "all".to_string() } else { told.join(", ") };
    Ok(asked)
}

/// The parts between commas that stand outside brackets.
fn terms(text: &str) -> Vec<&str> {
    let (mut terms, mut start, mut depth, mut is_quoted) = (Vec::new(), 0, 0i32, false);
    for (place, sign) in text.char_indices() {
        match sign {
            '"' => is_quoted = !is_quoted,
            '(' if !is_quoted => depth += 1,
            ')' if !is_quoted => depth -= 1,
            ',' if !is_quoted && depth <= 0 => {
                terms.push(text[start..place].trim());
                start = place + 1;
            }
            _ => {}
        }
    }
    terms.push(text[start..].trim());
    terms
}

/// What a term names, and whether it is to be up.
fn term_of<'a>(group: &Group, term: &'a str) -> Result<(Called, &'a str, bool), Fault> {
    if term.is_empty() {
        return Err(Fault::new("a relay is missing beside a comma").hint("a question is written so: gr_a,-t1_tr"));
    }
    let opposite = term.strip_prefix('-').map(str::trim_start);
    if let (Some(name), Some(_)) = (opposite, lookup::find(group, term)) {
        let hint = format!("write +{} for the relay {} up, and not {} for {} dropped", term, term, name, name);
        return Err(Fault::new(format!("{} is a relay of its own, so this may mean two things", term)).hint(hint));
    }
    let dropped = term.strip_prefix("not ").map(str::trim_start).or(opposite);
    let name = dropped.or_else(|| term.strip_prefix('+').map(str::trim_start)).unwrap_or(term);
    Ok((lookup::relay(group, name)?, name, dropped.is_none()))
}

/// Adds a relay to a question. A fact outside the plan is up in any case, so one that is to be dropped leaves no position.
fn add(group: &Group, question: &mut Question, called: Called, is_up: bool) -> Result<(), Fault> {
    let bit = match called {
        Called::Always if is_up => return Ok(()),
        Called::Always => {
            *question = Question { up: question.up | 1, dropped: question.dropped | 1 };
            return Ok(());
        }
        Called::Relay(atom) if !group.program.is_shown(atom) => {
            let what = format!("{} does not show, so the list does not tell of it", group.program.label(atom));
            return Err(Fault::new(what).hint("name it by #show, or ask over relays that show"));
        }
        Called::Relay(atom) => group.plan.word(&[atom]),
    };
    if is_up {
        question.up |= bit;
    } else {
        question.dropped |= bit;
    }
    Ok(())
}
