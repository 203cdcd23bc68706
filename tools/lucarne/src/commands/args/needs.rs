//! What each command takes beside its group: words before and behind it, options, forms.

use super::line;
use super::{Args, Command};
use crate::fault::Fault;
use crate::plan::file::names_path;
use crate::show::csv::Heads;
use crate::show::{Form, FORMS};
use std::ffi::OsString;
use std::path::{Path, PathBuf};

/// More at once bring nothing.
const MOST_JOBS: usize = 256;
const DIGITS: usize = 16;

/// Constants as NAME=VALUE.
pub fn constants(words: Vec<String>) -> Result<Vec<String>, Fault> {
    let is_name = |name: &str| name.starts_with(|sign: char| sign.is_ascii_lowercase() || sign == '_');
    match words.iter().find(|word| !word.split_once('=').map_or(false, |(name, value)| is_name(name) && !value.is_empty())) {
        Some(word) => Err(Fault::new(format!("{} sets no constant", word)).hint("write -c n=2")),
        None => Ok(words),
    }
}

/// A question of `ask` may start with a sign, as -t1_tr, and is no option then: a space before it tells clap so.
pub fn shield_question(mut words: Vec<OsString>) -> Vec<OsString> {
    if words.first().map_or(false, |word| word == "ask") {
        if let Some(place) = question(&words) {
            let mut shielded = OsString::from(" ");
            shielded.push(&words[place]);
            words[place] = shielded;
        }
    }
    words
}

/// Where the first word behind `ask` stands that is neither an option nor the value of one, if it starts with a sign.
fn question(words: &[OsString]) -> Option<usize> {
    let options = line::options();
    let mut place = 1;
    while let Some(word) = words.get(place) {
        let word = word.to_str().unwrap_or("");
        let (name, value) = word.split_once('=').map_or((word, None), |(name, value)| (name, Some(value)));
        let known = options.iter().find(|known| known.name == name);
        let is_option = known.is_some() || word == "-h" || word.starts_with("--");
        if !is_option {
            return Some(place).filter(|_| word.starts_with('-') && word != "-");
        }
        place += if value.is_none() && known.map_or(false, |known| known.takes_value) { 2 } else { 1 };
    }
    None
}

/// Puts the word before the group, and a position behind it, in their places.
pub fn sort_words(args: &mut Args) -> Result<(), Fault> {
    let (what, usage) = match args.command {
        Command::Audit => ("a list", "lucarne audit THEIRS GROUP"),
        Command::Readings => ("a run of readings", "lucarne readings RUN GROUP"),
        Command::Ask if args.file.is_none() => {
            ("a question", "lucarne ask 'gr_a,-t1_tr' GROUP, and with '' for the question of every position")
        }
        Command::Next | Command::Why => {
            args.position = take_position(&mut args.group.paths);
            return Ok(());
        }
        _ => return Ok(()),
    };
    if args.group.paths.len() < 2 {
        return Err(Fault::new(format!("{} and a group are wanted", what)).hint(usage));
    }
    args.subject = args.group.paths.remove(0).into_os_string();
    Ok(())
}

/// The last word, if it is a position and no file.
fn take_position(paths: &mut Vec<PathBuf>) -> Option<u64> {
    let last = paths.last().filter(|_| paths.len() > 1)?.to_str()?;
    let is_word = last.len() == DIGITS && last.bytes().all(|sign| sign.is_ascii_hexdigit()) && !Path::new(last).exists();
    let position = u64::from_str_radix(last, 16).ok().filter(|_| is_word)?;
    paths.pop();
    Some(position)
}

/// Names between commas that stand outside brackets.
pub fn names(text: &str) -> Vec<String> {
    let (mut names, mut depth) = (vec![String::new()], 0i32);
    for sign in text.chars() {
        depth += i32::from(sign == '(') - i32::from(sign == ')');
        match names.last_mut() {
            Some(name) if sign != ',' || depth > 0 => name.push(sign),
            _ => names.push(String::new()),
        }
    }
    names.into_iter().map(|name| name.trim().to_string()).filter(|name| !name.is_empty()).collect()
}

pub fn jobs(text: &str) -> Result<usize, Fault> {
    let jobs = text.parse().ok().filter(|jobs| (1..=MOST_JOBS).contains(jobs));
    jobs.ok_or_else(|| {
        Fault::new(format!("{} is no number of groups to work at once", text)).hint(format!("write a number from 1 to {}: -j 4", MOST_JOBS))
    })
}

/// What each command must and must not have.
pub fn check(args: &Args) -> Result<(), Fault> {
    if args.group.paths.is_empty() {
        return Err(
            Fault::new("no group is named").hint("name a folder of sheets, sheets (*.lp), a plan (*.plan), or - for the standard input")
        );
    }
    if args.heads == Heads::Names && args.form != Form::Csv {
        return Err(Fault::new("--names heads the columns of CSV, and another form is written").hint("write --as csv --names"));
    }
    if args.command == Command::Compile {
        plan_to_write(args.output.as_deref())?;
    }
    forms(args)
}

/// A compiled plan goes to a file, and its names beside it.
fn plan_to_write(output: Option<&Path>) -> Result<(), Fault> {
    let fault = match output {
        None => Fault::new("compile needs a file to write to"),
        Some(path) if names_path(path) == path => Fault::new(format!("{} would be both the plan and its names", path.display())),
        Some(_) => return Ok(()),
    };
    Err(fault.hint("lucarne compile GROUP -o X.plan"))
}

/// The forms that each command can write.
fn forms(args: &Args) -> Result<(), Fault> {
    let forms: &[Form] = match args.command {
        Command::Ask | Command::Next | Command::Rows | Command::Keys => &[Form::Names, Form::Csv],
        Command::Readings => &[Form::Names, Form::Csv, Form::Html],
        Command::Audit | Command::Why | Command::Each => &[Form::Names],
        _ => return Ok(()),
    };
    if forms.contains(&args.form) {
        return Ok(());
    }
    let name = |form: &Form| FORMS.iter().find(|(_, known)| known == form).map_or("", |(name, _)| name);
    let known: Vec<&str> = forms.iter().map(name).collect();
    Err(Fault::new(format!("this command does not write {}", name(&args.form))).hint(format!("it writes {}", known.join(" or "))))
}
