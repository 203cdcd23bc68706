//! The command line: read by clap, in the words of this tool.

mod faults;
mod line;
mod manual;
mod needs;

use crate::fault::Fault;
use crate::near;
use crate::plan::group::Options;
use crate::plan::layout::Circles;
use crate::read::reader::{Grounding, Turns};
use crate::show::csv::Heads;
use crate::show::{Form, FORMS};
use clap::error::ErrorKind;
use clap::ArgMatches;
use std::ffi::OsString;
use std::path::PathBuf;

#[derive(Clone, Copy, Debug, PartialEq, Eq)]
pub enum Command {
    List,
    Compile,
    Explain,
    Audit,
    Ask,
    Next,
    Why,
    Rows,
    Keys,
    Each,
    Readings,
}

/// What a command line asks for: work, or a text that is the answer (help, the version, completions).
pub enum Asked {
    Work(Box<Args>),
    Text(String),
}

#[derive(Clone, Debug)]
pub struct Args {
    pub command: Command,
    pub group: Options,
    pub form: Form,
    pub output: Option<PathBuf>,
    pub check_with_clingo: bool,
    pub clingo_options: Vec<String>,
    pub is_quiet: bool,
    /// What stands before the group: a list, a question, a run of readings.
    pub subject: OsString,
    /// A position by its word, which stands behind the group.
    pub position: Option<u64>,
    /// A file of questions.
    pub file: Option<PathBuf>,
    /// Whether all positions are wanted, one after the other.
    pub is_all: bool,
    /// Whether whole positions are wanted, with what does not show.
    pub is_whole: bool,
    /// What stands above the columns of CSV.
    pub heads: Heads,
    /// The keys that are gone through; none are all.
    pub over: Vec<String>,
    /// How many groups are worked at once.
    pub jobs: Option<usize>,
    /// The most milliseconds of a reading.
    pub limit: Option<String>,
}

impl Args {
    /// The question that stands before the group.
    pub fn question(&self) -> Result<&str, Fault> {
        let told = self.subject.to_string_lossy();
        let text = self.subject.to_str().map(str::trim);
        text.ok_or_else(|| Fault::new(format!("{} is no text in UTF-8", told)).hint("only names of files may have other bytes"))
    }
}

const WAYS: [(&str, Grounding); 3] = [("auto", Grounding::Auto), ("always", Grounding::Always), ("never", Grounding::Never)];

/// The command line after the program's name.
pub fn parse(words: Vec<OsString>) -> Result<Asked, Fault> {
    let words = needs::shield_question(words);
    let known = line::for_words(&words);
    let matches = match known.try_get_matches_from(std::iter::once(OsString::from("lucarne")).chain(words)) {
        Ok(matches) => matches,
        Err(error) if error.kind() == ErrorKind::DisplayHelp => return Ok(Asked::Text(error.to_string())),
        Err(error) if error.kind() == ErrorKind::DisplayVersion => return Ok(Asked::Text(format!("lucarne {}\n", crate::VERSION))),
        Err(error) => return Err(faults::of(&error)),
    };
    let (name, matches) = matches
        .subcommand()
        .ok_or_else(|| Fault::new("no command is named").hint("lucarne list GROUP lists a folder of sheets; lucarne --help shows all"))?;
    if name == line::COMPLETIONS {
        return line::completions(matches).map(Asked::Text);
    }
    if name == line::MANUAL {
        return Ok(Asked::Text(manual::page()));
    }
    let mut args = args_of(line::command(name)?, &Given { matches })?;
    needs::sort_words(&mut args)?;
    needs::check(&args)?;
    Ok(Asked::Work(Box::new(args)))
}

fn args_of(command: Command, given: &Given) -> Result<Args, Fault> {
    let circles = if given.flag("strict") { Circles::Refuse } else { Circles::Join };
    let group = Options {
        paths: given.all::<OsString>("words").into_iter().map(PathBuf::from).collect(),
        grounding: given.choice("ground", "way", &WAYS)?.unwrap_or(Grounding::Auto),
        circles,
        one_unit: given.flag("one-unit"),
        turns: Turns { turn: given.all("turn"), release: given.all("release"), constants: needs::constants(given.all("constant"))? },
    };
    Ok(Args {
        command,
        group,
        form: given.choice("as", "form", &FORMS)?.unwrap_or(Form::Names),
        output: given.one("output"),
        check_with_clingo: given.choice("check-with", "program", &[("clingo", true)])?.unwrap_or(false),
        clingo_options: given.all("clingo-option"),
        is_quiet: given.flag("quiet"),
        subject: OsString::new(),
        position: None,
        file: given.one("file"),
        is_all: given.flag("all"),
        is_whole: given.flag("whole"),
        heads: if given.flag("names") { Heads::Names } else { Heads::Labels },
        over: given.all::<String>("over").iter().flat_map(|names| needs::names(names)).collect(),
        jobs: given.one::<String>("jobs").map(|text| needs::jobs(&text)).transpose()?,
        limit: given.one("limit"),
    })
}

/// What clap found. An option that the command does not have is not given.
struct Given<'a> {
    matches: &'a ArgMatches,
}

impl<'a> Given<'a> {
    fn all<T: Clone + Send + Sync + 'static>(&self, id: &str) -> Vec<T> {
        self.matches.try_get_many(id).ok().flatten().map_or(Vec::new(), |values| values.cloned().collect())
    }

    fn one<T: Clone + Send + Sync + 'static>(&self, id: &str) -> Option<T> {
        self.all(id).pop()
    }

    fn flag(&self, id: &str) -> bool {
        self.one(id).unwrap_or(false)
    }

    fn choice<T: Copy>(&self, id: &str, what: &str, known: &[(&str, T)]) -> Result<Option<T>, Fault> {
        self.one::<String>(id).map(|name| one_of(what, &name, known)).transpose()
    }
}

/// The choice of this name.
fn one_of<T: Copy>(what: &str, name: &str, known: &[(&str, T)]) -> Result<T, Fault> {
    let found = known.iter().find(|(known, _)| *known == name).map(|&(_, choice)| choice);
    found.ok_or_else(|| {
        let names: Vec<&str> = known.iter().map(|&(name, _)| name).collect();
        let otherwise = format!("it is one of {}", names.join(", "));
        Fault::new(format!("{} is no {}", name, what)).hint(near::hint(name, names.iter().copied(), &otherwise))
    })
}
