//! What clap knows: the commands with their words and options. From it come the help of each command, the completions and the manual.

use super::{one_of, Command};
use crate::fault::Fault;
use clap::builder::ValueParser;
use clap::{value_parser, Arg, ArgAction, ArgMatches};
use clap_complete::Shell;
use std::ffi::OsString;

pub const COMPLETIONS: &str = "completions";
pub const MANUAL: &str = "man";

/// What GROUP is, in the help and in the manual.
macro_rules! group {
    () => {
        "GROUP is a folder of sheets (*.lp), sheets, a plan (X.plan), or - for the standard input: a sheet, or what gringo --output=intermediate writes."
    };
}

/// The exit status, in the help and in the manual.
macro_rules! status {
    () => {
        "0 fine; 1 answered, but there is no position, or lists differ; 2 the input is refused; 3 the tool's own trouble."
    };
}

pub const GROUP: &str = group!();
pub const STATUS: &str = status!();

pub const USAGE: &str = concat!(
    "\
lucarne: every settled position of a relay group, by name

    lucarne list GROUP..      the positions
        --as names|table|csv|json|sheet|dot|svg|html|lp
                              lp is the group for clingo, keys and tables included
        --check-with clingo   hold the list against clingo's on the same sheets
        --clingo-option X     an option for clingo, as --clingo-option=--eq=0
    lucarne compile GROUP.. -o X.plan
                              the plan as bytes, and X.names beside it
    lucarne explain GROUP..   units, links with the rules that ask for them, what was joined or moved
    lucarne audit THEIRS GROUP..
                              a list from elsewhere against this one: CSV by relay, a sheet of words, or clingo's text or JSON
    lucarne ask 'a,-b' GROUP..
                              how many positions have a up and b dropped, and what is up in all of them
        --file QUESTIONS      a question a line
    lucarne next GROUP.. [POSITION]
                              the first position, or the next one above a word of 16 digits, in the list's order, also where there are more than 256
        --all                 all from there on, one by one
        --whole               whole positions, with what does not show, in the order of their own words
    lucarne why GROUP.. [POSITION]
                              the few constraints that leave no position, or why a position is not settled
    lucarne rows GROUP..      the list by relay
    lucarne keys GROUP..      each setting of the keys with its count; with --as csv its list
        --over K1,K2          these keys alone; the others stay as they are
    lucarne each GROUP..      many groups, one line each
        -j N                  N at once
    lucarne readings RUN GROUP..
                              the panel's drop-away readings beside the positions
        --limit MS            those above so many milliseconds
    lucarne completions bash|zsh|fish
                              what a shell needs to complete commands and options
    lucarne man               the manual page

",
    group!(),
    "

    -o FILE                   write to a file; never to one that is read
    --turn KEY, --release KEY set a key against what the sheets say
    -c NAME=VALUE             set a constant (#const) of the sheets, as -c n=2
    --strict                  refuse sheets that depend on each other in a circle, and files of a folder that are no sheets
    --one-unit                work all sheets as one unit
    --ground auto|always|never
                              let gringo read sheets with variables, all, or none
    --names                   head the columns of CSV by names, also where there are labels
    -q                        no notes on standard error
    -h, --help, -V, --version lucarne list --help, or lucarne help list, tells of list alone
    --                        what follows is no option, as a sheet whose name starts with -

Exit status: ",
    status!(),
    "
"
);

/// A command: its name, the words it takes, what it is for, and the options that not all have.
struct Known {
    name: &'static str,
    command: Command,
    words: &'static str,
    about: &'static str,
    own: &'static [&'static str],
}

const KNOWN: [Known; 11] = [
    Known {
        name: "list",
        command: Command::List,
        words: "GROUP",
        about: "The positions",
        own: &["as", "names", "check-with", "clingo-option"],
    },
    Known { name: "compile", command: Command::Compile, words: "GROUP", about: "The plan as bytes, and X.names beside it", own: &[] },
    Known {
        name: "explain",
        command: Command::Explain,
        words: "GROUP",
        about: "Units, links with the rules that ask for them, what was joined or moved",
        own: &[],
    },
    Known { name: "audit", command: Command::Audit, words: "THEIRS GROUP", about: "A list from elsewhere against this one", own: &["as"] },
    Known {
        name: "ask",
        command: Command::Ask,
        words: "QUESTION GROUP",
        about: "How many positions have a up and b dropped, as 'a,-b', and what is up in all of them",
        own: &["as", "file"],
    },
    Known {
        name: "next",
        command: Command::Next,
        words: "GROUP [POSITION]",
        about: "The first position, or the next one above a word of 16 digits, in the list's order",
        own: &["as", "names", "all", "whole"],
    },
    Known {
        name: "why",
        command: Command::Why,
        words: "GROUP [POSITION]",
        about: "The few constraints that leave no position, or why a position is not settled",
        own: &["as"],
    },
    Known { name: "rows", command: Command::Rows, words: "GROUP", about: "The list by relay", own: &["as", "names"] },
    Known {
        name: "keys",
        command: Command::Keys,
        words: "GROUP",
        about: "Each setting of the keys with its count; with --as csv its list",
        own: &["as", "names", "over"],
    },
    Known { name: "each", command: Command::Each, words: "GROUP", about: "Many groups, one line each", own: &["as", "jobs"] },
    Known {
        name: "readings",
        command: Command::Readings,
        words: "RUN GROUP",
        about: "The panel's drop-away readings beside the positions",
        own: &["as", "names", "limit"],
    },
];

/// The options of all commands.
const COMMON: [&str; 8] = ["output", "turn", "release", "constant", "strict", "one-unit", "ground", "quiet"];

pub fn is_common(id: &str) -> bool {
    COMMON.contains(&id)
}

pub fn command(name: &str) -> Result<Command, Fault> {
    one_of("command", name, &KNOWN.map(|known| (known.name, known.command)))
}

/// The names of all commands.
pub fn names() -> Vec<&'static str> {
    KNOWN.iter().map(|known| known.name).chain(["help", COMPLETIONS, MANUAL]).collect()
}

/// All commands with their options.
pub fn lucarne() -> clap::Command {
    with_options(|_| true)
}

/// The same for a command line. Where its first word is a command, only that one has its options: to build those of all takes longer than a
/// small sheet.
pub fn for_words(words: &[OsString]) -> clap::Command {
    let first = words.first().and_then(|word| word.to_str()).and_then(|word| KNOWN.iter().find(|known| known.name == word));
    with_options(|known| first.map_or(true, |first| first.name == known.name))
}

fn with_options(has_options: impl Fn(&Known) -> bool) -> clap::Command {
    let shell = Arg::new("shell").value_name("SHELL").help("bash, zsh or fish");
    let completions = clap::Command::new(COMPLETIONS).about("What a shell needs to complete commands and options").arg(shell);
    clap::Command::new("lucarne")
        .version(crate::VERSION)
        .propagate_version(true)
        .about("Every settled position of a relay group, by name")
        .override_help(USAGE)
        .subcommands(KNOWN.iter().map(|known| if has_options(known) { subcommand(known) } else { clap::Command::new(known.name) }))
        .subcommand(completions)
        .subcommand(clap::Command::new(MANUAL).about("The manual page"))
}

fn subcommand(known: &Known) -> clap::Command {
    let help = "A folder of sheets (*.lp), sheets, a plan (X.plan), or - for the standard input";
    let words = Arg::new("words").value_name(known.words).num_args(0..).action(ArgAction::Append).value_parser(ValueParser::os_string());
    let options = known.own.iter().chain(&COMMON).map(|id| option(id));
    clap::Command::new(known.name).about(known.about).arg(words.help(help)).args(options)
}

/// An option by its name. Its value is the next word, whatever that starts with, and a flag may be given twice.
pub fn option(id: &'static str) -> Arg {
    let value = |name: &'static str| Arg::new(id).long(id).value_name(name).allow_hyphen_values(true);
    let file = |name: &'static str| value(name).value_parser(value_parser!(std::path::PathBuf));
    let flag = || Arg::new(id).long(id).action(ArgAction::SetTrue).overrides_with(id);
    match id {
        "as" => value("FORM").help("names, table, csv, json, sheet, dot, svg, html or lp; not every command writes all"),
        "check-with" => value("PROGRAM").help("Hold the list against clingo's on the same sheets: --check-with clingo"),
        "clingo-option" => value("X").action(ArgAction::Append).help("An option for clingo, as --clingo-option=--eq=0"),
        "file" => file("QUESTIONS").help("A file with a question a line"),
        "all" => flag().help("All from there on, one by one"),
        "whole" => flag().help("Whole positions, with what does not show, in the order of their own words"),
        "over" => value("K1,K2").action(ArgAction::Append).help("These keys alone; the others stay as they are"),
        "jobs" => Arg::new(id).short('j').value_name("N").allow_hyphen_values(true).help("So many groups at once"),
        "limit" => value("MS").help("Mark those above so many milliseconds"),
        "output" => file("FILE").short('o').help("Write to a file; never to one that is read"),
        "turn" => value("KEY").action(ArgAction::Append).help("Turn a key against what the sheets say"),
        "release" => value("KEY").action(ArgAction::Append).help("Release a key against what the sheets say"),
        "constant" => value("NAME=VALUE").short('c').alias("const").action(ArgAction::Append).help("Set a constant of the sheets, as -c n=2"),
        "strict" => flag().help("Refuse sheets that depend on each other in a circle, and files of a folder that are no sheets"),
        "one-unit" => flag().help("Work all sheets as one unit"),
        "ground" => value("WAY").help("auto, always or never: let gringo read sheets with variables, all, or none"),
        "names" => flag().help("Head the columns of CSV by names, also where there are labels"),
        _ => flag().short('q').help("No notes on standard error"),
    }
}

/// An option as it is written, with the commands that have it.
pub struct Written {
    pub name: String,
    pub takes_value: bool,
    pub commands: Vec<&'static str>,
}

pub fn options() -> Vec<Written> {
    let mut found: Vec<Written> = Vec::new();
    for known in &KNOWN {
        for argument in known.own.iter().chain(&COMMON).map(|id| option(id)) {
            for name in written(&argument) {
                match found.iter_mut().find(|other| other.name == name) {
                    Some(other) => other.commands.push(known.name),
                    None => found.push(Written { name, takes_value: argument.get_action().takes_values(), commands: vec![known.name] }),
                }
            }
        }
    }
    found
}

fn written(argument: &Arg) -> Vec<String> {
    let long = argument.get_long().map(|long| format!("--{}", long));
    long.into_iter().chain(argument.get_short().map(|short| format!("-{}", short))).collect()
}

/// The script of a shell's completions.
pub fn completions(matches: &ArgMatches) -> Result<String, Fault> {
    let name = matches.get_one::<String>("shell").map_or("", String::as_str);
    let shell = one_of("shell", name, &[("bash", Shell::Bash), ("zsh", Shell::Zsh), ("fish", Shell::Fish)])?;
    let mut script = Vec::new();
    clap_complete::generate(shell, &mut lucarne(), "lucarne", &mut script);
    Ok(String::from_utf8_lossy(&script).into_owned())
}
