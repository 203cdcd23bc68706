//! What clap refuses, in the words of this tool.

use super::line;
use crate::fault::Fault;
use crate::near;
use clap::error::{ContextKind, ContextValue, ErrorKind};

const ALL: &str = "lucarne --help shows all options";

pub fn of(error: &clap::Error) -> Fault {
    let (option, value) = (option(error), told(error, ContextKind::InvalidValue));
    match error.kind() {
        ErrorKind::InvalidSubcommand => no_command(&told(error, ContextKind::InvalidSubcommand)),
        ErrorKind::UnknownArgument => no_option(&option),
        ErrorKind::InvalidValue => Fault::new(format!("{} needs a value", option)).hint(ALL),
        ErrorKind::TooManyValues => Fault::new(format!("{} takes no value, and {} is given", option, value)).hint(ALL),
        ErrorKind::ArgumentConflict => Fault::new(format!("{} is given twice", option)).hint("keep one of the two"),
        ErrorKind::InvalidUtf8 => Fault::new("a word of the command line is no text in UTF-8").hint("only names of files may have other bytes"),
        _ => Fault::new(error.to_string().trim().to_string()).hint(ALL),
    }
}

fn told(error: &clap::Error, wanted: ContextKind) -> String {
    error.context().find(|(kind, _)| *kind == wanted).map_or(String::new(), |(_, value)| match value {
        ContextValue::String(text) => text.clone(),
        ContextValue::Strings(texts) => texts.join(" "),
        _ => String::new(),
    })
}

/// The option without the name of its value.
fn option(error: &clap::Error) -> String {
    let written = told(error, ContextKind::InvalidArg);
    written.split_whitespace().next().unwrap_or_default().to_string()
}

fn no_command(name: &str) -> Fault {
    let names = line::names();
    let otherwise = format!("it is one of {}", names.join(", "));
    Fault::new(format!("{} is no command", name)).hint(near::hint(name, names.into_iter(), &otherwise))
}

/// An option that another command has, or none.
fn no_option(name: &str) -> Fault {
    let options = line::options();
    let commands = options.iter().find(|known| known.name == name).map_or(&[] as &[&str], |known| &known.commands);
    let wrong = Fault::new(format!("{} does not go with this command", name));
    match commands {
        // Letters alone are near to each other and mean nothing alike.
        [] if !name.starts_with("--") => Fault::new(format!("{} is no option", name)).hint(ALL),
        [] => Fault::new(format!("{} is no option", name)).hint(near::hint(name, options.iter().map(|known| known.name.as_str()), ALL)),
        [_] if name == "--check-with" => Fault::new("--check-with goes with list").hint(usage(name)),
        [_] => wrong.hint(usage(name)),
        many => wrong.hint(format!("it goes with {}", many.join(", "))),
    }
}

/// How an option of one command is written.
fn usage(option: &str) -> &'static str {
    match option {
        "--check-with" => "lucarne list GROUP --check-with clingo",
        "--clingo-option" => "lucarne list GROUP --check-with clingo --clingo-option=--eq=0",
        "--file" => "lucarne ask --file QUESTIONS GROUP",
        "--all" => "lucarne next GROUP --all",
        "--whole" => "lucarne next GROUP --whole",
        "--over" => "lucarne keys GROUP --over k1,k2",
        "-j" => "lucarne each GROUP.. -j 4",
        "--limit" => "lucarne readings RUN GROUP --limit 85.5",
        _ => ALL,
    }
}
