//! The manual page, from the same words as the help.

use super::line;
use clap::{Arg, Command};

/// The page as man takes it.
pub fn page() -> String {
    let lucarne = line::lucarne();
    let commands: Vec<&Command> = lucarne.get_subcommands().collect();
    let mut out = format!(".TH LUCARNE 1 \"\" \"lucarne {}\" \"User Commands\"\n", crate::VERSION);
    out += &format!(".SH NAME\nlucarne \\- {}\n", text(&first_small(&about(&lucarne))));
    out += ".SH SYNOPSIS\n";
    out += &commands.iter().map(|command| synopsis(command)).collect::<Vec<_>>().join(".br\n");
    out += &format!(".SH DESCRIPTION\n{}\n", text(line::GROUP));
    out += ".SH COMMANDS\n";
    for command in &commands {
        out += &format!(".SS {} {}\n{}.\n", text(command.get_name()), text(&words(command)), text(&about(command)));
        out += &command.get_arguments().filter(|argument| is_own(argument)).map(option).collect::<String>();
    }
    out += ".SH OPTIONS OF ALL COMMANDS THAT TAKE A GROUP\n";
    let common = commands.iter().find(|command| command.get_arguments().any(|argument| !is_own(argument)));
    out += &common.map_or(String::new(), |command| command.get_arguments().filter(|argument| is_common(argument)).map(option).collect());
    out + &format!(".SH EXIT STATUS\n{}\n.SH SEE ALSO\n.BR gringo (1),\n.BR clingo (1)\n", text(line::STATUS))
}

fn about(command: &Command) -> String {
    command.get_about().map_or(String::new(), |about| about.to_string())
}

fn first_small(sentence: &str) -> String {
    let mut signs = sentence.chars();
    signs.next().map_or(String::new(), |first| first.to_lowercase().chain(signs).collect())
}

fn synopsis(command: &Command) -> String {
    format!(".B lucarne {}\n{}\n", text(command.get_name()), text(&format!("[OPTIONS] {}", words(command))))
}

/// The words that a command takes.
fn words(command: &Command) -> String {
    let names = command.get_positionals().flat_map(|argument| argument.get_value_names().unwrap_or_default().iter());
    names.map(|name| name.as_str()).collect::<Vec<_>>().join(" ")
}

fn is_common(argument: &Arg) -> bool {
    line::is_common(argument.get_id().as_str())
}

/// An option that not all commands have.
fn is_own(argument: &Arg) -> bool {
    !argument.is_positional() && !is_common(argument)
}

fn option(argument: &Arg) -> String {
    let written = argument.get_short().map(|short| format!("-{}", short)).into_iter();
    let written: Vec<String> = written.chain(argument.get_long().map(|long| format!("--{}", long))).collect();
    let takes_value = argument.get_action().takes_values();
    let names: Vec<&str> = argument.get_value_names().unwrap_or_default().iter().map(|name| name.as_str()).filter(|_| takes_value).collect();
    let value = if names.is_empty() { String::new() } else { format!(" \\fI{}\\fR", text(&names.join(" "))) };
    let help = argument.get_help().map_or(String::new(), |help| help.to_string());
    format!(".TP\n\\fB{}\\fR{}\n{}.\n", text(&written.join(", ")), value, text(&help))
}

/// Text that is nothing but text for man: no sign of it starts a request or is another one.
fn text(words: &str) -> String {
    let plain = words.replace('\\', "\\e").replace('-', "\\-");
    if plain.starts_with(['.', '\'']) {
        return format!("\\&{}", plain);
    }
    plain
}
