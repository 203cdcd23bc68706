//! The commands, a module for each, by its name; `args` is the command line.

pub mod args;
pub mod ask;
pub mod audit;
pub mod check;
pub mod compile;
pub mod each;
pub mod explain;
pub mod guard;
pub mod keys;
pub mod list;
pub mod next;
pub mod readings;
pub mod rows;
pub mod why;

use crate::fault::{status, Fault};
use crate::plan::group::Group;
use crate::show::output;
use args::{Args, Asked, Command};
use std::ffi::OsString;

/// Runs a command line and says what is wrong; its exit status.
pub fn run(words: Vec<OsString>) -> i32 {
    match args::parse(words).and_then(work) {
        Ok(status) => status,
        Err(fault) => {
            if !fault.what.is_empty() {
                output::say(&fault.to_string());
            }
            fault.status
        }
    }
}

fn work(asked: Asked) -> Result<i32, Fault> {
    let args = match asked {
        Asked::Text(text) => return output::write(None, text.as_bytes()).map(|_| status::FINE),
        Asked::Work(args) => args,
    };
    guard::check(&args)?;
    match args.command {
        Command::List => list::run(&args),
        Command::Compile => compile::run(&args),
        Command::Explain => explain::run(&args),
        Command::Audit => audit::run(&args),
        Command::Ask => ask::run(&args),
        Command::Next => next::run(&args),
        Command::Why => why::run(&args),
        Command::Rows => rows::run(&args),
        Command::Keys => keys::run(&args),
        Command::Each => each::run(&args),
        Command::Readings => readings::run(&args),
    }
}

/// Opens a group that need not be listed: where its list is refused, that is a note, and the status says that it is not fine.
fn open_unlisted(args: &Args) -> Result<(Group, i32), Fault> {
    let mut group = Group::prepare(&args.group)?;
    match group.list() {
        Ok(()) => Ok((group, status::FINE)),
        Err(fault) if fault.status == status::REFUSED => {
            group.notes.push(format!("no list: {}", fault));
            Ok((group, status::NOT_FINE))
        }
        Err(fault) => Err(fault),
    }
}
