//! One settled position after the other, also where there are more than a list takes: as the list has them, or whole ones with all relays.

use super::args::Args;
use crate::fault::{status, Fault};
use crate::plan::group::Group;
use crate::plan::program::Atom;
use crate::plan::walk::{Walk, AT_ONCE};
use crate::show::csv;
use crate::show::output::{self, Stream};
use crate::show::progress::Progress;
use crate::show::Form;

pub fn run(args: &Args) -> Result<i32, Fault> {
    let group = Group::prepare(&args.group)?;
    output::notes(&group.notes, args.is_quiet);
    let mut walk = if args.is_whole { Walk::of_wholes(&group) } else { Walk::as_listed(&group)? };
    check(args, walk.known())?;
    let most = if args.is_all { AT_ONCE } else { 1 };
    let mut found = walk.next(args.position, most)?;
    let is_any = !found.is_empty();
    let relays = relays(&group, args.is_whole);
    let mut stream = Stream::to(args.output.as_deref())?;
    if args.form == Form::Csv {
        stream.text(&csv::line(["position".to_string()].into_iter().chain(csv::headings(&group, &relays, args.heads))))?;
    }
    let mut progress = Progress::beside_output("positions", 0);
    while let Some(&last) = found.last() {
        // What one call gives is written at once, and so is there for whoever reads on.
        stream.text(&found.iter().map(|&position| line(&group, args.form, &relays, position)).collect::<String>())?;
        found.iter().for_each(|_| progress.step());
        found = if args.is_all { walk.next(Some(last), most)? } else { Vec::new() };
    }
    if !is_any && args.form != Form::Csv {
        stream.text(if args.position.is_some() {
            "no position is left\n"
        } else {
            "the group has no position: lucarne why GROUP tells the constraints\n"
        })?;
    }
    stream.end()?;
    Ok(if is_any { status::FINE } else { status::NOT_FINE })
}

/// A position to go on from is one of the same kind.
fn check(args: &Args, known: u64) -> Result<(), Fault> {
    match args.position.filter(|position| position & !known != 0 && !args.is_whole) {
        Some(position) => Err(Fault::new(format!("{:016x} has bits up that no position of the list has", position))
            .hint("words of the list are those of lucarne list --as sheet; lucarne next --whole goes on from whole positions")),
        None => Ok(()),
    }
}

/// The relays of the columns: those that show, or all; helpers are none.
fn relays(group: &Group, is_whole: bool) -> Vec<Atom> {
    if !is_whole {
        return group.shown();
    }
    let used = group.program.used_atoms();
    group.plan.atoms.iter().copied().filter(|atom| !group.program.atoms[*atom].is_helper && used.contains(atom)).collect()
}

/// A position by its word, from which the next one is asked for, and by name.
fn line(group: &Group, form: Form, relays: &[Atom], position: u64) -> String {
    if form != Form::Csv {
        return format!("{:016x}  {}\n", position, group.told(position));
    }
    csv::line([format!("{:016x}", position)].into_iter().chain(csv::cells(group, relays, position)))
}
