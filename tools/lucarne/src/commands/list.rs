//! The list in the form that is asked for, or held against clingo's.

use super::args::Args;
use super::check;
use crate::fault::{status, Fault};
use crate::plan::group::Group;
use crate::show::{self, lp, output, Form};
use std::mem::ManuallyDrop;

pub fn run(args: &Args) -> Result<i32, Fault> {
    if args.form == Form::Lp && !args.check_with_clingo {
        return written_out(args);
    }
    let group = ManuallyDrop::new(Group::open(&args.group)?); // the program ends behind it, and gives all back at once
    output::notes(&group.notes, args.is_quiet);
    if args.check_with_clingo {
        return check::check(&group, args);
    }
    output::write(args.output.as_deref(), &show::show(&group, args.form, args.heads))?;
    if group.listing.positions.is_empty() {
        let why = "there is no position; lucarne why GROUP names the few constraints that leave none";
        output::notes(&[why.to_string()], args.is_quiet);
        return Ok(status::NOT_FINE);
    }
    Ok(status::FINE)
}

/// The group for clingo. It need not be listed: it may have more positions than a list takes.
fn written_out(args: &Args) -> Result<i32, Fault> {
    let group = Group::prepare(&args.group)?;
    output::notes(&group.notes, args.is_quiet);
    output::write(args.output.as_deref(), lp::show(&group, &args.group.turns.constants)?.as_bytes())?;
    Ok(status::FINE)
}
