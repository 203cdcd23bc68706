//! Why a group has no position: the few constraints that leave none. And why one position is not settled.

use super::args::Args;
use crate::fault::{status, Fault};
use crate::plan::group::Group;
use crate::plan::library;
use crate::plan::library::verdicts::{self, Blame};
use crate::show::output;
use crate::plan::told;
use crate::plan::reason;

pub fn run(args: &Args) -> Result<i32, Fault> {
    let group = Group::prepare(&args.group)?;
    output::notes(&group.notes, args.is_quiet);
    let (text, status) = match args.position {
        Some(position) => of_position(&group, position)?,
        None => of_group(&group)?,
    };
    output::write(args.output.as_deref(), text.as_bytes())?;
    Ok(status)
}

fn of_group(group: &Group) -> Result<(String, i32), Fault> {
    match verdicts::blame(&group.plan.bytes).map_err(|refusal| group.refused(refusal))? {
        Blame::Position(position) => {
            Ok((format!("the group has a position; the least: {}   ({:016x})\n", group.told(position), position), status::FINE))
        }
        Blame::Constraints(0) => Ok((no_constraint(group), status::NOT_FINE)),
        Blame::Constraints(held) => Ok((constraints(group, held), status::NOT_FINE)),
    }
}

fn no_constraint(group: &Group) -> String {
    let keys = if group.program.keys.is_empty() { "" } else { " and the keys as they are set" };
    let loops = "look for a relay that is driven only where it is dropped (r :- not r)";
    format!("the group has no position, and no constraint is to blame: the rules that drive relays{} leave none\n  hint: {}\n", keys, loops)
}

/// The constraints that are held, each line once, with what it says here where variables were written out.
fn constraints(group: &Group, held: u64) -> String {
    let count = held.count_ones();
    let start = if count == 1 {
        "the group has no position; this constraint leaves none".to_string()
    } else {
        format!("the group has no position; these {} constraints together leave none", count)
    };
    let mut out = format!("{} (without {} there is one):\n", start, if count == 1 { "it" } else { "any one of them" });
    for (_, rule) in group.program.rules.iter().enumerate().filter(|(number, _)| held >> number & 1 == 1) {
        let written = group.program.written(rule);
        let same = |text: &str| text.chars().filter(|sign| !sign.is_whitespace()).collect::<String>();
        let here = if same(&written) == same(&rule.text) { String::new() } else { format!("   (here: {})", written) };
        out += &format!("    {}{}\n", rule.told(), here);
    }
    out
}

/// A position that has relays up which do not show is taken for a whole one; others tell what shows alone, as lists do.
fn of_position(group: &Group, position: u64) -> Result<(String, i32), Fault> {
    let position = told::whole_of(group, position)?;
    let told = format!("{}   ({:016x})\n", group.told(position), position);
    if library::judge(&group.plan.bytes, position).map_err(|refusal| group.refused(refusal))? {
        return Ok((format!("settled: {}", told), status::FINE));
    }
    let up = group.plan.up(position).into_iter().collect();
    Ok((format!("not settled: {}    {}\n", told, reason::why_not(group, &up)), status::NOT_FINE))
}
