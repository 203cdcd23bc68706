//! The list by relay: in which positions each one is up.

use super::args::Args;
use crate::fault::{status, Fault};
use crate::plan::group::Group;
use crate::plan::library::questions;
use crate::show::output;
use crate::show::csv::{self, Heads};
use crate::show::Form;

/// A space stands behind so many positions.
const BLOCK: usize = 10;

pub fn run(args: &Args) -> Result<i32, Fault> {
    let group = Group::open(&args.group)?;
    output::notes(&group.notes, args.is_quiet);
    let rows = questions::rows(&group.listing.positions).map_err(|refusal| group.refused(refusal))?;
    let text = if args.form == Form::Csv { table(&group, &rows, args.heads) } else { text(&group, &rows) };
    output::write(args.output.as_deref(), text.as_bytes())?;
    Ok(if group.listing.positions.is_empty() { status::NOT_FINE } else { status::FINE })
}

/// The relays that show, with the rows of their bits.
fn shown<'a>(group: &'a Group, rows: &'a [Vec<bool>]) -> Vec<(usize, &'a [bool])> {
    let row = |atom: usize| group.plan.bit(atom).and_then(|bit| rows.get(bit)).map_or(&[] as &[bool], Vec::as_slice);
    group.shown().into_iter().map(|atom| (atom, row(atom))).collect()
}

fn table(group: &Group, rows: &[Vec<bool>], heads: Heads) -> String {
    let numbers = (1..=group.listing.positions.len()).map(|place| place.to_string());
    let mut out = csv::line(["relay".to_string()].into_iter().chain(numbers));
    for (atom, row) in shown(group, rows) {
        let cells = row.iter().map(|&is_up| if is_up { "1" } else { "0" }.to_string());
        out += &csv::line([csv::head(group, atom, heads)].into_iter().chain(cells));
    }
    out
}

/// X is up, a dot is dropped; the numbers stand above the first position of each block.
fn text(group: &Group, rows: &[Vec<bool>]) -> String {
    if group.listing.positions.is_empty() {
        return "positions 0\n".to_string();
    }
    let shown = shown(group, rows);
    let width = shown.iter().map(|&(atom, _)| group.program.label(atom).chars().count()).max().unwrap_or(0);
    let numbers = (0..group.listing.positions.len()).step_by(BLOCK).map(|place| format!("{:<1$}", place + 1, BLOCK));
    let line = |first: &str, blocks: Vec<String>| format!("{:2$}  {}", first, blocks.join(" "), width).trim_end().to_string() + "\n";
    let mut out = line("", numbers.collect());
    for (atom, row) in shown {
        let blocks = row.chunks(BLOCK).map(|block| block.iter().map(|&is_up| if is_up { 'X' } else { '.' }).collect());
        out += &line(group.program.label(atom), blocks.collect());
    }
    out
}
