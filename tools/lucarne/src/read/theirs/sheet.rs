//! Document 01's sheet: "positions N", then a word of 16 hexadecimal digits for each position.

use super::{Line, List, Theirs};
use crate::fault::Fault;
use crate::plan::program::Atom;

const DIGITS: usize = 16;
const COUNT: &str = "positions ";
const REFUSED: &str = "refused ";

/// Whether the first line that is not empty is one of a sheet.
pub fn is_sheet(text: &str) -> bool {
    let first = text.lines().map(str::trim).find(|line| !line.is_empty()).unwrap_or("");
    count(first).is_some() || word(first).is_some() || first.starts_with(REFUSED) && first.contains(" at ")
}

fn count(line: &str) -> Option<usize> {
    line.strip_prefix(COUNT)?.trim().parse().ok()
}

fn word(line: &str) -> Option<u64> {
    let is_word = line.len() == DIGITS && line.bytes().all(|sign| sign.is_ascii_hexdigit());
    u64::from_str_radix(line, 16).ok().filter(|_| is_word)
}

pub fn read(list: &List, text: &str) -> Result<Theirs, Fault> {
    let mut theirs = Theirs::default();
    let (mut said, known) = (None, list.group.plan.word(&list.group.plan.atoms));
    for (number, line) in text.lines().map(str::trim).enumerate().filter(|(_, line)| !line.is_empty()) {
        match (count(line), word(line)) {
            (Some(count), _) if said.is_none() && theirs.lines.is_empty() => said = Some(count),
            (_, Some(up)) if up & !known != 0 => {
                let what = format!(
                    "bit {} is up here, and the plan has {} relays and helpers",
                    63 - up.leading_zeros(),
                    list.group.plan.atoms.len()
                );
                return Err(list.fault(number + 1, 1, what).text(line).hint("is it the sheet of another plan?"));
            }
            (_, Some(up)) => theirs.lines.push(Line { place: format!("line {}", number + 1), up, dropped_fact: None }),
            _ if line.starts_with(REFUSED) => {
                return Err(list
                    .fault(number + 1, 1, "this sheet holds a refusal, and no list")
                    .text(line)
                    .hint("lucarne list GROUP says in words what is refused"))
            }
            _ => {
                return Err(list
                    .fault(number + 1, 1, "here should stand a position: 16 hexadecimal digits")
                    .text(line)
                    .hint("a sheet is written by: lucarne list GROUP --as sheet"))
            }
        }
    }
    if let Some(count) = said.filter(|&count| count != theirs.lines.len()) {
        theirs.notes.push(format!("their sheet says positions {}, and has {}", count, theirs.lines.len()));
    }
    theirs.told = told(list, &mut theirs.lines);
    Ok(theirs)
}

/// A sheet tells what shows; one with relays up that do not show tells all relays. Helpers are not compared.
fn told(list: &List, lines: &mut [Line]) -> u64 {
    let program = &list.group.program;
    let relays: Vec<Atom> = list.group.plan.atoms.iter().copied().filter(|&atom| !program.atoms[atom].is_helper).collect();
    let (relays, shown) = (list.group.plan.word(&relays), list.shown());
    let is_whole = lines.iter().any(|line| line.up & !shown != 0);
    lines.iter_mut().for_each(|line| line.up &= relays);
    if is_whole {
        relays
    } else {
        shown
    }
}
