//! Comma-separated values as spreadsheets take them: lines end in CRLF, 1 is up and 0 dropped.

use crate::plan::group::Group;
use crate::plan::program::Atom;
use csv::{QuoteStyle, WriterBuilder};

/// What parts a line in other programs; a cell with one of them stands between quotation marks.
const PARTING: [char; 3] = [';', '\t', ' '];

/// What stands above a relay's column.
#[derive(Clone, Copy, Debug, PartialEq, Eq)]
pub enum Heads {
    /// Its label where it has one.
    Labels,
    Names,
}

pub fn show(group: &Group, heads: Heads) -> String {
    let relays = group.shown();
    let positions = group.listing.positions.iter().enumerate();
    let rows = positions.map(|(place, &position)| line([(place + 1).to_string()].into_iter().chain(cells(group, &relays, position))));
    let heading = line(["position".to_string()].into_iter().chain(headings(group, &relays, heads)));
    heading + &rows.collect::<String>()
}

pub fn headings(group: &Group, relays: &[Atom], heads: Heads) -> Vec<String> {
    relays.iter().map(|&atom| head(group, atom, heads)).collect()
}

/// A relay's heading. A label with space around it could not be read back from a cell.
pub fn head(group: &Group, atom: Atom, heads: Heads) -> String {
    let (name, label) = (group.program.name(atom), group.program.label(atom));
    heading(if heads == Heads::Labels && label.trim() == label { label } else { name })
}

/// 1 for each relay that is up in a position, and 0 for the others.
pub fn cells(group: &Group, relays: &[Atom], position: u64) -> Vec<String> {
    relays.iter().map(|&atom| if group.plan.word(&[atom]) & position != 0 { "1" } else { "0" }.to_string()).collect()
}

/// A text that a spreadsheet takes for no formula: an apostrophe stands before signs that start one.
pub fn heading(name: &str) -> String {
    let mark = if name.starts_with(['-', '=', '+', '@']) { "'" } else { "" };
    format!("{}{}", mark, name)
}

/// A line of these cells, with its end.
pub fn line(cells: impl IntoIterator<Item = impl AsRef<str>>) -> String {
    cells.into_iter().map(|text| cell(text.as_ref())).collect::<Vec<_>>().join(",") + "\r\n"
}

/// A cell as it stands in a line. The library has one way of quoting for a whole line, so it is asked for each cell alone.
fn cell(text: &str) -> String {
    let is_plain = text.bytes().all(|byte| byte.is_ascii_alphanumeric() || byte == b'_');
    if is_plain {
        return text.to_string();
    }
    let style = if text.contains(PARTING) { QuoteStyle::Always } else { QuoteStyle::Necessary };
    let mut writer = WriterBuilder::new().quote_style(style).from_writer(Vec::new());
    writer.write_record([text]).expect("a cell goes to memory");
    let line = writer.into_inner().expect("a cell goes to memory");
    String::from_utf8_lossy(&line).trim_end_matches('\n').to_string()
}
