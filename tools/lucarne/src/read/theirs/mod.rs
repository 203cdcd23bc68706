//! Lists from elsewhere: comma-separated values by relay, document 01's sheet, and what clingo prints as text or JSON.

pub mod cells;
pub mod clingo;
pub mod csv;
pub mod sheet;

use crate::fault::{Fault, Spot};
use crate::plan::group::Group;
use crate::read::lookup::{self, Called};
use crate::read::sources;
use std::path::Path;
use std::sync::Arc;

/// So many faults of a list are told: one that has more is another group's.
const MOST_FAULTS: usize = 100;

/// One position of theirs.
#[derive(Clone, Debug)]
pub struct Line {
    /// Where it stands: "line 7".
    pub place: String,
    /// The relays that are up, as a word over the plan's bits.
    pub up: u64,
    /// A fact of the sheets that it has dropped.
    pub dropped_fact: Option<String>,
}

#[derive(Clone, Debug, Default)]
pub struct Theirs {
    pub lines: Vec<Line>,
    /// The relays that the list tells of, as a word.
    pub told: u64,
    /// What should be known of the list, in words.
    pub notes: Vec<String>,
}

/// Reads a list for this group, whose form is seen from its text.
pub fn read(group: &Group, path: &Path) -> Result<Theirs, Fault> {
    let bytes = sources::read_bytes(path).map_err(|fault| fault.hint("name a file with their list, or - for the standard input"))?;
    let name = path.to_string_lossy();
    of_text(group, &name, &text(&name, bytes)?)
}

/// Packed files and the older workbooks, by their first bytes.
const PACKED: [u8; 4] = *b"PK\x03\x04";
const OLD_WORKBOOK: [u8; 4] = [0xd0, 0xcf, 0x11, 0xe0];

/// The text of a list. Spreadsheets also write UTF-16, with a mark before it; their workbooks are no text.
pub fn text(name: &str, bytes: Vec<u8>) -> Result<String, Fault> {
    match bytes.as_slice() {
        [0xff, 0xfe, rest @ ..] => utf16(name, rest, u16::from_le_bytes),
        [0xfe, 0xff, rest @ ..] => utf16(name, rest, u16::from_be_bytes),
        bytes if bytes.starts_with(&PACKED) || bytes.starts_with(&OLD_WORKBOOK) => Err(workbook(name, bytes)),
        _ => sources::to_text(name, bytes).map_err(|fault| fault.hint("save the list as UTF-8")),
    }
}

fn utf16(name: &str, bytes: &[u8], unit: fn([u8; 2]) -> u16) -> Result<String, Fault> {
    let units: Vec<u16> = bytes.chunks_exact(2).map(|pair| unit([pair[0], pair[1]])).collect();
    let text = String::from_utf16(&units).ok().filter(|_| bytes.len() % 2 == 0);
    text.ok_or_else(|| Fault::new(format!("{} starts as UTF-16, and does not go on so", name)).hint("save the list as CSV in UTF-8"))
}

fn workbook(name: &str, bytes: &[u8]) -> Fault {
    let has = |part: &[u8]| bytes.windows(part.len()).any(|some| some == part);
    let kind = match () {
        _ if bytes.starts_with(&OLD_WORKBOOK) => "a workbook of a spreadsheet (.xls)",
        _ if has(b"xl/") => "a workbook of a spreadsheet (.xlsx)",
        _ if has(b"opendocument.spreadsheet") => "a workbook of a spreadsheet (.ods)",
        _ => "a packed file (.zip)",
    };
    Fault::new(format!("{} is {}, and no text", name, kind)).hint("open it, and save the sheet with the positions as CSV (UTF-8)")
}

pub fn of_text(group: &Group, path: &str, text: &str) -> Result<Theirs, Fault> {
    if text.trim().is_empty() {
        return Err(
            Fault::new(format!("{} is empty", path)).hint("a list has a line for each position; a sheet without any says: positions 0")
        );
    }
    let list = List { group, path };
    if text.trim_start().starts_with('{') {
        return clingo::read_json(&list, text);
    }
    if sheet::is_sheet(text) {
        return sheet::read(&list, text);
    }
    if clingo::is_text(text) {
        return clingo::read_text(&list, text);
    }
    csv::read(&list, text)
}

/// The group for which a list is read, and the file it is in.
pub struct List<'a> {
    pub group: &'a Group,
    pub path: &'a str,
}

impl<'a> List<'a> {
    pub fn spot(&self, line: usize, column: usize) -> Spot {
        Spot { file: Arc::from(self.path), line, column }
    }

    pub fn fault(&self, line: usize, column: usize, what: impl Into<String>) -> Fault {
        Fault::at(&self.spot(line, column), what)
    }

    /// What a word of the list names.
    pub fn called(&self, line: usize, column: usize, word: &str) -> Result<Called, Fault> {
        lookup::relay(self.group, word).map_err(|fault| fault.spot(Some(&self.spot(line, column))))
    }

    /// The bit of a relay as a word; facts outside the plan have none.
    pub fn bit(&self, called: Called) -> u64 {
        match called {
            Called::Relay(atom) => self.group.plan.word(&[atom]),
            Called::Always => 0,
        }
    }

    /// The relays that the group shows, as a word.
    pub fn shown(&self) -> u64 {
        self.group.plan.word(&self.group.shown())
    }

    /// A position from the names that are up in it; what it does not name is dropped. Names that nobody knows go to the faults.
    pub fn of_names(&self, line: usize, names: &[(usize, &str)], faults: &mut Vec<Fault>) -> u64 {
        let mut up = 0;
        for &(column, name) in names {
            match self.called(line, column, name) {
                Ok(called) => up |= self.bit(called),
                Err(_) if faults.len() >= MOST_FAULTS => break,
                Err(fault) if faults.iter().any(|other| other.what == fault.what) => {}
                Err(fault) => faults.push(fault),
            }
        }
        up
    }
}
