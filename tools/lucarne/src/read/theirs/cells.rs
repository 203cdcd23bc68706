//! Separated values as lines of cells: the separator is , ; or a tab, cells may stand between quotation marks, lines end in LF, CR or both.

use csv::{ReaderBuilder, StringRecord};

const SEPARATORS: [char; 3] = [',', ';', '\t'];
/// A last line of our own: a quotation mark that is never closed takes it in.
const LAST: &str = "end of the list";

/// A line of the file with its number from 1.
#[derive(Clone, Debug, PartialEq, Eq)]
pub struct Row {
    pub line: usize,
    pub cells: Vec<String>,
}

/// All lines that are not empty, or the line where a quotation mark is opened and never closed.
pub fn rows(text: &str) -> Result<Vec<Row>, usize> {
    let text = text.replace("\r\n", "\n").replace('\r', "\n") + "\n" + LAST + "\n";
    let mut reader = ReaderBuilder::new().has_headers(false).flexible(true).delimiter(separator(&text) as u8).from_reader(text.as_bytes());
    let (mut rows, mut record) = (Vec::new(), StringRecord::new());
    // What is read is text already, and comes from memory.
    while reader.read_record(&mut record).unwrap_or(false) {
        let ends = reader.position().line() as usize;
        rows.push(row(&record, ends));
    }
    match rows.pop() {
        // No end of a line stands behind it: all are within.
        Some(last) if last.cells != [LAST] => Err(last.line + 1),
        _ => Ok(rows.into_iter().filter(|row| row.cells.len() > 1 || !row.cells[0].is_empty()).collect()),
    }
}

/// A line's cells without the space around them. It starts so many lines before its end as its cells have.
fn row(record: &StringRecord, ends: usize) -> Row {
    let within: usize = record.iter().map(|cell| cell.matches('\n').count()).sum();
    Row { line: ends - 1 - within, cells: record.iter().map(|cell| unquoted(cell.trim())).collect() }
}

/// A cell whose quotation marks stand behind a space, which the library takes for part of it.
fn unquoted(cell: &str) -> String {
    let inner = cell.strip_prefix('"').and_then(|rest| rest.strip_suffix('"'));
    inner.map_or(cell.to_string(), |inner| inner.replace("\"\"", "\"").trim().to_string())
}

/// The separator that the first line has most often outside quotation marks.
fn separator(text: &str) -> char {
    let mut counts = [0; SEPARATORS.len()];
    let mut is_quoted = false;
    for sign in text.trim_start_matches('\n').chars() {
        match sign {
            '"' => is_quoted = !is_quoted,
            '\n' if !is_quoted => break,
            _ if is_quoted => {}
            _ => SEPARATORS.iter().zip(&mut counts).filter(|(&separator, _)| separator == sign).for_each(|(_, count)| *count += 1),
        }
    }
    // Of equal counts the first one stands.
    let most = counts.iter().copied().max().unwrap_or(0);
    SEPARATORS.iter().zip(counts).find(|&(_, count)| count == most).map_or(',', |(&separator, _)| separator)
}
