//! A list as separated values: a line for each position and a column for each relay, or, where the first heading is `relay`, the other way round.

use super::cells::{self, Row};
use super::{Line, List, Theirs};
use crate::fault::Fault;
use crate::read::lookup::{self, Called};
use crate::near;

/// Headings of columns that number the positions.
const NUMBERS: [&str; 8] = ["", "position", "positions", "pos", "no", "no.", "nr", "#"];
/// The first heading of a list by relay, as `lucarne rows` writes it.
const BY_RELAY: &str = "relay";
const UP: [&str; 8] = ["1", "1.0", "1,0", "x", "up", "u", "true", "yes"];
const DROPPED: [&str; 10] = ["0", "0.0", "0,0", ".", "", "dropped", "down", "d", "false", "no"];

/// A relay's heading with the cells of each position.
struct Column {
    /// Where its heading stands.
    line: usize,
    number: usize,
    name: String,
    cells: Vec<Cell>,
}

struct Cell {
    line: usize,
    column: usize,
    text: String,
}

/// What the cells say, by relay: the places of positions, and the columns.
struct Grid {
    places: Vec<String>,
    columns: Vec<Column>,
}

pub fn read(list: &List, text: &str) -> Result<Theirs, Fault> {
    let rows = cells::rows(text).map_err(|line| {
        list.fault(line, 1, "a quotation mark is opened on this line and never closed")
            .hint("close it, or double it where it is part of a name")
    })?;
    let (head, body) =
        rows.split_first().ok_or_else(|| Fault::new(format!("{} has no line", list.path)).hint("its first line names the relays"))?;
    let by_relay = head.cells[0].eq_ignore_ascii_case(BY_RELAY) && lookup::find(list.group, &head.cells[0]).is_none();
    let (body, blank) = without_end(list, head, body, by_relay);
    let grid = if by_relay { by_rows(list, head, body)? } else { by_columns(list, head, body)? };
    let mut theirs = theirs(list, &grid)?;
    theirs.notes.extend(blank);
    Ok(theirs)
}

/// Lines of separators alone at the end, as spreadsheets write them, are none of the list, where every other line has its number, or its relay, or no other
/// cell is empty and one of them says dropped. Elsewhere an empty cell may say that, and such a line stays.
fn without_end<'a>(list: &List, head: &Row, body: &'a [Row], by_relay: bool) -> (&'a [Row], Option<String>) {
    let blank = body.iter().rev().take_while(|row| is_blank(row)).count();
    let (full, end) = body.split_at(body.len() - blank);
    let filled = |place: usize| full.iter().all(|row| row.cells.get(place).map_or(false, |cell| !cell.is_empty()));
    let is_numbered = (0..head.cells.len()).any(|place| filled(place) && (by_relay && place == 0 || is_number(list, &head.cells[place])));
    let mut cells = full.iter().flat_map(|row| &row.cells);
    let is_written = cells.clone().all(|cell| !cell.is_empty()) && cells.any(|cell| DROPPED.contains(&cell.to_lowercase().as_str()));
    let is_certain = !full.is_empty() && (is_numbered || is_written);
    match (end.first(), end.last()) {
        (Some(first), Some(last)) if is_certain && first.line == last.line => {
            (full, Some(format!("line {} has separators alone, and is no position", first.line)))
        }
        (Some(first), Some(last)) if is_certain => {
            (full, Some(format!("lines {} to {} have separators alone, and are no positions", first.line, last.line)))
        }
        _ => (body, None),
    }
}

fn is_blank(row: &Row) -> bool {
    row.cells.iter().all(String::is_empty)
}

/// A line for each position.
fn by_columns(list: &List, head: &Row, body: &[Row]) -> Result<Grid, Fault> {
    even(list, head, body)?;
    for row in body {
        if is_blank(row) {
            return Err(list
                .fault(row.line, 1, "this line has separators and nothing else: a position with all dropped, or none?")
                .hint("write 0 for dropped on it, or take the line out"));
        }
    }
    let places = body.iter().map(|row| format!("line {}", row.line)).collect();
    let column = |(place, name): (usize, &String)| Column {
        line: head.line,
        number: place + 1,
        name: heading(name),
        cells: body.iter().map(|row| Cell { line: row.line, column: place + 1, text: row.cells[place].to_lowercase() }).collect(),
    };
    let columns = head.cells.iter().enumerate().filter(|(_, name)| !is_number(list, name)).map(column).collect();
    let grid = Grid { places, columns };
    match (0..head.cells.len()).find(|&place| head.cells[place].is_empty() && repeats(body, place)) {
        Some(place) => Err(list
            .fault(head.line, place + 1, format!("column {} has no heading, and its cells look like a relay's", place + 1))
            .hint("write the relay's name above it, or take the column out")),
        None => Ok(grid),
    }
}

/// A line for each relay.
fn by_rows(list: &List, head: &Row, body: &[Row]) -> Result<Grid, Fault> {
    even(list, head, body)?;
    let places = (1..head.cells.len()).map(|place| format!("column {}", place + 1)).collect();
    let column = |row: &Row| Column {
        line: row.line,
        number: 1,
        name: heading(&row.cells[0]),
        cells: row
            .cells
            .iter()
            .enumerate()
            .skip(1)
            .map(|(place, text)| Cell { line: row.line, column: place + 1, text: text.to_lowercase() })
            .collect(),
    };
    Ok(Grid { places, columns: body.iter().map(column).collect() })
}

/// Every line has a cell for each heading: one that is too short may have been cut.
fn even(list: &List, head: &Row, body: &[Row]) -> Result<(), Fault> {
    let uneven = body.iter().find(|row| row.cells.len() != head.cells.len());
    match uneven {
        Some(row) if row.cells.len() < head.cells.len() => {
            let what = format!("this line has {} cells, and the first line {}", row.cells.len(), head.cells.len());
            Err(list.fault(row.line, row.cells.len(), what).hint("write all cells; an empty one is dropped, but its separator must stand"))
        }
        Some(row) => {
            let what = format!("this line has {} cells, and the first line {}", row.cells.len(), head.cells.len());
            Err(list
                .fault(row.line, head.cells.len() + 1, what)
                .hint("a name or a number with a separator in it goes between quotation marks"))
        }
        None => Ok(()),
    }
}

/// A heading without the apostrophe that keeps spreadsheets from taking it for a formula.
fn heading(name: &str) -> String {
    match name.strip_prefix('\'') {
        Some(rest) if rest.starts_with(|sign| "-=+@".contains(sign)) => rest.to_string(),
        _ => name.to_string(),
    }
}

fn is_number(list: &List, name: &str) -> bool {
    NUMBERS.iter().any(|number| name.eq_ignore_ascii_case(number)) && lookup::find(list.group, name).is_none()
}

/// Whether something stands in a column twice: numbers of positions do not.
fn repeats(body: &[Row], place: usize) -> bool {
    let mut cells: Vec<&str> = body.iter().map(|row| row.cells[place].as_str()).filter(|cell| !cell.is_empty()).collect();
    cells.sort_unstable();
    cells.windows(2).any(|pair| pair[0] == pair[1])
}

fn theirs(list: &List, grid: &Grid) -> Result<Theirs, Fault> {
    let line = |place: &String| Line { place: place.clone(), up: 0, dropped_fact: None };
    let mut theirs = Theirs { lines: grid.places.iter().map(line).collect(), ..Theirs::default() };
    let (mut faults, mut seen) = (Vec::new(), Vec::new());
    for column in &grid.columns {
        match list.called(column.line, column.number, &column.name) {
            Ok(called) if seen.contains(&(called, column_name(called, column))) => {
                let what = format!("the relay {} stands here a second time", column.name);
                faults.push(list.fault(column.line, column.number, what).hint("take one of the two out"));
            }
            Ok(called) => {
                seen.push((called, column_name(called, column)));
                fill(list, column, called, &mut theirs, &mut faults);
            }
            Err(fault) if near::nearest(&column.name, [NUMBERS[1]].into_iter()).is_some() => {
                faults.push(fault.hint(format!("is it {}?", NUMBERS[1])))
            }
            Err(fault) => faults.push(fault),
        }
    }
    if theirs.told == 0 && faults.len() == grid.columns.len() && faults.len() > 1 {
        let first = list.fault(faults[0].spot.as_ref().map_or(1, |spot| spot.line), 1, "none of these headings is a relay of the group");
        return Err(first.hint("is it the list of another group? lucarne rows GROUP names the relays"));
    }
    if grid.columns.is_empty() {
        return Err(Fault::new(format!("{} names no relay", list.path)).hint("its first line names the relays, one for each column"));
    }
    Fault::all(faults)?;
    Ok(theirs)
}

/// Facts are told apart by their names, relays are not.
fn column_name(called: Called, column: &Column) -> &str {
    if called == Called::Always {
        &column.name
    } else {
        ""
    }
}

/// Puts a relay's column into the positions.
fn fill(list: &List, column: &Column, called: Called, theirs: &mut Theirs, faults: &mut Vec<Fault>) {
    let bit = list.bit(called);
    theirs.told |= bit;
    for (line, cell) in theirs.lines.iter_mut().zip(&column.cells) {
        match (UP.contains(&cell.text.as_str()), DROPPED.contains(&cell.text.as_str())) {
            (true, _) => line.up |= bit,
            (_, true) if called == Called::Always => line.dropped_fact = Some(column.name.clone()),
            (_, true) => {}
            _ => {
                let what = format!("the cell \"{}\" of {} says neither up nor dropped", cell.text, column.name);
                faults.push(list.fault(cell.line, cell.column, what).hint("write 1, X or up; and 0, dropped or nothing"));
            }
        }
    }
}
