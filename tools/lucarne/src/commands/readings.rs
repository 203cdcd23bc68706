//! The panel's drop-away readings, one for each position of the list in turn: two bytes each, packed decimal, tenths of a millisecond.

use super::args::Args;
use crate::fault::{status, Fault};
use crate::plan::group::Group;
use crate::plan::library::readings::{self, compare, largest, number};
use crate::plan::library::Refusal;
use crate::show::output;
use crate::show::csv::{self, Heads};
use crate::show::page::{self, Readings};
use crate::show::Form;
use crate::read::sources;
use std::cmp::Ordering;
use std::path::Path;

const BYTES: usize = 2;

/// A run of readings beside the positions of a list.
#[derive(Clone, Debug)]
pub struct Run {
    /// Tenths of a millisecond by position; none where it was not measured.
    pub tenths: Vec<Option<u64>>,
    /// The largest reading with its place from 0.
    pub largest: Option<(u64, usize)>,
    /// Places from 0 of the readings above the limit.
    pub above: Vec<usize>,
    pub limit: Option<u64>,
}

impl Run {
    /// Reads a run for a group's list, with a limit in milliseconds if one is wanted.
    pub fn read(group: &Group, path: &Path, limit: Option<&str>) -> Result<Run, Fault> {
        let bytes = sources::read_bytes(path).map_err(|fault| fault.hint("name the file of the panel's readings"))?;
        let limit = limit.map(limit_of).transpose()?;
        Run::of(group, &path.to_string_lossy(), &bytes, limit)
    }

    fn of(group: &Group, path: &str, bytes: &[u8], limit: Option<u16>) -> Result<Run, Fault> {
        let refused = |refusal: Refusal| refused(path, bytes, refusal);
        // A bad reading is told before anything else, as the library does.
        let largest = largest(bytes).map_err(refused)?;
        let words: Vec<u16> = bytes.chunks(BYTES).map(|pair| u16::from_be_bytes([pair[0], pair.get(1).copied().unwrap_or(0)])).collect();
        let positions = group.listing.positions.len();
        if words.len() != positions {
            let what = format!("{} has {} readings, and the list has {} positions", path, words.len(), positions);
            return Err(Fault::new(what).hint("a run has a reading for each position in turn; were keys set as they are now?"));
        }
        let above = |word: u16| limit.map_or(Ok(false), |limit| compare(word, limit).map(|order| order == Some(Ordering::Greater)));
        let mut run =
            Run { tenths: Vec::new(), largest: None, above: Vec::new(), limit: limit.and_then(|limit| number(limit).ok().flatten()) };
        for (place, &word) in words.iter().enumerate() {
            run.tenths.push(number(word).map_err(refused)?);
            run.above.extend(Some(place).filter(|_| above(word).unwrap_or(false)));
        }
        run.largest = largest.and_then(|(word, place)| Some((number(word).ok().flatten()?, place)));
        Ok(run)
    }

    /// The readings as they stand in the page.
    fn beside(&self, path: &str) -> Readings {
        Readings { tenths: self.tenths.clone(), largest: self.largest, above: self.above.clone(), limit: self.limit, source: path.to_string() }
    }

    /// Places from 0 of the positions that were not measured.
    pub fn unmeasured(&self) -> Vec<usize> {
        (0..self.tenths.len()).filter(|&place| self.tenths[place].is_none()).collect()
    }
}

/// Milliseconds with their tenth.
pub fn milliseconds(tenths: u64) -> String {
    format!("{}.{}", tenths / 10, tenths % 10)
}

/// A limit in milliseconds, with a tenth or without, as a reading.
fn limit_of(text: &str) -> Result<u16, Fault> {
    let wrong = || {
        Fault::new(format!("the limit {} is no time that the panel can read", text))
            .hint("milliseconds from 0 to 999.9, with one digit behind the point: --limit 85.5")
    };
    let (whole, tenth) = text.split_once('.').unwrap_or((text, "0"));
    let is_number = |digits: &str, most: usize| (1..=most).contains(&digits.len()) && digits.bytes().all(|sign| sign.is_ascii_digit());
    if !is_number(whole, 3) || !is_number(tenth, 1) {
        return Err(wrong());
    }
    let tenths = format!("{}{}", whole, tenth).parse().map_err(|_| wrong())?;
    readings::reading_of(tenths).map_err(|_| wrong())
}

fn refused(path: &str, bytes: &[u8], refusal: Refusal) -> Fault {
    let at = BYTES * refusal.spot;
    let what = match (bytes.get(at), bytes.get(at + 1)) {
        (Some(high), Some(low)) => format!("byte {}: reading {} is {:02x}{:02x}, with a digit above 9", at, refusal.spot + 1, high, low),
        _ => format!("byte {}: a lone last byte is half a reading", at),
    };
    Fault::new(format!("{}: {} (refused {} at {})", path, what, refusal.number, refusal.spot))
        .hint("a reading is two bytes with four decimal digits, highest first; ffff is not measured")
}

/// The command: the readings beside the positions.
pub fn run(args: &Args) -> Result<i32, Fault> {
    let group = Group::open(&args.group)?;
    let run = Run::read(&group, Path::new(&args.subject), args.limit.as_deref())?;
    output::notes(&group.notes, args.is_quiet);
    let text = match args.form {
        Form::Csv => table(&group, &run, args.heads),
        Form::Html => page::show(&group, Some(&run.beside(&args.subject.to_string_lossy()))),
        _ => text(&group, &run),
    };
    output::write(args.output.as_deref(), text.as_bytes())?;
    Ok(if run.above.is_empty() && !run.tenths.is_empty() { status::FINE } else { status::NOT_FINE })
}

fn text(group: &Group, run: &Run) -> String {
    let mut out = String::new();
    for (place, &position) in group.listing.positions.iter().enumerate() {
        let reading = run.tenths[place].map_or("-".to_string(), milliseconds);
        let mark = if run.above.contains(&place) { "!" } else { " " };
        out += &format!("{:4} {:>6}{} {}\n", place + 1, reading, mark, group.told(position));
    }
    out += &match run.largest {
        Some((tenths, place)) => format!("largest: {} ms at position {}\n", milliseconds(tenths), place + 1),
        None => "nothing was measured\n".to_string(),
    };
    if let Some(limit) = run.limit {
        out += &format!("above {} ms: {}\n", milliseconds(limit), places(&run.above));
    }
    out + &format!("not measured: {}\n", places(&run.unmeasured()))
}

fn places(places: &[usize]) -> String {
    if places.is_empty() {
        return "none".to_string();
    }
    let numbers: Vec<String> = places.iter().map(|place| (place + 1).to_string()).collect();
    format!("{} ({} {})", places.len(), if places.len() == 1 { "position" } else { "positions" }, numbers.join(", "))
}

/// Milliseconds by position, then whether they are above the limit, then the relays.
fn table(group: &Group, run: &Run, heads: Heads) -> String {
    let relays = group.shown();
    let first = ["position", "milliseconds", "above"].map(str::to_string);
    let mut out = csv::line(first.into_iter().chain(csv::headings(group, &relays, heads)));
    for (place, &position) in group.listing.positions.iter().enumerate() {
        let reading = run.tenths[place].map_or(String::new(), milliseconds);
        let above = match (run.limit, run.tenths[place]) {
            (Some(_), Some(_)) => u8::from(run.above.contains(&place)).to_string(),
            _ => String::new(),
        };
        out += &csv::line([(place + 1).to_string(), reading, above].into_iter().chain(csv::cells(group, &relays, position)));
    }
    out
}
