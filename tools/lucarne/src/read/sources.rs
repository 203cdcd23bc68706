//! What the command line names: sheets (files and folders), a plan as bytes, or the standard input.

use super::aspif;
use super::folder::Folder;
use super::text::statements::{cut, Sheets, Statement};
use crate::fault::{Fault, Spot};
use std::fs::{self, File};
use std::io::{self, Read};
use std::os::unix::fs::MetadataExt;
use std::path::{Path, PathBuf};
use std::sync::Arc;

pub enum Source {
    Sheets(Sheets),
    /// A ground program from the standard input, in gringo's format.
    Aspif(String),
    /// A plan as bytes, with its path.
    Plan(PathBuf, Vec<u8>),
}

/// The name under which the standard input stands in messages.
pub const STANDARD_INPUT: &str = "-";
/// A plan has 64 rules and a list 256 positions: a file of more bytes is a slip, and would only take memory.
const MOST_BYTES: u64 = 1 << 20;
/// Nothing that people write is nested deeper, and programs that read it in turn would run out of stack.
const MOST_NESTED: usize = 100;
/// Nor so long.
const MOST_WORDS: usize = 300_000;
const WHAT_TO_NAME: &str = "name a folder of sheets, sheets (*.lp), a plan (*.plan), or - for the standard input";

/// What the paths name. Where the reading is strict, a folder holds nothing but sheets.
pub fn load(paths: &[PathBuf], is_strict: bool) -> Result<Source, Fault> {
    if let Some(path) = paths.iter().find(|path| is_plan(path)) {
        return match paths {
            [_] => Ok(Source::Plan(path.clone(), read_bytes(path)?)),
            _ => Err(Fault::new(format!("{} is a plan as bytes, and no sheet among others", path.display())).hint("name it alone")),
        };
    }
    if paths == [PathBuf::from(STANDARD_INPUT)] {
        return standard_input(&paths[0]);
    }
    let (files, notes) = files(paths)?;
    if let Some(note) = notes.first().filter(|_| is_strict) {
        return Err(Fault::new(note).hint("take it away, or name the sheets one by one; without --strict this is a note"));
    }
    let texts = files.into_iter().map(|file| {
        let name = file.to_string_lossy().into_owned();
        let text = to_text(&name, read_bytes(&file)?)?;
        Ok((name, text))
    });
    sheets(texts.collect::<Result<Vec<_>, Fault>>()?, notes)
}

pub fn is_plan(path: &Path) -> bool {
    path.extension().map_or(false, |ending| ending == "plan")
}

fn standard_input(path: &Path) -> Result<Source, Fault> {
    let text = to_text(STANDARD_INPUT, read_bytes(path)?)?;
    // gringo writes nothing where it stops with an error, and no rules have one position, all dropped.
    if text.trim().is_empty() {
        return Err(Fault::new("the standard input is empty").hint("did the program that writes it stop with an error?"));
    }
    if aspif::is_aspif(&text) {
        return Ok(Source::Aspif(text));
    }
    sheets(vec![(STANDARD_INPUT.to_string(), text)], Vec::new())
}

fn sheets(texts: Vec<(String, String)>, notes: Vec<String>) -> Result<Source, Fault> {
    let (mut sheets, mut faults) = (Sheets::default(), Vec::new());
    sheets.notes = notes;
    for (path, text) in &texts {
        add(&mut sheets, path, text, &mut faults);
    }
    let named = if sheets.includes.is_empty() { &[] } else { texts.as_slice() };
    let mut files: Vec<PathBuf> = named.iter().map(|(path, _)| whole(Path::new(path))).collect();
    let mut next = 0;
    while let Some((name, spot)) = sheets.includes.get(next).cloned() {
        next += 1;
        let path = included(&name, Path::new(&*spot.file));
        if files.contains(&whole(&path)) {
            sheets.notes.push(format!("{}: {} is read already", spot, path.display()));
            continue;
        }
        files.push(whole(&path));
        let text = read_bytes(&path).and_then(|bytes| to_text(&path.to_string_lossy(), bytes));
        match text {
            Ok(text) => add(&mut sheets, &path.to_string_lossy(), &text, &mut faults),
            Err(fault) if fault.spot.is_some() => faults.push(fault),
            Err(fault) => faults.push(fault.spot(Some(&spot)).hint("#include names a file from here on, or beside its sheet")),
        }
    }
    faults.extend(sheets.statements.iter().filter_map(|statement| too_deep(statement).or_else(|| too_long(statement))));
    Fault::all(faults)?;
    Ok(Source::Sheets(sheets))
}

fn add(sheets: &mut Sheets, path: &str, text: &str, faults: &mut Vec<Fault>) {
    let (before, includes) = (sheets.statements.len(), sheets.includes.len());
    sheets.add_file(path, text, faults);
    let note = without_rules(path, text, &sheets.statements[before..]).filter(|_| sheets.includes.len() == includes);
    sheets.notes.extend(note);
}

/// The file that `#include` names: as it stands, else beside the sheet, as gringo looks for it.
fn included(name: &str, sheet: &Path) -> PathBuf {
    let beside = sheet.parent().map_or_else(|| PathBuf::from(name), |folder| folder.join(name));
    if Path::new(name).exists() || !beside.exists() {
        PathBuf::from(name)
    } else {
        beside
    }
}

fn whole(path: &Path) -> PathBuf {
    fs::canonicalize(path).unwrap_or_else(|_| path.to_path_buf())
}

/// These files and all that they include, however indirectly; what cannot be read includes nothing.
pub fn with_included(files: Vec<PathBuf>) -> Vec<PathBuf> {
    let (mut all, mut next) = (files, 0);
    while let Some(path) = all.get(next).cloned() {
        next += 1;
        let is_file = fs::metadata(&path).map_or(false, |known| known.is_file());
        let bytes = Some(&path).filter(|_| is_file).and_then(|path| read_bytes(path).ok());
        let text = bytes.map(|bytes| String::from_utf8_lossy(&bytes).into_owned()).filter(|text| text.contains("#include"));
        let mut sheets = Sheets::default();
        text.iter().for_each(|text| sheets.add_file(&path.to_string_lossy(), text, &mut Vec::new()));
        let found = sheets.includes.iter().map(|(name, _)| included(name, &path)).collect::<Vec<_>>();
        found.into_iter().for_each(|file| all.extend(Some(file).filter(|file| !all.contains(file))));
    }
    all
}

/// A statement of more words than any plan has use for.
fn too_long(statement: &Statement) -> Option<Fault> {
    let words = statement.tokens.len();
    if words <= MOST_WORDS {
        return None;
    }
    let what = format!("this statement has {} words, and so many are not read", words);
    Some(Fault::at(statement.spot(), what).text(cut(&statement.text(), 100)).hint("a plan holds 64 relays: is it another file?"))
}

/// The bracket of a statement that opens one level too many.
fn too_deep(statement: &Statement) -> Option<Fault> {
    let mut depth = 0usize;
    for token in &statement.tokens {
        match token.text.as_str() {
            "(" | "[" | "{" => depth += 1,
            ")" | "]" | "}" => depth = depth.saturating_sub(1),
            _ => {}
        }
        if depth > MOST_NESTED {
            let what = format!("more than {} brackets are open here", MOST_NESTED);
            return Some(Fault::at(&token.spot, what).text(statement.text()).hint("write the term with fewer brackets within each other"));
        }
    }
    None
}

/// What to say of a sheet that drives nothing and forbids nothing: was it saved?
fn without_rules(path: &str, text: &str, statements: &[Statement]) -> Option<String> {
    let is_rule = |statement: &Statement| !["#external", "#const", "#defined", "#show"].iter().any(|word| statement.tokens[0].is(word));
    if statements.iter().any(is_rule) {
        return None;
    }
    Some(format!("{}: this sheet {}", path, if text.trim().is_empty() { "is empty" } else { "has no rules" }))
}

/// The files that are named, and of folders those that end in .lp, by name; with what to say of folders.
fn files(paths: &[PathBuf]) -> Result<(Vec<PathBuf>, Vec<String>), Fault> {
    let (mut files, mut notes): (Vec<PathBuf>, Vec<String>) = (Vec::new(), Vec::new());
    for path in paths {
        if !path.is_dir() {
            files.push(path.clone());
            continue;
        }
        let folder = Folder::of(path)?;
        if folder.sheets.is_empty() {
            let hint = format!("sheets are files whose names end in .lp{}", folder.nearly());
            return Err(Fault::new(format!("{} has no sheets", path.display())).hint(hint));
        }
        notes.extend(folder.notes(path));
        files.extend(folder.sheets);
    }
    match named_twice(&files) {
        Some(file) => Err(Fault::new(format!("{} is named twice", file.display())).hint("name each sheet once")),
        None => Ok((files, notes)),
    }
}

/// A file that stands before under the same name or another one. Two links to what is one file are two names in earnest, and are told apart by
/// their places, which take longer to find.
fn named_twice(files: &[PathBuf]) -> Option<&PathBuf> {
    let numbers: Vec<_> = files.iter().map(|file| fs::metadata(file).ok().map(|known| (known.dev(), known.ino()))).collect();
    let is_before = |place: usize, before: usize| {
        let (file, other) = (&files[place], &files[before]);
        file == other || numbers[before].is_some() && numbers[before] == numbers[place] && whole(file) == whole(other)
    };
    let place = (0..files.len()).find(|&place| (0..place).any(|before| is_before(place, before)))?;
    Some(&files[place])
}

/// The bytes of a file or of the standard input, if they are not too many.
pub fn read_bytes(path: &Path) -> Result<Vec<u8>, Fault> {
    let mut bytes = Vec::new();
    let read = match path.as_os_str() == STANDARD_INPUT {
        true => io::stdin().take(MOST_BYTES + 1).read_to_end(&mut bytes),
        false => File::open(path).and_then(|file| {
            // Room for all of it, so that it is read at once.
            let length = file.metadata().map_or(0, |known| known.len());
            bytes.reserve(length.min(MOST_BYTES) as usize + 1);
            file.take(MOST_BYTES + 1).read_to_end(&mut bytes)
        }),
    };
    read.map_err(|error| Fault::new(format!("{} cannot be read: {}", path.display(), error)).hint(WHAT_TO_NAME))?;
    if bytes.len() as u64 > MOST_BYTES {
        let name = if path.as_os_str() == STANDARD_INPUT { "the standard input".into() } else { path.to_string_lossy() };
        let what = format!("{} has more than {} bytes, and so much is not read", name, MOST_BYTES);
        return Err(Fault::new(what).hint("a plan holds 64 rules and a list 256 positions: is it another file?"));
    }
    Ok(bytes)
}

/// Text in UTF-8, without the mark that some editors put before it.
pub fn to_text(path: &str, bytes: Vec<u8>) -> Result<String, Fault> {
    let text = String::from_utf8(bytes).map_err(|error| {
        let good = &error.as_bytes()[..error.utf8_error().valid_up_to()];
        let before = String::from_utf8_lossy(good);
        let line = before.matches('\n').count() + 1;
        let column = before.rsplit('\n').next().map_or(0, |line| line.chars().count()) + 1;
        let spot = Spot { file: Arc::from(path), line, column };
        Fault::at(&spot, "this byte is no text in UTF-8").hint("save the sheet as UTF-8; names have plain letters in any case")
    })?;
    Ok(text.strip_prefix('\u{feff}').map_or(text.clone(), str::to_string))
}
