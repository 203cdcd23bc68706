//! A folder of sheets: what is taken of it, and what is not, by name.

use crate::fault::Fault;
use std::ffi::OsStr;
use std::fs;
use std::io;
use std::path::{Path, PathBuf};

const SHEET: &str = "lp";
/// Endings of what the tool itself reads and writes as something else: such files are no sheets, and nobody takes them for some.
const OTHERS: [&str; 10] = ["plan", "names", "csv", "tsv", "json", "sheet", "dot", "svg", "html", "run"];
/// So many names stand in a note.
const MOST_TOLD: usize = 8;
/// Sheets are looked for so many folders deep, to name them.
const DEPTH: usize = 4;

#[derive(Default)]
pub struct Folder {
    /// Files whose names end in .lp, by name.
    pub sheets: Vec<PathBuf>,
    /// What is left, relative to the folder.
    pub left: Vec<PathBuf>,
}

impl Folder {
    pub fn of(path: &Path) -> Result<Folder, Fault> {
        let mut folder = Folder::default();
        for entry in entries(path).map_err(|error| Fault::new(format!("{} cannot be read: {}", path.display(), error)))? {
            if is_sheet(&entry) {
                folder.sheets.push(entry);
            } else if entry.is_dir() {
                folder.left.extend(sheets_below(&entry, DEPTH).iter().map(|file| within(path, file)));
            } else if !ends_in(&entry, &OTHERS) {
                folder.left.push(within(path, &entry));
            }
        }
        Ok(folder)
    }

    /// What may have been meant for a sheet, to be told behind a sentence.
    pub fn nearly(&self) -> String {
        let nearly: Vec<PathBuf> = self.left.iter().filter(|file| is_nearly_sheet(file)).cloned().collect();
        if nearly.is_empty() {
            return String::new();
        }
        format!("; not taken: {}", told(&nearly))
    }

    /// What a planner should know of it: what is not taken, and names that cannot be written as they are.
    pub fn notes(&self, path: &Path) -> Vec<String> {
        let mut notes = Vec::new();
        if !self.left.is_empty() {
            notes.push(format!("{}: not taken: {} (sheets are files of the folder itself whose names end in .lp)", path.display(), told(&self.left)));
        }
        let odd: Vec<PathBuf> = self.sheets.iter().filter(|file| file.to_str().is_none()).map(|file| within(path, file)).collect();
        if !odd.is_empty() {
            notes.push(format!("{}: taken under a name that is no UTF-8: {}", path.display(), told(&odd)));
        }
        notes
    }
}

/// Whether a name has the ending of a sheet somewhere, in any letters.
fn is_nearly_sheet(file: &Path) -> bool {
    file.to_string_lossy().to_lowercase().contains(".lp")
}

/// A file of this ending that is not hidden.
fn is_sheet(file: &Path) -> bool {
    file.extension() == Some(OsStr::new(SHEET)) && !is_hidden(file) && !file.is_dir()
}

fn is_hidden(file: &Path) -> bool {
    file.file_name().map_or(true, |name| name.to_string_lossy().starts_with('.'))
}

fn ends_in(file: &Path, endings: &[&str]) -> bool {
    !is_hidden(file) && file.extension().map_or(false, |ending| endings.iter().any(|known| ending == *known))
}

fn entries(path: &Path) -> io::Result<Vec<PathBuf>> {
    let mut found = fs::read_dir(path)?.map(|entry| entry.map(|entry| entry.path())).collect::<io::Result<Vec<_>>>()?;
    found.sort();
    Ok(found)
}

/// The sheets of a folder within the folder. One that cannot be read is told itself.
fn sheets_below(path: &Path, depth: usize) -> Vec<PathBuf> {
    let below = match entries(path) {
        Ok(below) if depth > 0 => below,
        _ => return vec![path.to_path_buf()],
    };
    let one = |entry: PathBuf| match entry.is_dir() {
        true => sheets_below(&entry, depth - 1),
        false => Some(entry).filter(|entry| entry.extension() == Some(OsStr::new(SHEET))).into_iter().collect(),
    };
    below.into_iter().flat_map(one).collect()
}

fn within(folder: &Path, file: &Path) -> PathBuf {
    file.strip_prefix(folder).unwrap_or(file).to_path_buf()
}

fn told(files: &[PathBuf]) -> String {
    let names: Vec<String> = files.iter().take(MOST_TOLD).map(|file| file.display().to_string()).collect();
    let more = if files.len() > MOST_TOLD { format!(" and {} more", files.len() - MOST_TOLD) } else { String::new() };
    names.join(", ") + &more
}
