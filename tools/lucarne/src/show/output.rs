//! Writing: to a file or to the standard output, and notes to standard error. A file is written beside its place and put there when it is whole.

use super::beside::Beside;
use crate::fault::Fault;
use std::fs::{self, File, OpenOptions};
use std::io::{self, BufWriter, Write};
use std::path::Path;

/// The name under which the standard output can be given to -o.
const STANDARD_OUTPUT: [&str; 2] = ["-", "/dev/stdout"];
/// Names of what the caller has opened: it is added to, as the caller's own writing would be.
const DESCRIPTORS: [&str; 3] = ["/dev/stderr", "/dev/fd", "/proc/self/fd"];

/// Writes all bytes, or says that they could not be written.
pub fn write(path: Option<&Path>, bytes: &[u8]) -> Result<(), Fault> {
    let mut stream = Stream::to(path)?;
    stream.bytes(bytes)?;
    stream.end()
}

pub fn is_standard(path: &Path) -> bool {
    STANDARD_OUTPUT.iter().any(|name| path.as_os_str() == *name)
}

/// Whether a path is, or would be, a file with a place of its own, beside which others can stand: no pipe, no device.
pub fn is_file(path: &Path) -> bool {
    let is_special = fs::metadata(path).map_or(false, |known| !known.is_file());
    !is_special && !is_standard(path) && !is_descriptor(path)
}

fn is_descriptor(path: &Path) -> bool {
    DESCRIPTORS.iter().any(|name| path.starts_with(name))
}

enum Out {
    Standard(io::Stdout),
    /// A pipe or a device, which has nothing that could be kept.
    Special(BufWriter<File>),
    File(Beside),
}

/// What is written to piece by piece.
pub struct Stream<'a> {
    path: Option<&'a Path>,
    out: Out,
}

impl<'a> Stream<'a> {
    pub fn to(path: Option<&'a Path>) -> Result<Stream<'a>, Fault> {
        let opened = |file: io::Result<File>| file.map(|file| Out::Special(BufWriter::new(file)));
        let out = match path {
            None => Ok(Out::Standard(io::stdout())),
            Some(path) if is_standard(path) => Ok(Out::Standard(io::stdout())),
            Some(path) if is_descriptor(path) => opened(OpenOptions::new().append(true).open(path)),
            Some(path) if !is_file(path) => opened(OpenOptions::new().write(true).open(path)),
            Some(path) => Beside::of(path).map(Out::File),
        };
        Ok(Stream { path, out: out.map_err(|error| cannot_write(path, &error))? })
    }

    pub fn text(&mut self, text: &str) -> Result<(), Fault> {
        self.bytes(text.as_bytes())
    }

    fn bytes(&mut self, bytes: &[u8]) -> Result<(), Fault> {
        let written = match &mut self.out {
            Out::Standard(out) => out.write_all(bytes),
            Out::Special(file) => file.write_all(bytes),
            Out::File(beside) => beside.write(bytes),
        };
        written.map_err(|error| cannot_write(self.path, &error))
    }

    /// Nothing is kept back, and a file is put in its place; what could not be written is told.
    pub fn end(self) -> Result<(), Fault> {
        let ended = match self.out {
            Out::Standard(mut out) => out.flush(),
            Out::Special(mut file) => file.flush(),
            Out::File(beside) => beside.put(),
        };
        ended.map_err(|error| cannot_write(self.path, &error))
    }
}

fn cannot_write(path: Option<&Path>, error: &io::Error) -> Fault {
    // A reader that closed its pipe wants no more, and no word about it.
    if error.kind() == io::ErrorKind::BrokenPipe {
        return Fault::trouble("");
    }
    let name = path.filter(|path| !is_standard(path)).map_or("the standard output".into(), |path| path.to_string_lossy());
    Fault::trouble(format!("{} cannot be written: {}", name, error))
}

/// What a planner should know of a group, on standard error.
pub fn notes(notes: &[String], is_quiet: bool) {
    notes.iter().filter(|_| !is_quiet).for_each(|note| say(&format!("note: {}", note)));
}

/// A line on standard error; where that is closed nobody is there to be told.
pub fn say(text: &str) {
    drop(writeln!(io::stderr(), "{}", text));
}
