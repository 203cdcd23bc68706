//! Files that nobody else has: written beside their place and put there by renaming, so that a full disk leaves the old one whole.

use std::fs::{self, File, Metadata, OpenOptions};
use std::io::{self, BufWriter, Write};
use std::os::unix::fs::{MetadataExt, OpenOptionsExt};
use std::os::unix::io::AsRawFd;
use std::path::{Path, PathBuf};
use std::sync::atomic::{AtomicUsize, Ordering};
use std::time::{SystemTime, UNIX_EPOCH};

/// No chain of links is longer.
const MOST_LINKS: usize = 40;
/// So many names are tried; each that is taken was somebody else's.
const MOST_TRIES: usize = 100;
/// Read and written by its owner alone.
const PRIVATE: u32 = 0o600;
const USUAL: u32 = 0o666;

extern "C" {
    // From the C library that every Rust program is linked with.
    fn fchown(file: i32, owner: u32, group: u32) -> i32;
}

/// A file that is not yet in its place. Where it does not get there it is taken away.
pub struct Beside {
    file: BufWriter<File>,
    name: PathBuf,
    place: PathBuf,
    is_put: bool,
}

impl Beside {
    pub fn of(path: &Path) -> io::Result<Beside> {
        let place = behind_links(path)?;
        let old = match fs::metadata(&place) {
            Ok(old) => Some(old),
            Err(error) if error.kind() == io::ErrorKind::NotFound => None,
            Err(error) => return Err(error),
        };
        if old.is_some() {
            // Renaming would pass over a file that may not be written.
            OpenOptions::new().write(true).open(&place)?;
        }
        let folder = place.parent().filter(|folder| !folder.as_os_str().is_empty()).unwrap_or_else(|| Path::new("."));
        let (file, name) = fresh(folder, USUAL, names(".lucarne-", ".part"))?;
        let beside = Beside { file: BufWriter::new(file), name, place, is_put: false };
        old.map_or(Ok(()), |old| beside.take_rights(&old))?;
        Ok(beside)
    }

    /// Who may read and write the old file may do so with the new one. Only root can give a file to others.
    fn take_rights(&self, old: &Metadata) -> io::Result<()> {
        let file = self.file.get_ref();
        let own = file.metadata()?;
        if (own.uid(), own.gid()) != (old.uid(), old.gid()) {
            unsafe { fchown(file.as_raw_fd(), old.uid(), old.gid()) };
        }
        file.set_permissions(old.permissions())
    }

    pub fn write(&mut self, bytes: &[u8]) -> io::Result<()> {
        self.file.write_all(bytes)
    }

    /// Puts the whole file in its place.
    pub fn put(mut self) -> io::Result<()> {
        self.file.flush()?;
        self.file.get_ref().sync_all()?;
        fs::rename(&self.name, &self.place)?;
        self.is_put = true;
        // The file is in its place; that the folder is written too is for the disk alone.
        drop(self.place.parent().map(|folder| File::open(folder).and_then(|folder| folder.sync_all())));
        Ok(())
    }
}

impl Drop for Beside {
    fn drop(&mut self) {
        if !self.is_put {
            drop(fs::remove_file(&self.name));
        }
    }
}

/// Where a path leads; a link stays, and what it names is replaced.
fn behind_links(path: &Path) -> io::Result<PathBuf> {
    let mut path = path.to_path_buf();
    for _ in 0..MOST_LINKS {
        match fs::read_link(&path) {
            Ok(target) => path = path.parent().unwrap_or_else(|| Path::new("")).join(target),
            Err(_) => return Ok(path),
        }
    }
    Err(io::Error::new(io::ErrorKind::Other, "too many links"))
}

/// Keeps bytes in a folder under a name that nobody else has; for their owner alone.
pub fn keep(folder: &Path, start: &str, end: &str, bytes: &[u8]) -> io::Result<PathBuf> {
    let (mut file, name) = fresh(folder, PRIVATE, names(start, end))?;
    file.write_all(bytes)?;
    Ok(name)
}

/// A new file under the first name that is free. One that is there, a link among them, is nobody's to write to.
pub fn fresh(folder: &Path, rights: u32, names: impl Iterator<Item = String>) -> io::Result<(File, PathBuf)> {
    let mut taken = io::Error::new(io::ErrorKind::AlreadyExists, "no name is free");
    for name in names.take(MOST_TRIES) {
        let path = folder.join(name);
        match OpenOptions::new().write(true).create_new(true).mode(rights).open(&path) {
            Ok(file) => return Ok((file, path)),
            Err(error) if error.kind() == io::ErrorKind::AlreadyExists => taken = error,
            Err(error) => return Err(error),
        }
    }
    Err(taken)
}

/// Names that are hard to guess.
fn names<'a>(start: &'a str, end: &'a str) -> impl Iterator<Item = String> + 'a {
    static COUNT: AtomicUsize = AtomicUsize::new(0);
    std::iter::repeat_with(move || {
        let now = SystemTime::now().duration_since(UNIX_EPOCH).map_or(0, |since| since.as_nanos());
        format!("{}{}-{:x}-{}{}", start, std::process::id(), now, COUNT.fetch_add(1, Ordering::Relaxed), end)
    })
}
