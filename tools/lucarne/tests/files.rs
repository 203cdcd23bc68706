//! test-files FOLDER: files that nobody else has. A name that is taken, by a file or by a link, is nobody's to write to; what is kept is for its
//! owner alone. The last line is 'N passed, M failed'.

mod tally;

use lucarne::show::beside::{fresh, keep};
use std::fs;
use std::os::unix::fs::{symlink, PermissionsExt};
use std::path::Path;
use tally::Tally;

const RIGHTS: u32 = 0o600;

fn main() {
    let folder = std::env::args().nth(1).expect("a folder");
    let folder = Path::new(&folder);
    drop(fs::remove_dir_all(folder));
    fs::create_dir_all(folder).expect("a folder for the files");
    let mut tally = Tally::default();
    taken_names(folder, &mut tally);
    kept(folder, &mut tally);
    tally.must_have("taken names");
    drop(fs::remove_dir_all(folder));
    std::process::exit(tally.end());
}

/// Three names are taken, by links and by a file; the last is free.
fn taken_names(folder: &Path, tally: &mut Tally) {
    let theirs = folder.join("theirs");
    fs::write(&theirs, "theirs").expect("a file");
    fs::write(folder.join("two"), "two").expect("a file");
    symlink("theirs", folder.join("one")).expect("a link");
    symlink("nowhere", folder.join("none")).expect("a link");
    let names = ["one", "none", "two", "three"].map(str::to_string).into_iter();
    tally.count("taken names", 3);
    let made = fresh(folder, RIGHTS, names).map(|(_, path)| path);
    tally.check(made.as_ref().ok() == Some(&folder.join("three")), "a taken name is written to", || format!("{:?}", made));
    let text = |name: &str| fs::read_to_string(folder.join(name)).unwrap_or_default();
    tally.check(text("theirs") == "theirs" && text("two") == "two", "a file of others is changed", || text("theirs") + &text("two"));
    tally.check(!folder.join("nowhere").exists(), "a link to nowhere is followed", String::new);
    let full = fresh(folder, RIGHTS, ["one", "two"].map(str::to_string).into_iter());
    tally.check(full.is_err(), "no name is free, and a file is made", || format!("{:?}", full));
}

fn kept(folder: &Path, tally: &mut Tally) {
    let keep = || keep(folder, "kept-", ".plan", b"bytes").expect("a kept file");
    let (one, two) = (keep(), keep());
    tally.check(one != two, "two files are kept under one name", || format!("{:?}", one));
    let rights = fs::metadata(&one).expect("a kept file").permissions().mode() & 0o777;
    tally.check(rights == RIGHTS, "others may read what is kept", || format!("{:o}", rights));
    tally.check(fs::read(&one).map_or(false, |bytes| bytes == b"bytes"), "something else is kept", String::new);
}
