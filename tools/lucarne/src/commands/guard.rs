//! What is written is never what is read: told by the files themselves, whatever they are called, before anything is read.

use super::args::{Args, Command};
use crate::fault::Fault;
use crate::plan::file;
use crate::read::folder::Folder;
use crate::read::sources::{self, STANDARD_INPUT};
use crate::show::output;
use std::fs::{self, Metadata};
use std::os::unix::fs::MetadataExt;
use std::path::{Path, PathBuf};

/// Refuses an output that is an input of the same run, or another output, or names that are not ours.
pub fn check(args: &Args) -> Result<(), Fault> {
    let outputs = outputs(args);
    // Inputs, and what they include, are looked for only where there is a file to lose.
    let is_file = outputs.iter().any(|path| fs::metadata(path).map_or(false, |known| known.is_file()));
    let inputs = if is_file { sources::with_included(inputs(args)) } else { Vec::new() };
    for (place, output) in outputs.iter().enumerate() {
        if let Some(input) = inputs.iter().find(|input| is_same(input, output)) {
            return Err(Fault::new(format!("{} is read in this run, and would be overwritten{}", told(output), otherwise(input, output)))
                .hint("name another file behind -o"));
        }
        if let Some(other) = outputs[..place].iter().find(|other| is_same(other, output)) {
            return Err(Fault::new(format!("{} and {} are one file", told(other), told(output))).hint("lucarne compile GROUP -o X.plan"));
        }
    }
    match args.output.as_deref().filter(|_| args.command == Command::Compile) {
        Some(plan) if output::is_file(plan) => file::check_names(&file::names_path(plan)),
        _ => Ok(()),
    }
}

/// Every file that the run reads. A folder's sheets are, and a plan's names.
fn inputs(args: &Args) -> Vec<PathBuf> {
    let mut inputs: Vec<PathBuf> = args.file.iter().cloned().collect();
    if matches!(args.command, Command::Audit | Command::Readings) {
        inputs.push(PathBuf::from(&args.subject));
    }
    for path in &args.group.paths {
        match Folder::of(path) {
            Ok(folder) => inputs.extend(folder.sheets),
            Err(_) => inputs.push(path.clone()),
        }
        inputs.extend(Some(file::names_path(path)).filter(|_| sources::is_plan(path)));
    }
    let is_standard = |path: &PathBuf| path.as_os_str() == STANDARD_INPUT;
    inputs.into_iter().map(|path| if is_standard(&path) { PathBuf::from("/dev/stdin") } else { path }).collect()
}

/// Every file that the run writes. The shell may have opened one as the standard output.
fn outputs(args: &Args) -> Vec<PathBuf> {
    let standard = || PathBuf::from("/dev/stdout");
    let output = args.output.as_deref().filter(|path| !output::is_standard(path));
    let names = output.filter(|path| args.command == Command::Compile && output::is_file(path)).map(file::names_path);
    std::iter::once(output.map_or_else(standard, Path::to_path_buf)).chain(names).collect()
}

/// Whether two paths lead to one file that has bytes to lose: no pipe, no terminal.
fn is_same(one: &Path, other: &Path) -> bool {
    let known = |path: &Path| fs::metadata(path).ok().filter(Metadata::is_file).map(|known| (known.dev(), known.ino()));
    known(one).map_or(false, |file| known(other) == Some(file))
}

fn told(path: &Path) -> String {
    if path == Path::new("/dev/stdout") {
        return "the standard output".to_string();
    }
    path.display().to_string()
}

/// By what other name the same file is read.
fn otherwise(input: &Path, output: &Path) -> String {
    match input {
        _ if input == output => String::new(),
        _ if input == Path::new("/dev/stdin") => " (it is the standard input)".to_string(),
        _ => format!(" (it is {})", input.display()),
    }
}
