//! sheets LUCARNE CLINGO ROWS GROUP..: the tool on the sheets of each group beside clingo on the same files, whole processes in turn. ROWS has the rows
//! of contact tables as rules, for clingo. Writes a Markdown table.

#[allow(dead_code)]
mod timing;

use std::fs;
use std::process::Command;
use timing::{median, milliseconds, output, ratio, repeat, shown, time, QUICK_RUNS};

fn main() {
    let words: Vec<String> = std::env::args().skip(1).collect();
    let (lucarne, clingo, rows) = (&words[0], &words[1], &words[2]);
    println!("| group | positions | lucarne ms | clingo ms | ratio | lucarne CPU ms | clingo CPU ms | CPU ratio |");
    println!("|---|---:|---:|---:|---:|---:|---:|---:|");
    for group in &words[3..] {
        let ours = || listing(lucarne, group);
        let theirs = || solving(clingo, group, rows);
        let (mut own, mut other) = (vec![time(ours())], vec![time(theirs())]);
        for _ in 0..QUICK_RUNS {
            repeat(&mut own, ours);
            repeat(&mut other, theirs);
        }
        let list = output(ours());
        let (own, other) = (median(own), median(other));
        println!(
            "| {} | {} | {} | {} | {} | {} | {} | {} |",
            group,
            list.lines().next().unwrap_or("").trim_start_matches("positions ").split(':').next().unwrap_or(""),
            milliseconds(own, |run| run.wall),
            milliseconds(other, |run| run.wall),
            shown(ratio(own, other, |run| run.wall)),
            milliseconds(own, |run| run.cpu),
            milliseconds(other, |run| run.cpu),
            shown(ratio(own, other, |run| run.cpu))
        );
    }
}

fn listing(lucarne: &str, group: &str) -> Command {
    let mut command = Command::new(lucarne);
    command.args(["list", group, "-q"]);
    command
}

/// clingo on the sheets of a folder, or on one sheet, and the rows.
fn solving(clingo: &str, group: &str, rows: &str) -> Command {
    let mut files: Vec<String> = match fs::read_dir(group) {
        Ok(entries) => entries.map(|entry| entry.expect("the folder cannot be read").path().to_string_lossy().into_owned()).collect(),
        Err(_) => vec![group.to_string()],
    };
    files.sort();
    let mut command = Command::new(clingo);
    command.arg("0").args(files).arg(rows);
    command
}
