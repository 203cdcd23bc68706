//! measure SETTLE CLINGO NODES OUTPUT FOLDER..: whole-process times of both programs on the same plans.
//!
//! Each NAME.plan of the folders is given to SETTLE on standard input, and NAME.lp, the same
//! program, to `CLINGO -n 257` with the options that its first line names. Runs of the two alternate, and with those of another
//! settle that the environment's BEFORE may name, and of clingo with options that a first line `% also --..` names. NODES counts the
//! nodes of the search, untimed.
//! The table is written as Markdown.

mod timing;

use std::collections::BTreeSet;
use std::fs;
use std::path::Path;
use std::process::{Command, Stdio};
use timing::*;

fn main() {
    let arguments: Vec<String> = std::env::args().skip(1).collect();
    if arguments.len() < 5 {
        eprintln!("usage: measure SETTLE CLINGO NODES OUTPUT FOLDER..");
        std::process::exit(2);
    }
    let programs = Programs {
        settle: arguments[0].clone(),
        clingo: arguments[1].clone(),
        nodes: arguments[2].clone(),
        before: std::env::var("BEFORE").ok(),
    };
    let mut rows = Vec::new();
    for plan in arguments[4..].iter().flat_map(|folder| plans(folder)) {
        rows.push(measure(&programs, &plan));
        eprintln!("{}", rows.last().unwrap().line());
    }
    fs::write(&arguments[3], report(&rows)).expect("the table cannot be written");
    println!("{}", summary(&rows));
}

// ---- Running ---------------------------------------------------------------------------------

struct Programs {
    settle: String,
    clingo: String,
    nodes: String,
    before: Option<String>,
}

impl Programs {
    fn settle(&self, plan: &Path) -> Command {
        reading(&self.settle, plan)
    }

    fn nodes(&self, plan: &Path) -> Command {
        reading(&self.nodes, plan)
    }

    fn before(&self, plan: &Path) -> Option<Command> {
        self.before.as_ref().map(|program| reading(program, plan))
    }

    fn clingo(&self, plan: &Path) -> Command {
        self.clingo_with(plan, options(plan, "% --").unwrap_or_default())
    }

    /// clingo with the options that it is asked for a second time with.
    fn clingo_too(&self, plan: &Path) -> Option<Command> {
        options(plan, "% also --").map(|options| self.clingo_with(plan, options))
    }

    fn clingo_with(&self, plan: &Path, options: Vec<String>) -> Command {
        let mut command = Command::new(&self.clingo);
        command.args(["-n", "257"]).args(options).arg(plan.with_extension("lp")).stdin(Stdio::null());
        command
    }
}

/// The options that the first line of clingo's program names behind these words, which end with their two dashes.
fn options(plan: &Path, words: &str) -> Option<Vec<String>> {
    let text = fs::read_to_string(plan.with_extension("lp")).expect("clingo's program cannot be read");
    let named = text.lines().next()?.strip_prefix(words)?;
    Some(format!("--{}", named).split_whitespace().map(String::from).collect())
}

// ---- Measuring -------------------------------------------------------------------------------

struct Row {
    name: String,
    positions: String,
    nodes: String,
    settle: Option<Run>,
    clingo: Option<Run>,
    before: Option<Run>,
    clingo_too: Option<Run>,
    agreement: Agreement,
}

#[derive(Clone, Copy, PartialEq)]
enum Agreement {
    Same,
    Differs,
    /// Refused or stopped: there are no two lists to compare.
    NotCompared,
}

fn measure(programs: &Programs, plan: &Path) -> Row {
    let mut settle = vec![time(programs.settle(plan))];
    let mut clingo = vec![time(programs.clingo(plan))];
    let mut before = vec![programs.before(plan).and_then(time)];
    let mut clingo_too = vec![programs.clingo_too(plan).and_then(time)];
    let is_quick = |run: &Option<Run>| run.map_or(false, |run| run.wall < QUICK);
    let runs = if is_quick(&settle[0]) && is_quick(&clingo[0]) { QUICK_RUNS } else { SLOW_RUNS };
    for run in 0..runs {
        // A program that was stopped once is not run again. The two builds take turns at running behind clingo, which leaves cold caches.
        let turn = |settle: &mut Vec<Option<Run>>| repeat(settle, || programs.settle(plan));
        let other = |before: &mut Vec<Option<Run>>| repeat(before, || programs.before(plan).expect("it was run once"));
        if run % 2 == 0 { turn(&mut settle) } else { other(&mut before) }
        repeat(&mut clingo, || programs.clingo(plan));
        repeat(&mut clingo_too, || programs.clingo_too(plan).expect("it was run once"));
        if run % 2 == 0 { other(&mut before) } else { turn(&mut settle) }
    }
    let sheet = if settle[0].is_some() { output(programs.settle(plan)) } else { String::new() };
    let answers = if clingo[0].is_some() { output(programs.clingo(plan)) } else { String::new() };
    Row {
        name: plan.file_stem().unwrap_or_default().to_string_lossy().into_owned(),
        positions: positions(&sheet),
        // Counting takes a hundred times as long.
        nodes: if is_quick(&settle[0]) { nodes(&output(programs.nodes(plan)), &positions(&sheet)) } else { "not counted".to_string() },
        settle: median(settle),
        clingo: median(clingo),
        before: median(before),
        clingo_too: median(clingo_too),
        agreement: agreement(&sheet, &answers),
    }
}

/// What the first line of a sheet says, in few words.
fn positions(sheet: &str) -> String {
    let first = sheet.lines().next().unwrap_or("none printed");
    first.trim_start_matches("positions ").to_string()
}

/// The counted nodes, where the count found what the sheet says.
fn nodes(counted: &str, positions: &str) -> String {
    match counted.trim_end().split_once(' ') {
        Some((nodes, found)) if found == positions => nodes.to_string(),
        _ => "not counted".to_string(),
    }
}

// ---- Agreement -------------------------------------------------------------------------------

fn agreement(sheet: &str, answers: &str) -> Agreement {
    if !sheet.starts_with("positions ") || answers.is_empty() {
        return Agreement::NotCompared;
    }
    let listed: BTreeSet<u64> = sheet.lines().skip(1).filter_map(|line| u64::from_str_radix(line, 16).ok()).collect();
    if listed == answer_sets(answers) { Agreement::Same } else { Agreement::Differs }
}

// ---- The table -------------------------------------------------------------------------------

impl Row {
    fn ratio(&self) -> Option<f64> {
        ratio(self.settle, self.clingo, |run| run.wall)
    }

    fn line(&self) -> String {
        let agreement = match self.agreement {
            Agreement::Same => "same",
            Agreement::Differs => "differs",
            Agreement::NotCompared => "",
        };
        let (settle, clingo, before) = (self.settle, self.clingo, self.before);
        let cells = [
            self.name.clone(),
            self.positions.clone(),
            self.nodes.clone(),
            milliseconds(settle, |run| run.wall),
            milliseconds(clingo, |run| run.wall),
            shown(self.ratio()),
            milliseconds(settle, |run| run.cpu),
            milliseconds(clingo, |run| run.cpu),
            shown(ratio(settle, clingo, |run| run.cpu)),
            shown(ratio(settle, self.clingo_too, |run| run.cpu)),
            shown(ratio(settle, before, |run| run.wall)),
            shown(ratio(settle, before, |run| run.cpu)),
            agreement.to_string(),
        ];
        format!("| {} |", cells.join(" | "))
    }
}

fn report(rows: &[Row]) -> String {
    let lines: String = rows.iter().map(|row| row.line() + "\n").collect();
    format!(
        "{}\n\n| plan | positions | nodes | settle ms | clingo ms | ratio | settle CPU ms | clingo CPU ms | ratio | also | to before | CPU | lists |\n\
         |---|---|---:|---:|---:|---:|---:|---:|---:|---:|---:|---:|---|\n{}",
        summary(rows),
        lines
    )
}

fn summary(rows: &[Row]) -> String {
    let mut ratios: Vec<f64> = rows.iter().filter_map(Row::ratio).collect();
    ratios.sort_by(f64::total_cmp);
    let at = |place: usize| ratios.get(place).map_or("none".to_string(), |ratio| format!("{:.2}", ratio));
    let count = |is_counted: fn(&Row) -> bool| rows.iter().filter(|row| is_counted(row)).count();
    format!(
        "{} plans; medians of {} alternating runs ({} where a run takes over {} ms), whole process.\n\
         Ratio of settle's time to clingo's: median {}, above 1.0 on {} plans, at most {}.\n\
         Stopped after {} s: settle {}, clingo {}. Lists: {} the same, {} differ.",
        rows.len(),
        QUICK_RUNS,
        SLOW_RUNS,
        QUICK.as_millis(),
        at(ratios.len() / 2),
        ratios.iter().filter(|&&ratio| ratio > 1.0).count(),
        at(ratios.len().wrapping_sub(1)),
        TIME_LIMIT.as_secs(),
        count(|row| row.settle.is_none()),
        count(|row| row.clingo.is_none()),
        count(|row| row.agreement == Agreement::Same),
        count(|row| row.agreement == Agreement::Differs),
    )
}
