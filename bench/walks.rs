//! walks WALK CLINGO OUTPUT FOLDER..: going from position to position beside clingo on the same plans.
//!
//! WALK meets the positions of NAME.plan in two ways, one in a call and up to 256 in a call; `CLINGO -n 0` lists all of NAME.lp, the same program. All
//! three are timed as whole processes, in turn. The slowest single call of the walk stands beside the whole process of `CLINGO -n 1`, which looks for one
//! answer set, both by the processor's time. The table is written as Markdown.

mod timing;

use std::collections::BTreeSet;
use std::fs;
use std::path::Path;
use std::process::{Command, Stdio};
use std::time::Duration;
use timing::*;

/// A walk ends after so many positions (bench/walk.c); then clingo is asked for as many.
const MOST: usize = 8192;
/// Positions in a call.
const SINGLE: usize = 1;
const BATCH: usize = 256;
/// Walks that are told apart in the summary, by how many positions they meet.
const GROUPS: [(&str, std::ops::RangeInclusive<usize>); 3] = [("under 100", 0..=99), ("100 to 1,000", 100..=1000), ("over 1,000", 1001..=MOST)];

fn main() {
    let arguments: Vec<String> = std::env::args().skip(1).collect();
    if arguments.len() < 4 {
        eprintln!("usage: walks WALK CLINGO OUTPUT FOLDER..");
        std::process::exit(2);
    }
    let programs = Programs { walk: arguments[0].clone(), clingo: arguments[1].clone() };
    let mut rows = Vec::new();
    for plan in arguments[3..].iter().flat_map(|folder| plans(folder)) {
        rows.push(measure(&programs, &plan));
        eprintln!("{}", rows.last().unwrap().line());
    }
    fs::write(&arguments[2], report(&rows)).expect("the table cannot be written");
    println!("{}", summary(&rows));
}

// ---- Running ---------------------------------------------------------------------------------

struct Programs {
    walk: String,
    clingo: String,
}

impl Programs {
    /// So many positions in a call.
    fn walk(&self, plan: &Path, size: usize) -> Command {
        let mut command = reading(&self.walk, plan);
        command.arg(size.to_string());
        command
    }

    fn calls(&self, plan: &Path, runs: usize) -> Command {
        let mut command = self.walk(plan, SINGLE);
        command.arg(runs.to_string());
        command
    }

    /// clingo asked for so many answer sets, 0 for all.
    fn clingo(&self, plan: &Path, count: usize) -> Command {
        let mut command = Command::new(&self.clingo);
        command.args(["-n", &count.to_string()]).arg(plan.with_extension("lp")).stdin(Stdio::null());
        command
    }

    /// The same of all atoms, those that do not show too, and with less preprocessing: with default settings clingo misses answer sets of some plans.
    fn reference(&self, plan: &Path) -> Command {
        let text = fs::read_to_string(plan.with_extension("lp")).expect("the program cannot be read");
        let whole: String = text.lines().filter(|line| !line.starts_with("#show")).map(|line| line.to_owned() + "\n").collect();
        let copy = std::env::temp_dir().join(format!("walks-{}.lp", std::process::id()));
        fs::write(&copy, whole).expect("the program cannot be written");
        let mut command = Command::new(&self.clingo);
        command.args(["-n", "0", "--eq=0", "--no-gamma"]).arg(copy).stdin(Stdio::null());
        command
    }
}

// ---- Measuring -------------------------------------------------------------------------------

struct Row {
    name: String,
    positions: usize,
    walk: Option<Run>,
    batches: Option<Run>,
    all: Option<Run>,
    /// The slowest call and its place from 0.
    call: Option<(Duration, usize)>,
    one: Option<Run>,
    is_same: Option<bool>,
}

fn measure(programs: &Programs, plan: &Path) -> Row {
    let mut walk = vec![time(programs.walk(plan, SINGLE))];
    let mut batches = vec![time(programs.walk(plan, BATCH))];
    let listed = if walk[0].is_some() { positions(programs.walk(plan, SINGLE)) } else { Vec::new() };
    let wanted = if listed.len() == MOST { MOST } else { 0 };
    let mut all = vec![time(programs.clingo(plan, wanted))];
    let mut one = vec![time(programs.clingo(plan, 1))];
    let is_quick = |run: &Option<Run>| run.map_or(false, |run| run.wall < QUICK);
    let runs = if is_quick(&walk[0]) && is_quick(&all[0]) { QUICK_RUNS } else { SLOW_RUNS };
    for _ in 0..runs {
        repeat(&mut walk, || programs.walk(plan, SINGLE));
        repeat(&mut batches, || programs.walk(plan, BATCH));
        repeat(&mut all, || programs.clingo(plan, wanted));
        repeat(&mut one, || programs.clingo(plan, 1));
    }
    let has_ended = walk[0].is_some();
    Row {
        name: plan.file_stem().unwrap_or_default().to_string_lossy().into_owned(),
        positions: listed.len(),
        call: if has_ended { slowest(&output(programs.calls(plan, runs))) } else { None },
        is_same: has_ended.then(|| positions(programs.walk(plan, BATCH)) == listed && same(programs, plan, &listed)),
        walk: median(walk),
        batches: median(batches),
        all: median(all),
        one: median(one),
    }
}

/// The positions that WALK writes.
fn positions(command: Command) -> Vec<u64> {
    output(command).lines().filter_map(|line| u64::from_str_radix(line, 16).ok()).collect()
}

/// The time and place of the slowest call, out of what WALK writes.
fn slowest(line: &str) -> Option<(Duration, usize)> {
    let mut numbers = line.split_whitespace().skip(1);
    Some((Duration::from_nanos(numbers.next()?.parse().ok()?), numbers.next()?.parse().ok()?))
}

/// Does the walk rise, and meet just clingo's answer sets? Where both stop early they meet different ones.
fn same(programs: &Programs, plan: &Path, listed: &[u64]) -> bool {
    let is_rising = listed.windows(2).all(|pair| pair[0] < pair[1]);
    let met = || listed.iter().copied().collect::<BTreeSet<u64>>();
    is_rising && (listed.len() == MOST || met() == answer_sets(&output(programs.reference(plan))))
}

// ---- The table -------------------------------------------------------------------------------

impl Row {
    fn ratio(&self) -> Option<f64> {
        ratio(self.walk, self.all, |run| run.wall)
    }

    /// The same of the walk in calls of 256.
    fn batch_ratio(&self) -> Option<f64> {
        ratio(self.batches, self.all, |run| run.wall)
    }

    /// The slowest call against the whole process that finds one answer set.
    fn call_ratio(&self) -> Option<f64> {
        Some(self.call?.0.as_secs_f64() / self.one?.cpu.as_secs_f64())
    }

    fn line(&self) -> String {
        let end = if self.positions == MOST { ", then stopped" } else { "" };
        let cells = [
            self.name.clone(),
            format!("{}{}", self.positions, end),
            milliseconds(self.walk, |run| run.wall),
            milliseconds(self.batches, |run| run.wall),
            milliseconds(self.all, |run| run.wall),
            shown(self.ratio()),
            shown(self.batch_ratio()),
            milliseconds(self.walk, |run| run.cpu),
            milliseconds(self.batches, |run| run.cpu),
            milliseconds(self.all, |run| run.cpu),
            shown(ratio(self.walk, self.all, |run| run.cpu)),
            shown(ratio(self.batches, self.all, |run| run.cpu)),
            self.call.map_or(String::new(), |call| format!("{:.3}", call.0.as_secs_f64() * 1000.0)),
            self.call.map_or(String::new(), |call| call.1.to_string()),
            milliseconds(self.one, |run| run.cpu),
            shown(self.call_ratio()),
            self.is_same.map_or(String::new(), |is_same| if is_same { "same" } else { "differs" }.to_string()),
        ];
        format!("| {} |", cells.join(" | "))
    }
}

fn report(rows: &[Row]) -> String {
    let lines: String = rows.iter().map(|row| row.line() + "\n").collect();
    format!(
        "{}\n\n| plan | positions | single calls ms | calls of 256 ms | clingo -n 0 ms | ratio, single | ratio, 256 \
         | single CPU ms | 256 CPU ms | clingo CPU ms | ratio, single | ratio, 256 \
         | slowest call CPU ms | its place | clingo -n 1 CPU ms | ratio | lists |\n\
         |---|---:|---:|---:|---:|---:|---:|---:|---:|---:|---:|---:|---:|---:|---:|---:|---|\n{}",
        summary(rows),
        lines
    )
}

/// Median and greatest of some ratios, and how many are above 1.
fn spread(ratios: impl Iterator<Item = f64>) -> String {
    let mut ratios: Vec<f64> = ratios.collect();
    ratios.sort_by(f64::total_cmp);
    let at = |place: usize| ratios.get(place).map_or("none".to_string(), |ratio| format!("{:.2}", ratio));
    let above = ratios.iter().filter(|&&ratio| ratio > 1.0).count();
    format!("median {}, above 1.0 on {} plans, at most {}", at(ratios.len() / 2), above, at(ratios.len().wrapping_sub(1)))
}

/// Geometric mean and greatest of some ratios.
fn mean(ratios: &[f64]) -> String {
    if ratios.is_empty() {
        return "none".to_string();
    }
    let logarithms: f64 = ratios.iter().map(|ratio| ratio.ln()).sum();
    let greatest = ratios.iter().copied().fold(0.0, f64::max);
    format!("{:.2}, worst {:.2}", (logarithms / ratios.len() as f64).exp(), greatest)
}

/// One line for each group of walks: its ratios to `clingo -n 0` by wall time and by the processor's, both ways.
fn groups(rows: &[Row]) -> String {
    let line = |name: &str, range: &std::ops::RangeInclusive<usize>| {
        let rows: Vec<&Row> = rows.iter().filter(|row| range.contains(&row.positions)).collect();
        let of = |of_row: &dyn Fn(&Row) -> Option<f64>| mean(&rows.iter().filter_map(|row| of_row(row)).collect::<Vec<f64>>());
        format!(
            "Walks of {} positions ({} plans), ratio to `clingo -n 0`, geometric mean: single calls {} (CPU {}); calls of 256 {} (CPU {}).\n",
            name,
            rows.len(),
            of(&Row::ratio),
            of(&|row| ratio(row.walk, row.all, |run| run.cpu)),
            of(&Row::batch_ratio),
            of(&|row| ratio(row.batches, row.all, |run| run.cpu)),
        )
    };
    GROUPS.iter().map(|(name, range)| line(name, range)).collect()
}

fn summary(rows: &[Row]) -> String {
    let count = |is_counted: fn(&Row) -> bool| rows.iter().filter(|row| is_counted(row)).count();
    format!(
        "{} plans; medians of {} alternating runs ({} where a run takes over {} ms).\n\
         Ratio of the whole walk to `clingo -n 0`, whole processes: single calls {}; calls of 256 {}.\n\
         {}\
         Ratio of the slowest call to the whole process of `clingo -n 1`, CPU: {}.\n\
         Stopped after {} s: walk {}, clingo {}. Lists: {} the same, {} differ.",
        rows.len(),
        QUICK_RUNS,
        SLOW_RUNS,
        QUICK.as_millis(),
        spread(rows.iter().filter_map(Row::ratio)),
        spread(rows.iter().filter_map(Row::batch_ratio)),
        groups(rows),
        spread(rows.iter().filter_map(Row::call_ratio)),
        TIME_LIMIT.as_secs(),
        count(|row| row.walk.is_none()),
        count(|row| row.all.is_none()),
        count(|row| row.is_same == Some(true)),
        count(|row| row.is_same == Some(false)),
    )
}
