//! blames BLAME CLINGO OUTPUT FOLDER..: the few constraints that empty a plan beside the same pass with clingo.
//!
//! BLAME says what NAME.plan is blamed on. The pass with clingo asks NAME.lp once with all constraints and once for each of them: a constraint is a line
//! that begins with `:-`, and these stand in the order of the plan's rules. Plans with a position, and plans without a constraint, are passed over. Both are
//! timed as whole processes, in turn; the pass takes the time of all its calls together. The table is written as Markdown.

#[allow(dead_code)]
mod timing;

use std::fs;
use std::path::{Path, PathBuf};
use std::process::{Command, Stdio};
use std::time::Duration;
use timing::*;

/// So often both are measured, after one run that only warms up.
const RUNS: usize = 5;

/// The program of one question.
const QUESTION: &str = "target/bench/question.lp";

fn main() {
    let arguments: Vec<String> = std::env::args().skip(1).collect();
    if arguments.len() < 4 {
        eprintln!("usage: blames BLAME CLINGO OUTPUT FOLDER..");
        std::process::exit(2);
    }
    let (blame, clingo) = (&arguments[0], &arguments[1]);
    let mut rows = Vec::new();
    for plan in arguments[3..].iter().flat_map(|folder| plans(folder)) {
        if let Some(held) = held(blame, &plan) {
            rows.extend(measure(blame, clingo, &plan, held));
            rows.last().iter().for_each(|row| eprintln!("{}", row.line()));
        }
    }
    fs::write(&arguments[2], report(&rows)).expect("the table cannot be written");
    println!("{}", summary(&rows));
}

/// The word of held constraints; nothing where the plan has a position.
fn held(blame: &str, plan: &Path) -> Option<u64> {
    u64::from_str_radix(output(reading(blame, plan)).strip_prefix("held ")?.trim(), 16).ok()
}

// ---- The pass with clingo --------------------------------------------------------------------

/// A program whose constraints can be left out.
struct Program {
    lines: Vec<String>,
    /// The lines that are constraints.
    constraints: Vec<usize>,
}

impl Program {
    fn read(path: &Path) -> Program {
        let text = fs::read_to_string(path).expect("the program cannot be read");
        let lines: Vec<String> = text.lines().map(str::to_string).collect();
        let constraints = (0..lines.len()).filter(|&line| lines[line].trim_start().starts_with(":-")).collect();
        Program { lines, constraints }
    }

    fn write(&self, held: &[usize]) {
        let is_there = |line: &usize| !self.constraints.contains(line) || held.contains(line);
        let text: Vec<&str> = (0..self.lines.len()).filter(is_there).map(|line| self.lines[line].as_str()).collect();
        fs::write(QUESTION, text.join("\n") + "\n").expect("the question cannot be written");
    }
}

/// What a pass took, and the places of the held constraints among all.
struct Pass {
    run: Run,
    held: Vec<usize>,
}

/// Whether these constraints leave no answer set, and what the call took; nothing if it was stopped.
fn ask(clingo: &str, program: &Program, held: &[usize], run: &mut Run) -> Option<bool> {
    program.write(held);
    let question = || {
        let mut command = Command::new(clingo);
        command.args(["-n", "1", "--no-gamma", QUESTION]).stdin(Stdio::null());
        command
    };
    let call = time(question())?;
    run.wall += call.wall;
    run.cpu += call.cpu;
    // The answer is read from a call of its own, so that the timed one writes nothing.
    Some(output(question()).contains("UNSATISFIABLE"))
}

fn pass(clingo: &str, program: &Program) -> Option<Pass> {
    let mut run = Run { wall: Duration::ZERO, cpu: Duration::ZERO };
    let mut held = program.constraints.clone();
    ask(clingo, program, &held, &mut run)?;
    for constraint in &program.constraints {
        let others: Vec<usize> = held.iter().copied().filter(|other| other != constraint).collect();
        if ask(clingo, program, &others, &mut run)? {
            held = others;
        }
    }
    let places = (0..program.constraints.len()).filter(|&place| held.contains(&program.constraints[place])).collect();
    Some(Pass { run, held: places })
}

// ---- Measuring -------------------------------------------------------------------------------

struct Row {
    name: String,
    constraints: usize,
    held: usize,
    blame: Option<Run>,
    call: Option<Duration>,
    clingo: Option<Run>,
    is_same: Option<bool>,
}

fn measure(blame: &str, clingo: &str, plan: &PathBuf, word: u64) -> Option<Row> {
    let program = Program::read(&plan.with_extension("lp"));
    let rules = constraint_rules(&fs::read(plan).expect("the plan cannot be read"));
    if rules.is_empty() {
        return None;
    }
    assert_eq!(rules.len(), program.constraints.len(), "constraints of {:?}", plan);
    let held: Vec<usize> = (0..rules.len()).filter(|&place| word >> rules[place] & 1 == 1).collect();
    let mut own = vec![time(reading(blame, plan))];
    let first = pass(clingo, &program);
    let is_same = first.as_ref().map(|pass| pass.held == held);
    let mut others = vec![first.map(|pass| pass.run)];
    for _ in 0..RUNS {
        repeat(&mut own, || reading(blame, plan));
        if others[0].is_some() {
            others.push(pass(clingo, &program).map(|pass| pass.run));
        }
    }
    let mut calls = reading(blame, plan);
    calls.arg(RUNS.to_string());
    Some(Row {
        name: plan.file_stem().unwrap_or_default().to_string_lossy().into_owned(),
        constraints: rules.len(),
        held: held.len(),
        call: output(calls).trim().parse().ok().map(Duration::from_nanos),
        blame: median(own),
        clingo: median(others),
        is_same,
    })
}

/// The numbers of the rules with an empty head: GIVEN, TABLEs and RULEs come first.
fn constraint_rules(bytes: &[u8]) -> Vec<usize> {
    let (mut offset, mut rule, mut constraints) = (0, 0, Vec::new());
    while let Some(length) = bytes.get(offset).and_then(|command| match command { 0x01 => Some(25), 0x04 => Some(9), 0x05 => Some(17), _ => None }) {
        if length == 25 {
            if bytes[offset + 1..offset + 9].iter().all(|&byte| byte == 0) {
                constraints.push(rule);
            }
            rule += 1;
        }
        offset += length;
    }
    constraints
}

// ---- The table -------------------------------------------------------------------------------

impl Row {
    fn ratio(&self) -> Option<f64> {
        ratio(self.blame, self.clingo, |run| run.cpu)
    }

    fn line(&self) -> String {
        let cells = [
            self.name.clone(),
            self.constraints.to_string(),
            self.held.to_string(),
            self.call.map_or(String::new(), |call| format!("{:.3}", call.as_secs_f64() * 1000.0)),
            milliseconds(self.blame, |run| run.cpu),
            milliseconds(self.clingo, |run| run.cpu),
            shown3(self.ratio()),
            shown3(ratio(self.blame, self.clingo, |run| run.wall)),
            self.is_same.map_or(String::new(), |is_same| if is_same { "same" } else { "differs" }.to_string()),
        ];
        format!("| {} |", cells.join(" | "))
    }
}

fn shown3(ratio: Option<f64>) -> String {
    ratio.map_or(String::new(), |ratio| format!("{:.3}", ratio))
}

fn report(rows: &[Row]) -> String {
    let lines: String = rows.iter().map(|row| row.line() + "\n").collect();
    format!(
        "{}\n\n| plan | constraints | held | call CPU ms | blame CPU ms | clingo pass CPU ms | ratio | ratio, wall | words |\n\
         |---|---:|---:|---:|---:|---:|---:|---:|---|\n{}",
        summary(rows),
        lines
    )
}

fn summary(rows: &[Row]) -> String {
    let mut ratios: Vec<f64> = rows.iter().filter_map(Row::ratio).collect();
    ratios.sort_by(f64::total_cmp);
    let at = |place: usize| ratios.get(place).map_or("none".to_string(), |ratio| format!("{:.3}", ratio));
    let count = |is_counted: fn(&Row) -> bool| rows.iter().filter(|row| is_counted(row)).count();
    format!(
        "{} plans without a position and with constraints; medians of {} alternating runs.\n\
         Ratio of the whole process to the pass with clingo, one call a question, CPU: median {}, at most {}, above 1.0 on {} plans.\n\
         Stopped after {} s: blame {}, clingo {}. Words: {} the same, {} differ.",
        rows.len(),
        RUNS,
        at(ratios.len() / 2),
        at(ratios.len().wrapping_sub(1)),
        ratios.iter().filter(|&&ratio| ratio > 1.0).count(),
        TIME_LIMIT.as_secs(),
        count(|row| row.blame.is_none()),
        count(|row| row.clingo.is_none()),
        count(|row| row.is_same == Some(true)),
        count(|row| row.is_same == Some(false)),
    )
}
