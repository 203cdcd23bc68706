//! What both measuring programs share: plans, runs of whole processes and their times, and clingo's answers.

use std::collections::BTreeSet;
use std::fs::{self, File};
use std::path::{Path, PathBuf};
use std::process::{Command, Stdio};
use std::sync::mpsc;
use std::thread;
use std::time::{Duration, Instant};

pub const TIME_LIMIT: Duration = Duration::from_secs(10);
/// A plan whose first runs stay below this is measured many times.
pub const QUICK: Duration = Duration::from_millis(500);
pub const QUICK_RUNS: usize = 15;
pub const SLOW_RUNS: usize = 3;
const SIGKILL: i32 = 9;

const CHILDREN: i32 = -1;

/// `struct rusage` of the C library on 64-bit Linux: user and system time in seconds and microseconds, and what is not read here.
#[repr(C)]
#[derive(Default)]
struct Usage {
    user: [i64; 2],
    system: [i64; 2],
    others: [i64; 14],
}

extern "C" {
    // From the C library that every Rust program is linked with.
    fn kill(process: i32, signal: i32) -> i32;
    fn getrusage(who: i32, usage: *mut Usage) -> i32;
}

/// The plans of a folder that have a text for clingo beside them, by name.
pub fn plans(folder: &str) -> Vec<PathBuf> {
    let entries = fs::read_dir(folder).expect("the folder of plans cannot be read");
    let paths = entries.map(|entry| entry.expect("the folder of plans cannot be read").path());
    let mut plans: Vec<PathBuf> = paths.filter(|path| is_measured(path)).collect();
    plans.sort();
    plans
}

fn is_measured(path: &Path) -> bool {
    path.extension().map_or(false, |extension| extension == "plan") && path.with_extension("lp").exists()
}

// ---- Running ---------------------------------------------------------------------------------

/// The program with the plan on its standard input.
pub fn reading(program: &str, plan: &Path) -> Command {
    let mut command = Command::new(program);
    command.stdin(File::open(plan).expect("the plan cannot be read"));
    command
}

/// What one run took: wall time from start to end of the process, and the processor's time.
#[derive(Clone, Copy)]
pub struct Run {
    pub wall: Duration,
    pub cpu: Duration,
}

/// The processor's time of all ended children.
fn children_cpu() -> Duration {
    let mut usage = Usage::default();
    unsafe { getrusage(CHILDREN, &mut usage) };
    let seconds = (usage.user[0] + usage.system[0]) as u64;
    Duration::from_secs(seconds) + Duration::from_micros((usage.user[1] + usage.system[1]) as u64)
}

/// One run; nothing if it was stopped.
pub fn time(mut command: Command) -> Option<Run> {
    command.stdout(Stdio::null()).stderr(Stdio::null());
    let cpu_before = children_cpu();
    let start = Instant::now();
    let mut child = command.spawn().expect("the program cannot be started");
    let process = child.id() as i32;
    let (ended, wait_for_end) = mpsc::channel::<()>();
    let watch = thread::spawn(move || {
        let is_late = wait_for_end.recv_timeout(TIME_LIMIT).is_err();
        if is_late {
            unsafe { kill(process, SIGKILL) };
        }
        is_late
    });
    child.wait().expect("the program cannot be waited for");
    let elapsed = start.elapsed();
    // Where the watch has already ended, nobody listens.
    let _ = ended.send(());
    let was_stopped = watch.join().expect("the watch does not fail");
    if was_stopped { None } else { Some(Run { wall: elapsed, cpu: children_cpu() - cpu_before }) }
}

pub fn output(mut command: Command) -> String {
    let output = command.stderr(Stdio::null()).output().expect("the program cannot be started");
    String::from_utf8_lossy(&output.stdout).into_owned()
}

pub fn repeat(runs: &mut Vec<Option<Run>>, command: impl Fn() -> Command) {
    if runs[0].is_some() {
        runs.push(time(command()));
    }
}

/// The medians of all runs but the first, which only warms up; nothing if one was stopped.
pub fn median(runs: Vec<Option<Run>>) -> Option<Run> {
    let runs = runs.into_iter().skip(1).collect::<Option<Vec<Run>>>()?;
    let middle = |time: fn(&Run) -> Duration| {
        let mut times: Vec<Duration> = runs.iter().map(time).collect();
        times.sort();
        times.get(times.len() / 2).copied()
    };
    Some(Run { wall: middle(|run| run.wall)?, cpu: middle(|run| run.cpu)? })
}

// ---- Answers and times -----------------------------------------------------------------------

/// clingo's answer sets as words: the line behind each `Answer:` names the atoms.
pub fn answer_sets(answers: &str) -> BTreeSet<u64> {
    let lines: Vec<&str> = answers.lines().collect();
    lines.windows(2).filter(|pair| pair[0].starts_with("Answer:")).map(|pair| position(pair[1])).collect()
}

fn position(atoms: &str) -> u64 {
    let numbers = atoms.split_whitespace().filter_map(|atom| atom.strip_prefix('a')?.parse::<u32>().ok());
    numbers.fold(0, |word, number| word | 1 << number)
}

pub fn ratio(run: Option<Run>, other: Option<Run>, time: fn(&Run) -> Duration) -> Option<f64> {
    Some(time(&run?).as_secs_f64() / time(&other?).as_secs_f64())
}

pub fn shown(ratio: Option<f64>) -> String {
    ratio.map_or(String::new(), |ratio| format!("{:.2}", ratio))
}

pub fn milliseconds(run: Option<Run>, time: fn(&Run) -> Duration) -> String {
    run.map_or("stopped".to_string(), |run| format!("{:.2}", time(&run).as_secs_f64() * 1000.0))
}
