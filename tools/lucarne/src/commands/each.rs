//! Many groups, a line for each in the order in which they are named, worked by several threads.

use super::args::Args;
use crate::fault::{status, Fault};
use crate::plan::group::{Group, Options};
use crate::show::output::Stream;
use crate::show::progress::Progress;
use std::collections::BTreeMap;
use std::panic;
use std::sync::atomic::{AtomicBool, AtomicUsize, Ordering};
use std::sync::mpsc::{self, Receiver, Sender};
use std::sync::Arc;
use std::thread;

/// Room for the search of a group, as the first thread of a program has it.
const STACK: usize = 8 << 20;

/// What became of one group: its place on the command line, its status and its line.
type Done = (usize, i32, String);

pub fn run(args: &Args) -> Result<i32, Fault> {
    let groups: Vec<Options> = args.group.paths.iter().map(|path| Options { paths: vec![path.clone()], ..args.group.clone() }).collect();
    let total = groups.len();
    let (work, stop) = (Arc::new((groups, AtomicUsize::new(0))), Arc::new(AtomicBool::new(false)));
    let (sender, receiver) = mpsc::channel();
    for _ in 0..args.jobs.unwrap_or(1).min(total) {
        let (work, stop, sender) = (work.clone(), stop.clone(), sender.clone());
        let started = thread::Builder::new().stack_size(STACK).spawn(move || take(&work.0, &work.1, &stop, &sender));
        started.map_err(|error| Fault::trouble(format!("a thread cannot be started: {}", error)))?;
    }
    drop(sender);
    let told = tell(args, total, &receiver);
    stop.store(true, Ordering::Relaxed);
    told
}

/// Takes one group after the other until none is left or nobody listens.
fn take(groups: &[Options], next: &AtomicUsize, stop: &AtomicBool, sender: &Sender<Done>) {
    while !stop.load(Ordering::Relaxed) {
        let place = next.fetch_add(1, Ordering::Relaxed);
        let done = match groups.get(place) {
            Some(group) => panic::catch_unwind(|| work(group))
                .unwrap_or_else(|_| (status::TROUBLE, "a fault of this tool: please report it, with the sheets".to_string())),
            None => return,
        };
        if sender.send((place, done.0, done.1)).is_err() {
            return;
        }
    }
}

/// A group in one line.
fn work(options: &Options) -> (i32, String) {
    match Group::open(options) {
        Ok(group) => {
            let count = group.listing.positions.len();
            let (positions, units) = (if count == 1 { "position" } else { "positions" }, group.layout.units.len());
            (
                if count == 0 { status::NOT_FINE } else { status::FINE },
                format!("{} {}, {} {}", count, positions, units, if units == 1 { "unit" } else { "units" }),
            )
        }
        Err(fault) => {
            let spot = fault.spot.as_ref().map_or(String::new(), |spot| format!("{}: ", spot));
            let own = format!("{}: ", options.title());
            let what = fault.what.strip_prefix(&own).unwrap_or(&fault.what);
            (fault.status, format!("{}: {}{}", if fault.status == status::REFUSED { "refused" } else { "trouble" }, spot, what))
        }
    }
}

/// Writes the lines in order, each as soon as those before it are there; the worst status.
fn tell(args: &Args, total: usize, receiver: &Receiver<Done>) -> Result<i32, Fault> {
    let names: Vec<String> = args.group.paths.iter().map(|path| path.to_string_lossy().into_owned()).collect();
    let width = names.iter().map(|name| name.chars().count()).max().unwrap_or(0);
    let mut stream = Stream::to(args.output.as_deref())?;
    let mut progress = Progress::beside_output("groups", total);
    let (mut early, mut next, mut worst) = (BTreeMap::new(), 0, status::FINE);
    for (place, status, line) in receiver {
        worst = worst.max(status);
        early.insert(place, line);
        progress.step();
        while let Some(line) = early.remove(&next) {
            stream.text(&format!("{:2$}  {}\n", names[next], line, width))?;
            next += 1;
        }
    }
    stream.end()?;
    Ok(worst)
}
