//! Lists with drawn faults: whatever stands in a file, it is read, or refused in words with a hint, and nothing breaks.

use crate::forms::FORMS;
use crate::options;
use crate::random::Random;
use crate::tally::Tally;
use lucarne::commands::audit;
use lucarne::plan::group::Group;
use lucarne::read::theirs;

const SIGNS: [&str; 26] = [
    ",",
    ";",
    "\t",
    "\n",
    "\r",
    "\"",
    "'",
    "\\",
    "{",
    "}",
    "[",
    "]",
    ":",
    "-",
    "0",
    "1",
    "X",
    "up",
    "é",
    "\u{feff}",
    "\0",
    "Answer: 9\n",
    "positions 3\n",
    "relay",
    "ffffffffffffffff",
    "SATISFIABLE\n",
];

pub fn try_all(paths: &[String], count: u64, seed: u64, tally: &mut Tally) {
    let mut groups: Vec<Group> = paths.iter().map(|path| Group::open(&options(path)).expect("a sample group is listed")).collect();
    for case in 0..count {
        let mut random = Random::for_case(seed ^ 77, case);
        let group = &mut groups[(case % paths.len() as u64) as usize];
        let few: Vec<u64> = group.listing.positions.iter().copied().take(random.below(6)).collect();
        let text = mutate((FORMS[random.below(FORMS.len())].write)(group, &few), &mut random);
        try_text(group, &text, tally);
    }
}

fn mutate(text: String, random: &mut Random) -> String {
    let mut signs: Vec<char> = text.chars().collect();
    for _ in 0..random.between(1, 4) {
        let (at, until) = (random.below(signs.len() + 1), random.below(signs.len() + 1));
        match random.below(4) {
            0 => signs.truncate(at),
            1 => drop(signs.splice(at..at, random.pick(&SIGNS).chars())),
            2 => drop(signs.splice(at..signs.len().min(at + 1), random.pick(&SIGNS).chars())),
            _ => drop(signs.drain(at.min(until)..at.max(until).min(at.min(until) + 20))),
        }
    }
    signs.into_iter().collect()
}

fn try_text(group: &mut Group, text: &str, tally: &mut Tally) {
    let kept = (group.program.shows.clone(), group.program.hidden.clone(), group.plan.clone(), group.listing.clone());
    let report = theirs::of_text(group, "list", text).and_then(|theirs| audit::report(group, &theirs));
    match report {
        Ok(report) => {
            tally.count("read", 1);
            let is_same = report.lines.last().map_or(false, |line| line.starts_with("their list is the list"));
            tally.check(is_same == (report.differences == 0), "the last line says something else", || text.to_string());
        }
        Err(fault) => {
            tally.count("refused", 1);
            let is_told = fault.status == 2 && !fault.what.is_empty() && !fault.hint.is_empty();
            tally.check(is_told, &format!("refused badly: {}", fault), || text.to_string());
        }
    }
    // A list that tells fewer relays cuts the group's own.
    let (shows, hidden, plan, listing) = kept;
    group.program.shows = shows;
    group.program.hidden = hidden;
    group.plan = plan;
    group.listing = listing;
}
