//! A list from elsewhere held against the proved one: each of its lines, and each position that it lacks.

use super::args::Args;
use crate::fault::{status, Fault};
use crate::plan::group::Group;
use crate::plan::library;
use crate::plan::library::verdicts;
use crate::show::html::counted;
use crate::show::output;
use crate::plan::bytes;
use crate::read::sources::STANDARD_INPUT;
use crate::read::theirs::{self, Line, Theirs};
use crate::plan::told;
use crate::plan::unheard;
use crate::plan::reason;
use std::collections::{BTreeMap, BTreeSet};
use std::path::Path;

/// What lies under a line of the report.
const INDENT: &str = "             ";

pub fn run(args: &Args) -> Result<i32, Fault> {
    if args.subject == STANDARD_INPUT && args.group.paths.iter().any(|path| path.as_os_str() == STANDARD_INPUT) {
        return Err(Fault::new("the standard input cannot be both their list and the group").hint("write one of the two to a file"));
    }
    let mut group = Group::prepare(&args.group)?;
    let theirs = theirs::read(&group, Path::new(&args.subject))?;
    let report = report(&mut group, &theirs)?;
    output::notes(&group.notes, args.is_quiet);
    output::write(args.output.as_deref(), (report.lines.join("\n") + "\n").as_bytes())?;
    Ok(if report.differences == 0 { status::FINE } else { status::NOT_FINE })
}

/// What is to be said of a list, and how many differences there are.
#[derive(Clone, Debug, Default)]
pub struct Report {
    pub lines: Vec<String>,
    pub differences: usize,
}

/// Lists the group, cut to the relays that they tell of, and compares.
pub fn report(group: &mut Group, theirs: &Theirs) -> Result<Report, Fault> {
    let untold = untold(group, theirs.told);
    told::list_by(group, theirs.told)?;
    let mut comparison = Comparison::new(group, theirs, !untold.is_empty())?;
    let cut = format!(" (held against each other on {} relays; not told: {})", theirs.told.count_ones(), untold.join(", "));
    let positions = if theirs.lines.len() == 1 { "position" } else { "positions" };
    let count = format!("their list: {} {}; settled: {}", theirs.lines.len(), positions, group.listing.positions.len());
    comparison.report.lines.push(count + if untold.is_empty() { "" } else { &cut });
    comparison.report.lines.extend(theirs.notes.iter().map(|note| format!("note: {}", note)));
    comparison.compare()?;
    let mut report = comparison.report;
    if report.differences > 0 {
        report.lines.extend(unheard_of(group, theirs));
    }
    Ok(report)
}

/// What to say where they list what the sheets say to clingo, for which directives are comments.
fn unheard_of(group: &Group, theirs: &Theirs) -> Option<String> {
    let names = |word: u64| -> BTreeSet<String> { group.plan.up(word).into_iter().map(|atom| group.program.name(atom).to_string()).collect() };
    let positions = theirs.lines.iter().map(|line| names(line.up & theirs.told)).collect();
    let without = unheard::explains(group, &names(theirs.told), &positions)?;
    Some(format!("their list is that of the sheets {}: of these clingo does not hear; lucarne list GROUP --as lp writes them out for it", without))
}

/// Labels of the relays that the group shows and the list does not tell of.
fn untold(group: &Group, told: u64) -> Vec<String> {
    group
        .shown()
        .into_iter()
        .filter(|&atom| group.plan.word(&[atom]) & told == 0)
        .map(|atom| group.program.label(atom).to_string())
        .collect()
}

struct Comparison<'a> {
    group: &'a Group,
    theirs: &'a Theirs,
    /// Whether relays that show are not told, so that settled positions may look alike.
    is_cut: bool,
    ours: BTreeSet<u64>,
    /// Whole settled positions by what is told of them.
    wholes: BTreeMap<u64, u64>,
    /// Where each position stands first in theirs.
    first: BTreeMap<u64, &'a str>,
    /// Whether the library's own search has looked for what they lack.
    is_searched: bool,
    report: Report,
}

impl<'a> Comparison<'a> {
    fn new(group: &'a Group, theirs: &'a Theirs, is_cut: bool) -> Result<Comparison<'a>, Fault> {
        let mut first = BTreeMap::new();
        for line in theirs.lines.iter().filter(|line| line.dropped_fact.is_none()) {
            first.entry(line.up & theirs.told).or_insert(line.place.as_str());
        }
        let ours = group.listing.positions.iter().copied().collect();
        Ok(Comparison { group, theirs, is_cut, ours, wholes: told::wholes(group)?, first, is_searched: false, report: Report::default() })
    }

    fn compare(&mut self) -> Result<(), Fault> {
        let (mut judged, mut repeats) = (Vec::new(), 0);
        let theirs = self.theirs;
        for line in &theirs.lines {
            let position = line.up & theirs.told;
            let first = self.first.get(&position).copied().filter(|&first| first != line.place && line.dropped_fact.is_none());
            match first {
                Some(_) if self.is_cut => repeats += 1,
                Some(first) => self.differ(format!("TWICE        {} is {} again", line.place, first)),
                None if line.dropped_fact.is_none() && self.ours.contains(&position) => {
                    judged.extend(self.wholes.get(&position).map(|&whole| (whole, true)))
                }
                None => judged.extend(self.not_settled(line).map(|whole| (whole, false))),
            }
        }
        self.judge(&judged)?;
        self.missing()?;
        if repeats > 0 {
            self.report.lines.push(format!("{} of their lines are like others on the told relays", repeats));
        }
        let proved = if self.is_searched { " (proved: the library's own search finds none that they lack)" } else { "" };
        self.report.lines.push(match self.report.differences {
            0 if self.is_cut => format!("their list is the list on the relays that it tells of{}", proved),
            0 => format!("their list is the list: nothing is missing, and every position is settled{}", proved),
            1 => "their list is not the list: 1 difference".to_string(),
            more => format!("their list is not the list: {} differences", more),
        });
        Ok(())
    }

    fn differ(&mut self, line: String) {
        self.report.differences += 1;
        self.report.lines.push(line);
    }

    /// Tells why a line is not settled; its whole position, if the plan is to blame and not a fact outside it.
    fn not_settled(&mut self, line: &Line) -> Option<u64> {
        let position = line.up & self.theirs.told;
        self.differ(format!("NOT SETTLED  {}: {}", line.place, self.group.told(position)));
        let near = self.nearest(position);
        let whole = near.and_then(|near| self.wholes.get(&near)).copied().unwrap_or(0);
        let whole = told::complete(self.group, self.theirs.told, position, whole);
        let reason = match &line.dropped_fact {
            Some(fact) => format!("{} is a fact of the sheets: it is up in every position", self.group.program.label_of(fact)),
            None => reason::why_not(self.group, &whole),
        };
        self.report.lines.push(format!("{}{}", INDENT, reason));
        match near.filter(|&near| near != position) {
            Some(near) => self.report.lines.push(format!("{}nearest settled: {}", INDENT, self.told_from(position, near))),
            None if near.is_none() => {
                self.report.lines.push(format!("{}the group has no position at all: lucarne why GROUP tells the constraints", INDENT))
            }
            None => {}
        }
        Some(self.group.plan.word(&whole)).filter(|_| line.dropped_fact.is_none())
    }

    /// The settled position that differs in the fewest relays, one that they lack before others.
    fn nearest(&self, position: u64) -> Option<u64> {
        self.ours.iter().copied().min_by_key(|&ours| ((ours ^ position).count_ones(), self.first.contains_key(&ours), ours))
    }

    /// How to get from a position to a settled one, and whether they have that.
    fn told_from(&self, position: u64, near: u64) -> String {
        let change = |atom: usize| {
            format!("{} {}", self.group.program.label(atom), if self.group.plan.word(&[atom]) & near != 0 { "up" } else { "dropped" })
        };
        let changes: Vec<String> = self.group.plan.up(position ^ near).into_iter().map(change).collect();
        match self.first.get(&near) {
            Some(place) => format!("{}, which is {}", changes.join(", "), place),
            None => format!("{}, which is missing: a slip of the pen?", changes.join(", ")),
        }
    }

    /// Their positions once more, by the library's judgement of whole sheets, which must say the same as the list.
    fn judge(&self, judged: &[(u64, bool)]) -> Result<(), Fault> {
        let positions: Vec<u64> = judged.iter().map(|&(whole, _)| whole).collect();
        let settled = verdicts::judge_all(&self.group.plan.bytes, &positions).map_err(|refusal| self.group.refused(refusal))?;
        match judged.iter().zip(settled).find(|((_, wanted), settled)| wanted != settled) {
            Some(((whole, _), settled)) => Err(Fault::of_the_tool(format!(
                "{:016x} is judged {}, and the list says otherwise",
                whole,
                if settled { "settled" } else { "not settled" }
            ))),
            None => Ok(()),
        }
    }

    /// What they lack once more, by the library's own search, which must say the same: so that nothing is missing is proved, not worked out here. It goes by
    /// whole positions: where some atoms do not show, all that stand behind their lines are given to it.
    fn search(&mut self, missing: &[u64]) -> Result<(), Fault> {
        let show = bytes::decode(&self.group.plan.bytes).show;
        let known: Vec<u64> = match show {
            None => self.first.keys().copied().filter(|position| self.ours.contains(position)).collect(),
            Some(show) => match told::all_wholes(self.group)? {
                Some(wholes) => wholes.into_iter().filter(|whole| self.first.contains_key(&(whole & show))).collect(),
                None => {
                    self.report.lines.push(format!(
                        "note: that nothing else is missing is by the list alone: the library's search for it takes whole positions, at most {}, and more \
                         stand behind the {} that show",
                        library::MAX_POSITIONS,
                        counted(show.count_ones() as usize, "relay", "relays")
                    ));
                    return Ok(());
                }
            },
        };
        let found = verdicts::missing(&self.group.plan.bytes, &known).map_err(|refusal| self.group.refused(refusal))?;
        let fits = match (found, show) {
            (Some(whole), Some(show)) => missing.contains(&(whole & show)),
            (found, _) => found == missing.iter().copied().min(),
        };
        if !fits {
            let told = |position: Option<u64>| position.map_or("none".to_string(), |position| format!("{:016x}", position));
            let what = format!("they lack {}, and the list says {}", told(found), told(missing.iter().copied().min()));
            return Err(Fault::of_the_tool(what));
        }
        self.is_searched = true;
        Ok(())
    }

    fn missing(&mut self) -> Result<(), Fault> {
        let missing: Vec<u64> =
            self.group.listing.positions.iter().copied().filter(|position| !self.first.contains_key(position)).collect();
        self.search(&missing)?;
        for position in missing {
            self.differ(format!("MISSING      {}   ({:016x})", self.group.told(position), position));
            if let Some(&whole) = self.wholes.get(&position) {
                let settled = library::judge(&self.group.plan.bytes, whole).map_err(|refusal| self.group.refused(refusal))?;
                if !settled {
                    return Err(Fault::of_the_tool(format!("{:016x} is listed, and judged not settled", whole)));
                }
            }
        }
        let unjudged = self.ours.iter().filter(|position| !self.wholes.contains_key(position)).count();
        if unjudged > 0 {
            let shown = bytes::decode(&self.group.plan.bytes).show.unwrap_or(u64::MAX).count_ones();
            self.report.lines.push(format!(
                "note: {} positions were not judged a second time: too many stand behind the {} relays that show",
                unjudged, shown
            ));
        }
        Ok(())
    }
}
