//! A group from its source to its list: read, laid out, written as bytes, listed by the proved library.

use crate::fault::Fault;
use crate::plan::layout::{Circles, Layout};
use crate::plan::library::{self, Listing, Refusal, MAX_POSITIONS};
use crate::plan::limits;
use crate::plan::bytes::{self, Plan};
use crate::plan::file;
use crate::plan::program::{Atom, Program};
use crate::read::reader::{self, Grounding, Turns};
use crate::read::sources::{self, Source, STANDARD_INPUT};
use crate::read::text::statements::Sheets;
use crate::show::beside;
use crate::plan::words::Refused;
use std::collections::BTreeSet;
use std::path::{Path, PathBuf};

/// What the command line says about a group.
#[derive(Clone, Debug)]
pub struct Options {
    pub paths: Vec<PathBuf>,
    pub grounding: Grounding,
    pub circles: Circles,
    pub one_unit: bool,
    pub turns: Turns,
}

impl Options {
    /// The group's name in messages and pages.
    pub fn title(&self) -> String {
        self.paths.iter().map(|path| path.to_string_lossy()).collect::<Vec<_>>().join(" ")
    }

    /// Whether what would be a note is refused: circles, and files of a folder that are not taken.
    fn is_strict(&self) -> bool {
        self.circles == Circles::Refuse
    }
}

/// Where a group comes from.
pub enum Origin {
    Sheets(Sheets),
    /// A ground program from the standard input, in gringo's format.
    Ground(String),
    /// A plan of bytes, which is listed as it is.
    Bytes,
}

const NOTHING_DRIVEN: &str = "nothing is driven: no rule has a head, and no relay is up but by a key";

/// Whether no rule has a head, and no fact was folded away.
fn drives_nothing(program: &Program) -> bool {
    program.always.is_empty() && program.rules.iter().all(|rule| rule.head.is_empty())
}

/// A group, laid out and written as bytes. Positions are words over the bits of the plan, cut to what shows, in the library's order.
pub struct Group {
    pub title: String,
    pub program: Program,
    pub layout: Layout,
    pub plan: Plan,
    /// Empty until it is listed.
    pub listing: Listing,
    pub origin: Origin,
    /// The unit whose list alone is too long, for which the group was worked as one unit.
    pub too_long: Option<String>,
    /// What was done that a planner should know, in words.
    pub notes: Vec<String>,
}

impl Group {
    /// Reads, lays out and lists a group.
    pub fn open(options: &Options) -> Result<Group, Fault> {
        let mut group = Group::prepare(options)?;
        group.list()?;
        Ok(group)
    }

    /// Reads and lays out a group, which may have more positions than a list takes.
    pub fn prepare(options: &Options) -> Result<Group, Fault> {
        let title = options.title();
        match sources::load(&options.paths, options.is_strict())? {
            Source::Sheets(sheets) => {
                let program = reader::read_sheets(&sheets, options.grounding, &options.turns)?;
                Group::of(title, program, Origin::Sheets(sheets), options)
            }
            Source::Aspif(text) => {
                Group::of(title, reader::read_aspif(STANDARD_INPUT, &text, &options.turns)?, Origin::Ground(text), options)
            }
            Source::Plan(path, bytes) => Group::of_bytes(title, &path, bytes, options),
        }
    }

    /// Lays a program out.
    pub fn of(title: String, program: Program, origin: Origin, options: &Options) -> Result<Group, Fault> {
        limits::check(&program)?;
        let layout = if options.one_unit { Layout::one_unit(&program) } else { Layout::of(&program, options.circles)? };
        limits::check_units(&layout)?;
        let mut notes = program.notes.clone();
        notes.extend(Some(NOTHING_DRIVEN.to_string()).filter(|_| drives_nothing(&program)));
        notes.extend(layout.joins.iter().cloned());
        notes.extend(layout.moved.iter().filter(|moved| moved.closes_circle).map(|moved| layout.move_text(&program, moved)));
        let notes = once(notes);
        let plan = Plan::of(&program, &layout)?;
        Ok(Group { title, program, layout, plan, listing: Listing::default(), origin, too_long: None, notes })
    }

    fn of_bytes(title: String, path: &Path, bytes: Vec<u8>, options: &Options) -> Result<Group, Fault> {
        if let Some(key) = options.turns.turn.first().or_else(|| options.turns.release.first()) {
            return Err(Fault::new(format!("{} is a plan as bytes, whose keys are set: {} cannot be turned or released", path.display(), key))
                .hint("compile the sheets anew with the key"));
        }
        let (program, plan, record, names) = file::read(path, bytes)?;
        let layout = bytes::layout_of(&record, &|unit| names.unit(unit));
        Ok(Group { title, program, layout, plan, listing: Listing::default(), origin: Origin::Bytes, too_long: None, notes: Vec::new() })
    }

    /// Lists the group. Where a unit's list is too long, the group is worked as one unit.
    pub fn list(&mut self) -> Result<(), Fault> {
        match library::list(&self.plan.bytes) {
            Ok(listing) => {
                self.listing = listing;
                Ok(())
            }
            Err(refusal) if matches!(self.origin, Origin::Bytes) => Err(self.refused(refusal)),
            Err(Refusal { number: 15, spot }) if spot < self.layout.units.len() && self.layout.units.len() > 1 => {
                let unit = &self.layout.units[spot].name;
                self.too_long = Some(unit.clone());
                self.notes.push(format!("unit {} alone has more than {} positions: the group was worked as one unit", unit, MAX_POSITIONS));
                self.layout = Layout::one_unit(&self.program);
                self.plan = Plan::of(&self.program, &self.layout)?;
                self.list()
            }
            Err(refusal) => Err(self.refused(refusal)),
        }
    }

    /// A refusal of the group's plan in words.
    pub fn refused(&self, refusal: Refusal) -> Fault {
        if !matches!(self.origin, Origin::Bytes) {
            return refused(&self.program, &self.plan, refusal);
        }
        let record = bytes::decode(&self.plan.bytes);
        Refused { path: &self.title, record: &record, program: &self.program, layout: &self.layout, plan: &self.plan }.fault(refusal)
    }

    /// The relays that show, in the order of bits.
    pub fn shown(&self) -> Vec<Atom> {
        let used = self.program.used_atoms();
        self.plan.atoms.iter().copied().filter(|atom| self.program.is_shown(*atom) && used.contains(atom)).collect()
    }

    /// The helpers that rules have, in the order of bits; a plan of bytes has a place for 64 atoms in any case.
    pub fn helpers(&self) -> Vec<Atom> {
        let used = self.program.used_atoms();
        self.plan.atoms.iter().copied().filter(|atom| self.program.atoms[*atom].is_helper && used.contains(atom)).collect()
    }

    /// Names of the facts outside the plan that show.
    pub fn shown_always(&self) -> Vec<&str> {
        self.program.always.iter().map(String::as_str).filter(|name| self.program.is_shown_name(name)).collect()
    }

    /// The rules that ask for a link, each once, with the relays that they look at.
    pub fn asked_by(&self, rules: &[(usize, Atom)]) -> Vec<(String, Vec<&str>)> {
        let mut by_rule: Vec<(String, Vec<&str>)> = Vec::new();
        for &(rule, atom) in rules {
            let (told, label) = (self.program.rules[rule].told(), self.program.label(atom));
            match by_rule.iter_mut().find(|(other, _)| *other == told) {
                Some((_, labels)) if labels.contains(&label) => {}
                Some((_, labels)) => labels.push(label),
                None => by_rule.push((told, vec![label])),
            }
        }
        by_rule
    }

    /// All notes, with the constraints that were moved, each once.
    pub fn all_notes(&self) -> Vec<String> {
        let moves = self.layout.moved.iter().filter(|moved| !moved.closes_circle).map(|moved| self.layout.move_text(&self.program, moved));
        once(self.notes.iter().cloned().chain(moves))
    }

    /// The relays of a position by label, or that all are dropped but those that are always up.
    pub fn told(&self, position: u64) -> String {
        let mut told = String::new();
        for atom in self.plan.up(position).into_iter().filter(|&atom| !self.program.atoms[atom].is_helper) {
            told += if told.is_empty() { "" } else { ", " };
            told += self.program.label(atom);
        }
        if told.is_empty() {
            return if self.shown_always().is_empty() { "(all dropped)" } else { "(no other)" }.to_string();
        }
        told
    }
}

/// Each note where it stands first.
fn once(notes: impl IntoIterator<Item = String>) -> Vec<String> {
    let mut seen = BTreeSet::new();
    notes.into_iter().filter(|note| seen.insert(note.clone())).collect()
}

/// What the library refuses though it was laid out: a list that is too long, or a fault of this tool, whose plan is kept.
fn refused(program: &Program, plan: &Plan, refusal: Refusal) -> Fault {
    if refusal.number == 15 {
        let cut = program.shows.is_some();
        let what = format!(
            "the group has more than {} settled positions{}",
            MAX_POSITIONS,
            if cut { ", or so many that differ in what shows" } else { "" }
        );
        let walk = "lucarne next GROUP --all goes through all of them";
        let otherwise = "for a list turn or release keys (--turn, --release), show fewer relays (#show), or split the group";
        return Fault::new(what).hint(format!("{}; {}", walk, otherwise));
    }
    let kept = beside::keep(&std::env::temp_dir(), "lucarne-refused-", ".plan", &plan.bytes);
    let kept = kept.map_or(String::new(), |path| format!("; the plan is kept as {}", path.display()));
    Fault::of_the_tool(format!("the library refuses the plan by {} at {}{}", refusal.number, refusal.spot, kept))
}
