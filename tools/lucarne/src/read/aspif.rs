//! The ground format of gringo and clingo (aspif): lines of numbers to rules over numbered atoms, with the names of those that have one.

use crate::fault::{Fault, Spot};
use crate::plan::program::Setting;
use crate::read::values::Sum;
use std::collections::{BTreeMap, BTreeSet, HashSet};
use std::sync::Arc;

/// An atom's number, negative where `not` stands before it.
pub type Literal = i64;

/// Literals and sums that must all hold.
#[derive(Clone, Debug, Default, PartialEq, Eq)]
pub struct Body {
    pub literals: Vec<Literal>,
    pub sums: Vec<Sum>,
}

#[derive(Clone, Debug)]
pub struct RawRule {
    pub is_choice: bool,
    pub heads: Vec<Literal>,
    pub body: Body,
    /// Whether it says that a sum is not as a head wants it.
    pub is_bound: bool,
    /// The statement that the rule comes from, where that is known.
    pub statement: Option<usize>,
    /// The line of the format, from 1.
    pub line: usize,
}

impl RawRule {
    pub fn is_fact(&self) -> bool {
        !self.is_choice && self.heads.len() == 1 && self.body.is_empty()
    }

    /// The atoms of head and body.
    pub fn atoms(&self) -> BTreeSet<Literal> {
        let summed = self.body.sums.iter().flat_map(|sum| sum.parts.iter().map(|(literal, _)| literal));
        self.heads.iter().chain(&self.body.literals).chain(summed).map(|literal| literal.abs()).collect()
    }
}

#[derive(Clone, Debug, Default)]
pub struct Aspif {
    pub rules: Vec<RawRule>,
    pub names: BTreeMap<Literal, String>,
    /// What is shown where literals hold: further names of an atom, and terms under conditions.
    pub shown: Vec<(String, Vec<Literal>)>,
    pub always: Vec<String>,
    pub externals: Vec<(Literal, Setting)>,
    /// Arrows between places, each with the literals under which it stands: they must have no circle.
    edges: Vec<(Literal, Literal, Vec<Literal>, usize)>,
    theory: BTreeSet<Literal>,
    /// Contact tables, which stand as externals here, each with its inputs.
    pub tables: Vec<(Literal, Vec<Literal>)>,
    /// What is passed over, since the list does not hang on it.
    pub notes: Vec<String>,
    /// All names of atoms, to find one that stands a second time.
    named: HashSet<String>,
}

impl Aspif {
    /// Whether nothing is said at all, as where gringo stopped before it wrote a rule.
    pub fn is_empty(&self) -> bool {
        self.rules.is_empty() && self.externals.is_empty() && self.names.is_empty() && self.always.is_empty() && self.shown.is_empty()
    }

    fn pass_over(&mut self, what: &str, why: &str) {
        let note = format!("{}: passed over: {}", what, why);
        if !self.notes.contains(&note) {
            self.notes.push(note);
        }
    }

    /// A name that is shown under several conditions is that of no atom: it is up where one of them holds.
    fn one_name_each(&mut self) {
        let shared: HashSet<String> = self.shown.iter().map(|(name, _)| name.clone()).collect();
        let atoms: Vec<Literal> = self.names.iter().filter(|(_, name)| shared.contains(*name)).map(|(&atom, _)| atom).collect();
        for atom in atoms {
            self.shown.extend(self.names.remove(&atom).map(|name| (name, vec![atom])));
        }
        let always: HashSet<&String> = self.always.iter().collect();
        self.shown.retain(|(name, _)| !always.contains(name));
    }

    /// A theory atom that nothing drives may hold or not, as for clingo, where no program beside it says what the theory means.
    fn free_theory_atoms(&mut self) {
        let driven: BTreeSet<Literal> = self.rules.iter().flat_map(|rule| rule.heads.iter().copied()).collect();
        let in_rules = self.rules.iter().flat_map(RawRule::atoms);
        let looked_at: BTreeSet<Literal> = in_rules.chain(self.shown.iter().flat_map(|(_, condition)| condition.iter().map(|literal| literal.abs()))).collect();
        let free: Vec<Literal> = self.theory.iter().copied().filter(|atom| looked_at.contains(atom) && !driven.contains(atom)).collect();
        if !free.is_empty() {
            self.notes.push("theory atoms: each may hold or not, as for clingo alone: what the theory says must stand in rules".to_string());
        }
        let choice = |atom: Literal| RawRule { is_choice: true, heads: vec![atom], body: Body::default(), is_bound: false, statement: None, line: 0 };
        self.rules.extend(free.into_iter().map(choice));
    }

    /// A constraint for each circle of edges: their conditions do not all hold.
    fn forbid_circles(&mut self) -> Result<(), Fault> {
        let edges = std::mem::take(&mut self.edges);
        let mut paths: Vec<Vec<usize>> = (0..edges.len()).map(|edge| vec![edge]).collect();
        while let Some(path) = paths.pop() {
            let (first, last) = (&edges[path[0]], &edges[path[path.len() - 1]]);
            if last.1 == first.0 {
                let mut literals: Vec<Literal> = path.iter().flat_map(|&edge| edges[edge].2.iter().copied()).collect();
                literals.sort_unstable();
                literals.dedup();
                let body = Body { literals, sums: Vec::new() };
                self.rules.push(RawRule { is_choice: false, heads: Vec::new(), body, is_bound: false, statement: None, line: first.3 });
                continue;
            }
            // Each circle is gone from its lowest place on, and goes through a place once.
            let is_next = |edge: &usize| {
                let (from, to) = (edges[*edge].0, edges[*edge].1);
                from == last.1 && (to == first.0 || to > first.0 && path.iter().all(|&before| edges[before].1 != to))
            };
            let longer = (0..edges.len()).filter(is_next).filter(|_| last.1 > first.0);
            paths.extend(longer.map(|edge| path.iter().copied().chain(Some(edge)).collect()));
            if self.rules.len() + paths.len() > MOST_CIRCLES {
                return Err(Fault::new(format!("the edges (#edge) have more than {} circles", MOST_CIRCLES))
                    .hint("a plan holds 64 rules, and each circle asks for one"));
            }
        }
        Ok(())
    }
}

/// Why a statement that clingo reads changes nothing in the list.
pub const PROJECTION: &str = "clingo heeds it with --project alone; what shows is named by #show";
pub const HEURISTICS: &str = "the list does not depend on the search";
/// So many circles of edges are looked for, the rules among them.
const MOST_CIRCLES: usize = 4096;

/// Whether a text is in this format.
pub fn is_aspif(text: &str) -> bool {
    text.starts_with("asp ")
}

pub fn read(file: &str, text: &str) -> Result<Aspif, Fault> {
    let mut aspif = Aspif::default();
    let file: Arc<str> = Arc::from(file);
    let mut ended = false;
    check_version(text.lines().next().unwrap_or_default(), &file)?;
    for (place, line) in text.lines().enumerate().skip(1) {
        let spot = Spot { file: file.clone(), line: place + 1, column: 1 };
        if ended && !line.is_empty() {
            return Err(Fault::at(&spot, "here a second step begins")
                .hint("a plan has one step: ground without #program and without incremental mode"));
        }
        ended = line == "0";
        if !ended {
            statement(&mut aspif, line, &spot)?;
        }
    }
    if !ended {
        let spot = Spot { file, line: text.lines().count(), column: 1 };
        return Err(Fault::at(&spot, "the ground program is cut short: its last line is not 0").hint("did gringo stop with an error?"));
    }
    aspif.one_name_each();
    aspif.forbid_circles()?;
    aspif.free_theory_atoms();
    Ok(aspif)
}

/// The first line: `asp 1 0 REVISION`.
fn check_version(line: &str, file: &Arc<str>) -> Result<(), Fault> {
    let words: Vec<&str> = line.split_ascii_whitespace().collect();
    if matches!(words.as_slice(), ["asp", "1", "0", revision] if revision.parse::<u32>().is_ok()) {
        return Ok(());
    }
    let spot = Spot { file: file.clone(), line: 1, column: 1 };
    Err(Fault::at(&spot, "this form of ground programs is not known").text(line).hint("its first line is asp 1 0 0, as gringo 5 writes it"))
}

/// The numbers of a line, taken one after the other.
struct Numbers<'a> {
    words: std::str::SplitAsciiWhitespace<'a>,
    spot: &'a Spot,
    line: &'a str,
}

impl<'a> Numbers<'a> {
    fn next(&mut self) -> Result<i64, Fault> {
        // The format's numbers have 32 bits; so no sum of weights can pass 64.
        self.words.next().and_then(|word| word.parse::<i32>().ok()).map(i64::from).ok_or_else(|| self.wrong())
    }

    fn flag(&mut self) -> Result<bool, Fault> {
        match self.next()? {
            0 => Ok(false),
            1 => Ok(true),
            _ => Err(self.wrong()),
        }
    }

    fn count(&mut self) -> Result<usize, Fault> {
        let number = self.next()?;
        // No count is above the line's length: a broken one must not ask for memory.
        usize::try_from(number).ok().filter(|&number| number <= self.line.len()).ok_or_else(|| self.wrong())
    }

    fn many(&mut self) -> Result<Vec<i64>, Fault> {
        let count = self.count()?;
        (0..count).map(|_| self.next()).collect()
    }

    /// Nothing is left of the line.
    fn end(&mut self) -> Result<(), Fault> {
        self.words.next().map_or(Ok(()), |_| Err(self.wrong()))
    }

    fn wrong(&self) -> Fault {
        Fault::at(self.spot, "this line of the ground program cannot be read")
            .text(self.line)
            .hint("write it by: gringo --output=intermediate")
    }
}

fn statement(aspif: &mut Aspif, line: &str, spot: &Spot) -> Result<(), Fault> {
    let mut numbers = Numbers { words: line.split_ascii_whitespace(), spot, line };
    let kind = numbers.next()?;
    let refused = |what: &str, hint: &str| Err(Fault::at(spot, format!("{} no part of a plan", what)).text(line).hint(hint));
    match kind {
        1 => aspif.rules.push(rule(&mut numbers)?),
        4 => output(aspif, line, spot)?,
        5 => aspif.externals.extend(external(&mut numbers)?),
        10 => {}
        2 => return refused("optimisation is", "list all positions and sort them: every settled position is wanted, not the best one"),
        3 => aspif.pass_over("projection", PROJECTION),
        6 => return refused("assumptions are", "write them as constraints"),
        7 => aspif.pass_over("heuristics", HEURISTICS),
        8 => aspif.edges.push(edge(&mut numbers)?),
        9 => aspif.theory.extend(theory_atom(&mut numbers)?),
        _ => return Err(numbers.wrong()),
    }
    Ok(())
}

fn rule(numbers: &mut Numbers) -> Result<RawRule, Fault> {
    let is_choice = numbers.flag()?;
    let heads = numbers.many()?;
    let body = if numbers.flag()? { sum(numbers)? } else { Body { literals: numbers.many()?, sums: Vec::new() } };
    let is_wrong = heads.iter().any(|&head| head <= 0) || body.literals.contains(&0);
    if is_wrong {
        return Err(numbers.wrong());
    }
    numbers.end()?;
    Ok(RawRule { is_choice, heads, body, is_bound: false, statement: None, line: numbers.spot.line })
}

fn sum(numbers: &mut Numbers) -> Result<Body, Fault> {
    let bound = numbers.next()?;
    let count = numbers.count()?;
    let parts = (0..count).map(|_| Ok((numbers.next()?, numbers.next()?))).collect::<Result<Vec<_>, Fault>>()?;
    if parts.iter().any(|&(literal, weight)| literal == 0 || weight < 0) {
        return Err(numbers.wrong());
    }
    Ok(Body { literals: Vec::new(), sums: vec![Sum::at_least(bound, &parts)] })
}

/// `4 LENGTH NAME COUNT CONDITION..`: the name has so many bytes, and may have spaces.
fn output(aspif: &mut Aspif, line: &str, spot: &Spot) -> Result<(), Fault> {
    let mut numbers = Numbers { words: line.split_ascii_whitespace(), spot, line };
    numbers.next()?;
    let length = numbers.count()?;
    let start = line.match_indices(' ').nth(1).map_or(line.len(), |(place, _)| place + 1);
    let name = line.get(start..start + length).ok_or_else(|| numbers.wrong())?.to_string();
    let behind = line.get(start + length..).filter(|behind| behind.starts_with(' ')).ok_or_else(|| numbers.wrong())?;
    let mut rest = Numbers { words: behind.split_ascii_whitespace(), spot, line };
    let condition = rest.many()?;
    rest.end()?;
    let is_new = aspif.named.insert(name.clone());
    match condition.as_slice() {
        [] => aspif.always.push(name),
        [atom] if *atom > 0 && is_new && !aspif.names.contains_key(atom) => drop(aspif.names.insert(*atom, name)),
        _ => aspif.shown.push((name, condition)),
    }
    Ok(())
}

/// The atom of `9 5 ATOM ..` or `9 6 ATOM ..`; a directive has none. The other lines say what is written in it.
fn theory_atom(numbers: &mut Numbers) -> Result<Option<Literal>, Fault> {
    match numbers.next()? {
        0..=2 | 4 => Ok(None),
        5 | 6 => Ok(Some(numbers.next()?).filter(|&atom| atom > 0)),
        _ => Err(numbers.wrong()),
    }
}

fn edge(numbers: &mut Numbers) -> Result<(Literal, Literal, Vec<Literal>, usize), Fault> {
    let (from, to, condition) = (numbers.next()?, numbers.next()?, numbers.many()?);
    if condition.contains(&0) {
        return Err(numbers.wrong());
    }
    numbers.end()?;
    Ok((from, to, condition, numbers.spot.line))
}

/// A key; one that is released is none any more.
fn external(numbers: &mut Numbers) -> Result<Option<(Literal, Setting)>, Fault> {
    let atom = numbers.next()?;
    let setting = match numbers.next()? {
        0 => Some(Setting::Free),
        1 => Some(Setting::Turned),
        2 => Some(Setting::Released),
        3 => None,
        _ => return Err(numbers.wrong()),
    };
    if atom <= 0 {
        return Err(numbers.wrong());
    }
    numbers.end()?;
    Ok(setting.map(|setting| (atom, setting)))
}
