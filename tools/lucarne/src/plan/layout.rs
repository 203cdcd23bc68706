//! Units and links worked out from the rules: the least edges that the graph conditions ask for.
//!
//! Each rule is in one unit, so every edge that a headed rule asks for is forced. Sheets on a circle are joined. A constraint never forces a
//! circle, since in a graph without one some unit has nobody above it; it goes where it adds the fewest edges.

use crate::plan::circles;
use crate::fault::Fault;
use crate::plan::program::{Atom, Program};
use std::collections::{BTreeMap, BTreeSet};

/// For each edge the rules that ask for it, with the relay that they look at.
pub type Edges = BTreeMap<(usize, usize), Vec<(usize, Atom)>>;

#[derive(Clone, Debug)]
pub struct Unit {
    /// The sheet's name, or the names of the sheets that were joined.
    pub name: String,
    pub rules: Vec<usize>,
    pub is_joined: bool,
}

/// A constraint that is worked in another unit than its sheet's.
#[derive(Clone, Debug)]
pub struct Moved {
    pub rule: usize,
    pub unit: usize,
    /// Whether its own unit would have closed a circle; otherwise another one needs fewer edges.
    pub closes_circle: bool,
}

#[derive(Clone, Debug, Default)]
pub struct Layout {
    pub units: Vec<Unit>,
    pub edges: Edges,
    /// Joined sheets, with the rules that make the circle, in words.
    pub joins: Vec<String>,
    pub moved: Vec<Moved>,
}

#[derive(Clone, Copy, Debug, PartialEq, Eq)]
pub enum Circles {
    Join,
    Refuse,
}

impl Layout {
    /// The units of all sheets with the least edges.
    pub fn of(program: &Program, circles: Circles) -> Result<Layout, Fault> {
        let mut builder = Builder::new(program, (0..program.sheets.len()).collect());
        builder.join_circles(circles)?;
        builder.place_constraints();
        Ok(builder.layout())
    }

    /// All rules in one unit.
    pub fn one_unit(program: &Program) -> Layout {
        let mut builder = Builder::new(program, vec![0; program.sheets.len()]);
        builder.place_constraints();
        builder.layout()
    }

    /// Constraints in other units than their sheets', in words.
    pub fn move_text(&self, program: &Program, moved: &Moved) -> String {
        let because = if moved.closes_circle { "since in its own it would close a circle" } else { "which needs the fewest links for it" };
        format!("constraint {} is worked in unit {}, {}", program.rules[moved.rule].place(), self.units[moved.unit].name, because)
    }
}

/// Sheets are put into groups, which become units; a group has the number of its lowest sheet.
struct Builder<'a> {
    program: &'a Program,
    drivers: BTreeMap<Atom, Vec<usize>>,
    group: Vec<usize>,
    place: BTreeMap<usize, usize>,
    edges: Edges,
    joins: Vec<String>,
    moved: Vec<Moved>,
}

impl<'a> Builder<'a> {
    fn new(program: &'a Program, group: Vec<usize>) -> Builder<'a> {
        let mut drivers: BTreeMap<Atom, Vec<usize>> = BTreeMap::new();
        for (number, rule) in program.rules.iter().enumerate() {
            rule.head.iter().for_each(|&atom| drivers.entry(atom).or_default().push(number));
        }
        let mut builder =
            Builder { program, drivers, group, place: BTreeMap::new(), edges: Edges::new(), joins: Vec::new(), moved: Vec::new() };
        builder.place_headed();
        builder
    }

    /// Rules with a head are worked on their own sheet, and their edges are forced.
    fn place_headed(&mut self) {
        let headed: Vec<usize> = (0..self.program.rules.len()).filter(|&rule| !self.program.rules[rule].head.is_empty()).collect();
        self.place = headed.iter().map(|&rule| (rule, self.own(rule))).collect();
        self.edges.clear();
        for rule in headed {
            self.add_edges(rule);
        }
    }

    fn own(&self, rule: usize) -> usize {
        self.group.get(self.program.rules[rule].sheet.unwrap_or(0)).copied().unwrap_or(0)
    }

    /// The rules that drive what a rule looks at, with the relay.
    fn needs(&self, rule: usize) -> Vec<(usize, Atom)> {
        let atoms = self.program.looks_at(&self.program.rules[rule]);
        let drivers = atoms.iter().flat_map(|&atom| self.drivers.get(&atom).into_iter().flatten().map(move |&driver| (driver, atom)));
        drivers.filter(|&(driver, _)| driver != rule).collect()
    }

    /// The groups that a rule must see, with a relay for each.
    fn wants(&self, rule: usize) -> BTreeMap<usize, Atom> {
        let mut wants = BTreeMap::new();
        for (driver, atom) in self.needs(rule) {
            wants.entry(self.place[&driver]).or_insert(atom);
        }
        wants
    }

    fn add_edges(&mut self, rule: usize) {
        let from = self.place[&rule];
        for (to, atom) in self.wants(rule) {
            if from != to {
                self.edges.entry((from, to)).or_default().push((rule, atom));
            }
        }
    }

    fn name(&self, group: usize) -> String {
        let sheets = self.program.sheets.iter().enumerate().filter(|&(sheet, _)| self.group[sheet] == group);
        sheets.map(|(_, name)| name.as_str()).collect::<Vec<_>>().join("+")
    }

    /// Joins the sheets of a shortest circle until there is none.
    fn join_circles(&mut self, circles: Circles) -> Result<(), Fault> {
        while let Some(circle) = circles::shortest(self.edges.keys().copied()) {
            let told = self.circle_text(&circle);
            let mut names: Vec<String> = circle.iter().map(|&group| self.name(group)).collect();
            names.sort();
            if circles == Circles::Refuse {
                let hint = "break the circle, or leave out --strict: the sheets are then worked as one unit, and the list is the same";
                return Err(
                    Fault::new(format!("the sheets {} depend on each other in a circle:\n{}", names.join(" and "), told)).hint(hint)
                );
            }
            self.joins.push(format!("joined {} into one unit, since they depend on each other:\n{}", names.join(" and "), told));
            let lowest = circle.iter().copied().min().unwrap_or(0);
            self.group.iter_mut().filter(|group| circle.contains(group)).for_each(|group| *group = lowest);
            self.place_headed();
        }
        Ok(())
    }

    /// For each link of a circle a rule that asks for it. Two sheets that drive one relay are such a circle.
    fn circle_text(&self, circle: &[usize]) -> String {
        if let Some((atom, rules)) = self.driven_on_both(circle) {
            let told = rules.iter().map(|&rule| format!("\n        {}", self.program.rules[rule].told()));
            return format!("    relay {} is driven on both:{}", self.program.label(atom), told.collect::<String>());
        }
        let links = circle.iter().enumerate().map(|(place, &from)| (from, circle[(place + 1) % circle.len()]));
        let lines = links.filter_map(|(from, to)| {
            let (rule, atom) = *self.edges.get(&(from, to))?.first()?;
            let name = self.program.label(atom);
            Some(format!("    {} looks at {} of {}   ({})", self.name(from), name, self.name(to), self.program.rules[rule].told()))
        });
        lines.collect::<Vec<_>>().join("\n")
    }

    /// A relay that both groups of a circle of two drive, with a rule of each.
    fn driven_on_both(&self, circle: &[usize]) -> Option<(Atom, Vec<usize>)> {
        let rule_in = |rules: &[usize], group: usize| rules.iter().copied().find(|rule| self.place[rule] == group);
        let shared = |rules: &[usize]| circle.iter().map(|&group| rule_in(rules, group)).collect::<Option<Vec<usize>>>();
        self.drivers.iter().filter(|_| circle.len() == 2).find_map(|(&atom, rules)| Some((atom, shared(rules)?)))
    }

    /// Constraints: fewest new edges, then the lowest unit, where they cut earliest, then their own sheet.
    fn place_constraints(&mut self) {
        for rule in 0..self.program.rules.len() {
            if self.program.rules[rule].head.is_empty() {
                let wants = self.wants(rule);
                let place = self.best_place(&wants, self.own(rule));
                let has_sheet = self.program.rules[rule].sheet.is_some();
                if has_sheet && place != self.own(rule) {
                    self.moved.push(Moved { rule, unit: place, closes_circle: self.closes_circle(self.own(rule), &wants) });
                }
                self.place.insert(rule, place);
                self.add_edges(rule);
            }
        }
    }

    fn best_place(&self, wants: &BTreeMap<usize, Atom>, own: usize) -> usize {
        let groups: BTreeSet<usize> = self.group.iter().copied().collect();
        let levels = self.levels();
        let new_edges = |group: usize| wants.keys().filter(|&&to| to != group && !self.edges.contains_key(&(group, to))).count();
        let fitting = groups.into_iter().filter(|&group| !self.closes_circle(group, wants));
        fitting.min_by_key(|&group| (new_edges(group), levels[&group], group != own, group)).unwrap_or(own)
    }

    /// Whether one of the wanted groups depends on this one, in a graph that has no circle yet.
    fn closes_circle(&self, group: usize, wants: &BTreeMap<usize, Atom>) -> bool {
        let mut open: Vec<usize> = wants.keys().copied().filter(|&to| to != group).collect();
        let mut seen = BTreeSet::new();
        while let Some(next) = open.pop() {
            if next == group {
                return true;
            }
            if seen.insert(next) {
                open.extend(self.edges.keys().filter(|(from, _)| *from == next).map(|&(_, to)| to));
            }
        }
        false
    }

    /// How many groups stand below each in the longest way down.
    fn levels(&self) -> BTreeMap<usize, usize> {
        let mut levels: BTreeMap<usize, usize> = self.group.iter().map(|&group| (group, 0)).collect();
        let mut changed = true;
        while changed {
            changed = false;
            for (from, to) in self.edges.keys() {
                if levels[from] <= levels[to] {
                    levels.insert(*from, levels[to] + 1);
                    changed = true;
                }
            }
        }
        levels
    }

    /// Units are the groups that have rules, in the order of their sheets.
    fn layout(self) -> Layout {
        let used: BTreeSet<usize> = self.place.values().copied().collect();
        let number: BTreeMap<usize, usize> = used.iter().enumerate().map(|(number, &group)| (group, number)).collect();
        let units = used.iter().map(|&group| Unit {
            name: self.name(group),
            rules: self.place.iter().filter(|(_, place)| **place == group).map(|(&rule, _)| rule).collect(),
            is_joined: self.group.iter().filter(|&&other| other == group).count() > 1,
        });
        let units = units.collect();
        let edges = self.edges.into_iter().map(|((from, to), rules)| ((number[&from], number[&to]), rules)).collect();
        let moved = self.moved.into_iter().map(|moved| Moved { unit: number[&moved.unit], ..moved }).collect();
        Layout { units, edges, joins: self.joins, moved }
    }
}
