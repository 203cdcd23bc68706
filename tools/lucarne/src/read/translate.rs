//! Ground rules over numbered atoms (aspif) to the rules of a plan by name: choices, sums and contact tables as a plan has them.

use crate::read::aspif::{Aspif, Body, Literal, RawRule};
use crate::fault::{Fault, Spot};
use crate::plan::limits::MAX_ATOMS;
use crate::plan::program::{Atom, Program, Rule, Table};
use crate::read::simplify::Loops;
use crate::read::sums::{self, Code, Network, MAX_INPUTS};
use crate::read::text::statements::{cut, Statement};
use crate::read::values::{Sum, Values};
use std::collections::BTreeMap;
use std::sync::Arc;

/// Where the rules of a statement stand: sheet, spot and text.
#[derive(Clone, Debug, Default)]
pub struct Origin {
    pub sheet: Option<usize>,
    pub spot: Option<Spot>,
    pub text: String,
    /// Whether it stands on a line that was not found.
    pub line_unknown: bool,
}

impl Origin {
    fn of(statement: &Statement) -> Origin {
        Origin { sheet: Some(statement.sheet), spot: Some(statement.spot().clone()), text: statement.text(), line_unknown: false }
    }
}

/// Where rules come from: statements of sheets, or lines of a ground program.
pub enum Origins<'a> {
    Statements(&'a [Statement]),
    Lines(&'a str),
}

/// Puts all rules into the program.
pub fn translate(program: &mut Program, aspif: &Aspif, origins: Origins) -> Result<(), Fault> {
    let tables = program.tables.iter().enumerate().map(|(number, table)| (table.name.clone(), number)).collect();
    let (names, always, homes, loops) = (&aspif.names, &aspif.always, homes(aspif), Loops::of(aspif));
    let (atoms, helpers, questions) = (BTreeMap::new(), BTreeMap::new(), BTreeMap::new());
    let mut translator = Translator { program, names, always, origins, tables, atoms, homes, loops, helpers, questions };
    let mut rules: Vec<&RawRule> = aspif.rules.iter().collect();
    rules.sort_by_key(|rule| rule.statement.unwrap_or(usize::MAX));
    rules.iter().for_each(|rule| translator.ask(rule));
    rules.into_iter().try_for_each(|rule| translator.rule(rule))?;
    aspif.shown.iter().try_for_each(|(name, condition)| translator.shown(name, condition))
}

/// The statement to which each nameless atom belongs: that of the first rule that has it.
fn homes(aspif: &Aspif) -> BTreeMap<Literal, usize> {
    let mut homes = BTreeMap::new();
    for rule in &aspif.rules {
        for atom in rule.atoms().into_iter().filter(|atom| !aspif.names.contains_key(atom)) {
            if let Some(statement) = rule.statement {
                homes.entry(atom).or_insert(statement);
            }
        }
    }
    homes
}

struct Translator<'a> {
    program: &'a mut Program,
    names: &'a BTreeMap<Literal, String>,
    always: &'a [String],
    origins: Origins<'a>,
    tables: BTreeMap<String, usize>,
    atoms: BTreeMap<Literal, Atom>,
    homes: BTreeMap<Literal, usize>,
    loops: Loops,
    /// Helpers by what drives them: sheet, inputs and the rows in which they are up.
    helpers: BTreeMap<(Option<usize>, Vec<Atom>, u64), Atom>,
    /// What is asked of each large sum that hangs on nothing that its rule drives, by sheet: such questions may share helpers.
    questions: BTreeMap<(Option<usize>, Vec<(Literal, i64)>), Vec<Values>>,
}

impl<'a> Translator<'a> {
    /// Whether a sum hangs on what its rule drives.
    fn is_circular(&self, sum: &Sum, heads: &[Literal]) -> bool {
        !heads.is_empty() && self.loops.hang_on(sum.parts.iter().map(|part| part.0.abs()), heads)
    }

    fn ask(&mut self, raw: &RawRule) {
        for sum in raw.body.sums.iter().filter(|sum| sum.parts.len() > MAX_INPUTS) {
            if !self.is_circular(sum, &raw.heads) {
                let asked = self.questions.entry((self.origin(raw).sheet, sum.key())).or_default();
                asked.extend(Some(sum.values.clone()).filter(|values| !asked.contains(values)));
            }
        }
    }

    fn rule(&mut self, raw: &RawRule) -> Result<(), Fault> {
        if raw.is_choice && raw.heads.is_empty() {
            return Ok(());
        }
        let origin = self.origin(raw);
        let mut rule =
            Rule { sheet: origin.sheet, spot: origin.spot, text: origin.text, line_unknown: origin.line_unknown, ..Rule::default() };
        if !self.body(raw, &mut rule)? {
            return Ok(());
        }
        if let Some(table) = raw.heads.iter().filter_map(|head| self.names.get(head)).find(|name| self.tables.contains_key(*name)) {
            let what = format!("{} is a contact table, and no rule can drive it", table);
            return Err(Fault::new(what).spot(rule.spot.as_ref()).text(rule.text).hint("give the relay another name than the table"));
        }
        let heads: Vec<Atom> = raw.heads.iter().map(|&head| self.atom(head)).collect();
        if raw.is_choice {
            self.program.choose(&heads, &rule);
        } else {
            self.program.rules.push(Rule { head: heads.into_iter().collect(), ..rule });
        }
        Ok(())
    }

    /// Where a rule comes from. One that names no statement was added by gringo, or its line is not known.
    fn origin(&self, raw: &RawRule) -> Origin {
        match (&self.origins, raw.statement.or_else(|| self.home(raw))) {
            (Origins::Statements(statements), Some(number)) => Origin::of(&statements[number]),
            (Origins::Statements(_), None) => Origin { text: self.written(raw), line_unknown: !self.is_opposite(raw), ..Origin::default() },
            (Origins::Lines(file), _) => {
                let spot = Spot { file: Arc::from(*file), line: raw.line, column: 1 };
                Origin { sheet: Some(0), spot: Some(spot), text: self.written(raw), line_unknown: false }
            }
        }
    }

    /// A nameless atom that is chosen, as a theory's, stands where a rule looks at it.
    fn home(&self, raw: &RawRule) -> Option<usize> {
        raw.heads.first().filter(|_| raw.is_choice).and_then(|head| self.homes.get(head)).copied()
    }

    /// `:- a, -a.`, which gringo adds for each relay that has an opposite; facts are left out of it.
    fn is_opposite(&self, raw: &RawRule) -> bool {
        let name = |literal: &Literal| self.names.get(literal).map_or("", String::as_str);
        let is_fact = |name: &str| self.always.iter().any(|fact| fact == name);
        let is_pair = |one: &str, other: &str| opposite(one) == other;
        raw.heads.is_empty()
            && raw.body.sums.is_empty()
            && match raw.body.literals.as_slice() {
                [] => self.always.iter().any(|fact| is_fact(&opposite(fact))),
                [one] => is_fact(&opposite(name(one))),
                [one, other] => is_pair(name(one), name(other)),
                _ => false,
            }
    }

    /// A rule as text by its names, for rules that no statement has.
    fn written(&self, raw: &RawRule) -> String {
        let name = |atom: Literal| self.names.get(&atom).cloned().unwrap_or_else(|| format!("x{}", atom));
        let sign = |literal: Literal| format!("{}{}", if literal < 0 { "not " } else { "" }, name(literal.abs()));
        let sums = raw.body.sums.iter().map(|sum| sum.told(&name));
        let heads: Vec<String> = raw.heads.iter().map(|&head| name(head)).collect();
        let heads = if raw.is_choice { format!("{{{}}}", heads.join("; ")) } else { heads.join(" ; ") };
        let body: Vec<String> = raw.body.literals.iter().map(|&literal| sign(literal)).chain(sums).collect();
        let arrow = if body.is_empty() && !raw.heads.is_empty() { "" } else { " :- " };
        format!("{}{}{}.", heads, arrow, body.join(", ")).trim_start().to_string()
    }

    /// The atom of the program; a nameless one becomes a helper.
    fn atom(&mut self, number: Literal) -> Atom {
        if let Some(&atom) = self.atoms.get(&number) {
            return atom;
        }
        let atom = match self.names.get(&number) {
            Some(name) => self.program.atom(&name.clone()),
            None => {
                let stem = self.stem(number);
                self.program.helper(&stem)
            }
        };
        self.atoms.insert(number, atom);
        atom
    }

    /// A nameless atom is called by the line of its statement, or by its number in a ground program.
    fn stem(&self, number: Literal) -> String {
        let statement = match &self.origins {
            Origins::Statements(statements) => self.homes.get(&number).map(|&home| &statements[home]),
            Origins::Lines(_) => None,
        };
        statement.map_or(format!("x{}", number), |statement| format!("line{}", statement.spot().line))
    }

    /// Fills in the body; false if it can never hold, so that the rule is left out.
    fn body(&mut self, raw: &RawRule, rule: &mut Rule) -> Result<bool, Fault> {
        let Body { literals, sums } = &raw.body;
        for &literal in literals {
            let table = self.names.get(&literal.abs()).and_then(|name| self.tables.get(name)).copied();
            match table {
                Some(table) => drop(rule.uses.insert((table, literal > 0))),
                None if literal > 0 => drop(rule.pos.insert(self.atom(literal))),
                None => drop(rule.neg.insert(self.atom(-literal))),
            }
        }
        for sum in sums {
            if sum.is_never() {
                return Ok(false);
            }
            self.sum(sum, &raw.heads, rule)?;
        }
        let is_idle = rule.uses.iter().any(|&(table, wanted)| rule.uses.contains(&(table, !wanted)));
        Ok(!is_idle && rule.pos.is_disjoint(&rule.neg))
    }

    /// Puts a sum into the body: as literals where one setting of its relays is wanted, as a contact table, or as several with helpers.
    fn sum(&mut self, sum: &Sum, heads: &[Literal], rule: &mut Rule) -> Result<(), Fault> {
        let is_circular = self.is_circular(sum, heads);
        let parts: Vec<sums::Part> = sum.parts.iter().map(|&(literal, weight)| self.part(literal, weight, heads, rule)).collect();
        let relays = sums::relays(&parts);
        if relays.len() > MAX_ATOMS {
            let what = format!("this sum looks at {} relays; a plan holds {}", relays.len(), MAX_ATOMS);
            return Err(Fault::new(what).spot(rule.spot.as_ref()).text(cut(&rule.text, 100)).hint("split the group, or narrow the range"));
        }
        if relays.len() > MAX_INPUTS && is_circular {
            return self.circular_sum(sum, &relays, rule);
        }
        let key = (rule.sheet, sum.key());
        let questions = self.questions.get(&key).filter(|_| relays.len() > MAX_INPUTS).cloned().unwrap_or_default();
        let alone = sums::network(&relays, &[sum.values.clone()], Code::Binary).ok_or_else(|| too_large(relays.len(), rule))?;
        let cost = |values: &Values| sums::network(&relays, &[values.clone()], Code::Binary).map_or(0, |network| network.cost());
        let joint = sums::network(&relays, &questions, Code::Binary).filter(|joint| joint.cost() <= questions.iter().map(cost).sum());
        let number = questions.iter().position(|values| *values == sum.values).filter(|_| questions.len() > 1);
        let (network, answer) = match (joint, number) {
            (Some(joint), Some(number)) => (joint, number),
            _ => (alone, 0),
        };
        let inputs = self.wires(&network, &relays, rule);
        self.answer(&inputs, network.answers[answer], true, rule);
        Ok(())
    }

    /// A sum over what its rule drives: from one value on and below another, each by helpers that only rise.
    fn circular_sum(&mut self, sum: &Sum, relays: &[(Atom, i64, i64)], rule: &mut Rule) -> Result<(), Fault> {
        let end = sum.end();
        for &(low, high) in &sum.values {
            for (bound, wanted) in [(low, true), (high, false)].into_iter().filter(|(bound, _)| *bound > 0 && *bound < end) {
                let network = sums::network(relays, &[vec![(bound, end)]], Code::Rising).ok_or_else(|| too_large(relays.len(), rule))?;
                let inputs = self.wires(&network, relays, rule);
                self.answer(&inputs, network.answers[0], wanted, rule);
            }
        }
        Ok(())
    }

    /// The atoms of the wires that are left, with helpers for all steps.
    fn wires(&mut self, network: &Network, relays: &[(Atom, i64, i64)], rule: &Rule) -> Vec<Atom> {
        let mut atoms: Vec<Atom> = relays.iter().map(|relay| relay.0).collect();
        for (inputs, rows) in &network.steps {
            let inputs = inputs.iter().map(|&wire| atoms[wire]).collect();
            atoms.push(self.block(inputs, *rows, rule));
        }
        network.inputs.iter().map(|&wire| atoms[wire]).collect()
    }

    /// A helper that is up in these rows; equal ones of a sheet are one.
    fn block(&mut self, inputs: Vec<Atom>, rows: u64, rule: &Rule) -> Atom {
        let key = (rule.sheet, inputs, rows);
        if let Some(&helper) = self.helpers.get(&key) {
            return helper;
        }
        let helper = self.program.helper(&rule.spot.as_ref().map_or("sum".to_string(), |spot| format!("sum{}", spot.line)));
        let mut driver = Rule { head: Some(helper).into_iter().collect(), ..origin_of(rule) };
        self.answer(&key.1, rows, true, &mut driver);
        self.program.rules.push(driver);
        self.helpers.insert(key, helper);
        helper
    }

    /// Asks in a body for one of these rows: by literals where there is one row, else by a contact table.
    fn answer(&mut self, inputs: &[Atom], rows: u64, wanted: bool, rule: &mut Rule) {
        if rows.count_ones() == 1 && wanted {
            let row = rows.trailing_zeros();
            for (k, &input) in inputs.iter().enumerate() {
                let side = if row >> k & 1 == 1 { &mut rule.pos } else { &mut rule.neg };
                side.insert(input);
            }
            return;
        }
        let table = self.table(inputs.to_vec(), rows);
        rule.uses.insert((table, wanted));
    }

    /// One relay of a sum. A contact table, or `not x` where x hangs on what the rule drives, gets a helper: a table is asked anew below a
    /// position, and clingo's `not` is not.
    fn part(&mut self, literal: Literal, weight: i64, heads: &[Literal], rule: &Rule) -> sums::Part {
        let table = self.names.get(&literal.abs()).and_then(|name| self.tables.get(name)).copied();
        if let Some(table) = table {
            let Table { inputs, rows, name, .. } = self.program.tables[table].clone();
            let key = (rule.sheet, inputs, if literal > 0 { rows } else { !rows });
            let same = self.helpers.get(&key).copied();
            let helper = same.unwrap_or_else(|| {
                let helper = self.program.helper(&name);
                let uses = Some((table, literal > 0)).into_iter().collect();
                self.program.rules.push(Rule { head: Some(helper).into_iter().collect(), uses, ..origin_of(rule) });
                helper
            });
            self.helpers.insert(key, helper);
            return (helper, true, weight);
        }
        let atom = self.atom(literal.abs());
        if literal > 0 || !self.loops.hang_on(Some(-literal).into_iter(), heads) {
            return (atom, literal > 0, weight);
        }
        let helper = self.program.helper(&format!("not_{}", self.program.name(atom)));
        self.program.rules.push(Rule {
            head: Some(helper).into_iter().collect(),
            neg: Some(atom).into_iter().collect(),
            ..origin_of(rule)
        });
        (helper, true, weight)
    }

    /// A table for a sum; equal ones are one.
    fn table(&mut self, inputs: Vec<Atom>, rows: u64) -> usize {
        let same = |table: &Table| !table.is_written && table.inputs == inputs && table.rows == rows;
        if let Some(number) = self.program.tables.iter().position(same) {
            return number;
        }
        let number = self.program.tables.len();
        self.program.tables.push(Table { name: format!("sum{}", number), spot: None, inputs, rows, is_written: false });
        number
    }

    /// A second name of an atom, and a term that is shown under a condition, is a relay of its own.
    fn shown(&mut self, name: &str, condition: &[Literal]) -> Result<(), Fault> {
        let body = Body { literals: condition.to_vec(), sums: Vec::new() };
        let raw = RawRule { is_choice: false, heads: Vec::new(), body, is_bound: false, statement: None, line: 0 };
        let head = self.program.atom(name);
        let mut rule = Rule { head: Some(head).into_iter().collect(), ..Rule::default() };
        if self.body(&raw, &mut rule)? {
            rule.text = self.program.written(&rule);
            self.program.rules.push(rule);
        }
        Ok(())
    }
}

/// The name of the relay that is never up together with this one.
fn opposite(name: &str) -> String {
    name.strip_prefix('-').map_or_else(|| format!("-{}", name), str::to_string)
}

/// A sum whose relays cannot be told apart by few enough helpers.
fn too_large(relays: usize, rule: &Rule) -> Fault {
    Fault::new(format!("this sum over {} relays has too many values for contact tables of {} inputs", relays, MAX_INPUTS))
        .spot(rule.spot.as_ref())
        .text(cut(&rule.text, 100))
        .hint("split it: a helper for the sum over each six relays")
}

/// An empty rule that stands where this one does.
fn origin_of(rule: &Rule) -> Rule {
    let (spot, text) = (rule.spot.clone(), rule.text.clone());
    Rule { sheet: rule.sheet, spot, text, line_unknown: rule.line_unknown, ..Rule::default() }
}
