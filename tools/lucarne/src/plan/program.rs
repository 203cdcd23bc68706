//! The rules of a group by name, as both readers hand them over: relays, helpers, rules, contact tables and keys.

use crate::fault::Spot;
use std::collections::{BTreeMap, BTreeSet, HashMap};

/// The number of a relay or helper in `Program::atoms`. It is not yet a bit of a plan: see `bytes::Plan`.
pub type Atom = usize;

/// A relay by its name on the sheets, or a helper that the translation needs; helpers are never shown.
#[derive(Clone, Debug)]
pub struct Named {
    pub name: String,
    pub is_helper: bool,
}

/// A rule with its sheet, its place and its own text there. The last two are absent where the tool added it.
#[derive(Clone, Debug, Default)]
pub struct Rule {
    pub sheet: Option<usize>,
    pub spot: Option<Spot>,
    pub text: String,
    /// Whether it stands on a line that was not found: gringo does not tell.
    pub line_unknown: bool,
    pub head: BTreeSet<Atom>,
    pub pos: BTreeSet<Atom>,
    pub neg: BTreeSet<Atom>,
    /// Contact tables in the body, each with the answer that is wanted.
    pub uses: BTreeSet<(usize, bool)>,
    /// Its number in a plan that came as bytes, where it has no other place.
    pub number: Option<usize>,
}

impl Rule {
    /// FILE:LINE of the rule.
    pub fn place(&self) -> String {
        match (&self.spot, self.number) {
            (Some(spot), _) => spot.line(),
            (None, Some(number)) => format!("rule {}", number),
            (None, None) if self.line_unknown => "(line not known)".to_string(),
            (None, None) => "(added)".to_string(),
        }
    }

    /// FILE:LINE: the rule's text.
    pub fn told(&self) -> String {
        format!("{}: {}", self.place(), self.text)
    }
}

/// A contact table: bit j of `rows` is its answer where bit k of j tells whether the k-th input, as written, is up.
#[derive(Clone, Debug)]
pub struct Table {
    pub name: String,
    pub spot: Option<Spot>,
    pub inputs: Vec<Atom>,
    pub rows: u64,
    /// Whether it stands on a sheet; otherwise it is a sum that was translated.
    pub is_written: bool,
}

/// How a key is set before the run.
#[derive(Clone, Copy, Debug, PartialEq, Eq)]
pub enum Setting {
    Released,
    Turned,
    Free,
}

#[derive(Clone, Debug)]
pub struct Key {
    pub setting: Setting,
    pub sheet: Option<usize>,
    pub spot: Option<Spot>,
}

/// Which relays `#show` names: a name with its sign, and how many arguments.
pub type Shows = Option<BTreeSet<(String, usize)>>;

#[derive(Clone, Debug, Default)]
pub struct Program {
    pub sheets: Vec<String>,
    pub atoms: Vec<Named>,
    pub rules: Vec<Rule>,
    pub tables: Vec<Table>,
    pub keys: BTreeMap<Atom, Key>,
    /// Facts that gringo folds away: up in every position, and outside the plan.
    pub always: Vec<String>,
    pub labels: BTreeMap<String, String>,
    pub shows: Shows,
    /// Terms that `#show` names with a condition: they show in any case.
    pub terms: BTreeSet<String>,
    /// Atoms that a plan, which came as bytes, does not show.
    pub hidden: BTreeSet<Atom>,
    /// What a reader should know of the sheets, in words.
    pub notes: Vec<String>,
    numbers: HashMap<String, Atom>,
}

impl Program {
    /// A program of these sheets without any rules.
    pub fn new(sheets: Vec<String>) -> Program {
        Program { sheets, ..Program::default() }
    }

    /// The number of a relay; a new name gets the next one.
    pub fn atom(&mut self, name: &str) -> Atom {
        if let Some(&atom) = self.numbers.get(name) {
            return atom;
        }
        self.new_atom(name.to_string(), false)
    }

    pub fn find(&self, name: &str) -> Option<Atom> {
        self.numbers.get(name).copied()
    }

    pub fn name(&self, atom: Atom) -> &str {
        &self.atoms[atom].name
    }

    /// What is printed for a relay: its label, or else its name.
    pub fn label(&self, atom: Atom) -> &str {
        self.label_of(self.name(atom))
    }

    pub fn label_of<'a>(&'a self, name: &'a str) -> &'a str {
        self.labels.get(name).map_or(name, String::as_str)
    }

    /// A fresh helper. No relay's name starts with ~, so it can be taken for none.
    pub fn helper(&mut self, stem: &str) -> Atom {
        let mut name = format!("~{}", stem);
        while self.numbers.contains_key(&name) {
            name.push('\'');
        }
        self.new_atom(name, true)
    }

    fn new_atom(&mut self, name: String, is_helper: bool) -> Atom {
        self.numbers.insert(name.clone(), self.atoms.len());
        self.atoms.push(Named { name, is_helper });
        self.atoms.len() - 1
    }

    /// A choice: for each atom a rule "the atom or its helper". The helper is in no other head, so just one of the two is up.
    pub fn choose(&mut self, atoms: &[Atom], model: &Rule) {
        for &atom in atoms {
            let helper = self.helper(&self.name(atom).to_string());
            let head = [atom, helper].iter().copied().collect();
            self.rules.push(Rule { head, ..model.clone() });
        }
    }

    /// A key by its name. One that is turned stays so.
    pub fn add_key(&mut self, name: &str, key: Key) {
        let (atom, setting) = (self.atom(name), key.setting);
        let known = self.keys.entry(atom).or_insert(key);
        if setting == Setting::Turned {
            known.setting = setting;
        }
    }

    /// The first rule that drives this atom.
    pub fn driver(&self, atom: Atom) -> Option<&Rule> {
        self.rules.iter().find(|rule| rule.head.contains(&atom))
    }

    /// Everything that a rule looks at: head, body, and the inputs of its tables.
    pub fn looks_at(&self, rule: &Rule) -> BTreeSet<Atom> {
        self.places(rule).collect()
    }

    /// The same, as often as it stands there.
    fn places<'a>(&'a self, rule: &'a Rule) -> impl Iterator<Item = Atom> + 'a {
        let inputs = rule.uses.iter().flat_map(move |&(table, _)| self.tables[table].inputs.iter());
        rule.head.iter().chain(&rule.pos).chain(&rule.neg).chain(inputs).copied()
    }

    /// The atoms that a plan must number, relays first, each kind in the order in which the sheets name them.
    pub fn used_atoms(&self) -> Vec<Atom> {
        let mut is_used = vec![false; self.atoms.len()];
        let inputs = self.tables.iter().flat_map(|table| table.inputs.iter().copied());
        let in_rules = self.rules.iter().flat_map(|rule| self.places(rule));
        self.keys.keys().copied().chain(inputs).chain(in_rules).for_each(|atom| is_used[atom] = true);
        let used = (0..self.atoms.len()).filter(|&atom| is_used[atom]);
        let (helpers, mut relays): (Vec<Atom>, Vec<Atom>) = used.partition(|&atom| self.atoms[atom].is_helper);
        relays.extend(helpers);
        relays
    }

    /// A rule as text by its names.
    pub fn written(&self, rule: &Rule) -> String {
        let heads: Vec<&str> = rule.head.iter().map(|&atom| self.name(atom)).collect();
        let not = |wanted: bool| if wanted { "" } else { "not " };
        let pos = rule.pos.iter().map(|&atom| self.name(atom).to_string());
        let neg = rule.neg.iter().map(|&atom| format!("not {}", self.name(atom)));
        let uses = rule.uses.iter().map(|&(table, wanted)| format!("{}{}", not(wanted), self.tables[table].name));
        let body: Vec<String> = pos.chain(neg).chain(uses).collect();
        let arrow = match (heads.is_empty(), body.is_empty()) {
            (_, true) => "",
            (true, false) => ":- ",
            (false, false) => " :- ",
        };
        format!("{}{}{}.", heads.join(" ; "), arrow, body.join(", "))
    }

    /// Whether the lists show this atom: no helper, and named by `#show` where there is one.
    pub fn is_shown(&self, atom: Atom) -> bool {
        let named = &self.atoms[atom];
        !named.is_helper && !self.hidden.contains(&atom) && self.is_shown_name(&named.name)
    }

    pub fn is_shown_name(&self, name: &str) -> bool {
        self.shows.as_ref().map_or(true, |shows| shows.contains(&signature(name)) || self.terms.contains(name))
    }
}

/// The name of an atom's predicate, with its sign, and the number of its arguments.
pub fn signature(atom: &str) -> (String, usize) {
    let open = match atom.find('(') {
        Some(open) => open,
        None => return (atom.to_string(), 0),
    };
    let (mut depth, mut commas, mut quoted, mut escaped) = (0, 0, false, false);
    for sign in atom[open..].chars() {
        match sign {
            _ if escaped => escaped = false,
            '\\' if quoted => escaped = true,
            '"' => quoted = !quoted,
            _ if quoted => {}
            '(' => depth += 1,
            ')' => depth -= 1,
            ',' if depth == 1 => commas += 1,
            _ => {}
        }
    }
    (atom[..open].to_string(), commas + 1)
}
