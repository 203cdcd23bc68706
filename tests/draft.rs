//! A plan being drawn: declared sizes, given atoms, tables, rules, uses, units and edges that can still be changed.

use crate::encode;
use crate::random::Random;

/// Head, positive body, negative body.
pub type Words = [u64; 3];

/// Input word, truth word.
pub type TableWords = [u64; 2];

/// Rule, table, sign.
pub type UseNumbers = [usize; 3];

#[derive(Clone, Default)]
pub struct Draft {
    /// The numbers of COUNT, if the plan has one: rules, units, edges.
    pub declared: Option<[u8; 3]>,
    /// The word of GIVEN, if the plan has one.
    pub given: Option<u64>,
    pub tables: Vec<TableWords>,
    pub rules: Vec<Words>,
    pub uses: Vec<UseNumbers>,
    /// One word for each unit, bit i for rule i.
    pub units: Vec<u64>,
    pub edges: Vec<(usize, usize)>,
    /// The word of SHOW, if the plan has one.
    pub shown: Option<u64>,
}

impl Draft {
    pub fn with_units(count: usize) -> Draft {
        Draft { units: vec![0; count], ..Draft::default() }
    }

    /// A new unit's number; beyond the sixteenth the last one serves again.
    pub fn new_unit(&mut self) -> usize {
        if self.units.len() < 16 {
            self.units.push(0);
        }
        self.units.len() - 1
    }

    /// Adds a rule to a unit, unless there are 64 already or all three words are 0. No atom is left in both body words.
    pub fn add_rule(&mut self, unit: usize, words: Words) {
        if self.rules.len() < 64 && words != [0; 3] {
            self.units[unit] |= 1 << self.rules.len();
            self.rules.push([words[0], words[1], words[2] & !words[1]]);
        }
    }

    /// Adds a table; beyond the sixteenth the last one serves again. Its number.
    pub fn add_table(&mut self, words: TableWords) -> usize {
        if self.tables.len() < 16 {
            self.tables.push(words);
        }
        self.tables.len() - 1
    }

    /// Adds a use, unless there are 256 already, it is there, or the rule or table is not.
    pub fn add_use(&mut self, rule: usize, table: usize, sign: usize) {
        let is_there = rule < self.rules.len() && table < self.tables.len();
        if is_there && self.uses.len() < 256 && !self.uses.contains(&[rule, table, sign]) {
            self.uses.push([rule, table, sign]);
        }
    }

    /// Adds a rule to a unit, and a use of this table in it.
    pub fn add_rule_with(&mut self, unit: usize, words: Words, table: usize, sign: usize) {
        let before = self.rules.len();
        self.add_rule(unit, words);
        if self.rules.len() > before {
            self.add_use(before, table, sign);
        }
    }

    /// The input atoms of all tables that a rule uses.
    pub fn table_inputs(&self, rule: usize) -> u64 {
        let used = self.uses.iter().filter(|numbers| numbers[0] == rule);
        used.fold(0, |atoms, &[_, table, _]| atoms | self.tables[table][0])
    }

    /// Adds an edge where it is allowed and not there yet.
    pub fn add_edge(&mut self, u: usize, v: usize) {
        if u != v && !self.edges.contains(&(u, v)) {
            self.edges.push((u, v));
        }
    }

    /// How many rules, units and edges there are.
    pub fn sizes(&self) -> [u8; 3] {
        [self.rules.len(), self.units.len(), self.edges.len()].map(|size| size as u8)
    }

    /// The units that hold a rule.
    pub fn units_of(&self, rule: usize) -> Vec<usize> {
        (0..self.units.len()).filter(|&unit| self.units[unit] >> rule & 1 == 1).collect()
    }

    /// Head atoms of a unit's rules.
    pub fn own_atoms(&self, unit: usize) -> u64 {
        (0..self.rules.len())
            .filter(|&rule| self.units[unit] >> rule & 1 == 1)
            .fold(0, |atoms, rule| atoms | self.rules[rule][0])
    }

    /// Head atoms of all rules.
    pub fn head_atoms(&self) -> u64 {
        self.rules.iter().fold(0, |atoms, words| atoms | words[0])
    }

    /// Adds an edge from a unit to each other unit that heads one of these atoms.
    pub fn add_edges_to_atoms(&mut self, unit: usize, atoms: u64) {
        for other in 0..self.units.len() {
            if self.own_atoms(other) & atoms != 0 {
                self.add_edge(unit, other);
            }
        }
    }

    /// The unit and all that a path of edges leads to.
    pub fn reached(&self, unit: usize) -> Vec<usize> {
        let mut reached = vec![unit];
        let mut place = 0;
        while place < reached.len() {
            let next = self.edges.iter().filter(|edge| edge.0 == reached[place]).map(|edge| edge.1);
            let new: Vec<usize> = next.filter(|v| !reached.contains(v)).collect();
            reached.extend(new);
            place += 1;
        }
        reached
    }

    /// Atoms in heads that a table of this rule may look at without a cycle: each unit that holds the rule, or one that it reaches,
    /// heads them.
    pub fn atoms_in_reach(&self, rule: usize) -> u64 {
        let atoms_from = |unit: usize| self.reached(unit).iter().fold(0, |atoms, &other| atoms | self.own_atoms(other));
        self.units_of(rule).iter().fold(!0, |atoms, &unit| atoms & atoms_from(unit))
    }

    /// Adds every edge that conditions (c) and (d) ask for, each rule being in one unit.
    pub fn cover_dependences(&mut self) {
        for rule in 0..self.rules.len() {
            let atoms = self.rules[rule].iter().fold(self.table_inputs(rule), |atoms, word| atoms | word);
            for unit in self.units_of(rule) {
                self.add_edges_to_atoms(unit, atoms);
            }
        }
    }

    /// The same plan with atoms, rules and units numbered at random and edges in random order.
    pub fn renumbered(&self, random: &mut Random) -> Draft {
        let atoms = random.permutation(64);
        let rules = random.permutation(self.rules.len());
        let units = random.permutation(self.units.len());
        let given = self.given.map(|word| moved_bits(word, &atoms));
        let shown = self.shown.map(|word| moved_bits(word, &atoms));
        let mut draft = Draft { given, shown, edges: Vec::new(), ..self.clone() };
        let tables = random.permutation(self.tables.len());
        for (table, &words) in self.tables.iter().enumerate() {
            draft.tables[tables[table]] = moved_table(words, &atoms);
        }
        draft.uses = self.uses.iter().map(|&[rule, table, sign]| [rules[rule], tables[table], sign]).collect();
        random.shuffle(&mut draft.uses);
        for (rule, words) in self.rules.iter().enumerate() {
            draft.rules[rules[rule]] = words.map(|word| moved_bits(word, &atoms));
        }
        for (unit, &word) in self.units.iter().enumerate() {
            draft.units[units[unit]] = moved_bits(word, &rules);
        }
        draft.edges = self.edges.iter().map(|&(u, v)| (units[u], units[v])).collect();
        random.shuffle(&mut draft.edges);
        draft
    }

    /// The commands in their order, END included.
    pub fn commands(&self) -> Vec<Vec<u8>> {
        let declared = self.declared.iter().map(|&numbers| encode::count(numbers));
        let given = self.given.iter().map(|&atoms| encode::given(atoms));
        let tables = self.tables.iter().map(|&[inputs, truth]| encode::table(inputs, truth));
        let rules = self.rules.iter().map(|&[head, positive, negative]| encode::rule(head, positive, negative));
        let uses = self.uses.iter().map(|numbers| numbers.map(|number| number as u8));
        let uses = uses.map(|[rule, table, sign]| encode::use_of(rule, table, sign));
        let units = self.units.iter().map(|&unit| encode::unit(unit));
        let edges = self.edges.iter().map(|&(u, v)| encode::edge(u as u8, v as u8));
        let shown = self.shown.iter().map(|&atoms| encode::show(atoms));
        let front = declared.chain(given).chain(tables).chain(rules).chain(uses);
        front.chain(units).chain(edges).chain(shown).chain(std::iter::once(encode::end())).collect()
    }

    pub fn bytes(&self) -> Vec<u8> {
        self.commands().concat()
    }
}

/// The word with bit i moved to place `places[i]`.
fn moved_bits(word: u64, places: &[usize]) -> u64 {
    (0..places.len()).filter(|&bit| word >> bit & 1 == 1).fold(0, |moved, bit| moved | 1 << places[bit])
}

/// The table with the same answers where each atom i is now `places[i]`.
fn moved_table([inputs, truth]: TableWords, places: &[usize]) -> TableWords {
    let from: Vec<usize> = (0..64).filter(|&atom| inputs >> atom & 1 == 1).collect();
    let moved = moved_bits(inputs, places);
    let moved_row = |row: usize| {
        let up = (0..from.len()).filter(|&k| row >> k & 1 == 1).fold(0, |up, k| up | 1u64 << places[from[k]]);
        row_of(moved, up)
    };
    let rows = (0..1usize << from.len()).filter(|&row| truth >> row & 1 == 1);
    [moved, rows.fold(0, |truth, row| truth | 1 << moved_row(row))]
}

/// The row of a table with these inputs where these atoms are up.
pub fn row_of(inputs: u64, up: u64) -> usize {
    let atoms = (0..64).filter(|&atom| inputs >> atom & 1 == 1);
    atoms.enumerate().fold(0, |row, (k, atom)| row | ((up >> atom & 1) as usize) << k)
}
