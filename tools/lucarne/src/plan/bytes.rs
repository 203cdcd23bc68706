//! A program with its units as the bytes of a plan, and the bytes read back.

use crate::fault::Fault;
use crate::plan::layout::{Edges, Layout};
use crate::plan::program::{Atom, Program, Setting};
use std::collections::{BTreeMap, BTreeSet};

pub const COUNT: u8 = 7;
pub const GIVEN: u8 = 4;
pub const TABLE: u8 = 5;
pub const RULE: u8 = 1;
pub const USE: u8 = 6;
pub const UNIT: u8 = 2;
pub const EDGE: u8 = 3;
pub const SHOW: u8 = 8;
pub const END: u8 = 0;

/// What the bytes of a plan say, command by command, atoms as bits.
#[derive(Clone, Debug, Default, PartialEq, Eq)]
pub struct Record {
    /// Rules, units and edges, where the plan declares how many it has.
    pub declared: Option<[u8; 3]>,
    pub given: u64,
    /// Inputs and truth word.
    pub tables: Vec<(u64, u64)>,
    /// Head, positive and negative body.
    pub rules: Vec<[u64; 3]>,
    /// Rule, table, sign.
    pub uses: Vec<[u8; 3]>,
    pub units: Vec<u64>,
    pub edges: Vec<[u8; 2]>,
    pub show: Option<u64>,
    /// Where each command starts.
    pub offsets: Vec<usize>,
    /// The first byte that is no part of a command that is known here, or that stands behind END; none where every byte is accounted for.
    pub unread: Option<usize>,
}

impl Record {
    /// A plan that the library takes has no byte that is not known here: it would be listed by half of what it says.
    pub fn account(&self, path: &str, bytes: &[u8], is_taken: bool) -> Result<(), Fault> {
        match self.unread.filter(|_| is_taken) {
            Some(at) => Err(Fault::of_the_tool(format!(
                "{}: the library takes the plan, and byte {}{} is nothing that this tool knows",
                path,
                at,
                bytes.get(at).map_or(String::new(), |byte| format!(", {:02x},", byte))
            ))),
            None => Ok(()),
        }
    }
}

/// The bytes, and which atom each bit is.
#[derive(Clone, Debug, Default)]
pub struct Plan {
    pub atoms: Vec<Atom>,
    pub bytes: Vec<u8>,
}

impl Plan {
    /// The bit of an atom.
    pub fn bit(&self, atom: Atom) -> Option<usize> {
        self.atoms.iter().position(|&other| other == atom)
    }

    /// The atoms that are up in a position, in the order of bits.
    pub fn up(&self, position: u64) -> Vec<Atom> {
        let mut up = Vec::with_capacity(position.count_ones() as usize);
        up.extend(self.atoms.iter().enumerate().filter(|(bit, _)| position >> bit & 1 == 1).map(|(_, &atom)| atom));
        up
    }

    /// The word in which these atoms are up.
    pub fn word<'a>(&self, atoms: impl IntoIterator<Item = &'a Atom>) -> u64 {
        atoms.into_iter().filter_map(|&atom| self.bit(atom)).fold(0, |word, bit| word | 1 << bit)
    }

    /// The plan of a program with this layout. What it hands out was read back and found to say the same.
    pub fn of(program: &Program, layout: &Layout) -> Result<Plan, Fault> {
        Plan::in_order(program, layout, program.used_atoms())
    }

    /// The same with the bits in another order.
    pub fn in_order(program: &Program, layout: &Layout, atoms: Vec<Atom>) -> Result<Plan, Fault> {
        let mut plan = Plan { atoms, bytes: Vec::new() };
        plan.bytes = encode(&record(program, layout, &plan));
        match read_back(program, layout, &plan) {
            None => Ok(plan),
            Some(what) => Err(Fault::of_the_tool(format!("the bytes do not say what the sheets say: {}", what))),
        }
    }
}

/// The keys that are turned.
pub fn given(program: &Program) -> BTreeSet<Atom> {
    program.keys.iter().filter(|(_, key)| key.setting == Setting::Turned).map(|(&atom, _)| atom).collect()
}

fn record(program: &Program, layout: &Layout, plan: &Plan) -> Record {
    let shown: Vec<Atom> = plan.atoms.iter().copied().filter(|&atom| program.is_shown(atom)).collect();
    Record {
        declared: None,
        given: plan.word(&given(program)),
        tables: program.tables.iter().map(|table| (plan.word(&table.inputs), truth(plan, &table.inputs, table.rows))).collect(),
        rules: program.rules.iter().map(|rule| [plan.word(&rule.head), plan.word(&rule.pos), plan.word(&rule.neg)]).collect(),
        uses: program
            .rules
            .iter()
            .enumerate()
            .flat_map(|(rule, uses)| uses.uses.iter().map(move |&(table, wanted)| [rule as u8, table as u8, u8::from(!wanted)]))
            .collect(),
        units: layout.units.iter().map(|unit| unit.rules.iter().fold(0, |word, rule| word | 1 << rule)).collect(),
        edges: layout.edges.keys().map(|&(from, to)| [from as u8, to as u8]).collect(),
        show: Some(plan.word(&shown)).filter(|_| shown.len() < plan.atoms.len()),
        offsets: Vec::new(),
        unread: None,
    }
}

/// The truth word: its rows count the inputs from the lowest bit on, those of the sheet in the order in which they are written.
fn truth(plan: &Plan, inputs: &[Atom], rows: u64) -> u64 {
    let mut order: Vec<usize> = (0..inputs.len()).collect();
    order.sort_by_key(|&k| plan.bit(inputs[k]));
    let written = |j: usize| order.iter().enumerate().fold(0, |row, (place, &k)| row | (j >> place & 1) << k);
    (0..1 << inputs.len()).filter(|&j| rows >> written(j) & 1 == 1).fold(0, |word, j| word | 1 << j)
}

fn encode(record: &Record) -> Vec<u8> {
    let mut bytes = Vec::new();
    let mut put = |command: u8, words: &[u64], rest: &[u8]| {
        bytes.push(command);
        words.iter().for_each(|word| bytes.extend(word.to_le_bytes()));
        bytes.extend(rest);
    };
    if record.given != 0 {
        put(GIVEN, &[record.given], &[]);
    }
    record.tables.iter().for_each(|&(inputs, truth)| put(TABLE, &[inputs, truth], &[]));
    record.rules.iter().for_each(|words| put(RULE, words, &[]));
    record.uses.iter().for_each(|operands| put(USE, &[], operands));
    record.units.iter().for_each(|&unit| put(UNIT, &[unit], &[]));
    record.edges.iter().for_each(|operands| put(EDGE, &[], operands));
    if let Some(show) = record.show {
        put(SHOW, &[show], &[]);
    }
    put(END, &[], &[]);
    bytes
}

/// Words and bytes of operands that each command has.
fn operands(command: u8) -> Option<(usize, usize)> {
    match command {
        GIVEN | UNIT | SHOW => Some((1, 0)),
        TABLE => Some((2, 0)),
        RULE => Some((3, 0)),
        USE | COUNT => Some((0, 3)),
        EDGE => Some((0, 2)),
        END => Some((0, 0)),
        _ => None,
    }
}

/// The commands of a plan up to END, or up to what cannot be read: whether that is allowed is the library's to say.
pub fn decode(bytes: &[u8]) -> Record {
    let mut record = Record::default();
    let (mut at, mut is_ended) = (0, false);
    while let Some((&command, rest)) = bytes.get(at..).filter(|_| !is_ended).and_then(|rest| rest.split_first()) {
        let (words, singles) = match operands(command) {
            Some(lengths) if rest.len() >= 8 * lengths.0 + lengths.1 => lengths,
            _ => break,
        };
        let word = |k: usize| (0..8).fold(0, |word, byte| word | u64::from(rest[8 * k + byte]) << (8 * byte));
        record.offsets.push(at);
        match command {
            COUNT => record.declared = Some([rest[0], rest[1], rest[2]]),
            GIVEN => record.given = word(0),
            TABLE => record.tables.push((word(0), word(1))),
            RULE => record.rules.push([word(0), word(1), word(2)]),
            USE => record.uses.push([rest[0], rest[1], rest[2]]),
            UNIT => record.units.push(word(0)),
            EDGE => record.edges.push([rest[0], rest[1]]),
            SHOW => record.show = Some(word(0)),
            END => is_ended = true,
            _ => break,
        }
        at += 1 + 8 * words + singles;
    }
    record.unread = Some(at).filter(|&at| !is_ended || at < bytes.len());
    record
}

/// Reads the bytes and holds them against the program by name; what differs, if anything does.
pub fn read_back(program: &Program, layout: &Layout, plan: &Plan) -> Option<String> {
    let record = decode(&plan.bytes);
    if let Some(at) = record.unread {
        return Some(format!("byte {} cannot be read back", at));
    }
    let named = |word: u64| plan.up(word).into_iter().collect::<BTreeSet<Atom>>();
    if record.rules.len() != program.rules.len() || record.tables.len() != program.tables.len() {
        return Some("another number of rules or tables".to_string());
    }
    for (number, rule) in program.rules.iter().enumerate() {
        let [head, pos, neg] = record.rules[number];
        let uses: BTreeSet<(usize, bool)> =
            record.uses.iter().filter(|one| usize::from(one[0]) == number).map(|one| (usize::from(one[1]), one[2] == 0)).collect();
        if named(head) != rule.head || named(pos) != rule.pos || named(neg) != rule.neg || uses != rule.uses {
            return Some(format!("rule {}, {}", number, rule.told()));
        }
    }
    let differing = program
        .tables
        .iter()
        .zip(&record.tables)
        .find(|(table, &(inputs, truth))| !same_table(plan, &table.inputs, table.rows, inputs, truth));
    if let Some((table, _)) = differing {
        return Some(format!("table {}", table.name));
    }
    let units: Vec<Vec<usize>> = record.units.iter().map(|&unit| (0..64).filter(|rule| unit >> rule & 1 == 1).collect()).collect();
    let edges: BTreeSet<(usize, usize)> = record.edges.iter().map(|edge| (usize::from(edge[0]), usize::from(edge[1]))).collect();
    let hidden: BTreeSet<Atom> = record.show.map_or(BTreeSet::new(), |show| named(!show));
    let wanted: BTreeSet<Atom> = plan.atoms.iter().copied().filter(|&atom| !program.is_shown(atom)).collect();
    if units != layout.units.iter().map(|unit| unit.rules.clone()).collect::<Vec<_>>() || edges != layout.edges.keys().copied().collect() {
        return Some("units or links".to_string());
    }
    Some("keys or what shows".to_string()).filter(|_| named(record.given) != given(program) || hidden != wanted)
}

/// Whether a table answers alike for every setting of its inputs. Settings go by name here, so that an order mixed up in writing is noticed.
fn same_table(plan: &Plan, written: &[Atom], rows: u64, inputs: u64, truth: u64) -> bool {
    let sorted = plan.up(inputs);
    if sorted.iter().collect::<BTreeSet<_>>() != written.iter().collect::<BTreeSet<_>>() {
        return false;
    }
    (0..1u64 << written.len()).all(|row| {
        let is_up: BTreeMap<Atom, u64> = written.iter().enumerate().map(|(k, &atom)| (atom, row >> k & 1)).collect();
        let j = sorted.iter().rev().fold(0, |j, atom| j << 1 | is_up[atom]);
        rows >> row & 1 == truth >> j & 1
    })
}

/// The layout that a plan's bytes have.
pub fn layout_of(record: &Record, names: &dyn Fn(usize) -> String) -> Layout {
    let units = record.units.iter().enumerate().map(|(number, &unit)| crate::plan::layout::Unit {
        name: names(number),
        rules: (0..64).filter(|rule| unit >> rule & 1 == 1).collect(),
        is_joined: false,
    });
    let edges: Edges = record.edges.iter().map(|edge| ((usize::from(edge[0]), usize::from(edge[1])), Vec::new())).collect();
    Layout { units: units.collect(), edges, ..Layout::default() }
}
