//! Plans with contact tables that pass reading and graph, of many shapes.

use crate::draft::{Draft, TableWords, Words};
use crate::random::Random;
use crate::valid_plans::{self as valid, bit, one, some_atoms, FEW_ATOMS};

/// Signs of a use.
pub const TRUE: usize = 0;
pub const FALSE: usize = 1;

// ---- Tables ----------------------------------------------------------------------------------

/// The truth word of a table with so many inputs whose answer is told by the number of the row.
pub fn truth_by(inputs: usize, answer: impl Fn(usize) -> bool) -> u64 {
    (0..1 << inputs).filter(|&row| answer(row)).fold(0, |truth, row| truth | 1 << row)
}

/// A truth word: constant, counted, told by one input, one row or any.
fn any_truth(random: &mut Random, inputs: usize) -> u64 {
    let some_row = random.below(1 << inputs);
    let some_input = random.below(inputs);
    let bound = random.between(0, inputs) as u32;
    let any = random.word();
    match random.below(11) {
        0 => truth_by(inputs, |_| false),
        1 => truth_by(inputs, |_| true),
        2 => truth_by(inputs, |row| row.count_ones() % 2 == 1),
        3 => truth_by(inputs, |row| row.count_ones() >= bound),
        4 => truth_by(inputs, |row| row.count_ones() == bound),
        5 => truth_by(inputs, |row| row == some_row),
        6 => truth_by(inputs, |row| row != some_row),
        7 => truth_by(inputs, |row| row >> some_input & 1 == 1),
        _ => truth_by(inputs, |row| any >> row & 1 == 1),
    }
}

/// So many distinct atoms of a set, or all of it.
fn distinct_of(random: &mut Random, set: u64, count: usize) -> u64 {
    let mut atoms: Vec<usize> = (0..64).filter(|&atom| set >> atom & 1 == 1).collect();
    random.shuffle(&mut atoms);
    atoms.iter().take(count).fold(0, |chosen, &atom| chosen | bit(atom))
}

/// A table of none to six inputs of this set.
pub fn any_table(random: &mut Random, pool: u64) -> TableWords {
    let most = random.pick(&[0, 1, 1, 2, 2, 2, 3, 3, 4, 5, 6]);
    let inputs = distinct_of(random, pool, most);
    [inputs, any_truth(random, inputs.count_ones() as usize)]
}

fn any_sign(random: &mut Random) -> usize {
    random.pick(&[TRUE, TRUE, FALSE])
}

// ---- Tables put into other plans -------------------------------------------------------------

/// A plan of another shape some of whose rules use tables; rules that use one come in too.
pub fn tables_anywhere(random: &mut Random) -> Draft {
    let mut draft = match random.below(12) {
        0 => valid::diamond(random),
        1 => valid::shared_constraint(random),
        2 => valid::empty_units(random),
        3 => valid::full_size(random),
        4 | 5 => valid::gadgets(random),
        6 | 7 => valid::given_atoms(random),
        _ => valid::layered(random),
    };
    put_tables(random, &mut draft);
    draft
}

/// Lets some rules use tables over atoms that their units may see, and leaves some tables unused.
pub fn put_tables(random: &mut Random, draft: &mut Draft) {
    for _ in 0..random.pick(&[0, 1, 1, 2]) {
        add_rule_for_a_use(random, draft);
    }
    for _ in 0..random.pick(&[1, 1, 2, 3, 5]) {
        let rule = random.below(draft.rules.len());
        if rule < draft.rules.len() {
            let table = table_for(random, draft, rule);
            use_where_seen(random, draft, rule, table);
            let other = random.below(draft.rules.len());
            if random.chance(30) {
                use_where_seen(random, draft, other, table);
            }
        }
    }
    for _ in 0..random.pick(&[0, 0, 0, 1, 2]) {
        let any = any_table(random, !0);
        let unused = draft.tables.first().copied().filter(|_| random.chance(40)).unwrap_or(any);
        draft.add_table(unused);
    }
}

/// A rule that heads atoms which its unit heads already: its table may look at its own head.
fn add_rule_for_a_use(random: &mut Random, draft: &mut Draft) {
    let unit = random.below(draft.units.len());
    if unit < draft.units.len() {
        let own = draft.own_atoms(unit);
        let most_positive = random.pick(&[0, 0, 1]);
        draft.add_rule(unit, [random.atoms_of(own, 2), random.atoms_of(own, most_positive), 0]);
    }
}

/// A table for this rule: now and then over its own head, or with an atom that no head has.
fn table_for(random: &mut Random, draft: &mut Draft, rule: usize) -> usize {
    let mut pool = draft.atoms_in_reach(rule) | random.atoms_of(draft.given.unwrap_or(0), 2);
    if random.chance(25) {
        pool |= random.atoms_of(!draft.head_atoms(), 1);
    }
    if random.chance(30) {
        // Few atoms, so that the head is likely among the inputs.
        pool = draft.rules[rule][0] | random.atoms_of(pool, 1);
    }
    let words = any_table(random, pool & (draft.atoms_in_reach(rule) | !draft.head_atoms()));
    draft.add_table(words)
}

/// Adds a use with the edges that it asks for, where they make no cycle; now and then the other sign as well.
fn use_where_seen(random: &mut Random, draft: &mut Draft, rule: usize, table: usize) {
    let inputs = draft.tables[table][0];
    if inputs & draft.head_atoms() & !draft.atoms_in_reach(rule) != 0 {
        return;
    }
    let sign = any_sign(random);
    draft.add_use(rule, table, sign);
    if random.chance(5) {
        draft.add_use(rule, table, 1 - sign);
    }
    for unit in draft.units_of(rule) {
        draft.add_edges_to_atoms(unit, inputs);
    }
}

// ---- Small circuits with tables --------------------------------------------------------------

/// Circuits in which a table matters, each possibly led by atoms of earlier ones, and rules with tables over all that came before.
pub fn table_circuits(random: &mut Random) -> Draft {
    let mut draft = Draft::with_units(1);
    let count = random.between(2, FEW_ATOMS);
    let mut fresh = some_atoms(random, count);
    let mut earlier = 0;
    while fresh.len() >= 2 {
        if random.chance(50) {
            draft.new_unit();
        }
        let unit = draft.units.len() - 1;
        let own = [fresh.pop().unwrap(), fresh.pop().unwrap()];
        let guard = if random.chance(40) { random.atoms_of(earlier, 1) } else { 0 };
        add_circuit(random, &mut draft, unit, own, guard);
        earlier |= own[0] | own[1];
        if random.chance(25) {
            let words = any_table(random, earlier);
            let (table, sign) = (draft.add_table(words), any_sign(random));
            draft.add_rule_with(unit, [random.pick(&[0, own[0]]), random.pick(&own), 0], table, sign);
        }
    }
    draft.cover_dependences();
    draft.renumbered(random)
}

/// Answers of a table over one or two relays, the second being the higher one.
const UP: u64 = 0b10;
const DROPPED: u64 = 0b01;
const ALWAYS: u64 = 0b11;
const ALIKE: u64 = 0b1001;
const NOT_BOTH: u64 = 0b0111;
const EITHER: u64 = 0b1110;

/// One circuit on two relays; rules without a table ask for the guard atom in their bodies.
fn add_circuit(random: &mut Random, draft: &mut Draft, unit: usize, [a, b]: [u64; 2], guard: u64) {
    let plain = |words: Words| (words, None);
    let with = |head: u64, inputs: u64, truth: u64| ([head, guard, 0], Some([inputs, truth]));
    let rules = match random.below(12) {
        // Holds itself up, through a table alone or through two: nothing is up.
        0 => vec![with(a, a, UP)],
        1 => vec![with(a, b, UP), with(b, a, UP)],
        // Up whatever the relay does: settled, though written out as rules it is an odd loop.
        2 => vec![with(a, a, ALWAYS)],
        3 => vec![with(a, a | b, ALIKE), plain([b, a, 0]), plain([a, b, 0])],
        4 => vec![with(a | b, a | b, NOT_BOTH)],
        // Loops and saturation through tables.
        5 => vec![with(a, a, DROPPED)],
        6 => vec![with(a, b, DROPPED), with(b, a, DROPPED)],
        7 => vec![plain([a | b, guard, 0]), with(a, b, UP), with(b, a, UP)],
        8 => vec![plain([a | b, guard, 0]), with(0, a | b, ALIKE)],
        9 => vec![plain([a | b, guard, 0]), with(a, a | b, EITHER)],
        // Any answers.
        10 => vec![plain([a | b, guard, 0]), with(a | b, a | b, random.word() & 15)],
        _ => vec![with(a, a | b, random.word() & 15), with(b, a | b, random.word() & 15)],
    };
    for (words, table) in rules {
        match table {
            None => draft.add_rule(unit, words),
            Some(table) => add_signed(random, draft, unit, words, table),
        }
    }
}

/// A rule with this table, or with the opposite one that must be false.
fn add_signed(random: &mut Random, draft: &mut Draft, unit: usize, words: Words, [inputs, truth]: TableWords) {
    let (truth, sign) = match random.chance(40) {
        true => (truth_by(inputs.count_ones() as usize, |row| truth >> row & 1 == 0), FALSE),
        false => (truth, TRUE),
    };
    if draft.tables.len() < 16 {
        let table = draft.add_table([inputs, truth]);
        draft.add_rule_with(unit, words, table, sign);
    }
}

// ---- Banks in layers -------------------------------------------------------------------------

/// Choices, then units whose relays follow tables over the units below, and a table on top that forbids some.
pub fn banks_in_layers(random: &mut Random) -> Draft {
    let choices = random.between(1, 3);
    let mut draft = Draft::with_units(1);
    valid::add_choices(random, &mut draft, 0, 0, choices - 1);
    let mut seen = draft.head_atoms();
    for result in 2 * choices..random.between(2 * choices, FEW_ATOMS) {
        if random.chance(60) {
            draft.new_unit();
        }
        let unit = draft.units.len() - 1;
        let words = any_table(random, seen);
        let (table, sign) = (draft.add_table(words), any_sign(random));
        draft.add_rule_with(unit, [bit(result), 0, 0], table, sign);
        if random.chance(20) {
            draft.add_rule_with(unit, [bit(result), random.atoms_of(seen, 1), 0], table, 1 - sign);
        }
        seen |= bit(result);
    }
    if random.chance(50) {
        let top = draft.new_unit();
        let words = any_table(random, seen);
        let table = draft.add_table(words);
        draft.add_rule_with(top, [0, random.atoms_of(seen, 1), 0], table, any_sign(random));
    }
    draft.cover_dependences();
    draft.renumbered(random)
}

// ---- Limits ----------------------------------------------------------------------------------

/// Nine choices in units, of which a table of six inputs leaves 248, 256 or 264 positions.
pub fn tables_near_limit(random: &mut Random) -> Draft {
    let mut draft = Draft::with_units(1);
    for i in 0..=8 {
        if i > 0 && random.chance(80) {
            draft.new_unit();
        }
        let unit = draft.units.len() - 1;
        valid::add_choices(random, &mut draft, unit, i, i);
    }
    let choices = random.permutation(9);
    let inputs = choices[..6].iter().fold(0, |atoms, &i| atoms | one(i));
    let rows = random.permutation(64);
    let count = random.pick(&[31, 32, 32, 33]);
    let kept = rows[..count].iter().fold(0, |truth, &row| truth | bit(row));
    let (unit, sign) = (draft.new_unit(), any_sign(random));
    let table = draft.add_table([inputs, if sign == TRUE { !kept } else { kept }]);
    // A constraint needs a word: the choice that is always made one way or the other stands twice.
    let other = choices[8];
    draft.add_rule_with(unit, [0, one(other), 0], table, sign);
    draft.add_rule_with(unit, [0, 0, one(other)], table, sign);
    draft.cover_dependences();
    draft.renumbered(random)
}

/// All 64 rules, 16 tables and up to 256 uses, over few atoms.
pub fn full_tables(random: &mut Random) -> Draft {
    let mut draft = valid::full_size(random);
    let pool = draft.head_atoms();
    while draft.tables.len() < 16 {
        let [inputs, truth] = any_table(random, pool);
        let some_row = random.below(1 << inputs.count_ones());
        // Most tables are true nearly everywhere, or no body with four uses would hold.
        let mostly = truth_by(inputs.count_ones() as usize, |row| row != some_row);
        draft.add_table([inputs, if random.chance(80) { mostly } else { truth }]);
    }
    let uses = random.pick(&[20, 64, 255, 256]);
    while draft.uses.len() < uses {
        let sign = usize::from(random.chance(10));
        let (rule, table) = (random.below(64), random.below(16));
        draft.add_use(rule, table, sign);
    }
    draft
}
