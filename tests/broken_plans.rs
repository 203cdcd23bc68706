//! Plans with faults: broken graphs, each reading fault, order traps, damaged and random bytes.

use crate::counted_plans;
use crate::draft::Draft;
use crate::encode;
use crate::random::Random;
use crate::table_plans::{self, any_table};
use crate::valid_plans;

type Commands = Vec<Vec<u8>>;

/// A small valid plan to spoil.
pub fn sound_draft(random: &mut Random) -> Draft {
    match random.below(6) {
        0 => valid_plans::gadgets(random),
        1 => valid_plans::diamond(random),
        2 => valid_plans::given_atoms(random),
        3 => tables_draft(random),
        _ => valid_plans::layered(random),
    }
}

/// The same with tables.
fn tables_draft(random: &mut Random) -> Draft {
    match random.below(3) {
        0 => table_plans::table_circuits(random),
        1 => table_plans::banks_in_layers(random),
        _ => table_plans::tables_anywhere(random),
    }
}

// ---- Broken graphs ---------------------------------------------------------------------------

/// A valid plan with one to three changes, most of which break a graph condition.
pub fn broken_graph(random: &mut Random) -> Vec<u8> {
    let mut draft = sound_draft(random);
    for _ in 0..random.pick(&[1, 1, 2, 3]) {
        break_graph(random, &mut draft);
    }
    if random.chance(15) {
        draft.declared = Some(draft.sizes());
    }
    draft.bytes()
}

fn break_graph(random: &mut Random, draft: &mut Draft) {
    let rule = random.below(draft.rules.len());
    let (unit, other) = (random.below(draft.units.len()), random.below(draft.units.len()));
    match random.below(17) {
        0 => draft.units.iter_mut().for_each(|word| *word &= !(1 << rule)),
        1 if !draft.rules.is_empty() => draft.units[unit] |= 1 << rule,
        2 => draft.add_edge(unit, other),
        3..=5 => drop_edges(random, draft),
        6..=8 => add_stray_rule(random, draft, unit),
        9 => add_cycle(random, draft),
        10..=12 => repeat_rule(draft, rule, unit),
        13 if !draft.rules.is_empty() => lose_and_repeat(random, draft),
        _ => split_constraint(random, draft),
    }
}

/// A given atom in one or more heads, while other conditions may be broken too.
pub fn given_in_heads(random: &mut Random) -> Vec<u8> {
    let mut draft = sound_draft(random);
    for _ in 0..random.pick(&[0, 0, 1, 2]) {
        break_graph(random, &mut draft);
    }
    let heads = draft.head_atoms();
    let most = random.pick(&[1, 1, 2, 12]);
    draft.given = Some(draft.given.unwrap_or(0) | random.atoms_of(heads, most));
    draft.bytes()
}

/// Tables that look at atoms which some unit of the rule does not see, while other conditions may be broken too.
pub fn unseen_inputs(random: &mut Random) -> Vec<u8> {
    let mut draft = if random.chance(50) { tables_draft(random) } else { sound_draft(random) };
    if random.chance(25) {
        split_use(random, &mut draft);
    }
    for _ in 0..random.between(0, 2) {
        let words = any_table(random, draft.head_atoms());
        let (table, rule) = (draft.add_table(words), random.below(draft.rules.len()));
        draft.add_use(rule, table, random.below(2));
    }
    if random.chance(40) {
        drop_edges(random, &mut draft);
    }
    if random.chance(20) {
        break_graph(random, &mut draft);
    }
    draft.bytes()
}

/// One rule in no unit, and another in one unit more.
fn lose_and_repeat(random: &mut Random, draft: &mut Draft) {
    let (lost, repeated) = (random.below(draft.rules.len()), random.below(draft.rules.len()));
    let unit = random.below(draft.units.len());
    draft.units[unit] |= 1 << repeated;
    draft.units.iter_mut().for_each(|word| *word &= !(1 << lost));
}

fn drop_edges(random: &mut Random, draft: &mut Draft) {
    for _ in 0..random.between(1, 3) {
        if !draft.edges.is_empty() {
            let place = random.below(draft.edges.len());
            draft.edges.remove(place);
        }
    }
}

/// A rule over atoms of any unit, without the edges it asks for.
fn add_stray_rule(random: &mut Random, draft: &mut Draft, unit: usize) {
    let atoms = (0..draft.units.len()).fold(0, |atoms, unit| atoms | draft.own_atoms(unit));
    let (most_head, most_positive, most_negative) = random.pick(&[(0, 1, 1), (0, 2, 0), (1, 1, 0), (1, 0, 1), (2, 0, 0)]);
    let head = random.atoms_of(atoms, most_head);
    let positive = random.atoms_of(atoms, most_positive);
    let negative = random.atoms_of(atoms, most_negative);
    draft.add_rule(unit, [head, positive, negative]);
}

/// A cycle among some units, often with a lower unit that only reaches it.
fn add_cycle(random: &mut Random, draft: &mut Draft) {
    let length = random.between(2, 4);
    let first = random.below(draft.units.len());
    let mut units: Vec<usize> = (0..length).map(|_| draft.new_unit()).collect();
    units.dedup();
    for place in 0..units.len() {
        draft.add_edge(units[place], units[(place + 1) % units.len()]);
    }
    if random.chance(70) {
        draft.add_edge(first, units[0]);
    }
}

/// The same rule with its uses once more, perhaps in another unit.
fn repeat_rule(draft: &mut Draft, rule: usize, unit: usize) {
    if let Some(&words) = draft.rules.get(rule) {
        let copy = draft.rules.len();
        draft.add_rule(unit, words);
        let uses: Vec<_> = draft.uses.iter().copied().filter(|numbers| numbers[0] == rule).collect();
        uses.iter().for_each(|&[_, table, sign]| draft.add_use(copy, table, sign));
    }
}

/// A constraint on atoms of two units, in two units that see one of them each.
fn split_constraint(random: &mut Random, draft: &mut Draft) {
    let (left, right) = (random.below(draft.units.len()), random.below(draft.units.len()));
    let positive = random.atoms_of(draft.own_atoms(left), 1) | random.atoms_of(draft.own_atoms(right), 1);
    let negative = if random.chance(30) { random.atoms_of(draft.own_atoms(left), 1) } else { 0 };
    let (watch_left, watch_right) = (draft.new_unit(), draft.new_unit());
    let constraint = draft.rules.len();
    draft.add_rule(watch_left, [0, positive, negative]);
    if draft.rules.len() > constraint {
        draft.units[watch_right] |= 1 << constraint;
    }
    draft.add_edge(watch_left, left);
    draft.add_edge(watch_right, right);
}

/// A constraint whose table looks at one unit, in two units of which one sees it.
fn split_use(random: &mut Random, draft: &mut Draft) {
    let seen = random.below(draft.units.len());
    let own = draft.own_atoms(seen);
    let words = any_table(random, own);
    let (watch, blind) = (draft.new_unit(), draft.new_unit());
    let (table, constraint) = (draft.add_table(words), draft.rules.len());
    draft.add_rule_with(watch, [0, random.atoms_of(own, 1), 0], table, random.below(2));
    if draft.rules.len() > constraint {
        draft.units[blind] |= 1 << constraint;
    }
    draft.add_edge(watch, seen);
}

/// Empty units with any edges: cycles, units above cycles, all 240 edges.
pub fn any_edges(random: &mut Random) -> Vec<u8> {
    let count = random.between(2, 16);
    let mut draft = Draft::with_units(count);
    for _ in 0..random.pick(&[1, 3, count, 2 * count, 2000]) {
        draft.add_edge(random.below(count), random.below(count));
    }
    draft.bytes()
}

// ---- Reading faults --------------------------------------------------------------------------

/// The places of the first TABLE, RULE, USE, UNIT and EDGE and of END among the commands.
struct Groups {
    tables: usize,
    rules: usize,
    uses: usize,
    units: usize,
    edges: usize,
    end: usize,
}

impl Groups {
    fn of(draft: &Draft) -> Groups {
        let tables = usize::from(draft.declared.is_some()) + usize::from(draft.given.is_some());
        let rules = tables + draft.tables.len();
        let uses = rules + draft.rules.len();
        let units = uses + draft.uses.len();
        let edges = units + draft.units.len();
        Groups { tables, rules, uses, units, edges, end: edges + draft.edges.len() + usize::from(draft.shown.is_some()) }
    }
}

/// A valid plan with one to three reading faults, sometimes cut short at one.
pub fn broken_reading(random: &mut Random) -> Vec<u8> {
    let mut draft = if random.chance(30) { large_draft(random) } else { sound_draft(random) };
    if random.chance(50) {
        draft.given.get_or_insert(0);
    }
    if random.chance(50) {
        draft.shown.get_or_insert(random.word());
    }
    if random.chance(40) {
        draft.declared = Some(counted_plans::near(random, draft.sizes()));
    }
    let groups = Groups::of(&draft);
    let mut commands = draft.commands();
    for _ in 0..random.pick(&[1, 1, 1, 2, 3]) {
        let place = break_reading(random, &draft, &groups, &mut commands);
        if random.chance(30) {
            return cut_inside(random, &commands, place);
        }
    }
    commands.concat()
}

/// A plan with about as many rules, units and edges as a plan may have, and perhaps as many tables and uses.
pub fn large_draft(random: &mut Random) -> Draft {
    let mut draft = full_draft(random.between(62, 64), random.between(14, 16), random.pick(&[0, 3, 239, 240]));
    fill_tables(&mut draft, random.pick(&[0, 1, 15, 16]), random.pick(&[0, 3, 255, 256]));
    draft
}

/// So many tables and uses, as far as they are different.
fn fill_tables(draft: &mut Draft, tables: usize, uses: usize) {
    draft.tables = (0..tables).map(|table| [8, table as u64 % 4]).collect();
    let signs = (0..2).flat_map(|sign| (0..tables).map(move |table| (table, sign)));
    let all = signs.flat_map(|(table, sign)| (0..draft.rules.len()).map(move |rule| [rule, table, sign]));
    draft.uses = all.take(uses).collect();
}

/// So many equal rules in unit 0, units and edges.
fn full_draft(rules: usize, units: usize, edges: usize) -> Draft {
    let mut draft = Draft::with_units(units);
    (0..rules).for_each(|_| draft.add_rule(0, [1, 0, 2]));
    let pairs = (0..units).flat_map(|u| (0..units).map(move |v| (u, v))).filter(|(u, v)| u != v);
    draft.edges = pairs.take(edges).collect();
    draft
}

/// Puts one faulty command in, and returns its place.
fn break_reading(random: &mut Random, draft: &Draft, groups: &Groups, commands: &mut Commands) -> usize {
    let (units, rules) = (draft.units.len() as u8, draft.rules.len());
    let edge = (random.byte() % 20, random.byte() % 20);
    let any_word = random.word() >> random.below(64);
    let (first, last, command) = match random.below(30) {
        0 => (0, groups.end, vec![random.byte()]),
        1 => (groups.rules, groups.uses, encode::rule(0, 0, 0)),
        2 => (groups.units, groups.edges, encode::unit(any_word)),
        3 => (groups.units, groups.edges, encode::unit(1u64.checked_shl(rules as u32).unwrap_or(0))),
        4 => (groups.edges, groups.end, encode::edge(edge.0, edge.1)),
        5 => (groups.edges, groups.end, encode::edge(units, 0)),
        6 => (groups.edges, groups.end, encode::edge(0, units)),
        7 => (groups.edges, groups.end, encode::edge(edge.0 % units.max(1), edge.0 % units.max(1))),
        8 => (groups.uses, groups.end, encode::rule(any_word, 0, 0)),
        9 => (groups.edges, groups.end, encode::unit(0)),
        10 => (0, groups.end, commands[random.below(commands.len())].clone()),
        11 => (0, groups.uses, encode::rule(any_word, any_word, any_word)),
        12 => (0, groups.end, encode::given(any_word)),
        13 => (0, groups.rules, encode::given(any_word)),
        14 => (groups.rules, groups.units, encode::given(any_word)),
        15 => (groups.rules, groups.uses, encode::rule(any_word, 1 << 63, 1 << 63)),
        16 => (groups.rules, groups.uses, encode::rule(0, any_word | 1, any_word | 3)),
        17 => (groups.rules, groups.end, encode::rule(any_word, any_word, any_word)),
        18..=20 => (groups.tables, groups.tables, encode::given(any_word)),
        21 => (0, groups.end, encode::show(any_word)),
        22..=24 => (groups.end, groups.end, encode::show(any_word)),
        25 => (0, groups.end, encode::count(counted_plans::near(random, draft.sizes()))),
        26 => (0, groups.tables, encode::count(draft.sizes())),
        27 => (1, groups.end, encode::count(draft.sizes())),
        _ => (groups.end + 1, groups.end + 1, vec![random.pick(&[0, 1, 2, 3, 4, 5, 6, 7, 8, 9]); random.between(1, 30)]),
    };
    let place = random.between(first, last).min(commands.len());
    commands.insert(place, command);
    place
}

/// A plan with tables and one to three faulty TABLEs or USEs, sometimes cut short at one.
pub fn broken_tables(random: &mut Random) -> Vec<u8> {
    let draft = if random.chance(20) { large_draft(random) } else { tables_draft(random) };
    let groups = Groups::of(&draft);
    let mut commands = draft.commands();
    for _ in 0..random.pick(&[1, 1, 1, 2, 3]) {
        let (first, last, command) = match random.chance(50) {
            true => faulty_table(random, &groups),
            false => faulty_use(random, &draft, &groups),
        };
        let place = random.between(first, last);
        commands.insert(place, command);
        if random.chance(30) {
            return cut_inside(random, &commands, place);
        }
    }
    commands.concat()
}

/// The first and the last place for a TABLE with a fault, and its bytes.
fn faulty_table(random: &mut Random, groups: &Groups) -> (usize, usize, Vec<u8>) {
    let any_word = random.word() >> random.below(64);
    let inputs = random.atoms_of(!0, 5);
    let seven = random.permutation(64)[..random.pick(&[7, 7, 8, 64])].iter().fold(0, |atoms, atom| atoms | 1 << atom);
    let first_past = 1u64 << (1u32 << inputs.count_ones());
    let in_order = (groups.tables, groups.rules);
    match random.below(8) {
        0 => (in_order.0, in_order.1, encode::table(seven, 0)),
        1 => (in_order.0, in_order.1, encode::table(seven, any_word)),
        2 => (in_order.0, in_order.1, encode::table(inputs, first_past)),
        3 => (in_order.0, in_order.1, encode::table(inputs, any_word)),
        4 => (in_order.0, in_order.1, encode::table(0, random.pick(&[0, 1, 2, 3, 1 << 63]))),
        5 => (0, groups.tables, encode::table(inputs, 1)),
        6 => (groups.uses, groups.end, encode::table(inputs, 1)),
        _ => (0, groups.end, encode::table(inputs, any_word & 1)),
    }
}

/// The first and the last place for a USE with a fault, and its bytes.
fn faulty_use(random: &mut Random, draft: &Draft, groups: &Groups) -> (usize, usize, Vec<u8>) {
    let (rules, tables) = (draft.rules.len() as u8, draft.tables.len() as u8);
    let (rule, table, sign) = (random.byte() % rules.max(1), random.byte() % tables.max(1), random.byte() % 2);
    let beyond = random.pick(&[0, 0, 1, 63, 191]);
    let in_order = (groups.uses, groups.units);
    let [old_rule, old_table, old_sign] = draft.uses.last().unwrap_or(&[0, 0, 0]).map(|number| number as u8);
    match random.below(12) {
        0 => (in_order.0, in_order.1, encode::use_of(rules.saturating_add(beyond), table, sign)),
        1 => (in_order.0, in_order.1, encode::use_of(rule, tables.saturating_add(beyond), sign)),
        2 | 3 => (in_order.0, in_order.1, encode::use_of(rule, table, random.pick(&[2, 2, 3, 128, 255]))),
        4 | 5 => (in_order.0, in_order.1, encode::use_of(old_rule, old_table, old_sign)),
        6 => (in_order.0, in_order.1, encode::use_of(old_rule, old_table, 1 - old_sign)),
        7 => (0, groups.rules, encode::use_of(rule, table, sign)),
        8 => (groups.units + 1, groups.end, encode::use_of(rule, table, sign)),
        // Between RULEs, of a rule that is there: what follows is late.
        9 => ((groups.rules + 1).min(groups.uses), groups.uses, encode::use_of(0, table, sign)),
        10 => (in_order.0, in_order.1, encode::use_of(table, rule, sign)),
        _ => (0, groups.end, encode::use_of(rule, table, sign)),
    }
}

/// The bytes up to somewhere inside the command at this place.
pub fn cut_inside(random: &mut Random, commands: &Commands, place: usize) -> Vec<u8> {
    let mut bytes = commands[..place].concat();
    let kept = random.between(0, commands[place].len());
    bytes.extend(&commands[place][..kept]);
    bytes
}

/// Commands of all kinds with small operands, in any order or by groups.
pub fn any_commands(random: &mut Random) -> Vec<u8> {
    let count = random.between(1, 12);
    let mut commands: Commands = (0..count).map(|_| any_command(random)).collect();
    if random.chance(60) {
        commands.sort_by_key(|command| (GROUP_ORDER.iter().position(|&byte| byte == command[0]), command[0]));
        commands.push(encode::end());
    }
    commands.concat()
}

/// The commands' bytes in the order of their groups; END may stand anywhere.
const GROUP_ORDER: [u8; 7] = [encode::COUNT, encode::GIVEN, encode::TABLE, encode::RULE, encode::USE, encode::UNIT, encode::EDGE];

fn any_command(random: &mut Random) -> Vec<u8> {
    let mut small = || random.word() & random.word() & 7;
    let (head, positive, negative) = (small(), small(), small());
    match random.below(52) {
        50 | 51 => encode::count([random.byte() % 4, random.byte() % 3, random.byte() % 2]),
        0..=19 => encode::rule(head, positive, negative),
        20..=29 => encode::unit(head),
        30..=35 => encode::edge(random.byte() % 4, random.byte() % 4),
        36 | 37 => encode::given(head << 2),
        38 => encode::end(),
        39..=43 => encode::table(head, positive),
        44..=48 => encode::use_of(random.byte() % 4, random.byte() % 3, random.byte() % 3),
        _ => vec![random.byte()],
    }
}

/// A full plan with one command more, faulty in other ways as well, and perhaps cut short.
pub fn one_too_many(random: &mut Random) -> Vec<u8> {
    let mut draft = full_draft(random.pick(&[60, 64]), 16, 240);
    draft.given = random.pick(&[None, Some(0), Some(4)]);
    draft.declared = random.pick(&[None, Some(draft.sizes())]);
    fill_tables(&mut draft, 16, 256);
    let groups = Groups::of(&draft);
    let mut commands = draft.commands();
    let any = random.word();
    let (first, last, command) = match random.below(15) {
        0 => (groups.uses, groups.uses, encode::rule(1, 2, 4)),
        1 => (groups.uses, groups.uses, encode::rule(0, 0, 0)),
        2 => (groups.uses + 1, groups.end, encode::rule(1, 0, any % 2)),
        3 => (groups.edges, groups.edges, encode::unit(any)),
        4 => (groups.edges, groups.edges, encode::unit(0)),
        5 => (groups.edges + 1, groups.end, encode::unit(any)),
        6 => (groups.end, groups.end, encode::edge(any as u8 % 18, any as u8 / 18)),
        7 => (0, groups.end, encode::given(any)),
        8 => (groups.rules, groups.rules, encode::table(1, 2)),
        9 => (groups.rules, groups.rules, encode::table(any, any)),
        10 => (groups.rules + 1, groups.end, encode::table(0, any % 4)),
        11 => (groups.units, groups.units, encode::use_of(63, 15, 1)),
        12 => (groups.units, groups.units, encode::use_of(any as u8, 0, 0)),
        13 => (groups.units + 1, groups.end, encode::use_of(63, 15, any as u8 % 3)),
        _ => (groups.end, groups.end, vec![any as u8]),
    };
    let place = random.between(first, last);
    commands.insert(place, command);
    if random.chance(40) {
        return cut_inside(random, &commands, place);
    }
    commands.concat()
}

// ---- Bytes -----------------------------------------------------------------------------------

/// A valid plan's bytes with one to three places damaged.
pub fn damaged(random: &mut Random) -> Vec<u8> {
    let mut bytes = sound_draft(random).bytes();
    for _ in 0..random.between(1, 3) {
        damage(random, &mut bytes);
    }
    bytes
}

fn damage(random: &mut Random, bytes: &mut Vec<u8>) {
    let place = random.below(bytes.len());
    match random.below(6) {
        0 | 1 if !bytes.is_empty() => bytes[place] ^= 1 << random.below(8),
        2 if !bytes.is_empty() => bytes[place] = random.byte(),
        3 => bytes.truncate(place),
        4 => bytes.insert(place, random.pick(&[0, 1, 2, 3, 4, 5, 6, 7, 255])),
        _ => bytes.push(random.pick(&[0, 1, 2, 3, 4, 5, 6, 7, 255])),
    }
}

/// Bytes that were never a plan.
pub fn random_bytes(random: &mut Random) -> Vec<u8> {
    let length = random.between(0, 300);
    let commands_only = random.chance(50);
    (0..length).map(|_| if commands_only { random.byte() % 8 } else { random.byte() }).collect()
}

pub fn no_bytes(_: &mut Random) -> Vec<u8> {
    Vec::new()
}

/// A longest plan: every command as often as it may stand.
fn longest_draft() -> Draft {
    let mut draft = full_draft(64, 16, 240);
    draft.declared = Some(draft.sizes());
    draft.given = Some(4);
    fill_tables(&mut draft, 16, 256);
    draft
}

/// More bytes than `settle` keeps.
pub fn long_input(random: &mut Random) -> Vec<u8> {
    let mut bytes = match random.below(8) {
        0 => random_bytes(random),
        1 => full_draft(64, 16, 240).bytes(),
        2 => encode::rule(1, 0, 0).repeat(random.between(1, 200)),
        3 => encode::table(0, 1).repeat(random.between(1, 300)),
        4 => [encode::table(0, 1), encode::rule(1, 0, 0), encode::use_of(0, 0, 0).repeat(1000)].concat(),
        5 => longest_draft().bytes(),
        6 => [encode::unit(0).repeat(16), encode::edge(0, 1)].concat(),
        _ => sound_draft(random).bytes(),
    };
    let length = random.between(4090, 6000).max(bytes.len());
    let filler = random.pick(&[0, 1, 3, 255]);
    bytes.resize(length, filler);
    bytes
}
