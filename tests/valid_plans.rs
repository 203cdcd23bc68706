//! Plans that pass reading and graph, of many shapes.

use crate::draft::{Draft, Words};
use crate::random::Random;

/// Most atoms in heads of a plan whose answer sets are found by trying every set.
pub const FEW_ATOMS: usize = 12;

pub fn bit(atom: usize) -> u64 {
    1 << atom
}

/// Some distinct atoms anywhere in 0 to 63, the two ends more often than others.
pub fn some_atoms(random: &mut Random, count: usize) -> Vec<u64> {
    let mut numbers = random.permutation(64);
    for end in [0, 63] {
        if random.chance(30) {
            numbers.retain(|&number| number != end);
            numbers.insert(0, end);
        }
    }
    numbers[..count].iter().map(|&atom| bit(atom)).collect()
}

// ---- Random rules over units in layers ------------------------------------------------------

/// Random rules in units that look only at units of lower rank; ranks are no unit numbers.
pub fn layered(random: &mut Random) -> Draft {
    let most_units = random.pick(&[1, 3, 6, 16]);
    let count = random.between(1, most_units);
    let mut draft = Draft::with_units(count);
    let by_rank = random.permutation(count);
    let owned = owned_atoms(random, count);
    let nowhere = !owned.iter().fold(0, |atoms, own| atoms | own);
    for _ in 0..random.between(0, 4) {
        let rank = random.below(count);
        let pair = [random.atoms_of(owned[rank], 1), random.atoms_of(owned[rank], 1)];
        add_choice(random, &mut draft, by_rank[rank], pair);
    }
    for _ in 0..random.between(1, 14) {
        let rank = random.below(count);
        let below = (0..rank).fold(0, |atoms, lower| atoms | owned[lower]);
        let words = random_rule(random, owned[rank], below, nowhere);
        let copies = if random.chance(5) { 2 } else { 1 };
        (0..copies).for_each(|_| draft.add_rule(by_rank[rank], words));
    }
    draft.cover_dependences();
    copy_constraints(random, &mut draft, &by_rank);
    add_lower_edges(random, &mut draft, &by_rank);
    draft
}

/// Deals a few atoms out to the ranks.
fn owned_atoms(random: &mut Random, ranks: usize) -> Vec<u64> {
    let count = random.between(1, FEW_ATOMS);
    let mut owned = vec![0; ranks];
    for atom in some_atoms(random, count) {
        owned[random.below(ranks)] |= atom;
    }
    owned
}

/// A rule with its head in `own` (or a constraint) and its body in `own` and `below`, with an
/// atom that no head has now and then.
fn random_rule(random: &mut Random, own: u64, below: u64, nowhere: u64) -> Words {
    let pool = own | below;
    let most_head = if random.chance(10) { 0 } else { random.pick(&[1, 1, 2, 2, 3]) };
    let most_positive = random.pick(&[0, 0, 1, 1, 2]);
    let most_negative = random.pick(&[0, 0, 0, 1, 1, 2]);
    let head = random.atoms_of(own, most_head);
    let mut positive = random.atoms_of(pool, most_positive);
    let mut negative = random.atoms_of(pool, most_negative);
    if random.chance(70) {
        // Otherwise odd loops of one atom would leave most plans without a position.
        negative &= !head;
    }
    if random.chance(4) {
        positive |= random.atoms_of(nowhere, 1);
    }
    if random.chance(6) {
        negative |= random.atoms_of(nowhere, 1);
    }
    if random.chance(4) {
        // Wants an atom both up and down: never acts, but still makes dependences.
        negative |= random.atoms_of(positive, 1);
    }
    [head, positive, negative]
}

/// Puts some constraints also into units that see all of their negative atoms but not all others.
fn copy_constraints(random: &mut Random, draft: &mut Draft, by_rank: &[usize]) {
    for rule in 0..draft.rules.len() {
        let [head, _, negative] = draft.rules[rule];
        let needed_rank = (0..by_rank.len()).filter(|&rank| draft.own_atoms(by_rank[rank]) & negative != 0).max();
        if head == 0 && random.chance(40) {
            let unit = by_rank[random.between(needed_rank.unwrap_or(0), by_rank.len() - 1)];
            draft.units[unit] |= bit(rule);
            draft.add_edges_to_atoms(unit, negative);
        }
    }
}

/// Adds some edges that no dependence asks for.
fn add_lower_edges(random: &mut Random, draft: &mut Draft, by_rank: &[usize]) {
    let count = by_rank.len();
    for _ in 0..random.pick(&[0, 1, count, 3 * count]) {
        let upper = random.below(count);
        let lower = random.below(upper);
        draft.add_edge(by_rank[upper], by_rank[lower]);
    }
}

// ---- Small circuits put together -------------------------------------------------------------

/// Circuits with a name (choices, loops, saturation, ..), each possibly led by atoms of earlier ones.
pub fn gadgets(random: &mut Random) -> Draft {
    let mut draft = Draft::with_units(1);
    let count = random.between(2, FEW_ATOMS);
    let mut fresh = some_atoms(random, count);
    let mut earlier = 0;
    while fresh.len() >= 2 {
        if random.chance(60) {
            draft.new_unit();
        }
        let unit = draft.units.len() - 1;
        let own = [fresh.pop().unwrap(), fresh.pop().unwrap()];
        let guard = if random.chance(40) { random.atoms_of(earlier, 1) } else { 0 };
        for words in gadget(random, own, guard) {
            draft.add_rule(unit, words);
        }
        if random.chance(25) {
            let (positive, negative) = (random.atoms_of(earlier, 1), random.atoms_of(earlier, 1));
            draft.add_rule(unit, [0, positive | random.pick(&own), negative & !positive]);
        }
        earlier |= own[0] | own[1];
    }
    draft.cover_dependences();
    draft.renumbered(random)
}

/// One circuit on two relays; its rules ask for the guard atom in their bodies.
fn gadget(random: &mut Random, [a, b]: [u64; 2], guard: u64) -> Vec<Words> {
    match random.below(9) {
        0 => vec![[a | b, guard, 0]],
        1 => vec![[a, guard, b], [b, guard, a]],
        2 => vec![[a, guard, a]],
        3 => vec![[a, b, 0], [b, a, 0]],
        4 => vec![[a | b, guard, 0], [a, b, 0], [b, a, 0]],
        5 => vec![[a, b, 0], [b, a, 0], [a, guard, 0]],
        6 => vec![[a | b, guard, 0], [a, b, a]],
        7 => vec![[a, 0, guard], [b, a, 0], [b, a, 0]],
        _ => vec![[a | b, guard, 0], [a | b, 0, guard]],
    }
}

/// A choice seen by several units, whose results meet again.
pub fn diamond(random: &mut Random) -> Draft {
    let sides = random.between(2, 5);
    let mut draft = Draft::with_units(sides + 2);
    let top = sides + 1;
    add_choice(random, &mut draft, 0, [bit(0), bit(1)]);
    let mut met = 0;
    for side in 1..=sides {
        let result = bit(side + 1);
        let seen = random.pick(&[bit(0), bit(0), bit(1)]);
        draft.add_rule(side, if random.chance(25) { [result, 0, seen] } else { [result, seen, 0] });
        met |= result;
    }
    draft.add_rule(top, [bit(sides + 2), random.atoms_of(met, sides), 0]);
    draft.cover_dependences();
    (1..=sides).for_each(|side| draft.add_edge(top, side));
    draft.renumbered(random)
}

/// A constraint in several units of which only one sees all of it; an empty unit joins some.
pub fn shared_constraint(random: &mut Random) -> Draft {
    let sources = random.between(2, 4);
    let mut draft = Draft::with_units(sources);
    for source in 0..sources {
        let own = [bit(2 * source), bit(2 * source + 1)];
        if random.chance(30) {
            draft.add_rule(source, [own[0], 0, 0]);
        } else {
            add_choice(random, &mut draft, source, own);
        }
    }
    let watched: u64 = (0..sources).fold(0, |atoms, source| atoms | bit(2 * source));
    let full = draft.new_unit();
    draft.add_rule(full, [0, watched, 0]);
    let constraint = bit(draft.rules.len() - 1);
    (0..sources).for_each(|source| draft.add_edge(full, source));
    for _ in 0..random.between(1, 3) {
        let partial = draft.new_unit();
        draft.units[partial] |= constraint;
        draft.add_edge(partial, random.below(sources));
    }
    for _ in 0..random.between(1, 3) {
        let join = draft.new_unit();
        (0..random.between(1, 4)).for_each(|_| draft.add_edge(join, random.below(join)));
    }
    draft.renumbered(random)
}

/// Empty units only, with edges downwards.
pub fn empty_units(random: &mut Random) -> Draft {
    let count = random.between(0, 16);
    let mut draft = Draft::with_units(count);
    for _ in 0..random.pick(&[0, count, 120]) {
        let upper = random.below(count);
        draft.add_edge(upper, random.below(upper));
    }
    draft.renumbered(random)
}

// ---- Given atoms -----------------------------------------------------------------------------

/// A plan of another shape with keys in some bodies, of which some are given; a given atom may also stand nowhere.
pub fn given_atoms(random: &mut Random) -> Draft {
    let mut draft = match random.below(6) {
        0 => diamond(random),
        1 => shared_constraint(random),
        2 => empty_units(random),
        3 => gadgets(random),
        _ => layered(random),
    };
    turn_keys(random, &mut draft);
    draft
}

/// The same with many atoms in heads.
pub fn given_among_many(random: &mut Random) -> Draft {
    let mut draft = match random.below(3) {
        0 => near_limit(random),
        1 => pairs_in_units(random),
        _ => tall(random),
    };
    turn_keys(random, &mut draft);
    draft
}

/// Puts keys, atoms that no head has, into some bodies and gives some of them.
pub fn turn_keys(random: &mut Random, draft: &mut Draft) {
    let free = !draft.head_atoms();
    let most_keys = random.pick(&[1, 2, 4, 8]);
    let keys = random.atoms_of(free, most_keys);
    for words in draft.rules.iter_mut() {
        if random.chance(20) {
            words[1] |= random.atoms_of(keys, 1);
        }
        if random.chance(10) {
            words[2] |= random.atoms_of(keys, 1);
        }
    }
    let given = match random.below(8) {
        0 => 0,
        1 => keys | random.atoms_of(free, 60),
        2 => random.atoms_of(free, 2),
        _ => random.word() & keys | random.atoms_of(keys, 1),
    };
    draft.given = Some(given);
}

// ---- Long lists ------------------------------------------------------------------------------

/// A choice of one of two relays, as a disjunction or as an even loop.
pub fn add_choice(random: &mut Random, draft: &mut Draft, unit: usize, [a, b]: [u64; 2]) {
    if random.chance(50) {
        draft.add_rule(unit, [a | b, 0, 0]);
    } else {
        draft.add_rule(unit, [a, 0, b]);
        draft.add_rule(unit, [b, 0, a]);
    }
}

/// The two relays that stand for bit i of a counted number being 1 or 0.
pub fn one(i: usize) -> u64 {
    bit(2 * i)
}

pub fn zero(i: usize) -> u64 {
    bit(2 * i + 1)
}

/// Choices number `first` to `last`, all in one unit.
pub fn add_choices(random: &mut Random, draft: &mut Draft, unit: usize, first: usize, last: usize) {
    (first..=last).for_each(|i| add_choice(random, draft, unit, [one(i), zero(i)]));
}

/// Constraints that leave the first `count` of the 512 numbers of nine choices.
fn upper_bound(count: usize) -> Vec<Words> {
    let low = |bits: std::ops::Range<usize>| bits.map(move |i| [0, one(8) | one(i), 0]);
    match count {
        255 => vec![[0, one(8), 0], [0, (0..8).fold(0, |all, i| all | one(i)), 0]],
        256 => vec![[0, one(8), 0]],
        257 => low(0..8).collect(),
        _ => low(1..8).collect(),
    }
}

/// Nine choices cut to 255, 256, 257 or 258 positions, in one unit or in several.
pub fn near_limit(random: &mut Random) -> Draft {
    let mut draft = Draft::with_units(1);
    let in_one_unit = random.chance(20);
    for i in 0..=8 {
        if i > 0 && !in_one_unit && random.chance(70) {
            draft.new_unit();
        }
        let unit = draft.units.len() - 1;
        add_choices(random, &mut draft, unit, i, i);
    }
    let unit = if in_one_unit { 0 } else { draft.new_unit() };
    for words in upper_bound(random.pick(&[255, 256, 256, 257, 257, 258])) {
        draft.add_rule(unit, words);
    }
    draft.cover_dependences();
    draft.renumbered(random)
}

/// Exactly 256 positions from eight choices, spread over units with and without a join.
pub fn exactly_256(random: &mut Random) -> Draft {
    let split = random.between(1, 7);
    let mut draft = Draft::with_units(3);
    add_choices(random, &mut draft, 1, 0, split - 1);
    add_choices(random, &mut draft, 2, split, 7);
    if random.chance(50) {
        draft.add_edge(0, 1);
        draft.add_edge(0, 2);
    }
    if random.chance(50) {
        // One more atom that follows from a choice leaves the number of positions as it is.
        draft.add_rule(0, [bit(40), one(0), one(7)]);
        draft.cover_dependences();
    }
    draft.renumbered(random)
}

/// Separate pairs in as many units; from nine on the last list is too long.
pub fn pairs_in_units(random: &mut Random) -> Draft {
    let count = random.pick(&[1, 2, 5, 8, 8, 9, 9, 10, 16]);
    let mut draft = Draft::with_units(count);
    (0..count).for_each(|unit| add_choices(random, &mut draft, unit, unit, unit));
    while draft.units.len() < 16 && random.chance(60) {
        let join = draft.new_unit();
        (0..random.between(1, 8)).for_each(|_| draft.add_edge(join, random.below(join)));
    }
    draft.renumbered(random)
}

/// Inner lists above 256, above which a constraint may leave little or nothing.
pub fn over_limit_inside(random: &mut Random) -> Draft {
    let mut draft = Draft::with_units(2);
    add_choices(random, &mut draft, 0, 0, 3);
    let last_choice = random.between(7, 9);
    add_choices(random, &mut draft, 1, 4, last_choice);
    for _ in 0..random.between(1, 3) {
        let join = draft.new_unit();
        draft.add_edge(join, 0);
        draft.add_edge(join, 1);
        if random.chance(50) {
            draft.add_edge(join, random.below(join));
        }
    }
    let top = draft.new_unit();
    draft.add_edge(top, top - 1);
    draft.add_rule(top, [0, one(0), 0]);
    draft.add_rule(top, [0, zero(0), 0]);
    draft.cover_dependences();
    draft.renumbered(random)
}

/// Far more inputs than positions: a unit above two long lists lets only equal halves pass.
pub fn many_inputs(random: &mut Random) -> Draft {
    let half = random.between(3, 5);
    let mut draft = Draft::with_units(3);
    add_choices(random, &mut draft, 0, 0, half - 1);
    add_choices(random, &mut draft, 1, half, 2 * half - 1);
    for i in 0..half {
        draft.add_rule(2, [0, one(i) | zero(half + i), 0]);
        if random.chance(80) {
            draft.add_rule(2, [0, zero(i) | one(half + i), 0]);
        }
    }
    draft.cover_dependences();
    draft.renumbered(random)
}

/// Sixteen units with up to 64 atoms in heads, few of them free.
pub fn tall(random: &mut Random) -> Draft {
    let mut draft = Draft::with_units(16);
    add_choice(random, &mut draft, 0, [bit(0), bit(1)]);
    for unit in 1..16 {
        let any = random.below(unit);
        let seen = random.pick(&[unit - 1, unit - 1, any]);
        let (own, other) = (4 * unit, 4 * seen);
        draft.add_rule(unit, [bit(own), bit(other), 0]);
        draft.add_rule(unit, [bit(own + 1), bit(other + 1), bit(other)]);
        draft.add_rule(unit, [bit(own + 2), bit(own), random.pick(&[0, bit(own + 1)])]);
        if unit % 6 == 0 {
            draft.add_rule(unit, [bit(own + 2) | bit(own + 3), bit(own + 1), 0]);
        }
    }
    draft.cover_dependences();
    draft.renumbered(random)
}

/// All 64 rules and 16 units, over few atoms.
pub fn full_size(random: &mut Random) -> Draft {
    let mut draft = Draft::with_units(16);
    let atoms = some_atoms(random, 10);
    let pool = atoms.iter().fold(0, |pool, atom| pool | atom);
    while draft.rules.len() < 64 {
        let head = random.atoms_of(pool, 2);
        let words = [head, random.atoms_of(pool, 1) & !head, random.atoms_of(pool, 1)];
        draft.add_rule(15, words);
    }
    for unit in 0..16 {
        (0..unit).for_each(|lower| draft.add_edge(unit, lower));
    }
    draft.renumbered(random)
}
