//! Plans that pass reading and graph and whose search meets many stops: few positions are left, or none.

use crate::draft::{Draft, Words};
use crate::random::Random;
use crate::table_plans::{any_table, put_tables, truth_by, FALSE, TRUE};
use crate::valid_plans::{add_choice, add_choices, bit, one, turn_keys, zero};

/// Most atoms in heads: of so many the comparison still tries every set.
const MOST_ATOMS: usize = 14;

/// A part of a rule's body: positive atoms, negative atoms.
type Body = [u64; 2];

/// What a choice or a relay says, with every body that holds where it is up, and every one that holds where it is not.
#[derive(Clone)]
struct Contact {
    up: Vec<Body>,
    down: Vec<Body>,
}

impl Contact {
    fn of_relay(relay: u64) -> Contact {
        Contact { up: vec![[relay, 0]], down: vec![[0, relay]] }
    }

    fn of_choice(i: usize) -> Contact {
        Contact { up: vec![[one(i), 0], [0, zero(i)]], down: vec![[zero(i), 0], [0, one(i)]] }
    }

    /// This relay is up where the contact is, so it says the same.
    fn follow(&mut self, relay: u64) {
        self.up.push([relay, 0]);
        self.down.push([0, relay]);
    }

    /// One of the bodies that hold where it is up, or where it is not.
    fn body(&self, random: &mut Random, is_up: bool) -> Body {
        random.pick(if is_up { &self.up } else { &self.down })
    }
}

fn with_head(head: u64, bodies: &[Body]) -> Words {
    bodies.iter().fold([head, 0, 0], |[head, positive, negative], body| [head, positive | body[0], negative | body[1]])
}

/// Choices in one unit, or some of them in units below; the unit that sees all of them.
fn spread_choices(random: &mut Random, draft: &mut Draft, count: usize) -> usize {
    let percent = random.pick(&[0, 0, 30, 70]);
    for i in 0..count {
        let unit = same_or_next(random, draft, if i > 0 { percent } else { 0 });
        add_choices(random, draft, unit, i, i);
    }
    same_or_next(random, draft, percent)
}

/// The newest unit, or with this chance one more.
fn same_or_next(random: &mut Random, draft: &mut Draft, percent: usize) -> usize {
    if random.chance(percent) {
        draft.new_unit();
    }
    draft.units.len() - 1
}

/// Adds the edges and numbers all at random; now and then keys are turned, or tables come in.
fn finished(random: &mut Random, mut draft: Draft) -> Draft {
    draft.cover_dependences();
    let mut draft = draft.renumbered(random);
    if random.chance(10) {
        turn_keys(random, &mut draft);
    }
    if random.chance(10) {
        put_tables(random, &mut draft);
    }
    draft
}

// ---- Contradicting constraints ---------------------------------------------------------------

/// Choices, relays that follow some of them, and constraints that forbid all combinations, or all but a few.
pub fn contradicting_constraints(random: &mut Random) -> Draft {
    let choices = random.between(2, 6);
    let mut draft = Draft::with_units(1);
    let unit = spread_choices(random, &mut draft, choices);
    let mut contacts: Vec<Contact> = (0..choices).map(Contact::of_choice).collect();
    let mut fresh: Vec<u64> = (2 * choices..MOST_ATOMS).map(bit).collect();
    while fresh.len() >= 2 && random.chance(50) {
        let own = [fresh.pop().unwrap(), fresh.pop().unwrap()];
        let followed = random.below(choices);
        add_followers(random, &mut draft, unit, &mut contacts[followed], own);
    }
    let gaps = random.pick(&[0, 0, 5, 15]);
    forbid_all(random, &mut draft, unit, &contacts, Vec::new(), gaps);
    finished(random, draft)
}

/// Two relays that are up where the contact is: one after the other, or holding each other up.
fn add_followers(random: &mut Random, draft: &mut Draft, unit: usize, contact: &mut Contact, [a, b]: [u64; 2]) {
    let lead = contact.body(random, true);
    draft.add_rule(unit, with_head(a, &[lead]));
    draft.add_rule(unit, [b, a, 0]);
    if random.chance(50) {
        draft.add_rule(unit, [a, b, 0]);
    }
    contact.follow(a);
    contact.follow(b);
}

/// A constraint at each end of a tree that asks one contact after the other; some ends are left out.
fn forbid_all(random: &mut Random, draft: &mut Draft, unit: usize, open: &[Contact], path: Vec<Body>, gaps: usize) {
    if open.is_empty() || path.len() >= 2 && random.chance(25) {
        if !random.chance(gaps) {
            draft.add_rule(unit, with_head(0, &path));
        }
        return;
    }
    let mut rest = open.to_vec();
    let asked = rest.remove(random.below(open.len()));
    for is_up in [true, false] {
        let body = asked.body(random, is_up);
        forbid_all(random, draft, unit, &rest, [path.as_slice(), &[body]].concat(), gaps);
    }
}

// ---- Pigeonholes -----------------------------------------------------------------------------

/// An atom for each train and track, numbered behind the atoms of spare choices.
#[derive(Clone, Copy)]
struct Yard {
    spare: usize,
    trains: usize,
    tracks: usize,
}

impl Yard {
    fn place(self, train: usize, track: usize) -> u64 {
        bit(2 * self.spare + train * self.tracks + track)
    }

    /// The places of one train on all tracks.
    fn of_train(self, train: usize) -> u64 {
        (0..self.tracks).fold(0, |places, track| places | self.place(train, track))
    }

    /// The places of the first trains on one track.
    fn on_track(self, track: usize, trains: usize) -> u64 {
        (0..trains).fold(0, |places, train| places | self.place(train, track))
    }
}

/// Trains and tracks that do not match, or just do, beside choices that have little to do with it.
pub fn pigeonholes(random: &mut Random) -> Draft {
    let (trains, tracks) = random.pick(&[(2, 3), (3, 2), (3, 2), (3, 3), (3, 4), (3, 4), (4, 2), (4, 3), (4, 3)]);
    let yard = Yard { spare: random.between(0, (MOST_ATOMS - trains * tracks) / 2), trains, tracks };
    let mut draft = Draft::with_units(1);
    spread_choices(random, &mut draft, yard.spare);
    let (percent, in_turn) = (random.pick(&[0, 0, 40]), random.chance(30));
    for train in 0..trains {
        let unit = same_or_next(random, &mut draft, percent);
        add_train(&mut draft, unit, yard, train, in_turn);
    }
    let unit = same_or_next(random, &mut draft, percent);
    // Where the guard is down, the constraints that ask for it have no effect.
    let guard = if yard.spare > 0 && random.chance(30) { one(random.below(yard.spare)) } else { 0 };
    for track in 0..tracks {
        add_track(&mut draft, unit, yard, track, random.pick(&[0, guard]));
    }
    if in_turn {
        (0..trains).for_each(|train| draft.add_rule(unit, [0, random.pick(&[0, guard]), yard.of_train(train)]));
    }
    add_spare_constraints(random, &mut draft, unit, yard.spare);
    finished(random, draft)
}

/// A train on one of all tracks, or, if trains come in turn, on one of those that no earlier train has.
fn add_train(draft: &mut Draft, unit: usize, yard: Yard, train: usize, in_turn: bool) {
    let places = yard.of_train(train);
    if !in_turn {
        return draft.add_rule(unit, [places, 0, 0]);
    }
    for track in 0..yard.tracks {
        let place = yard.place(train, track);
        draft.add_rule(unit, [place, 0, places & !place | yard.on_track(track, train)]);
    }
}

/// A track must be used, if there are more of them than trains; otherwise no two trains may be on it.
fn add_track(draft: &mut Draft, unit: usize, yard: Yard, track: usize, guard: u64) {
    if yard.tracks > yard.trains {
        return draft.add_rule(unit, [0, guard, yard.on_track(track, yard.trains)]);
    }
    for train in 0..yard.trains {
        for other in 0..train {
            draft.add_rule(unit, [0, guard | yard.place(train, track) | yard.place(other, track), 0]);
        }
    }
}

/// Constraints over the spare choices, now and then with one atom of the others.
fn add_spare_constraints(random: &mut Random, draft: &mut Draft, unit: usize, spare: usize) {
    let keys = (0..spare).fold(0, |keys, i| keys | one(i) | zero(i));
    for _ in 0..random.between(0, 2 * spare) {
        let other = if random.chance(30) { random.atoms_of(draft.head_atoms(), 1) } else { 0 };
        draft.add_rule(unit, [0, random.atoms_of(keys, 2) | other, random.atoms_of(keys, 1)]);
    }
}

// ---- Contradicting parities ------------------------------------------------------------------

/// Keys of which an odd or an even number must be up, told twice by chains of relays in different orders.
pub fn contradicting_parities(random: &mut Random) -> Draft {
    let count = random.pick(&[2, 3, 3, 4, 4]);
    let mut draft = Draft::with_units(1);
    spread_choices(random, &mut draft, count);
    let is_odd = random.chance(50);
    let both_agree = random.chance(20);
    let mut relay = 2 * count;
    for wanted in [is_odd, is_odd == both_agree] {
        let order = random.permutation(count);
        let unit = same_or_next(random, &mut draft, 20);
        let mut last = Contact::of_choice(order[0]);
        for &key in &order[1..count - 1] {
            last = add_parity(random, &mut draft, unit, bit(relay), [&last, &Contact::of_choice(key)]);
            relay += 1;
        }
        ask_parity(random, &mut draft, unit, [&last, &Contact::of_choice(order[count - 1])], wanted);
    }
    finished(random, draft)
}

/// The contact of a new relay that is up where just one of two contacts is, by two rules or by a table.
fn add_parity(random: &mut Random, draft: &mut Draft, unit: usize, relay: u64, [a, b]: [&Contact; 2]) -> Contact {
    if random.chance(15) {
        let table = draft.add_table([a.up[0][0] | b.up[0][0], 0b0110]);
        draft.add_rule_with(unit, [relay, 0, 0], table, TRUE);
    } else {
        for is_up in [true, false] {
            let bodies = [a.body(random, is_up), b.body(random, !is_up)];
            draft.add_rule(unit, with_head(relay, &bodies));
        }
    }
    Contact::of_relay(relay)
}

/// Forbids that an even number of two contacts is up where an odd one is wanted, or the other way round.
fn ask_parity(random: &mut Random, draft: &mut Draft, unit: usize, [a, b]: [&Contact; 2], wants_odd: bool) {
    for is_up in [true, false] {
        let bodies = [a.body(random, is_up), b.body(random, is_up == wants_odd)];
        draft.add_rule(unit, with_head(0, &bodies));
    }
}

/// The same with eight or nine keys, some of them in a unit below, told by tables: hundreds of stops.
pub fn parities_of_many(random: &mut Random) -> Draft {
    let count = random.between(8, 9);
    let below = random.pick(&[0, 0, 2, 3, 4]);
    let mut draft = Draft::with_units(1);
    (0..below).for_each(|i| add_choices(random, &mut draft, 0, i, i));
    let unit = if below > 0 { draft.new_unit() } else { 0 };
    add_choices(random, &mut draft, unit, below, count - 1);
    let is_odd = random.chance(50);
    let both_agree = random.chance(20);
    for wanted in [is_odd, is_odd == both_agree] {
        let order = random.permutation(count);
        let (first, others) = order.split_at(random.between(count - 6, 6));
        let tables = [first, others].map(|keys| add_parity_table(&mut draft, keys));
        for sign in [TRUE, FALSE] {
            // A constraint needs a word: no head has atom 63, so it is never up.
            draft.add_rule_with(unit, [0, 0, bit(63)], tables[0], sign);
            draft.add_use(draft.rules.len() - 1, tables[1], if wanted { sign } else { TRUE + FALSE - sign });
        }
    }
    let constrained = random.pick(&[0, 0, 1, 2]);
    add_spare_constraints(random, &mut draft, unit, constrained);
    finished(random, draft)
}

/// A table that tells whether an odd number of these keys is up.
fn add_parity_table(draft: &mut Draft, keys: &[usize]) -> usize {
    let inputs = keys.iter().fold(0, |inputs, &key| inputs | one(key));
    draft.add_table([inputs, truth_by(keys.len(), |row| row.count_ones() % 2 == 1)])
}

// ---- Hitting sets ----------------------------------------------------------------------------

/// Disjunctions that share atoms, in one unit or in two, and constraints that few of their smallest hitting sets pass.
pub fn hitting_sets(random: &mut Random) -> Draft {
    let mut draft = Draft::with_units(1);
    let mut seen = 0;
    let (blocks, most) = random.pick(&[(1, 12), (1, 12), (2, 6)]);
    for block in 0..blocks {
        let count = random.between(4, most);
        let own = (most * block..most * block + count).fold(0, |atoms, atom| atoms | bit(atom));
        let unit = if block == 0 { 0 } else { draft.new_unit() };
        for _ in 0..random.between(2, count) {
            let guard = if random.chance(20) { random.atoms_of(seen | own, 1) } else { 0 };
            let most = random.between(2, 4);
            draft.add_rule(unit, [random.atoms_of(own, most), guard, 0]);
        }
        for _ in 0..random.pick(&[0, 0, 1, 2, 4]) {
            draft.add_rule(unit, [random.atoms_of(own, 1), random.atoms_of(own, 2), 0]);
        }
        seen |= own;
    }
    if random.chance(30) {
        let pair = [bit(MOST_ATOMS - 2), bit(MOST_ATOMS - 1)];
        add_choice(random, &mut draft, 0, pair);
        seen |= pair[0] | pair[1];
    }
    let unit = same_or_next(random, &mut draft, 20);
    for _ in 0..random.between(2, 12) {
        let words = match random.below(3) {
            0 => [0, random.atoms_of(seen, 3), 0],
            1 => [0, 0, random.atoms_of(seen, 4)],
            _ => [0, random.atoms_of(seen, 2), random.atoms_of(seen, 2)],
        };
        draft.add_rule(unit, words);
    }
    finished(random, draft)
}

// ---- Failed tests ----------------------------------------------------------------------------

/// Choices, and pairs that all go up with a top relay where terms over both leave them no way out: most full positions have a smaller set.
pub fn saturated(random: &mut Random) -> Draft {
    let (choices, pairs) = random.pick(&[(1, 3), (2, 2), (2, 3), (3, 2), (3, 3), (4, 2)]);
    let mut draft = Draft::with_units(1);
    let unit = spread_choices(random, &mut draft, choices);
    let paired = (choices..choices + pairs).fold(0, |atoms, i| atoms | one(i) | zero(i));
    let chosen = (0..choices).fold(0, |atoms, i| atoms | one(i) | zero(i));
    let top = bit(2 * (choices + pairs));
    (choices..choices + pairs).for_each(|i| draft.add_rule(unit, [one(i) | zero(i), 0, 0]));
    for _ in 0..random.between(2, 3 * pairs + 4) {
        let term = random.atoms_of(chosen, 1) | random.atoms_of(paired, 2);
        draft.add_rule(unit, [top, term, 0]);
        if random.chance(15) {
            use_any_table(random, &mut draft, chosen | paired | top);
        }
    }
    for i in choices..choices + pairs {
        draft.add_rule(unit, [one(i), top, 0]);
        draft.add_rule(unit, [zero(i), top, 0]);
    }
    if random.chance(70) {
        draft.add_rule(unit, [0, 0, top]);
    }
    finished(random, draft)
}

/// Disjunctions over atoms that also lead to each other, with tables that look at the heads of the rules that use them.
pub fn head_cycles(random: &mut Random) -> Draft {
    let mut draft = Draft::with_units(1);
    let own = (0..random.between(3, 8)).fold(0, |atoms, atom| atoms | bit(atom));
    for _ in 0..random.between(1, 3) {
        draft.add_rule(0, [random.atoms_of(own, 2) | random.atoms_of(own, 2), 0, 0]);
        if random.chance(20) {
            use_any_table(random, &mut draft, own);
        }
    }
    for _ in 0..random.between(3, 10) {
        let head = random.atoms_of(own, 1);
        let negative = if random.chance(15) { random.atoms_of(own & !head, 1) } else { 0 };
        draft.add_rule(0, [head, random.atoms_of(own & !head, 2), negative]);
        if random.chance(40) {
            use_any_table(random, &mut draft, own);
        }
    }
    if random.chance(40) {
        draft.add_rule(0, [0, random.atoms_of(own, 1), random.atoms_of(own, 2)]);
    }
    finished(random, draft)
}

/// The newest rule uses a new table over some of these atoms and of its own head.
fn use_any_table(random: &mut Random, draft: &mut Draft, pool: u64) {
    let Some(rule) = draft.rules.len().checked_sub(1) else { return };
    let [inputs, _] = any_table(random, pool);
    let inputs = if inputs.count_ones() < 6 { inputs | random.atoms_of(draft.rules[rule][0], 1) } else { inputs };
    let truth = random.word() & truth_by(inputs.count_ones() as usize, |_| true);
    let table = draft.add_table([inputs, truth]);
    draft.add_use(rule, table, random.pick(&[TRUE, TRUE, FALSE]));
}
