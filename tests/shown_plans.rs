//! Plans with a SHOW: their last list has the positions cut to the atoms that show.

use crate::draft::Draft;
use crate::random::Random;
use crate::valid_plans::{self as valid, add_choice, add_choices, bit, one, zero};

/// A plan of another shape that shows none, some or all of its atoms.
pub fn shown_atoms(random: &mut Random) -> Draft {
    let mut draft = match random.below(7) {
        0 => valid::diamond(random),
        1 => valid::shared_constraint(random),
        2 => valid::empty_units(random),
        3 => valid::gadgets(random),
        4 => valid::given_atoms(random),
        _ => valid::layered(random),
    };
    show_some(random, &mut draft);
    draft
}

/// The same with many atoms in heads.
pub fn shown_among_many(random: &mut Random) -> Draft {
    let mut draft = match random.below(3) {
        0 => valid::near_limit(random),
        1 => valid::pairs_in_units(random),
        _ => valid::tall(random),
    };
    show_some(random, &mut draft);
    draft
}

/// None, a few, about half, all but a few or all of the atoms in heads, or any atoms: given ones and such as are in no head among them.
fn show_some(random: &mut Random, draft: &mut Draft) {
    let heads = draft.head_atoms();
    let word = match random.below(7) {
        0 => 0,
        1 => !0,
        2 => heads,
        3 => random.atoms_of(heads, 2),
        4 => heads & !random.atoms_of(heads, 2),
        5 => random.word() & heads,
        _ => random.word(),
    };
    draft.shown = Some(word);
}

/// Relays with helpers that tell positions apart: a helper follows a relay or is chosen beside it. Shown are the relays, or the helpers alone.
pub fn helpers(random: &mut Random) -> Draft {
    let count = random.between(1, 3);
    let mut draft = Draft::with_units(1);
    let (mut relays, mut helping) = (0, 0);
    for i in 0..count {
        let unit = if i > 0 && random.chance(50) { draft.new_unit() } else { draft.units.len() - 1 };
        let [up, down, a, b] = [0, 1, 2, 3].map(|place| bit(4 * i + place));
        add_choice(random, &mut draft, unit, [up, down]);
        match random.below(3) {
            0 => draft.add_rule(unit, [a | b, random.pick(&[0, up]), 0]),
            1 => add_choice(random, &mut draft, unit, [a, b]),
            _ => draft.add_rule(unit, [a, up, 0]),
        }
        if random.chance(30) {
            draft.add_rule(unit, [0, a | down, 0]);
        }
        relays |= up | down;
        helping |= a | b;
    }
    draft.cover_dependences();
    draft.shown = Some(random.pick(&[relays, relays, helping, relays | helping]));
    draft.renumbered(random)
}

/// More than 256 positions in the last list, of which the shown choices leave 2 to 256, or a few more than 256.
pub fn long_until_cut(random: &mut Random) -> Draft {
    let count = random.pick(&[9, 9, 10, 11]);
    let mut draft = Draft::with_units(count);
    (0..count).for_each(|unit| add_choices(random, &mut draft, unit, unit, unit));
    let showing = random.pick(&[1, 2, 4, 7, 8, 8, 9]);
    draft.shown = Some(shown_choices(random, count, showing));
    draft.renumbered(random)
}

/// A unit's list above 256, though what shows of the last list would fit: refused all the same.
pub fn unit_list_too_long(random: &mut Random) -> Draft {
    let mut draft = valid::over_limit_inside(random);
    draft.shown = Some(match random.below(3) {
        0 => 0,
        1 => random.atoms_of(draft.head_atoms(), 3),
        _ => shown_choices(random, 9, 4),
    });
    draft
}

/// One or both relays of so many of the first `count` choices.
fn shown_choices(random: &mut Random, count: usize, showing: usize) -> u64 {
    let chosen = &random.permutation(count)[..showing];
    chosen.iter().fold(0, |word, &i| word | random.pick(&[one(i), zero(i), one(i) | zero(i)]))
}
