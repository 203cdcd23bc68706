//! Plans with a COUNT: right and wrong numbers, lost and doubled commands, late and cut COUNTs.

use crate::broken_plans::{cut_inside, large_draft, sound_draft};
use crate::draft::Draft;
use crate::encode;
use crate::random::Random;
use crate::shown_plans;

/// A plan of another shape that declares its sizes.
pub fn right(random: &mut Random) -> Draft {
    let mut draft = if random.chance(20) { shown_plans::shown_atoms(random) } else { sound_draft(random) };
    draft.declared = Some(draft.sizes());
    draft
}

/// These sizes, or nearly so: one number more or less, two exchanged, zeros or any numbers.
pub fn near(random: &mut Random, sizes: [u8; 3]) -> [u8; 3] {
    let mut numbers = sizes;
    let place = random.below(3);
    match random.below(7) {
        0 => numbers[place] = numbers[place].wrapping_add(1),
        1 => numbers[place] = numbers[place].wrapping_sub(1),
        2 => numbers.swap(place, (place + 1) % 3),
        3 => numbers[place] = 0,
        4 => numbers = [0; 3],
        5 => numbers[place] = random.byte(),
        _ => (),
    }
    numbers
}

/// Wrong numbers, sometimes with bytes after END, or with another fault at its place before END.
pub fn wrong(random: &mut Random) -> Vec<u8> {
    let mut draft = if random.chance(15) { large_draft(random) } else { sound_draft(random) };
    // A number of uses or tables is not what is declared.
    let uses = [draft.sizes()[0], draft.sizes()[1], (draft.edges.len() + draft.uses.len()) as u8];
    draft.declared = Some(if random.chance(15) { uses } else { near(random, draft.sizes()) });
    let mut bytes = draft.bytes();
    match random.below(6) {
        0 => bytes.extend(vec![random.byte(); random.between(1, 9)]),
        1 => bytes.truncate(bytes.len() - 1),
        2 => bytes.insert(bytes.len() - 1, random.byte()),
        _ => (),
    }
    bytes
}

/// A plan that declares its sizes and lost one whole command on its way, or has one twice.
pub fn lost_or_doubled(random: &mut Random) -> Vec<u8> {
    let mut draft = if random.chance(15) { large_draft(random) } else { right(random) };
    draft.declared = Some(draft.sizes());
    let mut commands = draft.commands();
    // END stays, and COUNT mostly does.
    let first = usize::from(random.chance(90));
    let last = commands.len() - 2;
    if last < first {
        return commands.concat();
    }
    // An EDGE is one of the last commands, and of these the likeliest to go.
    let place = if random.chance(40) { last } else { random.between(first, last) };
    if random.chance(70) {
        commands.remove(place);
    } else {
        commands.insert(place, commands[place].clone());
    }
    commands.concat()
}

/// A COUNT that is not the first command, a second one, or one that is cut short.
pub fn late_or_cut(random: &mut Random) -> Vec<u8> {
    let mut draft = sound_draft(random);
    if random.chance(50) {
        draft.given.get_or_insert(0);
    }
    let count = encode::count(near(random, draft.sizes()));
    if random.chance(40) {
        draft.declared = Some(draft.sizes());
    }
    let mut commands = draft.commands();
    let place = match random.below(4) {
        0 => 0,
        1 | 2 => random.pick(&[1, 1, 2]).min(commands.len()),
        _ => random.between(0, commands.len()),
    };
    commands.insert(place, count);
    if random.chance(40) {
        return cut_inside(random, &commands, place);
    }
    commands.concat()
}
