//! Plans of choices and constraints of which several small groups may be to blame for there being no position.

use crate::draft::{Draft, Words};
use crate::random::Random;
use crate::table_plans::{put_tables, FALSE, TRUE};
use crate::valid_plans::{add_choices, bit, one, turn_keys, zero};

/// A word for each choice: how a combination of them is forbidden.
type Group = Vec<Words>;

/// Choices, and groups of constraints each of which forbids every combination of some of them; now and then one constraint is missing, or a headed
/// rule leaves no answer set by itself.
pub fn groups_of_constraints(random: &mut Random) -> Draft {
    let choices = random.between(1, 5);
    let mut draft = Draft::with_units(1);
    add_choices(random, &mut draft, 0, 0, choices - 1);
    let mut constraints: Vec<Words> = Vec::new();
    for _ in 0..random.pick(&[1, 1, 2, 2, 3, 4]) {
        constraints.extend(group(random, choices));
    }
    if random.chance(15) {
        constraints.remove(random.below(constraints.len()));
    }
    for _ in 0..random.below(3) {
        constraints.push(random.pick(&constraints));
    }
    random.shuffle(&mut constraints);
    constraints.into_iter().for_each(|words| draft.add_rule(0, words));
    if random.chance(15) {
        let odd = bit(2 * choices);
        draft.add_rule(0, [odd, random.atoms_of((1 << (2 * choices)) - 1, 1) * u64::from(random.chance(30)), odd]);
    }
    finished(random, draft)
}

/// All combinations of one to three choices, forbidden one by one.
fn group(random: &mut Random, choices: usize) -> Group {
    let count = random.between(1, choices.min(3));
    let chosen: Vec<usize> = random.permutation(choices).into_iter().take(count).collect();
    (0..1usize << count).map(|combination| forbidden(random, &chosen, combination)).collect()
}

/// A body that holds at just one combination of the chosen ones: by the relay that is up, or by the one that is not.
fn forbidden(random: &mut Random, chosen: &[usize], combination: usize) -> Words {
    chosen.iter().enumerate().fold([0; 3], |[head, positive, negative], (place, &choice)| {
        let (up, down) = if combination >> place & 1 == 1 { (one(choice), zero(choice)) } else { (zero(choice), one(choice)) };
        if random.chance(50) {
            [head, positive | up, negative]
        } else {
            [head, positive, negative | down]
        }
    })
}

/// Edges and numbers at random; now and then keys are turned, tables come in, constraints use one that is always true or false, some atoms show.
fn finished(random: &mut Random, mut draft: Draft) -> Draft {
    draft.cover_dependences();
    let mut draft = draft.renumbered(random);
    if random.chance(20) {
        turn_keys(random, &mut draft);
    }
    if random.chance(20) {
        put_tables(random, &mut draft);
    }
    if random.chance(20) {
        let table = draft.add_table([0, 1]);
        for rule in 0..draft.rules.len() {
            if draft.rules[rule][0] == 0 && random.chance(60) {
                draft.add_use(rule, table, if random.chance(80) { TRUE } else { FALSE });
            }
        }
    }
    if random.chance(30) {
        draft.shown = Some(random.word());
    }
    draft
}
