//! Single positions: which are asked of a plan, and what the library must answer.

use crate::generator::Case;
use crate::lister::{self, Plan, Refusal};
use crate::random::Random;
use crate::tally::Tally;
use crate::{library, same, Outcome};

/// Up to so many atoms in a position every subset of it is tried.
const FEW_UP: u32 = 14;

/// Asks for several positions of a plan; its graph plays no part, and only reading can refuse.
pub fn compare(case: &Case, outcome: &Outcome, settled: &[u64], random: &mut Random, tally: &mut Tally) -> Result<(), String> {
    // Of a plan that does not read well no atom is in a head: any position will do.
    let plan = lister::read(&case.plan).unwrap_or_default();
    for position in chosen(&plan, settled, random) {
        if let Some(answer) = expected(case, &plan, outcome, position) {
            tally.note_position(&answer);
            let code = answer.map_or_else(Refusal::code, u64::from);
            same(&format!("answer for position {:016x}", position), code, library::judge(&case.plan, position))?;
        }
    }
    Ok(())
}

/// Positions near to and far from settled ones.
fn chosen(plan: &Plan, settled: &[u64], random: &mut Random) -> Vec<u64> {
    let heads = lister::head_atoms(&plan.rules) | plan.given_atoms();
    let mut positions = vec![0, heads, random.word(), heads | random.atoms_of(!heads, 1)];
    (0..2).for_each(|_| positions.push(random.word() & heads));
    (0..2).for_each(|_| positions.push(random.atoms_of(heads, 4)));
    positions.extend([plan.given_atoms(), plan.given_atoms() | random.atoms_of(heads, 4)]);
    if !settled.is_empty() {
        for _ in 0..3 {
            let (one, other) = (random.pick(settled), random.pick(settled));
            positions.extend([one, one ^ random.atoms_of(heads, 1), one ^ random.atoms_of(!0, 1), one | other, one & other]);
        }
    }
    positions
}

/// The lister's answer; none where it would have to try too many subsets.
fn expected(case: &Case, plan: &Plan, outcome: &Outcome, position: u64) -> Option<Result<bool, Refusal>> {
    let given = plan.given_atoms();
    let has_stray_atom = position & !(lister::head_atoms(&plan.rules) | given) != 0;
    // Subsets that lack a given atom are not tried.
    if has_stray_atom || (position & !given).count_ones() <= FEW_UP {
        return Some(lister::judge(&case.plan, position));
    }
    // The last list of an accepted plan, uncut, is that of all answer sets.
    outcome.as_ref().ok().map(|listing| Ok(listing.uncut.contains(&position)))
}
