//! Draws numbered plans from a seed, family by family.

use crate::blame_plans as blames;
use crate::broken_plans as broken;
use crate::counted_plans as counted;
use crate::draft::Draft;
use crate::lister::TABLE_WORDS;
use crate::random::Random;
use crate::shown_plans as shown;
use crate::stop_plans as stops;
use crate::table_plans as tables;
use crate::valid_plans as valid;

/// One plan to compare, with the length of the table that is lent for it.
pub struct Case {
    pub family: &'static str,
    pub plan: Vec<u8>,
    pub table_words: usize,
    /// Built so that its lists stay small or quickly found, though many atoms are in heads.
    pub many_atoms: bool,
}

enum Draw {
    Valid(fn(&mut Random) -> Draft),
    /// Valid, and made feasible by its shape instead of by few atoms.
    ManyAtoms(fn(&mut Random) -> Draft),
    Broken(fn(&mut Random) -> Vec<u8>),
}

struct Family {
    name: &'static str,
    /// How often plans are of this family, in proportion to the other shares.
    share: usize,
    draw: Draw,
}

const fn family(name: &'static str, share: usize, draw: Draw) -> Family {
    Family { name, share, draw }
}

static FAMILIES: &[Family] = &[
    family("layered units", 180, Draw::Valid(valid::layered)),
    family("small circuits put together", 120, Draw::Valid(valid::gadgets)),
    family("diamond", 50, Draw::Valid(valid::diamond)),
    family("shared constraint", 50, Draw::Valid(valid::shared_constraint)),
    family("empty units", 20, Draw::Valid(valid::empty_units)),
    family("full size", 10, Draw::Valid(valid::full_size)),
    family("given atoms", 70, Draw::Valid(valid::given_atoms)),
    family("given atoms, many in heads", 10, Draw::ManyAtoms(valid::given_among_many)),
    family("declared sizes", 60, Draw::Valid(counted::right)),
    family("shown atoms", 80, Draw::Valid(shown::shown_atoms)),
    family("shown atoms, many in heads", 15, Draw::ManyAtoms(shown::shown_among_many)),
    family("relays with helpers", 40, Draw::Valid(shown::helpers)),
    family("over 256 positions until cut", 12, Draw::ManyAtoms(shown::long_until_cut)),
    family("unit list too long, cut list not", 6, Draw::ManyAtoms(shown::unit_list_too_long)),
    family("groups of constraints to blame", 90, Draw::Valid(blames::groups_of_constraints)),
    family("contradicting constraints", 80, Draw::Valid(stops::contradicting_constraints)),
    family("pigeonholes", 40, Draw::Valid(stops::pigeonholes)),
    family("contradicting parities", 50, Draw::Valid(stops::contradicting_parities)),
    family("contradicting parities of many keys", 8, Draw::ManyAtoms(stops::parities_of_many)),
    family("hitting sets", 50, Draw::Valid(stops::hitting_sets)),
    family("saturated pairs", 60, Draw::Valid(stops::saturated)),
    family("head cycles with tables", 60, Draw::Valid(stops::head_cycles)),
    family("tables put into other plans", 110, Draw::Valid(tables::tables_anywhere)),
    family("small circuits with tables", 90, Draw::Valid(tables::table_circuits)),
    family("banks of tables in layers", 50, Draw::Valid(tables::banks_in_layers)),
    family("sixteen tables, up to 256 uses", 10, Draw::Valid(tables::full_tables)),
    family("tables, 248 to 264 positions", 12, Draw::ManyAtoms(tables::tables_near_limit)),
    family("255 to 258 positions", 12, Draw::ManyAtoms(valid::near_limit)),
    family("256 positions", 8, Draw::ManyAtoms(valid::exactly_256)),
    family("pairs in units", 15, Draw::ManyAtoms(valid::pairs_in_units)),
    family("inner list too long", 10, Draw::ManyAtoms(valid::over_limit_inside)),
    family("more inputs than positions", 15, Draw::ManyAtoms(valid::many_inputs)),
    family("sixteen units, many atoms", 20, Draw::ManyAtoms(valid::tall)),
    family("broken graph", 130, Draw::Broken(broken::broken_graph)),
    family("given atoms in heads", 30, Draw::Broken(broken::given_in_heads)),
    family("table inputs unseen", 60, Draw::Broken(broken::unseen_inputs)),
    family("any edges", 20, Draw::Broken(broken::any_edges)),
    family("broken reading", 120, Draw::Broken(broken::broken_reading)),
    family("broken tables and uses", 120, Draw::Broken(broken::broken_tables)),
    family("wrong declared sizes", 60, Draw::Broken(counted::wrong)),
    family("declared sizes, a command lost or doubled", 70, Draw::Broken(counted::lost_or_doubled)),
    family("late or cut COUNTs", 30, Draw::Broken(counted::late_or_cut)),
    family("any commands", 30, Draw::Broken(broken::any_commands)),
    family("one too many", 60, Draw::Broken(broken::one_too_many)),
    family("damaged bytes", 70, Draw::Broken(broken::damaged)),
    family("random bytes", 16, Draw::Broken(broken::random_bytes)),
    family("no bytes", 2, Draw::Broken(broken::no_bytes)),
    family("long input", 12, Draw::Broken(broken::long_input)),
];

/// The case of this number.
pub fn case(seed: u64, number: u64) -> Case {
    let mut random = Random::for_case(seed, number);
    let family = pick_family(&mut random);
    let plan = match family.draw {
        Draw::Valid(draw) | Draw::ManyAtoms(draw) => draw(&mut random).bytes(),
        Draw::Broken(draw) => draw(&mut random),
    };
    let table_words = table_words(&mut random);
    Case { family: family.name, plan, table_words, many_atoms: matches!(family.draw, Draw::ManyAtoms(_)) }
}

fn pick_family(random: &mut Random) -> &'static Family {
    let shares = FAMILIES.iter().map(|family| family.share);
    let mut place = random.below(shares.sum());
    for family in FAMILIES {
        if place < family.share {
            return family;
        }
        place -= family.share;
    }
    unreachable!("the place is below the sum of all shares")
}

/// Mostly a long enough table, often with words behind it; now and then one that is too short.
fn table_words(random: &mut Random) -> usize {
    match random.below(40) {
        0 => random.below(TABLE_WORDS),
        1 if random.chance(20) => random.pick(&[0, 1, TABLE_WORDS - 1]),
        2..=9 => TABLE_WORDS,
        _ => TABLE_WORDS + random.between(1, 40),
    }
}
