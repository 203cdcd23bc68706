//! Why positions of drawn groups are not settled: every reason is looked after by an evaluator of its own.

use crate::options;
use crate::random::Random;
use crate::tally::Tally;
use lucarne::fault::Fault;
use lucarne::plan::group::{Group, Origin};
use lucarne::plan::library;
use lucarne::plan::bytes;
use lucarne::plan::program::{Program, Rule};
use lucarne::read::reader::{read_sheets, Grounding, Turns};
use lucarne::read::text::statements::Sheets;
use lucarne::plan::reason::{self, Position};

const ATOMS: [&str; 6] = ["a", "b", "c", "d", "e", "f"];

/// Whether a text is one of the reasons that there are.
pub fn is_reason(text: &str) -> bool {
    [
        " forbids it: ",
        " is not kept: ",
        "nothing holds up ",
        " only holds itself up",
        " only hold each other up",
        " is turned: ",
        " is released: ",
    ]
    .iter()
    .any(|part| text.contains(part))
}

pub fn try_all(count: u64, seed: u64, tally: &mut Tally) {
    for case in 0..count {
        let text = draw(&mut Random::for_case(seed ^ 99, case));
        match group(&text) {
            Ok(group) => (0..1u64 << group.plan.atoms.len()).for_each(|position| try_position(&group, position, &text, tally)),
            Err(fault) => tally.check(false, &format!("a drawn sheet is refused: {}", fault), || text.clone()),
        }
    }
}

fn group(text: &str) -> Result<Group, Fault> {
    let (mut sheets, mut faults) = (Sheets::default(), Vec::new());
    sheets.add_file("s.lp", text, &mut faults);
    Fault::all(faults)?;
    let program = read_sheets(&sheets, Grounding::Never, &Turns::default())?;
    Group::of(String::new(), program, Origin::Sheets(sheets), &options(""))
}

/// Rules with one or two heads, constraints, a table and a key; no helper is needed, so that a reason names all that it is about.
fn draw(random: &mut Random) -> String {
    let mut text =
        format!("#external k. [{}]\n%table m(a,b,c) {}\n", random.pick(&["true", "false"]), random.pick(&["11-", "1-0 01-", "--1", "000"]));
    for _ in 0..random.between(2, 8) {
        let mut atoms = ATOMS.to_vec();
        random.shuffle(&mut atoms);
        let heads = atoms[..random.pick(&[0, 1, 1, 1, 2])].join(" ; ");
        let mut body: Vec<String> =
            atoms[3..3 + random.below(3)].iter().map(|atom| format!("{}{}", random.pick(&["", "", "not "]), atom)).collect();
        if random.chance(20) {
            body.push(random.pick(&["m", "not m", "k", "not k"]).to_string());
        }
        if random.chance(20) && !heads.is_empty() {
            body.push(atoms[0].to_string());
        }
        if !body.is_empty() {
            text += &format!("{} :- {}.\n", heads, body.join(", "));
        }
    }
    text + "a :- k.\n"
}

fn try_position(group: &Group, position: u64, text: &str, tally: &mut Tally) {
    if library::judge(&group.plan.bytes, position) == Ok(true) {
        return tally.count("settled", 1);
    }
    let up: Position = group.plan.up(position).into_iter().collect();
    let reason = reason::why_not(group, &up);
    let kind = kind_of(&group.program, &up, &reason);
    tally.check(kind.is_some(), &format!("{:?} is not true of {}", reason, group.told(position)), || text.to_string());
    kind.into_iter().for_each(|kind| tally.count(kind, 1));
}

/// Which kind of reason this is, if it is true.
fn kind_of(program: &Program, up: &Position, reason: &str) -> Option<&'static str> {
    let given = bytes::given(program);
    let key = |name: &str| program.find(name.trim_start_matches("the key "));
    if let Some((name, _)) = reason.split_once(" is turned: ") {
        return key(name).filter(|atom| given.contains(atom) && !up.contains(atom)).map(|_| "keys");
    }
    if let Some((name, _)) = reason.split_once(" is released: ") {
        return key(name).filter(|atom| !given.contains(atom) && up.contains(atom)).map(|_| "keys");
    }
    for (part, kind) in [(" forbids it: ", "forbidden"), (" is not kept: ", "broken")] {
        if let Some((place, text)) = reason.split_once(part) {
            let is_it = |rule: &&Rule| rule.place() == place && rule.text == text && rule.head.is_empty() == (kind == "forbidden");
            return program.rules.iter().find(is_it).filter(|rule| body(program, rule, up) && rule.head.is_disjoint(up)).map(|_| kind);
        }
    }
    let nothing = reason.strip_prefix("nothing holds up ").map(|names| (names, "held by nothing"));
    let itself = || reason.strip_suffix(" only holds itself up").map(|name| (name, "holding itself"));
    let each_other = || reason.strip_suffix(" only hold each other up").map(|names| (names, "holding each other"));
    let (names, kind) = nothing.or_else(itself).or_else(each_other)?;
    let loose: Option<Position> = names.split(" and ").flat_map(|part| part.split(", ")).map(|name| program.find(name)).collect();
    loose.filter(|loose| are_loose(program, up, loose)).map(|_| kind)
}

/// Whether all rules that act are kept without these relays.
fn are_loose(program: &Program, up: &Position, loose: &Position) -> bool {
    let less: Position = up.difference(loose).copied().collect();
    let acting = program.rules.iter().filter(|rule| body(program, rule, up));
    let kept = |rule: &Rule| !body(program, rule, &less) || !rule.head.is_disjoint(&less);
    loose.is_subset(up) && !loose.is_empty() && loose.is_disjoint(&bytes::given(program)) && acting.into_iter().all(kept)
}

fn body(program: &Program, rule: &Rule, up: &Position) -> bool {
    let answer = |table: usize| {
        let inputs = &program.tables[table].inputs;
        let row: u64 = (0..inputs.len()).filter(|&k| up.contains(&inputs[k])).map(|k| 1 << k).sum();
        program.tables[table].rows & 1 << row != 0
    };
    rule.pos.iter().all(|atom| up.contains(atom))
        && !rule.neg.iter().any(|atom| up.contains(atom))
        && rule.uses.iter().all(|&(table, wanted)| answer(table) == wanted)
}
