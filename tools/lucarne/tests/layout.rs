//! layout [COUNT] [SEED]: drawn groups through the layout and the proved library. No graph refusal comes, every edge is needed, the list is that
//! of one unit, and circles that are told are circles. A walk goes as the list does, whatever shows.

#[path = "../../../tests/random.rs"]
#[allow(dead_code)]
mod random;
mod tally;

use lucarne::plan::group::{Group, Options, Origin};
use lucarne::plan::layout::{Circles, Layout, Unit};
use lucarne::plan::library::{self, Refusal};
use lucarne::plan::bytes::Plan;
use lucarne::plan::program::{Program, Rule, Table};
use lucarne::plan::walk::Walk;
use lucarne::read::reader::{Grounding, Turns};
use random::Random;
use tally::Tally;

fn main() {
    let mut numbers = std::env::args().skip(1).map(|word| word.parse::<u64>().expect("COUNT and SEED are numbers"));
    let (count, seed) = (numbers.next().unwrap_or(2000), numbers.next().unwrap_or(1));
    let mut tally = Tally::default();
    for case in 0..count {
        let mut random = Random::for_case(seed, case);
        let mut program = draw(&mut random);
        let tried = try_group(&program, &mut tally);
        program.hidden = (0..program.atoms.len()).filter(|_| random.chance(40)).collect();
        if let Err(fault) = tried.and_then(|_| try_walk(program.clone(), &mut tally)) {
            tally.check(false, &format!("case {}: {}", case, fault), || told(&program));
        }
    }
    for what in ["edges", "circles", "constraints moved", "lists with positions", "tables", "positions alike in what shows"] {
        tally.must_have(what);
    }
    std::process::exit(tally.end());
}

/// A group of one to six sheets, which mostly look down, so that not all are joined.
fn draw(random: &mut Random) -> Program {
    let sheets = random.between(1, 6);
    let mut program = Program::new((0..sheets).map(|sheet| format!("s{}", sheet)).collect());
    let homes: Vec<usize> = (0..random.between(3, 9)).map(|_| random.below(sheets)).collect();
    let atoms: Vec<usize> = (0..homes.len()).map(|atom| program.atom(&format!("r{}", atom))).collect();
    let looks_down = random.chance(60);
    if random.chance(40) {
        let mut inputs = atoms.clone();
        random.shuffle(&mut inputs);
        inputs.truncate(3);
        program.tables.push(Table { name: "t".to_string(), spot: None, inputs, rows: random.word() & 0xff, is_written: true });
    }
    for number in 0..random.between(1, 14) {
        let rule = draw_rule(random, &program, &homes, looks_down);
        if !program.looks_at(&rule).is_empty() && !(rule.head.is_empty() && rule.pos.is_empty() && rule.neg.is_empty()) {
            program.rules.push(Rule { text: format!("rule {}", number), ..rule });
        }
    }
    program
}

fn draw_rule(random: &mut Random, program: &Program, homes: &[usize], looks_down: bool) -> Rule {
    let mut rule = Rule { sheet: Some(random.below(program.sheets.len())), ..Rule::default() };
    if random.chance(75) {
        let first = random.below(homes.len());
        let wide = random.chance(40);
        rule.sheet = Some(homes[first]);
        rule.head = (0..homes.len()).filter(|&atom| atom == first || wide && homes[atom] == homes[first] && random.chance(25)).collect();
    }
    let sheet = rule.sheet.unwrap_or(0);
    let is_free = !looks_down || rule.head.is_empty();
    let seen: Vec<usize> = (0..homes.len()).filter(|&atom| is_free || homes[atom] <= sheet).collect();
    for _ in 0..random.pick(&[0, 1, 1, 2, 3]) {
        let atom = random.pick(&seen);
        if !rule.pos.contains(&atom) && !rule.neg.contains(&atom) {
            if random.chance(50) {
                rule.pos.insert(atom)
            } else {
                rule.neg.insert(atom)
            };
        }
    }
    let fits = program.tables.iter().all(|table| table.inputs.iter().all(|input| seen.contains(input)));
    if !program.tables.is_empty() && fits && random.chance(20) {
        rule.uses.insert((0, random.chance(50)));
    }
    rule
}

fn told(program: &Program) -> String {
    let rules = program.rules.iter().map(|rule| format!("    sheet {}: {}", rule.sheet.unwrap_or(0), program.written(rule)));
    rules.collect::<Vec<_>>().join("\n")
}

fn try_group(program: &Program, tally: &mut Tally) -> Result<(), lucarne::fault::Fault> {
    let layout = Layout::of(program, Circles::Join)?;
    let plan = Plan::of(program, &layout)?;
    let one = Plan::of(program, &Layout::one_unit(program))?;
    let (list, whole) = (library::list(&plan.bytes), library::list(&one.bytes));
    tally.check(list.is_ok(), &format!("the layout is refused: {:?}", list.as_ref().err()), || told(program));
    let positions = list.map(|listing| listing.positions);
    tally.check(positions == whole.map(|listing| listing.positions), "the list is not that of one unit", || told(program));
    tally.count("lists with positions", usize::from(positions.map_or(false, |positions| !positions.is_empty())));
    tally.count("constraints moved", layout.moved.len());
    tally.count("tables", program.tables.len());
    for edge in layout.edges.keys() {
        let mut fewer = layout.clone();
        fewer.edges.remove(edge);
        let answer = library::list(&Plan::of(program, &fewer)?.bytes);
        tally.check(
            matches!(answer, Err(Refusal { number: 13 | 14, .. })),
            &format!("the edge {:?} is not needed: {:?}", edge, answer),
            || told(program),
        );
        tally.count("edges", 1);
    }
    if Layout::of(program, Circles::Refuse).is_err() {
        let answer = library::list(&Plan::of(program, &apart(program))?.bytes);
        tally.check(matches!(answer, Err(Refusal { number: 12, .. })), &format!("the circle is none: {:?}", answer), || told(program));
        tally.count("circles", 1);
    }
    Ok(())
}

/// A walk goes as the list does, whatever shows, and one over whole positions has just the settled ones behind it.
fn try_walk(program: Program, tally: &mut Tally) -> Result<(), lucarne::fault::Fault> {
    let options = Options { paths: Vec::new(), grounding: Grounding::Never, circles: Circles::Join, one_unit: false, turns: Turns::default() };
    let mut group = Group::of(String::new(), program, Origin::Ground(String::new()), &options)?;
    group.list()?;
    let list = group.listing.positions.clone();
    let walked = walked(Walk::as_listed(&group)?)?;
    tally.check(walked == list, "a walk goes otherwise than the list", || format!("{:x?}\n{:x?}\n{}", walked, list, told(&group.program)));
    let shown = group.plan.word(&group.shown());
    let mut wholes: Vec<u64> = self::walked(Walk::of_wholes(&group))?.into_iter().map(|whole| whole & shown).collect();
    tally.count("positions alike in what shows", usize::from(wholes.len() > list.len()));
    wholes.sort_unstable();
    wholes.dedup();
    tally.check(wholes == list, "whole positions show otherwise than the list", || told(&group.program));
    Ok(())
}

fn walked(mut walk: Walk) -> Result<Vec<u64>, lucarne::fault::Fault> {
    let mut all = Vec::new();
    loop {
        let found = walk.next(all.last().copied(), 5)?;
        if found.is_empty() {
            return Ok(all);
        }
        all.extend(found);
    }
}

/// Every sheet a unit of its own, with all edges that its headed rules ask for, circles or not.
fn apart(program: &Program) -> Layout {
    let mut layout = Layout::default();
    for (sheet, name) in program.sheets.iter().enumerate() {
        let rules = (0..program.rules.len()).filter(|&rule| program.rules[rule].sheet == Some(sheet)).collect();
        layout.units.push(Unit { name: name.clone(), rules, is_joined: false });
    }
    for (number, rule) in program.rules.iter().enumerate().filter(|(_, rule)| !rule.head.is_empty()) {
        for atom in program.looks_at(rule) {
            for driver in program.rules.iter().filter(|driver| driver.head.contains(&atom) && driver.sheet != rule.sheet) {
                layout.edges.entry((rule.sheet.unwrap_or(0), driver.sheet.unwrap_or(0))).or_default().push((number, atom));
            }
        }
    }
    layout
}
