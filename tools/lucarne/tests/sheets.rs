//! sheets COUNT SEED [own]: drawn sheets as text. The list by name is that of `clingo --eq=0 --no-gamma` on the same sheets, and on ground text
//! both readers agree: the same rules on the same lines, and the same list.

#[path = "../../../tests/random.rs"]
#[allow(dead_code)]
mod random;
mod tally;

use lucarne::fault::Fault;
use lucarne::plan::group::{Group, Options, Origin};
use lucarne::plan::layout::Circles;
use lucarne::plan::program::Program;
use lucarne::read::reader::{read_aspif, read_sheets, Grounding, Turns};
use lucarne::read::run;
use lucarne::read::theirs::clingo::{items, witnesses};
use lucarne::serde_json::{self, Value};
use lucarne::read::text::statements::Sheets;
use random::Random;
use std::collections::BTreeSet;
use tally::Tally;

type Names = BTreeSet<String>;

fn main() {
    let mut numbers = std::env::args().skip(1).map(|word| word.parse::<u64>().expect("COUNT and SEED are numbers"));
    let (count, seed) = (numbers.next().unwrap_or(500), numbers.next().unwrap_or(1));
    let mut tally = Tally::default();
    for case in 0..count {
        let texts = draw(&mut Random::for_case(seed, case), case % 5 < 2);
        try_group(&texts, &mut tally);
        if case % 3 == 0 {
            try_ground_program(&texts, &mut tally);
        }
    }
    for what in [
        "ground text",
        "larger text",
        "choices",
        "opposites",
        "sums",
        "positions",
        "tables",
        "free keys",
        "given relays",
        "ground programs",
        "shown",
    ] {
        tally.must_have(what);
    }
    LARGE.iter().chain(&HEADS).chain(&WHOLE).for_each(|what| tally.must_have(what));
    tally.must_have("sums by helpers");
    std::process::exit(tally.end());
}

const ATOMS: [&str; 9] = ["p(1)", "p(2)", "p(3)", "q", "r", "s", "-q", "t(a,b)", "-g"];
/// What only gringo reads, in bodies; `d` has three facts, and n is 2.
const LARGE: [&str; 42] = [
    "#count{X:p(X)} > 1",
    "#sum{2,q:q;1,r:r;1,s:not s} >= 2",
    "p(X) : d(X)",
    "d(X), p(X)",
    "1 {q;r;s} 2",
    "not 2 {p(X): d(X)}",
    "1 {q; not r; m}",
    "#count{X:p(X),not q} < 2",
    "#min{X:p(X)} <= 2",
    "#max{X:p(X);0,z:#true} = 3",
    "#sum+{X:p(X);-1,a:q} >= 2",
    "#sum{X:p(X);-2,z:r} > 1",
    "N = #count{Y:p(Y)}; N > 1",
    "d(X), not not p(X)",
    "not p(X) : d(X), X > 1",
    "d(X), p(X+1)",
    "p(1..n)",
    "p((1;3))",
    "X = 2..3, not p(X), not t(a,X)",
    "d(X), d(Y), X < Y, p(X), not p(Y)",
    "p(n), not p(n+1)",
    "d(X), X\\2 = 1, p(X)",
    "d(X), |X-2| = 1, not p(X)",
    "d(_), t(_,b)",
    "e(X), d(X), X != 2",
    "not e(n)",
    "#true, not last(1)",
    "last(X), p(X)",
    "p(2**(n-1))",
    "not not q",
    "#count{X:p(X);q:q;r:r;s:s;t:t(a,b);m: -q} = 4",
    "#count{X:p(X);q:q;r:r;s:s;t:t(a,b)} >= 3",
    "not #count{X:p(X);q:q;r:r;s:s;t:t(a,b)} = 3",
    "#sum{X,X:p(X);2,q:q;1,r:r;3,s:s;1,t:t(a,b)} != 5",
    "#sum{X,X:p(X);2,q:q;1,r:r;-3,s:s;1,t:t(a,b)} < 4",
    "N = #count{X:p(X);q:q;r:r;s:s;t:t(a,b)}, N\\2 = 1",
    "2 {not p(1); not p(2); p(3); q; not r; s; t(a,b)} 5",
    "not not 4 {p(1..3); q; r; s; t(a,b)}",
    "3 {k; m; p(1..3); q; u; v; s} 6",
    "&open { q; r }",
    "not &open { s }",
    "d(X), &at(X) { q } <= X",
];
/// Heads that only gringo reads.
const HEADS: [&str; 17] = [
    "1 { p(X) : d(X) } 1",
    "1 { p(X) : d(X) } 2",
    "p(X) : d(X), X < 3",
    "{ p(X) : d(X), not q } 2",
    "#count { X : p(X) : d(X) } <= 2",
    "#sum { X : p(X) : d(X); 2,r : r } = 3",
    "t(a,b) ; p(X) : d(X), X >= n",
    "p(1..n)",
    "p(n;3)",
    "not p(1) ; q",
    "not r",
    "not not s",
    "{ p(1..3); q; r; s; t(a,b) } = 3",
    "1 { p(1..3); q; r; s; t(a,b) } 4",
    "{ p(1..3); q } 1",
    "&open { s }",
    "&at(n) { q } <= n",
];
/// Statements that only gringo reads.
const WHOLE: [&str; 4] = [
    "#edge (1,2) : p(1). #edge (2,1) : q, not r. #edge (2,3) : s. #edge (3,1) : not k.",
    "#show sh(X) : p(X), not q. #show sh(1) : r. #show both : q, 2 { r; s; u }.",
    "#program base.",
    "#project q. #heuristic q. [1,true]",
];

/// One to three sheets, a text each. A table stands on a sheet of its own relays, so that clingo has a form for it.
fn draw(random: &mut Random, is_ground: bool) -> Vec<String> {
    let mut texts: Vec<String> =
        (0..random.between(1, 3)).map(|_| (0..random.between(1, 5)).map(|_| draw_rule(random, is_ground)).collect()).collect();
    texts[0] += &format!("#external k. [{}]\n", random.pick(&["true", "false", "free"]));
    texts[0] += "{ u; v }.\n%table m(v,k,u) 1-0 011\n";
    if !is_ground {
        // `last` is facts in part, as a predicate that gringo knows and marks would hide from it.
        texts[0] += "d(1..3).\n#const n = 2.\nlast(3). last(X) :- p(X), X < 3.\n#defined t/2.\n";
        texts[0] += "#theory any { node {}; &open/0 : node, any; &at/1 : node, {<=}, node, any }.\n";
        texts[0] += &format!("#external e(X) : d(X), X > 1. [{}]\n", random.pick(&["true", "false", "free"]));
    }
    if !is_ground && random.chance(40) {
        texts[0] += &format!("{}\n", random.pick(&WHOLE));
    }
    if random.chance(15) {
        texts[0] += SHOW;
    }
    if random.chance(30) {
        texts[0] += GIVEN;
    }
    texts
}

fn draw_rule(random: &mut Random, is_ground: bool) -> String {
    let head = draw_head(random, is_ground);
    let mut body: Vec<String> = Vec::new();
    for _ in 0..random.pick(&[0, 1, 1, 2]) {
        let atom = if random.chance(15) { random.pick(&["k", "m", "g"]) } else { random.pick(&ATOMS) };
        let literal = format!("{}{}", random.pick(&["", "not "]), atom);
        let opposite = literal.strip_prefix("not ").map_or(format!("not {}", literal), str::to_string);
        if !body.contains(&opposite) && !body.contains(&literal) {
            body.push(literal);
        }
    }
    if !is_ground && random.chance(40) {
        body.push(random.pick(&LARGE).to_string());
    }
    if head.is_empty() && body.is_empty() {
        return String::new();
    }
    format!("{}{}{}.\n", head, if body.is_empty() { "" } else { " :- " }, body.join("; "))
}

fn draw_head(random: &mut Random, is_ground: bool) -> String {
    let mut atoms = ATOMS.to_vec();
    random.shuffle(&mut atoms);
    match random.below(100) {
        0..=19 => String::new(),
        20..=54 => atoms[0].to_string(),
        55..=69 => format!("{} ; {}", atoms[0], atoms[1]),
        70..=74 => format!("1 {{ {} }} 1", atoms[..random.between(2, 3)].join("; ")),
        80..=99 if !is_ground => random.pick(&HEADS).to_string(),
        _ => format!("{{ {} }}", atoms[..random.between(1, 3)].join("; ")),
    }
}

fn sheets_of(texts: &[String]) -> Result<Sheets, Fault> {
    let (mut sheets, mut faults) = (Sheets::default(), Vec::new());
    texts.iter().enumerate().for_each(|(number, text)| sheets.add_file(&format!("s{}.lp", number), text, &mut faults));
    Fault::all(faults)?;
    Ok(sheets)
}

fn options(grounding: Grounding) -> Options {
    Options { paths: Vec::new(), grounding, circles: Circles::Join, one_unit: false, turns: Turns::default() }
}

fn group(texts: &[String], grounding: Grounding) -> Result<Group, Fault> {
    let sheets = sheets_of(texts)?;
    let program = read_sheets(&sheets, grounding, &Turns::default())?;
    let mut group = Group::of(String::new(), program, Origin::Sheets(sheets), &options(grounding))?;
    group.list()?;
    Ok(group)
}

fn listed(group: &Group) -> BTreeSet<Names> {
    let up = |&position: &u64| group.plan.up(position).into_iter().map(|atom| group.program.name(atom).to_string());
    let always = || group.shown_always().into_iter().map(str::to_string);
    group.listing.positions.iter().map(|position| up(position).chain(always()).collect()).collect()
}

fn try_group(texts: &[String], tally: &mut Tally) {
    let all = texts.join("--\n");
    let own = group(texts, Grounding::Never);
    let is_ground = own.is_ok();
    let group = match group(texts, Grounding::Auto) {
        Ok(group) => group,
        Err(fault) => {
            // A drawn group may be too large for a plan; nothing else is refused.
            tally.check(is_too_large(&fault), &fault.to_string(), || all.clone());
            return tally.count("too large", 1);
        }
    };
    let ours = listed(&group);
    tally.check(group.listing.positions.len() == ours.len(), "a position stands twice", || all.clone());
    let given = if all.contains(GIVEN) { "g.\n" } else { "" };
    let theirs = clingo(&(texts.join("\n") + TABLE + given));
    tally.check(theirs.as_ref() == Ok(&ours), &format!("clingo lists {:?}, and lucarne {:?}", theirs, ours), || all.clone());
    if is_ground {
        readers_agree(texts, &group, tally);
    }
    without_lines(texts, &ours, tally);
    tally.count(if is_ground { "ground text" } else { "larger text" }, 1);
    tally.count("choices", all.matches("{ ").count());
    tally.count("opposites", group.program.rules.iter().filter(|rule| rule.place() == "(added)").count());
    tally.count("sums", group.program.tables.iter().filter(|table| !table.is_written).count());
    tally.count("tables", group.program.tables.iter().filter(|table| table.is_written).count());
    tally.count("given relays", all.matches(GIVEN).count());
    tally.count("free keys", all.matches("[free]").count());
    tally.count("shown", all.matches(SHOW).count());
    tally.count("sums by helpers", group.program.atoms.iter().filter(|atom| atom.name.starts_with("~sum")).count());
    LARGE.iter().chain(&HEADS).chain(&WHOLE).for_each(|what| tally.count(what, all.matches(what).count()));
    let is_lost = |rule: &&lucarne::plan::program::Rule| rule.line_unknown;
    tally.count("rules without a line", group.program.rules.iter().filter(is_lost).count());
    tally.count("positions", ours.len());
}

fn is_too_large(fault: &Fault) -> bool {
    ["more than 256", "a plan holds", "has too many values"].iter().any(|what| fault.what.contains(what))
}

/// The same rules by name on the same lines, and the same list.
fn readers_agree(texts: &[String], own: &Group, tally: &mut Tally) {
    let all = texts.join("--\n");
    match group(texts, Grounding::Always) {
        Ok(other) => {
            tally.check(listed(own) == listed(&other), "the readers list differently", || all.clone());
            let (one, two) = (lines(&own.program), lines(&other.program));
            tally.check(two.is_subset(&one), &format!("gringo's rules stand elsewhere: {:?}", two.difference(&one)), || all.clone());
        }
        Err(fault) => tally.check(false, &format!("only one reader refuses: {}", fault), || all.clone()),
    }
}

/// Where no rule's line is known, each goes to the unit of what it drives, and the list is the same.
fn without_lines(texts: &[String], ours: &BTreeSet<Names>, tally: &mut Tally) {
    let all = texts.join("--\n");
    match group(texts, Grounding::Lineless) {
        Ok(other) => {
            tally.check(listed(&other) == *ours, "without lines the list is another", || all.clone());
            let is_relay = |atom: &usize| !other.program.atoms[*atom].is_helper;
            let driving = other.program.rules.iter().filter(|rule| rule.line_unknown && rule.head.iter().any(is_relay));
            let homeless = driving.filter(|rule| rule.sheet.is_none()).count();
            tally.check(homeless == 0, "a rule that drives a relay has no unit", || all.clone());
        }
        Err(fault) => tally.check(is_too_large(&fault), &fault.to_string(), || all.clone()),
    }
}

/// Head and place of each rule. gringo leaves out rules that can never act, so its rules are some of the others.
fn lines(program: &Program) -> BTreeSet<(String, String, Vec<String>)> {
    let heads = |rule: &lucarne::plan::program::Rule| {
        rule.head.iter().filter(|&&atom| !program.atoms[atom].is_helper).map(|&atom| program.name(atom).to_string()).collect()
    };
    let told = program.rules.iter().filter(|rule| rule.spot.is_some());
    told.map(|rule| (rule.place(), rule.text.clone(), sorted(heads(rule)))).collect()
}

fn sorted(mut names: Vec<String>) -> Vec<String> {
    names.sort();
    names
}

const SHOW: &str = "#show p/1. #show -q/0. #show d/1.\n";
/// A relay that only a directive gives; for clingo it is a fact.
const GIVEN: &str = "%given g\n";
/// The table's rows as rules, which clingo reads.
const TABLE: &str = "m :- v, not u. m :- not v, k, u.\n";

/// What gringo writes of the sheets, listed as a ground program, without the table: clingo lists the same.
fn try_ground_program(texts: &[String], tally: &mut Tally) {
    let all = texts.join("\n");
    let ground = run::run("gringo", &["--output=intermediate", "--warn=none"], &all, "gringo is missing")
        .map(|output| output.text)
        .unwrap_or_default();
    let group = read_aspif("-", &ground, &Turns::default()).and_then(|program| {
        let mut group = Group::of(String::new(), program, Origin::Ground(ground.clone()), &options(Grounding::Auto))?;
        group.list()?;
        Ok(group)
    });
    match group {
        Ok(group) => {
            let (ours, theirs) = (listed(&group), clingo(&all));
            tally.check(
                theirs.as_ref() == Ok(&ours),
                &format!("ground program: clingo lists {:?}, and lucarne {:?}", theirs, ours),
                || all.clone(),
            );
            tally.count("ground programs", 1);
        }
        Err(fault) => tally.check(is_too_large(&fault) || all.contains(SHOW), &fault.to_string(), || all.clone()),
    }
}

/// clingo's list of a text, with the settings of keys as they stand.
fn clingo(text: &str) -> Result<BTreeSet<Names>, String> {
    let options = ["0", "--outf=2", "--warn=none", "--eq=0", "--no-gamma"];
    let output = run::run("clingo", &options, text, "clingo is missing").map_err(|fault| fault.to_string())?;
    let answer: Value = serde_json::from_str(&output.text).map_err(|_| output.errors)?;
    let names = |witness: &Value| items(&witness["Value"]).iter().filter_map(Value::as_str).filter(|name| *name != "m").map(str::to_string).collect();
    Ok(witnesses(&answer["Call"]).map(names).collect())
}
