//! Relays that a rule holds up only through themselves, as a stick circuit does, or through a circle of relays. By 01 (circuit 3) no relay is up merely
//! because it holds itself, so the positions in which nothing else drives them are left out: that is told, with how to write a relay that may be held.

use crate::plan::circles;
use crate::plan::program::{Atom, Program, Rule, Table};
use std::collections::{BTreeMap, BTreeSet};

/// Relays of a circle, each with the rule by which the next one holds it up.
type Circle = Vec<(Atom, usize)>;

/// Puts a note to the program for each such circle; circles by the same lines are one note.
pub fn note(program: &mut Program) {
    let mut by_lines: Vec<(Vec<String>, Vec<Circle>)> = Vec::new();
    for circle in circles_of(program).into_iter().filter(|circle| leaves_out(program, circle)) {
        let mut lines: Vec<String> = circle.iter().map(|&(_, rule)| program.rules[rule].told()).collect();
        lines.sort();
        match by_lines.iter_mut().find(|(known, _)| *known == lines) {
            Some((_, circles)) => circles.push(circle),
            None => by_lines.push((lines, vec![circle])),
        }
    }
    let notes: Vec<String> = by_lines.iter().map(|(_, circles)| told(program, circles)).collect();
    program.notes.extend(notes);
}

/// For each relay a shortest circle through it, where there is one; of circles over the same relays the first.
fn circles_of(program: &Program) -> Vec<Circle> {
    let mut holders: BTreeMap<(Atom, Atom), usize> = BTreeMap::new();
    for (number, rule) in program.rules.iter().enumerate() {
        for (&head, atom) in rule.head.iter().flat_map(|head| held_by(program, rule).into_iter().map(move |atom| (head, atom))) {
            holders.entry((head, atom)).or_insert(number);
        }
    }
    let out = circles::ways_out(holders.keys().copied());
    let (mut found, mut seen) = (Vec::new(), BTreeSet::new());
    for atom in (0..program.atoms.len()).filter(|&atom| !program.atoms[atom].is_helper) {
        if let Some(nodes) = circles::back_to(&out, atom) {
            let next = |place: usize| nodes[(place + 1) % nodes.len()];
            let circle: Circle = nodes.iter().enumerate().map(|(place, &node)| (node, holders[&(node, next(place))])).collect();
            if seen.insert(relays(program, &circle)) {
                found.push(circle);
            }
        }
    }
    found
}

/// What may hold up the head of a rule: its body, and the inputs by which a table comes to the wanted answer.
fn held_by(program: &Program, rule: &Rule) -> BTreeSet<Atom> {
    let by_tables = rule.uses.iter().flat_map(|&(table, wanted)| raising(&program.tables[table], wanted));
    rule.pos.iter().copied().chain(by_tables).collect()
}

/// The inputs that, raised alone, change a table's answer to the wanted one.
fn raising(table: &Table, wanted: bool) -> Vec<Atom> {
    let answers = |row: usize| (table.rows >> row & 1 == 1) == wanted;
    let raises = |k: usize| (0..1 << table.inputs.len()).any(|row| row >> k & 1 == 0 && !answers(row) && answers(row | 1 << k));
    table.inputs.iter().enumerate().filter(|&(k, _)| raises(k)).map(|(_, &atom)| atom).collect()
}

fn relays(program: &Program, circle: &Circle) -> BTreeSet<Atom> {
    circle.iter().map(|&(atom, _)| atom).filter(|&atom| !program.atoms[atom].is_helper).collect()
}

/// What the rules of a circle ask for beside the circle itself.
fn rest(program: &Program, circle: &Circle) -> Rule {
    let atoms: BTreeSet<Atom> = circle.iter().map(|&(atom, _)| atom).collect();
    let mut rest = Rule::default();
    for rule in circle.iter().map(|&(_, number)| &program.rules[number]) {
        rest.pos.extend(rule.pos.difference(&atoms));
        rest.neg.extend(&rule.neg);
        rest.uses.extend(rule.uses.iter().filter(|&&(table, _)| program.tables[table].inputs.iter().all(|input| !atoms.contains(input))));
    }
    rest
}

/// Whether positions are left out: no other rule drives or chooses a relay of the circle wherever the circle could hold itself.
fn leaves_out(program: &Program, circle: &Circle) -> bool {
    let rest = rest(program, circle);
    let is_choice = |rule: &Rule| rule.head.iter().filter(|&&atom| !program.atoms[atom].is_helper).count() == 1;
    let acts = |rule: &Rule| rule.pos.is_subset(&rest.pos) && rule.neg.is_subset(&rest.neg) && rule.uses.is_subset(&rest.uses);
    let drives = |rule: &Rule| circle.iter().any(|(atom, _)| rule.head.contains(atom)) && is_choice(rule) && acts(rule);
    !program.rules.iter().any(drives)
}

fn told(program: &Program, circles: &[Circle]) -> String {
    let circle = &circles[0];
    let names = |circle: &Circle| relays(program, circle).iter().map(|&atom| program.name(atom).to_string()).collect::<Vec<_>>();
    let (own, place) = (names(circle), program.rules[circle[0].1].place());
    let mut lines: Vec<&str> = circle.iter().map(|&(_, rule)| program.rules[rule].text.as_str()).collect();
    lines.dedup();
    let others: Vec<String> = circles[1..].iter().map(|circle| names(circle).join(" and ")).collect();
    let likewise = if others.is_empty() { String::new() } else { format!(" (so for {})", others.join(", ")) };
    let (what, them) = match own.as_slice() {
        [one] => (format!("{} is held up here only by itself", one), "it"),
        [first @ .., last] => (format!("{} and {} hold each other up here", first.join(", "), last), "them"),
        [] => (String::new(), ""), // a circle starts at a relay
    };
    let left_out = format!("a position in which nothing else drives {} is not settled, and is left out{}", them, likewise);
    format!("{}: {} ({}): {}; to have {} found held, write: {}", place, what, lines.join(" "), left_out, them, choice(program, circle))
}

/// How to write a relay that may be found held.
fn choice(program: &Program, circle: &Circle) -> String {
    let rest = rest(program, circle);
    let is_written = |rule: &Rule| {
        let is_table = |&(table, _): &(usize, bool)| program.tables[table].is_written && rest.uses.iter().any(|use_| use_.0 == table);
        rule.uses.iter().all(is_table) && rule.pos.iter().chain(&rule.neg).all(|&atom| !program.atoms[atom].is_helper)
    };
    let name = program.name(circle[0].0);
    match program.written(&rest).as_str() {
        _ if !circle.iter().all(|&(_, rule)| is_written(&program.rules[rule])) => format!("{{ {} }} with the rest of the body", name),
        "." => format!("{{ {} }}.", name),
        body => format!("{{ {} }} {}", name, body),
    }
}
