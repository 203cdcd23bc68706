//! The rules of each unit with their lines, and the relays by label and name.

use super::super::html::{counted, escaped};
use super::super::svg;
use crate::plan::group::Group;
use crate::plan::program::Atom;

pub fn by_unit(group: &Group) -> String {
    (0..group.layout.units.len()).map(|unit| unit_rules(group, unit)).collect()
}

fn unit_rules(group: &Group, number: usize) -> String {
    let unit = &group.layout.units[number];
    let positions = counted(svg::positions(group, number), "position", "positions");
    let mut rows = String::new();
    let mut last = String::new();
    for rule in unit.rules.iter().map(|&rule| &group.program.rules[rule]) {
        // A choice over several relays is several rules of the plan with one text.
        let told = rule.told();
        if told != last {
            rows += &format!("<tr><th scope=\"row\">{}<td><code>{}</code>", escaped(&rule.place()), escaped(&rule.text));
        }
        last = told;
    }
    format!("<table class=\"rules\"><caption>{} <span>{}</span></caption><tbody>{}</tbody></table>", escaped(&unit.name), positions, rows)
}

/// Relays by label: the name on the sheets, and where it is driven.
pub fn relays(group: &Group) -> String {
    let mut relays: Vec<Atom> = group.plan.atoms.iter().copied().filter(|&atom| !group.program.atoms[atom].is_helper).collect();
    relays.retain(|atom| group.program.used_atoms().contains(atom));
    let rows: String = relays.iter().map(|&atom| relay(group, atom)).collect();
    let head = "<thead><tr><th scope=\"col\">relay<th scope=\"col\">name<th scope=\"col\">bit<th scope=\"col\">driven at</thead>";
    format!("<table class=\"relays\">{}<tbody>{}</tbody></table>", head, rows)
}

fn relay(group: &Group, atom: Atom) -> String {
    let program = &group.program;
    let bit = group.plan.bit(atom).map_or(String::new(), |bit| bit.to_string());
    let mut driven: Vec<String> = program.rules.iter().filter(|rule| rule.head.contains(&atom)).map(|rule| escaped(&rule.place())).collect();
    driven.dedup();
    if program.keys.contains_key(&atom) {
        driven.push("key".to_string());
    }
    let hidden = if program.is_shown(atom) { "" } else { " (not shown)" };
    let driven = if driven.is_empty() { "nowhere: always dropped".to_string() } else { driven.join(", ") };
    let (label, name) = (escaped(program.label(atom)), escaped(program.name(atom)));
    format!("<tr><th scope=\"row\">{}{}<td><code>{}</code><td class=\"b\">{}<td>{}", label, hidden, name, bit, driven)
}
