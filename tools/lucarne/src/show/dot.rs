//! The units and links as Graphviz text: what a unit depends on stands below it.

use crate::plan::group::Group;
use std::collections::BTreeSet;

/// So many relays are written to a link.
const NAMED: usize = 4;

pub fn show(group: &Group) -> String {
    let mut out = String::from("digraph units {\n  rankdir=TB;\n  node [shape=box];\n");
    for (number, unit) in group.layout.units.iter().enumerate() {
        let positions = group.listing.unit_counts.get(number).copied().unwrap_or(0);
        let style = if unit.is_joined { ", peripheries=2" } else { "" };
        out +=
            &format!("  u{} [label=\"{}\\n{} rules, {} positions\"{}];\n", number, escaped(&unit.name), unit.rules.len(), positions, style);
    }
    for (&(from, to), rules) in &group.layout.edges {
        let names: BTreeSet<&str> = rules.iter().map(|&(_, atom)| group.program.label(atom)).collect();
        let more = if names.len() > NAMED { " .." } else { "" };
        let names: Vec<&str> = names.into_iter().take(NAMED).collect();
        out += &format!("  u{} -> u{} [label=\"{}{}\"];\n", from, to, escaped(&names.join(" ")), more);
    }
    out + "}\n"
}

fn escaped(text: &str) -> String {
    text.replace('\\', "\\\\").replace('"', "\\\"")
}
