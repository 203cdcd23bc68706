//! What the tool made of the sheets: units and links with the rules that ask for them, what was joined or moved, helpers and tables.

use super::args::Args;
use super::open_unlisted;
use crate::fault::Fault;
use crate::plan::group::Group;
use crate::plan::limits::{MAX_ATOMS, MAX_RULES, MAX_TABLES, MAX_UNITS};
use crate::plan::bytes;
use crate::show::output;
use crate::show::html::counted;

pub fn run(args: &Args) -> Result<i32, Fault> {
    let (group, status) = open_unlisted(args)?;
    output::write(args.output.as_deref(), explain(&group).as_bytes()).map(|_| status)
}

fn explain(group: &Group) -> String {
    let parts = [summary(group), units(group), links(group), changes(group), helpers(group), tables(group), keys(group)];
    parts.iter().filter(|part| !part.is_empty()).map(String::as_str).collect::<Vec<_>>().join("\n")
}

fn summary(group: &Group) -> String {
    let atoms = group.program.used_atoms();
    let helpers = atoms.iter().filter(|&&atom| group.program.atoms[atom].is_helper).count();
    let listed = counted(group.listing.positions.len(), "position", "positions");
    let listed = if group.listing.unit_counts.is_empty() { "no list".to_string() } else { listed };
    format!(
        "{}; {} of {} rules, {} and {} of {}, {} of {} contact tables, {} of {} units, {}, {} bytes\n",
        listed,
        group.program.rules.len(),
        MAX_RULES,
        counted(atoms.len() - helpers, "relay", "relays"),
        counted(helpers, "helper", "helpers"),
        MAX_ATOMS,
        group.program.tables.len(),
        MAX_TABLES,
        group.layout.units.len(),
        MAX_UNITS,
        counted(group.layout.edges.len(), "link", "links"),
        group.plan.bytes.len()
    )
}

fn units(group: &Group) -> String {
    let mut out = String::new();
    for (number, unit) in group.layout.units.iter().enumerate() {
        let positions = group.listing.unit_counts.get(number).map_or(String::new(), |&count| format!(", {}", counted(count as usize, "position", "positions")));
        out += &format!("unit {}: {}{}\n", number, unit.name, positions);
        let mut last = String::new();
        for &rule in &unit.rules {
            let told = group.program.rules[rule].told();
            if told != last {
                out += &format!("    {}\n", told);
            }
            last = told;
        }
    }
    out
}

fn links(group: &Group) -> String {
    let mut out = String::new();
    for (&(from, to), rules) in &group.layout.edges {
        out += &format!("link: {} depends on {}\n", group.layout.units[from].name, group.layout.units[to].name);
        group.asked_by(rules).iter().for_each(|(told, labels)| out += &format!("    by {}   ({})\n", labels.join(", "), told));
    }
    out
}

fn changes(group: &Group) -> String {
    group.all_notes().iter().map(|note| format!("note: {}\n", note)).collect()
}

/// Each helper with the rules that drive it.
fn helpers(group: &Group) -> String {
    let (program, mut out) = (&group.program, String::new());
    for atom in group.helpers() {
        let rules = program.rules.iter().filter(|rule| rule.head.contains(&atom));
        let written: Vec<String> = rules.map(|rule| program.written(rule)).collect();
        let undriven = if program.keys.contains_key(&atom) { "always up" } else { "dropped in every position" };
        let told = if written.is_empty() { undriven.to_string() } else { written.join(" ") };
        out += &format!("helper {}: {}\n", program.name(atom), told);
    }
    out
}

fn tables(group: &Group) -> String {
    let mut out = String::new();
    for table in &group.program.tables {
        let inputs: Vec<&str> = table.inputs.iter().map(|&atom| group.program.name(atom)).collect();
        let row = |j: u64| (0..inputs.len()).map(|k| if j >> k & 1 == 1 { '1' } else { '0' }).collect::<String>();
        let rows: Vec<String> = (0..1u64 << inputs.len()).filter(|&j| table.rows >> j & 1 == 1).map(row).collect();
        out += &format!("table {}({}) {}\n", table.name, inputs.join(","), rows.join(" "));
    }
    out
}

fn keys(group: &Group) -> String {
    let turned = bytes::given(&group.program);
    let keys = group.program.keys.keys().filter(|&&atom| !group.program.atoms[atom].is_helper);
    keys.map(|atom| format!("key {}: {}\n", group.program.label(*atom), if turned.contains(atom) { "turned" } else { "released" }))
        .collect()
}
