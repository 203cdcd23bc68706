//! A grid of positions by relays: X is up, a dot is dropped.

use crate::plan::group::Group;

pub fn show(group: &Group) -> String {
    let relays = group.shown();
    let labels: Vec<&str> = relays.iter().map(|&atom| group.program.label(atom)).collect();
    let line = |first: String, cells: Vec<&str>| {
        let cells = cells.iter().zip(&labels).map(|(cell, label)| format!("{:1$}", cell, label.chars().count()));
        format!("{}{}", first, cells.collect::<Vec<_>>().join(" ")).trim_end().to_string() + "\n"
    };
    let mut out = line(" ".repeat(6), labels.clone());
    for (place, &position) in group.listing.positions.iter().enumerate() {
        let up = group.plan.up(position);
        let cells = relays.iter().map(|atom| if up.contains(atom) { "X" } else { "." }).collect();
        out += &line(format!("{:4}  ", place + 1), cells);
    }
    out
}
