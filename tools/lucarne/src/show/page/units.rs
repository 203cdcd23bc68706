//! What stands below the picture of the units: links with their rules, and notes.

use super::super::html::{counted, escaped};
use crate::plan::group::Group;

/// Each link with the rules that ask for it.
pub fn links(group: &Group) -> String {
    if group.layout.edges.is_empty() {
        return String::new();
    }
    let name = |unit: usize| escaped(&group.layout.units[unit].name);
    let item = |(&(from, to), rules): (&(usize, usize), &Vec<(usize, usize)>)| {
        let asked = group.asked_by(rules);
        let by: String = asked.iter().map(|(told, labels)| format!("<li>by {} <code>{}</code>", escaped(&labels.join(", ")), escaped(told))).collect();
        format!("<li><b>{}</b> depends on <b>{}</b><ul>{}</ul>", name(from), name(to), by)
    };
    let items: String = group.layout.edges.iter().map(item).collect();
    let count = counted(group.layout.edges.len(), "link", "links");
    format!("<details open><summary>{}, with the rules that ask for them</summary><ul class=\"links\">{}</ul></details>", count, items)
}

/// What a planner should know: sheets that were joined, constraints that were moved. A note's first line is its sentence, the others are rules.
pub fn notes(group: &Group) -> String {
    let notes: String = group.all_notes().iter().map(|note| item(note)).collect();
    if notes.is_empty() {
        return notes;
    }
    format!("<h3>Notes</h3><ul class=\"notes\">{}</ul>", notes)
}

fn item(note: &str) -> String {
    let mut lines = note.lines();
    let first = escaped(lines.next().unwrap_or_default());
    let rest: Vec<String> = lines.map(|line| escaped(line.trim())).collect();
    if rest.is_empty() {
        return format!("<li>{}", first);
    }
    format!("<li>{}<pre>{}</pre>", first, rest.join("\n"))
}
