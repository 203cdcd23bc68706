//! The table of positions by relays. Cells hold words, which the style draws as arrows and dots: so the table is read aloud and copied in words.

use super::super::html::{counted, escaped};
use super::readings::{milliseconds, Readings};
use crate::plan::group::Group;
use crate::plan::program::Atom;

pub fn table(group: &Group, readings: Option<&Readings>) -> String {
    let relays = group.shown();
    format!(
        "<table id=\"grid\" data-first=\"{}\">\n<caption>{}</caption>\n<thead>{}</thead>\n<tbody>\n{}</tbody>\n\
         <tbody id=\"instead\" aria-live=\"polite\" hidden><tr><td></tbody>\n<tfoot>{}</tfoot>\n</table>",
        1 + usize::from(readings.is_some()),
        caption(group, relays.len()),
        head(group, &relays, readings.is_some()),
        body(group, &relays, readings),
        foot(group, &relays, readings)
    )
}

fn caption(group: &Group, relays: usize) -> String {
    if group.listing.positions.is_empty() {
        return "No position is settled: no setting of the relays keeps all rules.".to_string();
    }
    format!("{} by {}, in the order of the sheet", counted(group.listing.positions.len(), "position", "positions"), counted(relays, "relay", "relays"))
}

fn head(group: &Group, relays: &[Atom], has_readings: bool) -> String {
    let reading = if has_readings { "<th scope=\"col\" class=\"m\">reading<br>ms" } else { "" };
    let heads: String = relays.iter().map(|&atom| relay_head(group, atom)).collect();
    format!("<tr><th scope=\"col\" class=\"n\"><abbr title=\"position\">no.</abbr>{}{}<th scope=\"col\" class=\"w\">word", reading, heads)
}

/// A relay's heading is a button that asks up, dropped or either.
fn relay_head(group: &Group, atom: Atom) -> String {
    let (name, label) = (group.program.name(atom), group.program.label(atom));
    let driven = group.program.driver(atom).map_or(String::new(), |rule| format!(", driven at {}", rule.place()));
    let unit = group.layout.units.iter().position(|unit| unit.rules.iter().any(|&rule| group.program.rules[rule].head.contains(&atom)));
    let unit_name = unit.map_or("", |unit| group.layout.units[unit].name.as_str());
    let title = format!("{}{}", if name == label { name.to_string() } else { format!("{} ({})", label, name) }, driven);
    format!(
        "<th scope=\"col\" class=\"r\" abbr=\"{label}\"><button type=\"button\" aria-pressed=\"false\" data-name=\"{}\" \
         data-place=\"{}\" data-unit=\"{}\" title=\"{}\">\
         <span class=\"l\">{label}</span><i></i><span class=\"s\" aria-hidden=\"true\"></span></button>",
        escaped(name),
        unit.unwrap_or(group.layout.units.len()),
        escaped(unit_name),
        escaped(&title),
        label = escaped(label)
    )
}

fn body(group: &Group, relays: &[Atom], readings: Option<&Readings>) -> String {
    let bits: Vec<usize> = relays.iter().filter_map(|&atom| group.plan.bit(atom)).collect();
    let row = |(place, &position): (usize, &u64)| {
        let reading = readings.map_or(String::new(), |readings| readings.cell(place));
        let cells: String = bits.iter().map(|bit| if position >> bit & 1 == 1 { "<td class=\"u\"><i>up</i>" } else { "<td><i>dropped</i>" }).collect();
        // The number is its own address, without scripts too.
        let number = format!("<th scope=\"row\" class=\"n\"><a href=\"#{0}\">{0}</a>", place + 1);
        format!("<tr id=\"{}\">{}{}{}<td class=\"w\">{:016x}\n", place + 1, number, reading, cells, position)
    };
    group.listing.positions.iter().enumerate().map(row).collect()
}

/// How many positions each relay is up in; the word all says it once more.
fn foot(group: &Group, relays: &[Atom], readings: Option<&Readings>) -> String {
    let positions = &group.listing.positions;
    let most = |readings: &Readings| readings.largest.map_or(String::new(), |(tenths, _)| format!("most {}", milliseconds(tenths)));
    let reading = readings.map_or(String::new(), |readings| format!("<td class=\"m\">{}", most(readings)));
    let count = |&atom: &Atom| {
        let count = group.plan.bit(atom).map_or(0, |bit| positions.iter().filter(|&&position| position >> bit & 1 == 1).count());
        let word = if count == positions.len() && count > 0 { "all" } else { "" };
        format!("<td class=\"{word}\">{}<small>{word}</small>", count, word = word)
    };
    let counts: String = relays.iter().map(count).collect();
    format!("<tr><th scope=\"row\" class=\"n\">up in{}{}<td class=\"w\">", reading, counts)
}
