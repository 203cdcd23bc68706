//! The list as a page: one file that asks nothing of the network. The list stands in it as a table, so that it can be read without scripts; the
//! script only asks questions of that table. Nothing but the page's own style and script is let in (its policy names them by their sums).

mod bytes;
mod files;
mod grid;
mod readings;
mod rules;
mod units;

pub use readings::Readings;

use super::digest::{base64, sha256};
use super::html::{counted, escaped, filled};
use super::{svg, FULL};
use crate::plan::group::{Group, Origin};
use crate::plan::program::{Program, Setting};

const TEMPLATE: &str = include_str!("page.html");
const STYLE: &str = include_str!("page.css");
/// The script, joined of files that go by what they are for. They share their names.
const SCRIPT: &str = concat!(
    "'use strict';\n(() => {\n",
    include_str!("script/table.js"),
    include_str!("script/question.js"),
    include_str!("script/answer.js"),
    include_str!("script/order.js"),
    include_str!("script/press.js"),
    include_str!("script/suggestions.js"),
    include_str!("script/pointer.js"),
    include_str!("script/copying.js"),
    include_str!("script/start.js"),
    "})();\n",
);
/// With more columns than this the page is printed across.
const MOST_UPRIGHT: usize = 40;

/// The page of a group's list. Readings, where given, stand beside the positions.
pub fn show(group: &Group, readings: Option<&Readings>) -> String {
    let across = if group.shown().len() > MOST_UPRIGHT { "@page{size:landscape}" } else { "" };
    let style = format!("{}{}{}", STYLE, svg::STYLE, across);
    let positions = counted(group.listing.positions.len(), "settled position", "settled positions");
    filled(
        TEMPLATE,
        &[
            ("STYLE_SUM", &sum(&style)),
            ("SCRIPT_SUM", &sum(SCRIPT)),
            ("STYLE", &style),
            ("SCRIPT", SCRIPT),
            ("TITLE", &escaped(&group.title)),
            ("POSITIONS", &positions),
            ("FACTS", &facts(group)),
            ("FULL", &full(group)),
            ("KEYS", &keys(&group.program)),
            ("ALWAYS", &always(group)),
            ("READINGS", &readings.map_or(String::new(), Readings::told)),
            ("EXAMPLE", &escaped(&example(group))),
            ("COUNT", &group.listing.positions.len().to_string()),
            ("GRID", &grid::table(group, readings)),
            ("CSV", &files::csv_link(group, readings)),
            ("GRAPH", &svg::element(group)),
            ("NOTES", &units::notes(group)),
            ("LINKS", &units::links(group)),
            ("RULES", &rules::by_unit(group)),
            ("RELAYS", &rules::relays(group)),
            ("BYTES", &bytes::section(group)),
            ("VERSION", crate::VERSION),
        ],
    )
}

/// A sum by which the page's policy knows its style and script.
fn sum(text: &str) -> String {
    base64(&sha256(text.as_bytes()))
}

fn facts(group: &Group) -> String {
    let parts = [
        counted(group.shown().len(), "relay shown", "relays shown"),
        counted(group.program.rules.len(), "rule", "rules"),
        counted(group.layout.units.len(), "unit", "units"),
        counted(group.layout.edges.len(), "link", "links"),
    ];
    parts.join(" · ")
}

/// How full the list is, and what stands before it without a proof.
fn full(group: &Group) -> String {
    let way = "Not proved is the way from the sheets to the plan, which lucarne explain shows and the units below tell.";
    let way = if matches!(group.origin, Origin::Bytes) { "" } else { way };
    format!("<p class=\"full\">This is {}. {}</p>", FULL, way)
}

/// How each key is set.
fn keys(program: &Program) -> String {
    let keys = program.keys.iter().filter(|(&atom, _)| !program.atoms[atom].is_helper);
    let told = keys.map(|(&atom, key)| {
        let setting = match key.setting {
            Setting::Turned => "turned",
            Setting::Released => "released",
            Setting::Free => "free",
        };
        format!("<li>{} <b>{}</b></li>", escaped(program.label(atom)), setting)
    });
    let told: String = told.collect();
    if told.is_empty() {
        return told;
    }
    format!("<div class=\"line\"><span id=\"h-keys\">Keys</span><ul aria-labelledby=\"h-keys\">{}</ul></div>", told)
}

/// Facts outside the plan.
fn always(group: &Group) -> String {
    let names: String = group.shown_always().iter().map(|name| format!("<li>{}</li>", escaped(group.program.label_of(name)))).collect();
    if names.is_empty() {
        return names;
    }
    format!("<div class=\"line\"><span id=\"h-always\">Always up</span><ul aria-labelledby=\"h-always\">{}</ul></div>", names)
}

/// A question to show how one is written: the first two relays.
fn example(group: &Group) -> String {
    let names: Vec<&str> = group.shown().into_iter().map(|atom| group.program.name(atom)).collect();
    match names.as_slice() {
        [] => String::new(),
        [one] => one.to_string(),
        [one, two, ..] => format!("{}, -{}", one, two),
    }
}
