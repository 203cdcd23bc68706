//! The units and links as a picture. What a unit depends on stands below it; a link tells its rules under the mouse and to a reader aloud.

use super::graph::{self, Size, Way};
use super::html::{counted, escaped};
use crate::plan::group::Group;
use crate::plan::layout::Unit;
use crate::plan::library::MAX_POSITIONS;
use std::collections::BTreeSet;

/// The look of the picture, in a page and alone.
pub const STYLE: &str = include_str!("graph.css");
/// So many signs of a name and so many relays of a link are drawn.
const MOST_SIGNS: usize = 34;
const MOST_RELAYS: usize = 3;
/// With more links than this their relays are not drawn, only told.
const MOST_LABELLED: usize = 14;
/// The point of a link.
const ARROW: &str = "<defs><marker id=\"arrow\" viewBox=\"0 0 8 8\" refX=\"7\" refY=\"4\" markerWidth=\"7\" markerHeight=\"7\" orient=\"auto\">\
                     <path d=\"M0 0.5 7.5 4 0 7.5z\"/></marker></defs>";
const SIGN_WIDTH: f64 = 7.4;
const LINE: f64 = 17.0;
const MARGIN: f64 = 16.0;

/// The picture as a file of its own.
pub fn show(group: &Group) -> String {
    let style = format!("<style>{}</style>", STYLE);
    format!("<?xml version=\"1.0\" encoding=\"UTF-8\"?>\n{}\n", drawn(group, " xmlns=\"http://www.w3.org/2000/svg\"", &style))
}

/// The picture as an element of a page.
pub fn element(group: &Group) -> String {
    drawn(group, "", "")
}

fn drawn(group: &Group, namespace: &str, style: &str) -> String {
    let boxes: Vec<Boxed> = (0..group.layout.units.len()).map(|unit| Boxed::of(group, unit)).collect();
    let sizes: Vec<Size> = boxes.iter().map(Boxed::size).collect();
    let text_width = |link: (usize, usize)| link_text(group, link).chars().count() as f64 * SIGN_WIDTH * 0.9;
    let places = graph::places(&sizes, &group.layout.edges, &text_width);
    let links: String = places.links.iter().map(|(&link, way)| drawn_link(group, link, way)).collect();
    let units: String = boxes.iter().zip(&places.boxes).map(|(unit, &place)| unit.drawn(place)).collect();
    let (width, height) = (places.width + 2.0 * MARGIN, places.height + 2.0 * MARGIN);
    format!(
        "<svg{} class=\"graph\" role=\"group\" aria-label=\"{}\" width=\"{w:.0}\" height=\"{h:.0}\" viewBox=\"0 0 {w:.0} {h:.0}\">\
         {}{}<g transform=\"translate({m} {m})\">{}{}</g></svg>",
        namespace,
        escaped(&format!("Units of {}: what a unit depends on stands below it", group.title)),
        style,
        ARROW,
        links,
        units,
        w = width,
        h = height,
        m = MARGIN
    )
}

/// What is written into a unit's box.
struct Boxed {
    names: Vec<String>,
    facts: String,
    marks: Vec<String>,
    is_joined: bool,
    is_offending: bool,
}

impl Boxed {
    fn of(group: &Group, number: usize) -> Boxed {
        let unit = &group.layout.units[number];
        let faults = faults(group, number);
        let mut marks = Vec::new();
        if unit.is_joined {
            marks.push(format!("joined: {} worked as one", counted(sheets(group, unit).len(), "sheet", "sheets")));
        }
        let is_offending = !faults.is_empty();
        marks.extend(faults);
        let facts = format!("{}, {}", counted(unit.rules.len(), "rule", "rules"), counted(positions(group, number), "position", "positions"));
        Boxed { names: sheets(group, unit), facts, marks, is_joined: unit.is_joined, is_offending }
    }

    fn lines(&self) -> Vec<(&str, String)> {
        let names = self.names.iter().map(|name| ("name", shortened(name)));
        let marks = self.marks.iter().map(|mark| ("mark", mark.clone()));
        names.chain(std::iter::once(("facts", self.facts.clone()))).chain(marks).collect()
    }

    fn size(&self) -> Size {
        let lines = self.lines();
        let signs = lines.iter().map(|(_, line)| line.chars().count()).max().unwrap_or(0);
        Size { width: signs as f64 * SIGN_WIDTH + 28.0, height: lines.len() as f64 * LINE + 16.0 }
    }

    fn drawn(&self, (x, y): (f64, f64)) -> String {
        let Size { width, height } = self.size();
        let rect = |class: &str, inset: f64, round: f64| {
            let (left, top) = (x - width / 2.0 + inset, y + inset);
            let (width, height) = (width - 2.0 * inset, height - 2.0 * inset);
            format!("<rect{} x=\"{:.1}\" y=\"{:.1}\" width=\"{:.1}\" height=\"{:.1}\" rx=\"{}\"/>", class, left, top, width, height, round)
        };
        let class = format!("unit{}{}", if self.is_joined { " joined" } else { "" }, if self.is_offending { " offending" } else { "" });
        let mut out = format!("<g class=\"{}\"><title>{}</title>", class, escaped(&self.told()));
        out += &rect("", 0.0, 4.0);
        if self.is_joined {
            out += &rect(" class=\"inner\"", 3.5, 2.0);
        }
        for (place, (class, line)) in self.lines().iter().enumerate() {
            out += &format!("<text class=\"{}\" x=\"{:.1}\" y=\"{:.1}\">{}</text>", class, x, y + 8.0 + LINE * (place as f64 + 0.75), escaped(line));
        }
        out + "</g>"
    }

    fn told(&self) -> String {
        let parts = std::iter::once(&self.facts).chain(&self.marks).map(String::as_str).collect::<Vec<_>>();
        format!("Unit {}: {}", self.names.join(" + "), parts.join("; "))
    }
}

pub fn positions(group: &Group, unit: usize) -> usize {
    group.listing.unit_counts.get(unit).map_or(0, |&count| count as usize)
}

/// The sheets of a unit by name.
fn sheets(group: &Group, unit: &Unit) -> Vec<String> {
    let parts: Vec<String> = unit.name.split('+').map(str::to_string).collect();
    if unit.is_joined && parts.iter().all(|part| group.program.sheets.contains(part)) {
        return parts;
    }
    vec![unit.name.clone()]
}

/// What is wrong with a unit, in words: it is the first one that has no position, or it holds the sheets whose list alone is too long.
fn faults(group: &Group, number: usize) -> Vec<String> {
    let below_is_empty = group.layout.edges.keys().any(|&(from, to)| from == number && positions(group, to) == 0);
    let empty = Some("no position is left here".to_string()).filter(|_| positions(group, number) == 0 && !below_is_empty);
    let too_long = group.too_long.as_ref().map(|unit| format!("{} alone: more than {}", shortened(unit), MAX_POSITIONS));
    empty.into_iter().chain(too_long).collect()
}

/// A long name without its middle.
fn shortened(name: &str) -> String {
    let signs: Vec<char> = name.chars().collect();
    if signs.len() <= MOST_SIGNS {
        return name.to_string();
    }
    let half = MOST_SIGNS / 2 - 1;
    signs[..half].iter().chain(&['…']).chain(&signs[signs.len() - half..]).collect()
}

fn drawn_link(group: &Group, link: (usize, usize), way: &Way) -> String {
    let mut path = format!("M{:.1} {:.1}", way.points[0].0, way.points[0].1);
    for step in way.points.windows(2) {
        let middle = (step[0].1 + step[1].1) / 2.0;
        path += &format!("C{:.1} {:.1} {:.1} {:.1} {:.1} {:.1}", step[0].0, middle, step[1].0, middle, step[1].0, step[1].1);
    }
    let told = escaped(&link_told(group, link));
    format!(
        "<g class=\"link\" tabindex=\"0\" role=\"img\" aria-label=\"{told}\"><title>{told}</title><path class=\"wide\" d=\"{path}\"/>\
         <path d=\"{path}\" marker-end=\"url(#arrow)\"/><text x=\"{:.1}\" y=\"{:.1}\">{}</text></g>",
        way.text.0,
        way.text.1 + 4.0,
        escaped(&link_text(group, link)),
        told = told,
        path = path
    )
}

/// The first few relays by which one unit depends on another one; nothing where there are too many links to read them.
fn link_text(group: &Group, link: (usize, usize)) -> String {
    if group.layout.edges.len() > MOST_LABELLED {
        return String::new();
    }
    let labels: BTreeSet<&str> = group.layout.edges[&link].iter().map(|&(_, atom)| group.program.label(atom)).collect();
    let few: Vec<String> = labels.iter().take(MOST_RELAYS).map(|label| shortened(label)).collect();
    let more = labels.len().saturating_sub(MOST_RELAYS);
    format!("{}{}", few.join(", "), if more > 0 { format!(" +{}", more) } else { String::new() })
}

fn link_told(group: &Group, link: (usize, usize)) -> String {
    let name = |unit: usize| group.layout.units[unit].name.as_str();
    let mut out = format!("{} depends on {}", name(link.0), name(link.1));
    for (told, labels) in group.asked_by(&group.layout.edges[&link]) {
        out += &format!("\nby {}: {}", labels.join(", "), told);
    }
    out
}
