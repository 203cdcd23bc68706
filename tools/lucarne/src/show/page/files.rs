//! Files that the page holds: the list as CSV, to be saved without scripts too, and their names.

use super::super::csv::{self, Heads};
use super::super::html::escaped;
use super::readings::{milliseconds, Readings};
use crate::plan::group::Group;

/// The list as `lucarne list --as csv` writes it; readings, where given, stand behind the numbers.
pub fn csv_link(group: &Group, readings: Option<&Readings>) -> String {
    let text = readings.map_or_else(|| csv::show(group, Heads::Labels), |readings| with_readings(group, readings));
    let plain = |byte: u8| byte.is_ascii_alphanumeric() || b",_.-".contains(&byte);
    let url: String = text.bytes().map(|byte| if plain(byte) { char::from(byte).to_string() } else { format!("%{:02X}", byte) }).collect();
    let file = escaped(&name(&group.title));
    format!("<a id=\"csv\" download=\"{}.csv\" href=\"data:text/csv;charset=utf-8,{}\">Save the list as CSV</a>", file, url)
}

fn with_readings(group: &Group, readings: &Readings) -> String {
    let relays = group.shown();
    let first = ["position", "milliseconds"].map(str::to_string);
    let mut out = csv::line(first.into_iter().chain(csv::headings(group, &relays, Heads::Labels)));
    for (place, &position) in group.listing.positions.iter().enumerate() {
        let reading = readings.tenths.get(place).copied().flatten().map_or(String::new(), milliseconds);
        out += &csv::line([(place + 1).to_string(), reading].into_iter().chain(csv::cells(group, &relays, position)));
    }
    out
}

/// A name for files of this group: the title's last part, plain letters alone.
pub fn name(title: &str) -> String {
    let last = title.trim_end_matches('/').rsplit('/').next().unwrap_or_default();
    let last = last.trim_end_matches(".lp").trim_end_matches(".plan");
    let plain: String = last.chars().map(|sign| if sign.is_ascii_alphanumeric() || "-_".contains(sign) { sign } else { '-' }).collect();
    let plain = plain.trim_matches('-').to_string();
    if plain.is_empty() {
        return "group".to_string();
    }
    plain
}
