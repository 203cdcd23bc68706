//! A line for each position: the relays that are up, by label.

use super::FULL;
use crate::plan::group::{Group, Origin};

pub fn show(group: &Group) -> String {
    let beside = if matches!(group.origin, Origin::Bytes) { "" } else { " (not proved: from the sheets to the plan, see lucarne explain)" };
    let mut out = format!("positions {}: {}{}\n", group.listing.positions.len(), FULL, beside);
    let always = group.shown_always();
    if !always.is_empty() {
        out += &format!("always up: {}\n", always.iter().map(|name| group.program.label_of(name)).collect::<Vec<_>>().join(", "));
    }
    for (place, &position) in group.listing.positions.iter().enumerate() {
        out += &format!("{:4}  {}\n", place + 1, group.told(position));
    }
    out
}
