//! Relays as people write them: by name or by label.

use crate::fault::Fault;
use crate::plan::group::Group;
use crate::near;
use crate::plan::program::Atom;

/// What a word names.
#[derive(Clone, Copy, Debug, PartialEq, Eq)]
pub enum Called {
    /// A relay of the plan.
    Relay(Atom),
    /// A fact outside the plan, up in every position.
    Always,
}

/// The relay of this name or label; spaces within a name's brackets do not count.
pub fn find(group: &Group, word: &str) -> Option<Called> {
    let tight: String = word.chars().filter(|sign| !sign.is_whitespace()).collect();
    exact(group, word).or_else(|| exact(group, &tight))
}

fn exact(group: &Group, word: &str) -> Option<Called> {
    let program = &group.program;
    let by_label = program.labels.iter().find(|(_, label)| *label == word).map(|(name, _)| name.as_str());
    let name = by_label.unwrap_or(word);
    let relay = program.find(name).filter(|&atom| !program.atoms[atom].is_helper && group.plan.bit(atom).is_some());
    let always = || Some(Called::Always).filter(|_| program.always.iter().any(|always| always == name));
    relay.map(Called::Relay).or_else(always)
}

/// The same, or a fault with the nearest name.
pub fn relay(group: &Group, word: &str) -> Result<Called, Fault> {
    find(group, word).ok_or_else(|| unknown(group, word))
}

fn unknown(group: &Group, word: &str) -> Fault {
    let program = &group.program;
    let relays = group.plan.atoms.iter().filter(|&&atom| !program.atoms[atom].is_helper);
    let names = relays.flat_map(|&atom| [program.name(atom), program.label(atom)]).chain(program.always.iter().map(String::as_str));
    Fault::new(format!("no sheet knows the relay {}", word)).hint(near::hint(word, names, "lucarne rows GROUP names the relays"))
}
