//! Every setting of a group's keys: how many positions it has, or its list.

use super::args::Args;
use crate::fault::{status, Fault};
use crate::plan::group::{Group, Origin};
use crate::near;
use crate::show::output::{self, Stream};
use crate::plan::bytes::Plan;
use crate::plan::program::{Atom, Setting};
use crate::show::progress::Progress;
use crate::show::csv::{self, Heads};
use crate::show::Form;

/// More keys have too many settings to go through.
const MOST_KEYS: usize = 16;

pub fn run(args: &Args) -> Result<i32, Fault> {
    let mut group = Group::prepare(&args.group)?;
    let keys = chosen(&group, args)?;
    output::notes(&group.notes, args.is_quiet);
    let told = group.notes.len();
    let mut stream = Stream::to(args.output.as_deref())?;
    stream.text(&header(&group, &keys, args.form, args.heads))?;
    let settings = 1u64 << keys.len();
    let mut progress = Progress::beside_output("settings", settings as usize);
    let mut worst = status::FINE;
    for setting in 0..settings {
        let listed = list(&mut group, &keys, setting);
        let state = match &listed {
            Ok(()) if group.listing.positions.is_empty() => status::NOT_FINE,
            Ok(()) => status::FINE,
            Err(fault) if fault.status == status::REFUSED => status::REFUSED,
            Err(fault) => return Err(fault.clone()),
        };
        worst = worst.max(state);
        for line in lines(&group, &keys, setting, args.form, listed.err()) {
            stream.text(&line)?;
        }
        progress.step();
    }
    stream.end()?;
    drop(progress);
    output::notes(&group.notes[told..], args.is_quiet);
    Ok(worst)
}

/// The keys of --over, or all, in the order of bits. Those that the command line sets are not gone through.
fn chosen(group: &Group, args: &Args) -> Result<Vec<Atom>, Fault> {
    if matches!(group.origin, Origin::Bytes) {
        return Err(Fault::new(format!("{} is a plan as bytes, whose keys are set", group.title)).hint("name its sheets"));
    }
    let program = &group.program;
    let set = |atom: &Atom| {
        args.group
            .turns
            .turn
            .iter()
            .chain(&args.group.turns.release)
            .any(|word| word == program.name(*atom) || word == program.label(*atom))
    };
    let all: Vec<Atom> =
        group.plan.atoms.iter().copied().filter(|atom| program.keys.contains_key(atom) && !program.atoms[*atom].is_helper).collect();
    let keys: Vec<Atom> = match args.over.is_empty() {
        true => all.iter().copied().filter(|atom| !set(atom)).collect(),
        false => args.over.iter().map(|word| key(group, &all, word)).collect::<Result<_, _>>()?,
    };
    if let Some((_, &twice)) = keys.iter().enumerate().find(|(place, atom)| keys[..*place].contains(atom) || set(atom)) {
        return Err(Fault::new(format!("the key {} is named twice", program.label(twice)))
            .hint("a key is either gone through (--over) or set (--turn, --release)"));
    }
    match keys.len() {
        0 => Err(Fault::new("the group has no keys to go through").hint("keys are written on a sheet: #external NAME.")),
        1..=MOST_KEYS => Ok(keys),
        many => Err(Fault::new(format!("the group has {} keys, and so 2 to the power of {} settings", many, many))
            .hint(format!("name at most {} of them: --over k1,k2", MOST_KEYS))),
    }
}

fn key(group: &Group, all: &[Atom], word: &str) -> Result<Atom, Fault> {
    let program = &group.program;
    let found = all.iter().copied().find(|&atom| word == program.name(atom) || word == program.label(atom));
    found.ok_or_else(|| {
        let known = all.iter().flat_map(|&atom| [program.name(atom), program.label(atom)]);
        Fault::new(format!("no sheet knows the key {}", word)).hint(near::hint(word, known, "keys are written on a sheet: #external NAME."))
    })
}

fn is_turned(keys: &[Atom], setting: u64, place: usize) -> bool {
    // The last key changes fastest.
    setting >> (keys.len() - 1 - place) & 1 == 1
}

/// Lists the group with its keys so. Units and links do not hang on keys.
fn list(group: &mut Group, keys: &[Atom], setting: u64) -> Result<(), Fault> {
    for (place, atom) in keys.iter().enumerate() {
        if let Some(key) = group.program.keys.get_mut(atom) {
            key.setting = if is_turned(keys, setting, place) { Setting::Turned } else { Setting::Released };
        }
    }
    group.plan = Plan::of(&group.program, &group.layout)?;
    group.list()
}

/// The relays of a list's columns: all that show but the keys that are gone through.
fn relays(group: &Group, keys: &[Atom]) -> Vec<Atom> {
    group.shown().into_iter().filter(|atom| !keys.contains(atom)).collect()
}

fn header(group: &Group, keys: &[Atom], form: Form, heads: Heads) -> String {
    if form != Form::Csv {
        let labels: Vec<&str> = keys.iter().map(|&atom| group.program.label(atom)).collect();
        return format!("{}  positions\n", labels.join(" "));
    }
    let names = csv::headings(group, keys, heads).into_iter().chain(Some("position".to_string()));
    csv::line(names.chain(csv::headings(group, &relays(group, keys), heads)))
}

/// The lines of a setting: its count, or a line for each position. One without any has a line too, so that it is not taken for forgotten.
fn lines(group: &Group, keys: &[Atom], setting: u64, form: Form, refused: Option<Fault>) -> Vec<String> {
    let turned = |place: usize| is_turned(keys, setting, place);
    let count = refused.map_or(group.listing.positions.len().to_string(), |fault| fault.what);
    if form != Form::Csv {
        let mark = |(place, &atom): (usize, &Atom)| {
            let label = group.program.label(atom);
            if turned(place) {
                label.to_string()
            } else {
                ".".repeat(label.chars().count())
            }
        };
        return vec![format!("{}  {}\n", keys.iter().enumerate().map(mark).collect::<Vec<_>>().join(" "), count)];
    }
    let relays = relays(group, keys);
    let line = |told: String, cells: Vec<String>| {
        let first = (0..keys.len()).map(|place| if turned(place) { "1" } else { "0" }.to_string());
        csv::line(first.chain(Some(told)).chain(cells))
    };
    if count.parse() != Ok(group.listing.positions.len()) || group.listing.positions.is_empty() {
        let told = if count == "0" { "none" } else { &count };
        return vec![line(csv::heading(told), vec![String::new(); relays.len()])];
    }
    let positions = group.listing.positions.iter().enumerate();
    positions.map(|(place, &position)| line((place + 1).to_string(), csv::cells(group, &relays, position))).collect()
}
