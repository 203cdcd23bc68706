//! audit COUNT SEED GROUP..: for each group the list as other offices write it, in seven forms: with a position taken out, a line doubled, a relay
//! changed, just that is said. Then lists with drawn faults, which are read or refused in words, and drawn groups whose reasons must be true.

#[path = "audit/forms.rs"]
mod forms;
#[path = "audit/mutated.rs"]
mod mutated;
#[path = "../../../tests/random.rs"]
#[allow(dead_code)]
mod random;
#[path = "audit/reasons.rs"]
mod reasons;
mod tally;

use forms::{Form, FORMS};
use lucarne::commands::audit;
use lucarne::plan::group::{Group, Options};
use lucarne::plan::layout::Circles;
use lucarne::read::reader::{Grounding, Turns};
use lucarne::read::theirs;
use random::Random;
use tally::Tally;

const SAME: &str =
    "their list is the list: nothing is missing, and every position is settled (proved: the library's own search finds none that they lack)";
/// So many positions of a list are taken out, doubled and changed in each form.
const MOST: usize = 8;

fn main() {
    let words: Vec<String> = std::env::args().skip(1).collect();
    let number = |place: usize| words.get(place).and_then(|word| word.parse::<u64>().ok()).expect("COUNT and SEED are numbers");
    let (count, seed) = (number(0), number(1));
    let mut tally = Tally::default();
    for path in &words[2..] {
        let mut random = Random::for_case(seed, path.len() as u64);
        FORMS.iter().for_each(|form| try_form(path, form, &mut random, &mut tally));
    }
    mutated::try_all(&words[2..], count, seed, &mut tally);
    reasons::try_all(count / 4, seed, &mut tally);
    for what in [
        "taken out",
        "doubled",
        "changed and not settled",
        "changed to another",
        "read",
        "refused",
        "broken",
        "forbidden",
        "held by nothing",
        "holding itself",
        "holding each other",
        "keys",
    ] {
        tally.must_have(what);
    }
    std::process::exit(tally.end());
}

pub fn options(path: &str) -> Options {
    Options { paths: vec![path.into()], grounding: Grounding::Auto, circles: Circles::Join, one_unit: false, turns: Turns::default() }
}

fn try_form(path: &str, form: &Form, random: &mut Random, tally: &mut Tally) {
    let mut group = Group::open(&options(path)).expect("a sample group is listed");
    let list = group.listing.positions.clone();
    let count = list.len();
    expect(&mut group, form, &list, &[SAME.to_string()], tally);
    for _ in 0..MOST.min(count) {
        let place = random.below(count);
        let mut less = list.clone();
        less.remove(place);
        let missing = format!("MISSING      {}   ({:016x})", group.told(list[place]), list[place]);
        expect(&mut group, form, &less, &[missing, differences(1)], tally);
        tally.count("taken out", 1);
        let mut more = list.clone();
        more.push(list[place]);
        let twice = format!("TWICE        {} is {} again", form.place(count), form.place(place));
        expect(&mut group, form, &more, &[twice, differences(1)], tally);
        tally.count("doubled", 1);
        change(&mut group, form, &list, place, random, tally);
    }
}

/// One relay of one position changed.
fn change(group: &mut Group, form: &Form, list: &[u64], place: usize, random: &mut Random, tally: &mut Tally) {
    let relays = group.shown();
    let atom = random.pick(&relays);
    let mut changed = list.to_vec();
    changed[place] ^= group.plan.word(&[atom]);
    let missing = format!("MISSING      {}   ({:016x})", group.told(list[place]), list[place]);
    if let Some(other) = list.iter().position(|&position| position == changed[place]) {
        let (first, second) = (place.min(other), place.max(other));
        let twice = format!("TWICE        {} is {} again", form.place(second), form.place(first));
        expect(group, form, &changed, &[twice, missing, differences(2)], tally);
        return tally.count("changed to another", 1);
    }
    let back = if list[place] & group.plan.word(&[atom]) != 0 { "up" } else { "dropped" };
    let near = format!("             nearest settled: {} {}, which is missing: a slip of the pen?", group.program.label(atom), back);
    let not_settled = format!("NOT SETTLED  {}: {}", form.place(place), group.told(changed[place]));
    expect(group, form, &changed, &[not_settled, REASON.to_string(), near, missing, differences(2)], tally);
    tally.count("changed and not settled", 1);
}

/// Stands for a line with any reason.
const REASON: &str = "(a reason)";

fn differences(count: usize) -> String {
    format!("their list is not the list: {} difference{}", count, if count == 1 { "" } else { "s" })
}

/// The report on these positions must have just these lines behind its first.
fn expect(group: &mut Group, form: &Form, positions: &[u64], lines: &[String], tally: &mut Tally) {
    let text = (form.write)(group, positions);
    let report = theirs::of_text(group, "list", &text).and_then(|theirs| audit::report(group, &theirs));
    let said = match report {
        Ok(report) => report.lines,
        Err(fault) => vec![fault.to_string()],
    };
    let first = format!("their list: {} positions; settled: {}", positions.len(), group.listing.positions.len());
    let fits = |said: &String, line: &String| said == line || line == REASON && reasons::is_reason(said.trim());
    let same = said.len() == lines.len() + 1 && said[0] == first && said[1..].iter().zip(lines).all(|(said, line)| fits(said, line));
    tally.check(same, &format!("{} as {}", group.title, form.name), || {
        format!("{}\n-- expected:\n{}\n-- list:\n{}", said.join("\n"), lines.join("\n"), text)
    });
}
