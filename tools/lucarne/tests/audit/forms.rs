//! A list as other offices write it. These are written here anew, so that a writer of the tool with the mistake of its reader is noticed.

use lucarne::plan::group::Group;

pub struct Form {
    pub name: &'static str,
    pub write: fn(&Group, &[u64]) -> String,
    place: fn(usize) -> String,
}

impl Form {
    /// Where the position of this place, from 0, is said to stand.
    pub fn place(&self, place: usize) -> String {
        (self.place)(place)
    }
}

pub const FORMS: [Form; 7] = [
    Form { name: "commas, 1 and 0", write: |group, list| separated(group, list, ",", ["0", "1"], true, "\r\n"), place: line },
    Form { name: "semicolons, X and nothing", write: |group, list| separated(group, list, ";", ["", "X"], true, "\n"), place: line },
    Form { name: "tabs, up and dropped", write: |group, list| separated(group, list, "\t", ["dropped", "up"], false, "\r"), place: line },
    Form { name: "by relay", write: by_relay, place: |place| format!("column {}", place + 2) },
    Form { name: "words", write: words, place: line },
    Form { name: "clingo's text", write: text, place: |place| format!("line {}", 2 * place + 5) },
    Form { name: "clingo's JSON", write: json, place: |place| format!("position {}", place + 1) },
];

fn line(place: usize) -> String {
    format!("line {}", place + 2)
}

fn is_up(group: &Group, atom: usize, position: u64) -> bool {
    group.plan.word(&[atom]) & position != 0
}

/// A cell as spreadsheets quote it.
fn quoted(name: &str) -> String {
    let name = if name.starts_with('-') { format!("'{}", name) } else { name.to_string() };
    if name.contains(',') || name.contains('"') {
        format!("\"{}\"", name.replace('"', "\"\""))
    } else {
        name
    }
}

/// By relay; with numbers before and names above, or with labels alone.
fn separated(group: &Group, list: &[u64], separator: &str, marks: [&str; 2], is_numbered: bool, end: &str) -> String {
    let relays = group.shown();
    let name = |&atom: &usize| quoted(if is_numbered { group.program.name(atom) } else { group.program.label(atom) });
    let always = group.shown_always();
    let first = |number: String| Some(number).filter(|_| is_numbered);
    let head = first("position".to_string()).into_iter().chain(relays.iter().map(name)).chain(always.iter().map(|name| quoted(name)));
    let mut lines = vec![head.collect::<Vec<_>>().join(separator)];
    for (place, &position) in list.iter().enumerate() {
        let cells = relays.iter().map(|&atom| marks[usize::from(is_up(group, atom, position))].to_string());
        let cells = first((place + 1).to_string()).into_iter().chain(cells).chain(always.iter().map(|_| marks[1].to_string()));
        lines.push(cells.collect::<Vec<_>>().join(separator));
    }
    lines.join(end) + end
}

fn by_relay(group: &Group, list: &[u64]) -> String {
    let mut lines = vec![format!("relay{}", (1..=list.len()).map(|number| format!(",{}", number)).collect::<String>())];
    for atom in group.shown() {
        let cells: String = list.iter().map(|&position| if is_up(group, atom, position) { ",1" } else { ",0" }).collect();
        lines.push(quoted(group.program.name(atom)) + &cells);
    }
    lines.join("\n") + "\n"
}

fn words(_: &Group, list: &[u64]) -> String {
    let words: String = list.iter().map(|position| format!("{:016x}\n", position)).collect();
    format!("positions {}\n{}", list.len(), words)
}

fn names(group: &Group, position: u64) -> Vec<String> {
    let up = group.plan.up(position).into_iter().map(|atom| group.program.name(atom).to_string());
    group.shown_always().into_iter().map(str::to_string).chain(up).collect()
}

fn text(group: &Group, list: &[u64]) -> String {
    let answers =
        list.iter().enumerate().map(|(place, &position)| format!("Answer: {}\n{}\n", place + 1, names(group, position).join(" ")));
    let result = if list.is_empty() { "UNSATISFIABLE" } else { "SATISFIABLE" };
    format!(
        "clingo version 5.4.1\nReading from stdin\nSolving...\n{}{}\n\nModels       : {}\n",
        answers.collect::<String>(),
        result,
        list.len()
    )
}

fn json(group: &Group, list: &[u64]) -> String {
    let value = |&position: &u64| {
        let names = names(group, position).into_iter().map(|name| format!("\"{}\"", name.replace('\\', "\\\\").replace('"', "\\\"")));
        format!("{{\"Value\": [{}]}}", names.collect::<Vec<_>>().join(", "))
    };
    let witnesses = list.iter().map(value).collect::<Vec<_>>().join(",\n");
    let models = format!("{{\"Number\": {}, \"More\": \"no\"}}", list.len());
    let result = if list.is_empty() { "UNSATISFIABLE" } else { "SATISFIABLE" };
    format!("{{\"Call\": [{{\"Witnesses\": [{}]}}], \"Result\": \"{}\", \"Models\": {}}}", witnesses, result, models)
}
