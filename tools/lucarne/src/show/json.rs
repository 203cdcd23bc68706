//! The shape of `clingo --outf=2`, so that scripts that read that go on; what is ours stands under Lucarne.

use crate::plan::group::Group;
use crate::plan::layout::Unit;
use crate::plan::library;
use crate::plan::program::{Rule, Setting};
use serde_json::ser::Formatter;
use serde_json::{json, Map, Serializer, Value};
use std::io::{self, Write};

/// Lists as high as this, and objects above it, are written over several lines.
const HIGH: usize = 3;

pub fn show(group: &Group) -> String {
    let witnesses: Vec<Value> = group.listing.positions.iter().map(|&position| json!({ "Value": value(group, position) })).collect();
    let count = witnesses.len();
    let all = json!({
        "Solver": format!("lucarne {}", crate::VERSION),
        "Input": [group.title],
        "Call": [{ "Witnesses": witnesses }],
        "Result": if count == 0 { "UNSATISFIABLE" } else { "SATISFIABLE" },
        "Models": { "Number": count, "More": "no" },
        "Lucarne": ours(group),
    });
    written(&all, 0) + "\n"
}

/// The names that are up, facts outside the plan among them, as clingo has them.
fn value(group: &Group, position: u64) -> Value {
    let up = group.plan.up(position);
    let names = up.iter().filter(|&&atom| group.program.is_shown(atom)).map(|&atom| group.program.name(atom));
    group.shown_always().into_iter().chain(names).collect()
}

fn ours(group: &Group) -> Value {
    let program = &group.program;
    let setting = |setting: Setting| if setting == Setting::Turned { "turned" } else { "released" };
    let keys = program.keys.iter().filter(|(&atom, _)| !program.atoms[atom].is_helper);
    let keys: Map<String, Value> = keys.map(|(&atom, key)| (program.name(atom).to_string(), json!(setting(key.setting)))).collect();
    json!({
        "relays": group.shown().into_iter().map(|atom| program.name(atom)).collect::<Vec<_>>(),
        "labels": program.labels,
        "keys": keys,
        "always": group.shown_always(),
        "helpers": group.helpers().into_iter().map(|atom| program.name(atom)).collect::<Vec<_>>(),
        "atoms": group.plan.atoms.iter().map(|&atom| program.name(atom)).collect::<Vec<_>>(),
        "units": group.layout.units.iter().enumerate().map(|(number, one)| unit(group, number, one)).collect::<Vec<_>>(),
        "links": group.layout.edges.iter().map(|(ends, rules)| link(group, ends, rules)).collect::<Vec<_>>(),
        "notes": group.notes,
        "sheet": String::from_utf8_lossy(&library::sheet(&group.plan.bytes)),
    })
}

fn unit(group: &Group, number: usize, unit: &Unit) -> Value {
    let rule = |rule: &Rule| json!({ "at": rule.place(), "text": rule.text });
    let rules: Vec<Value> = unit.rules.iter().map(|&number| rule(&group.program.rules[number])).collect();
    let positions = group.listing.unit_counts.get(number).copied().unwrap_or(0);
    json!({ "name": unit.name, "positions": positions, "rules": rules })
}

fn link(group: &Group, &(from, to): &(usize, usize), rules: &[(usize, usize)]) -> Value {
    let by = |&(rule, atom): &(usize, usize)| json!({ "at": group.program.rules[rule].place(), "relay": group.program.name(atom) });
    let name = |unit: usize| &group.layout.units[unit].name;
    json!({ "from": name(from), "to": name(to), "by": rules.iter().map(by).collect::<Vec<_>>() })
}

/// A value's text. What is low stands on a line, a position or a unit so, and what is high on a line for each of its parts.
fn written(value: &Value, depth: usize) -> String {
    let inner = "  ".repeat(depth + 1);
    let lines = |open: &str, parts: Vec<String>, close: &str| format!("{}\n{}\n{}{}", open, parts.join(",\n"), "  ".repeat(depth), close);
    match value {
        Value::Array(items) if height(value) >= HIGH => {
            lines("[", items.iter().map(|item| inner.clone() + &written(item, depth + 1)).collect(), "]")
        }
        Value::Object(fields) if height(value) > HIGH => {
            let field = |(name, value): (&String, &Value)| format!("{}{}: {}", inner, on_a_line(&json!(name)), written(value, depth + 1));
            lines("{", fields.iter().map(field).collect(), "}")
        }
        _ => on_a_line(value),
    }
}

fn height(value: &Value) -> usize {
    match value {
        Value::Array(items) => 1 + items.iter().map(height).max().unwrap_or(0),
        Value::Object(fields) => 1 + fields.values().map(height).max().unwrap_or(0),
        _ => 0,
    }
}

fn on_a_line(value: &Value) -> String {
    let mut out = Vec::new();
    serde::Serialize::serialize(value, &mut Serializer::with_formatter(&mut out, Spaced)).expect("JSON goes to memory");
    String::from_utf8_lossy(&out).into_owned()
}

/// A space stands behind commas and colons.
struct Spaced;

impl Formatter for Spaced {
    fn begin_array_value<W: ?Sized + Write>(&mut self, out: &mut W, first: bool) -> io::Result<()> {
        out.write_all(if first { b"" } else { b", " })
    }

    fn begin_object_key<W: ?Sized + Write>(&mut self, out: &mut W, first: bool) -> io::Result<()> {
        out.write_all(if first { b"" } else { b", " })
    }

    fn begin_object_value<W: ?Sized + Write>(&mut self, out: &mut W) -> io::Result<()> {
        out.write_all(b": ")
    }
}
