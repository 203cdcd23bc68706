//! A group's list in the forms that are asked for. The order of positions is the library's in all of them.

pub mod beside;
pub mod csv;
pub mod digest;
pub mod dot;
pub mod graph;
pub mod html;
pub mod json;
pub mod lp;
pub mod names;
pub mod output;
pub mod page;
pub mod progress;
pub mod svg;
pub mod table;

use crate::plan::group::Group;
use self::csv::Heads;
use crate::plan::library;

#[derive(Clone, Copy, Debug, PartialEq, Eq)]
pub enum Form {
    Names,
    Table,
    Csv,
    Json,
    Sheet,
    Dot,
    Svg,
    Html,
    Lp,
}

/// How full every list is, for those who read one.
pub const FULL: &str = "every settled position of the plan, proved to leave none out";

/// Each form with its name on the command line.
pub const FORMS: [(&str, Form); 9] = [
    ("names", Form::Names),
    ("table", Form::Table),
    ("csv", Form::Csv),
    ("json", Form::Json),
    ("sheet", Form::Sheet),
    ("dot", Form::Dot),
    ("svg", Form::Svg),
    ("html", Form::Html),
    ("lp", Form::Lp),
];

pub fn show(group: &Group, form: Form, heads: Heads) -> Vec<u8> {
    match form {
        Form::Names => names::show(group).into_bytes(),
        Form::Table => table::show(group).into_bytes(),
        Form::Csv => csv::show(group, heads).into_bytes(),
        Form::Json => json::show(group).into_bytes(),
        Form::Sheet => library::sheet(&group.plan.bytes),
        Form::Dot => dot::show(group).into_bytes(),
        Form::Svg => svg::show(group).into_bytes(),
        Form::Html => page::show(group, None).into_bytes(),
        Form::Lp => lp::show(group, &[]).unwrap_or_default().into_bytes(),
    }
}
