//! The plan as bytes, and its names beside it.

use super::args::Args;
use super::open_unlisted;
use crate::fault::Fault;
use crate::plan::file;
use crate::show::output;
use std::path::Path;

pub fn run(args: &Args) -> Result<i32, Fault> {
    let (group, status) = open_unlisted(args)?;
    output::notes(&group.notes, args.is_quiet);
    let path = args.output.as_deref().unwrap_or_else(|| Path::new(""));
    output::write(Some(path), &group.plan.bytes)?;
    if output::is_file(path) {
        output::write(Some(&file::names_path(path)), file::names(&group).as_bytes())?;
    } else {
        output::notes(&["the names go to a file beside the plan, and the plan goes to none: they are not written".to_string()], args.is_quiet);
    }
    Ok(status)
}
