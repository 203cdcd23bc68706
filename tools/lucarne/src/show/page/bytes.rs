//! The plan's bytes with their sum, so that `settle` can be run on what was listed.

use super::super::digest::{hex, sha256};
use super::super::html::escaped;
use super::files;
use crate::plan::group::Group;
use crate::plan::file;

/// So many bytes stand in a line.
const LINE: usize = 32;

pub fn section(group: &Group) -> String {
    let bytes = &group.plan.bytes;
    let lines: Vec<String> = bytes.chunks(LINE).map(hex).collect();
    let url: String = bytes.iter().map(|byte| format!("%{:02x}", byte)).collect();
    let file = files::name(&group.title);
    format!(
        "<dl><dt>bytes<dd>{}<dt>SHA-256<dd><code id=\"sha256\">{}</code><dt>sum in X.names<dd><code>{:016x}</code></dl>\
         <p><a id=\"plan\" download=\"{file}.plan\" href=\"data:application/octet-stream,{}\">Save {file}.plan</a>, or copy the digits below. Then</p>\
         <pre>xxd -r -p &lt; digits &gt; {file}.plan     # where they were copied\nsha256sum {file}.plan\nsettle &lt; {file}.plan</pre>\
         <p>prints the sum above, and the words of the table in the same order.</p>\
         <pre id=\"bytes\" tabindex=\"0\" aria-label=\"The plan's bytes as hexadecimal digits\">{}</pre>",
        bytes.len(),
        hex(&sha256(bytes)),
        file::sum(bytes),
        url,
        lines.join("\n"),
        file = escaped(&file)
    )
}
