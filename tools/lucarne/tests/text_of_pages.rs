//! The text of a page: what comes from the sheets is text, and the plan in it is the plan that was listed.

use crate::tally::Tally;
use lucarne::plan::group::Group;
use lucarne::plan::library;
use lucarne::show::csv::{self, Heads};
use lucarne::show::digest::{base64, hex, sha256};
use lucarne::show::page::{self, Readings};
use lucarne::show::svg;

pub fn try_group(group: &Group, tally: &mut Tally) {
    let html = page::show(group, None);
    let mut check = |fits: bool, what: &str| tally.check(fits, what, || group.title.clone());
    for tag in ["<script", "</script", "<style", "</style", "<table id=\"grid\""] {
        check(html.matches(tag).count() == 1, &format!("{} does not stand once in the page", tag));
    }
    for foreign in ["<link", "<img", "<iframe", "http:", "https:", "@import", " src=", " style=", "<!--"] {
        check(!tags_of(&html).contains(foreign), &format!("{} stands in the page", foreign));
    }
    check(html.matches("url(").count() == html.matches("url(#arrow)").count(), "the page names something by url()");
    let (digits, link) = (between(&html, "<pre id=\"bytes\"", "</pre>"), between(&html, "href=\"data:application/octet-stream,", "\""));
    check(digits.map(|text| text.replace('\n', "")) == Some(hex(&group.plan.bytes)), "the digits are not the plan");
    check(link.map(|text| text.replace('%', "")) == Some(hex(&group.plan.bytes)), "the link is not the plan");
    let file = between(&html, "href=\"data:text/csv;charset=utf-8,", "\"").map(|text| unescaped(&text));
    check(file == Some(csv::show(group, Heads::Labels)), "the file is not the list as CSV");
    check((1..=group.listing.positions.len()).all(|place| html.matches(&format!("<tr id=\"{}\">", place)).count() == 1), "a position has no address");
    check(html.contains(&hex(&sha256(&group.plan.bytes))), "the plan's sum is not there");
    check(sheet_of(&html, group.listing.positions.len()).into_bytes() == library::sheet(&group.plan.bytes), "the words of the table are not the sheet");
    check(!svg::show(group).contains("<script"), "a script stands in the picture");
    try_readings(group, tally);
}

/// The words of the table as a sheet.
fn sheet_of(html: &str, count: usize) -> String {
    let cells = html.split("<td class=\"w\">").skip(1).filter_map(|rest| rest.get(..16));
    let words: String = cells.filter(|word| word.bytes().all(|sign| sign.is_ascii_hexdigit())).map(|word| format!("{}\n", word)).collect();
    format!("positions {}\n{}", count, words)
}

/// A page with signs of texts left out: quoted values and what stands between tags hold no tag once < and " are escaped, so that what is left is ours.
fn tags_of(html: &str) -> String {
    let body = html.split("<body>").nth(1).unwrap_or_default();
    body.split('<').skip(1).filter_map(|part| part.split('>').next()).map(|tag| format!("<{}>", unquoted(tag))).collect()
}

fn unquoted(tag: &str) -> String {
    tag.split('"').step_by(2).collect::<Vec<_>>().join("\"\"")
}

/// The text between a start, past the tag that it opens if it does, and an end.
fn between(text: &str, start: &str, end: &str) -> Option<String> {
    let rest = &text[text.find(start)? + start.len()..];
    let rest = if start.starts_with('<') { &rest[rest.find('>')? + 1..] } else { rest };
    Some(rest[..rest.find(end)?].to_string())
}

/// Text of an address, whose signs may stand as hexadecimal digits.
fn unescaped(text: &str) -> String {
    let mut parts = text.split('%');
    let mut bytes = parts.next().unwrap_or_default().as_bytes().to_vec();
    for part in parts {
        bytes.extend(u8::from_str_radix(&part[..2], 16));
        bytes.extend(&part.as_bytes()[2..]);
    }
    String::from_utf8_lossy(&bytes).into_owned()
}

/// A reading for each position, but where there are some the first was not measured; those above the limit are all but two.
pub fn readings_of(group: &Group) -> Readings {
    let count = group.listing.positions.len();
    let mut readings = Readings { tenths: (0..count as u64).map(Some).collect(), limit: Some(1), source: "<run>".to_string(), ..Readings::default() };
    if count > 2 {
        readings.tenths[0] = None;
        readings.above = (2..count).collect();
        readings.largest = Some((count as u64 - 1, count - 1));
    }
    readings
}

/// Readings stand beside the positions, those above the limit by a word.
fn try_readings(group: &Group, tally: &mut Tally) {
    let (count, readings) = (group.listing.positions.len(), readings_of(group));
    let html = page::show(group, Some(&readings));
    let mut check = |fits: bool, what: &str| tally.check(fits, what, || group.title.clone());
    check(html.matches("data-v=").count() == readings.tenths.iter().flatten().count(), "a reading is missing");
    check(html.matches("above the limit").count() == readings.above.len(), "readings above the limit are not marked");
    check(html.matches("<i>not measured</i>").count() == usize::from(count > 2), "what is not measured is not told");
    check(html.contains("&lt;run&gt;") && !html.contains("<run>"), "the run's name is not text");
}

/// Sums that are known from elsewhere.
pub fn try_sums(tally: &mut Tally) {
    let known = [
        ("", "e3b0c44298fc1c149afbf4c8996fb92427ae41e4649b934ca495991b7852b855"),
        ("abc", "ba7816bf8f01cfea414140de5dae2223b00361a396177a9cb410ff61f20015ad"),
        ("abcdbcdecdefdefgefghfghighijhijkijkljklmklmnlmnomnopnopq", "248d6a61d20638b8e5c026930c3e6039a33ce45964ff2167f6ecedd419db06c1"),
    ];
    for (text, sum) in known {
        tally.check(hex(&sha256(text.as_bytes())) == sum, "a sum is wrong", || text.to_string());
    }
    for (text, digits) in [("", ""), ("f", "Zg=="), ("fo", "Zm8="), ("foo", "Zm9v"), ("foob", "Zm9vYg==")] {
        tally.check(base64(text.as_bytes()) == digits, "base64 is wrong", || text.to_string());
    }
}
