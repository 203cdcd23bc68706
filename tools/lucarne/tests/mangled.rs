//! mangled FOLDER [COUNT] [SEED]: sample sheets and plans with a few bytes changed. Each is listed or refused in words; nothing is a trouble of the
//! tool. What is refused is refused at a spot of the sheet, and a plan of bytes with the library's number.

#[path = "../../../tests/random.rs"]
#[allow(dead_code)]
mod random;
mod tally;

use lucarne::fault::{status, Fault};
use lucarne::plan::bytes;
use lucarne::plan::group::{Group, Options, Origin};
use lucarne::plan::layout::Circles;
use lucarne::plan::library;
use lucarne::read::reader::{read_sheets, Grounding, Turns};
use lucarne::read::text::statements::Sheets;
use random::Random;
use std::fs;
use std::path::PathBuf;
use tally::Tally;

const SHEETS: [&str; 6] = [
    "plans/north/1-track.lp",
    "plans/north/2-points.lp",
    "plans/north/4-approach.lp",
    "plans/found/clingo-default-adds-four.lp",
    "tools/lucarne/tests/groups/opposites/one.lp",
    "tools/lucarne/tests/groups/shared/b.lp",
];
const PLANS: [&str; 3] = ["plans/plan-p.plan", "plans/table-not-as-rules.plan", "plans/show-physical-relays.plan"];
/// What slips of the pen are made of.
const SLIPS: [&str; 26] = [
    ".", ",", ";", ":-", "not ", "(", ")", "{", "}", "[", "]", "-", "%", "\"", "#", "X", "1", "0", " ", "\n", "%table ", "%name ",
    "%unit ", "ü", "1 {", "%*",
];

fn main() {
    let folder = std::env::args().nth(1).expect("FOLDER is missing");
    let mut numbers = std::env::args().skip(2).map(|word| word.parse::<u64>().expect("COUNT and SEED are numbers"));
    let (count, seed) = (numbers.next().unwrap_or(3000), numbers.next().unwrap_or(1));
    std::panic::set_hook(Box::new(|_| {}));
    let mut tally = Tally::default();
    for case in 0..count {
        let mut random = Random::for_case(seed, case);
        if case % 4 == 0 {
            try_plan(&mut random, &folder, &mut tally);
        } else {
            try_sheet(&mut random, &mut tally);
        }
    }
    for what in ["sheets listed", "sheets refused", "plans listed", "plans refused", "unknown commands"] {
        tally.must_have(what);
    }
    std::process::exit(tally.end());
}

fn options(paths: Vec<PathBuf>) -> Options {
    Options { paths, grounding: Grounding::Never, circles: Circles::Join, one_unit: false, turns: Turns::default() }
}

fn try_sheet(random: &mut Random, tally: &mut Tally) {
    let path = random.pick(&SHEETS);
    let mut text: Vec<char> = fs::read_to_string(path).expect("the sheet cannot be read").chars().collect();
    for _ in 0..random.between(1, 3) {
        let at = random.below(text.len());
        match random.below(3) {
            0 => drop(text.remove(at)),
            1 => text.splice(at..at, random.pick(&SLIPS).chars()).for_each(drop),
            _ => text.splice(at..at + 1, random.pick(&SLIPS).chars()).for_each(drop),
        }
    }
    let text: String = text.into_iter().collect();
    let listed = std::panic::catch_unwind(|| list(&text));
    let tell = || {
        format!(
            "{}\n{}",
            text,
            listed.as_ref().map_or("a panic".to_string(), |listed| listed.as_ref().err().map_or(String::new(), Fault::to_string))
        )
    };
    match &listed {
        Ok(Ok(())) => tally.count("sheets listed", 1),
        _ => tally.count("sheets refused", 1),
    }
    let is_told = |fault: &Fault| fault.status == status::REFUSED && (fault.spot.is_some() || fault.what.starts_with("the group"));
    tally.check(matches!(&listed, Ok(listed) if listed.as_ref().err().map_or(true, is_told)), path, tell);
}

fn list(text: &str) -> Result<(), Fault> {
    let (mut sheets, mut faults) = (Sheets::default(), Vec::new());
    sheets.add_file("sheet.lp", text, &mut faults);
    Fault::all(faults)?;
    let program = read_sheets(&sheets, Grounding::Never, &Turns::default())?;
    Group::of(String::new(), program, Origin::Sheets(sheets), &options(Vec::new()))?.list()
}

/// Every byte of a plan that the library takes is accounted for. One that is not would be a fault of the tool, with a word.
fn try_record(bytes: &[u8], path: &str, tally: &mut Tally) {
    let record = bytes::decode(bytes);
    let is_taken = library::next(bytes, None).is_ok();
    tally.check(!is_taken || record.unread.is_none(), "a byte that is taken is not known", || format!("{}: {:02x?}", path, bytes));
    if is_taken {
        let (end, behind) = (bytes::decode(&bytes[..bytes.len() - 1]).unread, bytes::decode(&[bytes, &[0]].concat()).unread);
        let fits = end == Some(bytes.len() - 1) && behind == Some(bytes.len());
        tally.check(fits, "a plan is taken for whole without its END, or with more behind it", || format!("{:?} {:?}", end, behind));
        let unknown = [&bytes[..bytes.len() - 1], &[0xee, 0]].concat();
        let fault = bytes::decode(&unknown).account("x.plan", &unknown, true).err().map_or(String::new(), |fault| fault.to_string());
        let told = format!("a fault of this tool: x.plan: the library takes the plan, and byte {}, ee, is nothing that this tool knows", bytes.len() - 1);
        tally.check(fault.starts_with(&told), "an unknown command is passed over", || fault.clone());
        tally.count("unknown commands", 1);
    }
}

fn try_plan(random: &mut Random, folder: &str, tally: &mut Tally) {
    let path = random.pick(&PLANS);
    let mut bytes = fs::read(path).expect("the plan cannot be read");
    for _ in 0..random.between(0, 2) {
        let at = random.below(bytes.len());
        match random.below(3) {
            0 => bytes.truncate(at),
            1 => bytes[at] = random.byte() % 9,
            _ => bytes[at] ^= 1 << random.below(8),
        }
        if bytes.is_empty() {
            break;
        }
    }
    try_record(&bytes, path, tally);
    let copy = format!("{}/mangled.plan", folder);
    fs::write(&copy, &bytes).expect("the copy cannot be written");
    let listed = std::panic::catch_unwind(|| Group::open(&options(vec![PathBuf::from(&copy)])).map(|_| ()));
    tally.count(if matches!(listed, Ok(Ok(()))) { "plans listed" } else { "plans refused" }, 1);
    let is_told = |fault: &Fault| fault.status == status::REFUSED && fault.what.contains("(refused ");
    let is_fine = matches!(&listed, Ok(listed) if listed.as_ref().err().map_or(true, is_told));
    tally.check(is_fine, path, || format!("{:02x?}", bytes));
}
