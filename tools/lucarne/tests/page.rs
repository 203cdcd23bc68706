//! page text | page browser PROGRAM FOLDER: the page and the picture. The first holds their text against the group: nothing but text comes from the
//! sheets, the bytes are the plan's, no unit stands on another one. The second opens them in a browser and asks questions by the address, by
//! clicks and by keys; rows and counts must be those of the list, and the page asks nothing of the network and logs no error. A browser that does not
//! open even a plain page is passed over with a word, as one that is not installed. A third and fourth, page documents|look PROGRAM FOLDER TARGET,
//! write pictures for pictures.sh.

mod browser;
mod drawn_pictures;
mod fresh;
mod in_browser;
mod pictures;
mod tally;
mod text_of_pages;

use lucarne::plan::group::{Group, Options};
use lucarne::plan::layout::Circles;
use lucarne::read::reader::{Grounding, Turns};
use tally::Tally;

/// Groups whose pages are tried: samples, names with signs of HTML, none, one and 256 positions, these by 56 relays, long names, nothing that shows, a
/// unit that alone is too long.
const GROUPS: [&str; 10] = [
    "plans/north",
    "plans/story",
    "tools/lucarne/tests/pages/hostile.lp",
    "tools/lucarne/tests/pages/none.lp",
    "tools/lucarne/tests/pages/one.lp",
    "tools/lucarne/tests/pages/full.lp",
    "tools/lucarne/tests/pages/wide.lp",
    "tools/lucarne/tests/pages/long.lp",
    "tools/lucarne/tests/pages/bare.lp",
    "tools/lucarne/tests/groups/cross",
];

fn main() {
    let words: Vec<String> = std::env::args().skip(1).collect();
    let groups: Vec<Group> = GROUPS.iter().map(|path| open(path)).collect();
    let mut tally = Tally::default();
    match words.iter().map(String::as_str).collect::<Vec<_>>().as_slice() {
        ["text"] => {
            groups.iter().for_each(|group| text_of_pages::try_group(group, &mut tally));
            text_of_pages::try_sums(&mut tally);
            drawn_pictures::try_all(&mut tally);
        }
        ["browser", program, folder] => {
            let tried = in_browser::try_all(&groups, program, folder, &mut tally);
            tried.unwrap_or_else(|lost| println!("skipped, since {} does not open a plain page here: pages in a browser: {}", program, lost));
        }
        [what @ ("documents" | "look"), program, folder, target] => {
            pictures::write(&groups, program, folder, target, *what == "look").unwrap_or_else(|lost| panic!("{}", lost));
            return;
        }
        _ => panic!("page text | page browser PROGRAM FOLDER | page documents|look PROGRAM FOLDER TARGET"),
    }
    std::process::exit(tally.end());
}

fn open(path: &str) -> Group {
    let options = Options { paths: vec![path.into()], grounding: Grounding::Never, circles: Circles::Join, one_unit: false, turns: Turns::default() };
    Group::open(&options).unwrap_or_else(|fault| panic!("{}: {}", path, fault))
}
