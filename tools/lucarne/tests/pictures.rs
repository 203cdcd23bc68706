//! Pictures of pages, as a browser draws them: those of the documents, and others to look at.

use crate::browser::{Browser, Lost};
use crate::fresh::Fresh;
use crate::tally::Tally;
use lucarne::plan::group::Group;
use lucarne::serde_json::{json, Value};
use lucarne::show::page;
use std::fs;
use std::path::Path;

/// A picture: its file, the group's title, what stands behind #, what is done on the page, its width and height, and whether it is dark.
type Picture = (&'static str, &'static str, &'static str, &'static str, u32, u32, bool);

const STORY: &str = "plans/story";
const WIDE: &str = "tools/lucarne/tests/pages/wide.lp";
const BY_UNIT: &str = "document.getElementById('by-unit').click()";
const SORTED: &str = "(document.querySelector('#view [value=sort]').click(), document.querySelectorAll('#grid thead button')[4].click(),
  document.querySelector('#view [value=hide]').click(), document.querySelectorAll('#grid thead button')[2].click(), document.activeElement.blur(), 1)";
const TYPED: &str = "(document.getElementById('question').value = 'tb_tr, -TB', document.getElementById('question').dispatchEvent(new Event('input')), 1)";

/// Those of the documents.
const DOCUMENTS: [Picture; 2] =
    [("page.png", STORY, "", "1", 1120, 760, false), ("page-asked.png", STORY, "#tb_tr,-tb_tpr", "1", 1120, 760, false)];

/// Those to look at before a change of the page lands.
const OTHERS: [Picture; 12] = [
    ("story.png", STORY, "", "1", 1400, 1000, false),
    ("story-dark.png", STORY, "#tb_tr,-tb_tpr", "1", 1400, 900, true),
    ("story-phone.png", STORY, "", "1", 390, 844, false),
    ("story-phone-asked.png", STORY, "#6,7", "1", 390, 844, false),
    ("story-by-unit.png", STORY, "", BY_UNIT, 1400, 900, false),
    ("story-sorted.png", STORY, "", SORTED, 1400, 900, false),
    ("story-typed.png", STORY, "", TYPED, 1400, 700, false),
    ("story-mistyped.png", STORY, "#tb_trp", "1", 1400, 700, false),
    ("story-position.png", STORY, "#60", "1", 1400, 900, false),
    ("story-pair.png", STORY, "#6,7", "1", 1400, 900, false),
    ("wide.png", WIDE, "", "1", 1920, 1000, false),
    ("wide-3000.png", WIDE, "#a1,-b2", BY_UNIT, 3000, 1000, true),
];

/// Sheets of paper with their sizes in inches.
const PAPERS: [(&str, f64, f64); 2] = [("a4", 8.27, 11.69), ("letter", 8.5, 11.0)];

/// Writes the pictures of the documents to a folder, or all others with what is printed.
pub fn write(groups: &[Group], program: &str, folder: &str, target: &str, is_all: bool) -> Result<(), Lost> {
    let (folder, mut tally) = (fs::canonicalize(folder).expect("a folder"), Tally::default());
    let mut fresh = Fresh::start(program, &folder)?;
    for picture in if is_all { &OTHERS[..] } else { &DOCUMENTS[..] } {
        let url = page_of(groups, picture.1, &folder);
        fresh.work(picture.0, &mut tally, |browser, _| drawn(browser, &url, picture, target))?;
    }
    for (title, name) in [(STORY, "story"), (WIDE, "wide")].iter().filter(|_| is_all) {
        let url = page_of(groups, title, &folder);
        for (paper, width, height) in PAPERS {
            let file = Path::new(target).join(format!("{}-{}.pdf", name, paper));
            fresh.work(paper, &mut tally, |browser, _| printed(browser, &url, width, height, &file))?;
        }
    }
    Ok(())
}

fn page_of(groups: &[Group], title: &str, folder: &Path) -> String {
    let group = groups.iter().find(|group| group.title == title).expect("a group of the tests");
    let path = folder.join("picture.html");
    fs::write(&path, page::show(group, None)).expect("a page is written");
    format!("file://{}", path.display())
}

fn drawn(browser: &mut Browser, url: &str, &(name, _, question, done, width, height, is_dark): &Picture, target: &str) -> Result<(), Lost> {
    let scheme = if is_dark { "dark" } else { "light" };
    let media = json!({ "features": [{ "name": "prefers-color-scheme", "value": scheme }] });
    browser.send("Emulation.setEmulatedMedia", &media.to_string())?;
    let size = json!({ "width": width, "height": height, "deviceScaleFactor": 1, "mobile": false });
    browser.send("Emulation.setDeviceMetricsOverride", &size.to_string())?;
    browser.open(url, question)?;
    browser.evaluate(done)?;
    let answer = browser.send("Page.captureScreenshot", "{\"format\":\"png\"}")?;
    fs::write(Path::new(target).join(name), bytes_of(&answer["data"])).expect("a picture is written");
    Ok(())
}

fn printed(browser: &mut Browser, url: &str, width: f64, height: f64, file: &Path) -> Result<(), Lost> {
    browser.send("Emulation.setEmulatedMedia", "{\"features\":[]}")?;
    browser.send("Emulation.clearDeviceMetricsOverride", "{}")?;
    browser.open(url, "")?;
    let paper = json!({ "paperWidth": width, "paperHeight": height, "preferCSSPageSize": false, "printBackground": false });
    let answer = browser.send("Page.printToPDF", &paper.to_string())?;
    fs::write(file, bytes_of(&answer["data"])).expect("a file is written");
    Ok(())
}

/// Bytes from base64.
fn bytes_of(data: &Value) -> Vec<u8> {
    const SIGNS: &[u8] = b"ABCDEFGHIJKLMNOPQRSTUVWXYZabcdefghijklmnopqrstuvwxyz0123456789+/";
    let digits = data.as_str().unwrap_or_default().bytes().filter_map(|sign| SIGNS.iter().position(|&known| known == sign));
    let (mut bytes, mut held, mut bits) = (Vec::new(), 0usize, 0);
    for digit in digits {
        held = held << 6 | digit;
        bits += 6;
        if bits >= 8 {
            bits -= 8;
            bytes.push((held >> bits) as u8);
            held &= (1 << bits) - 1;
        }
    }
    bytes
}
