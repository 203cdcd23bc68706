//! Work with a browser that may be lost on the way: it is done once more with a fresh one.

use crate::browser::{Browser, Lost};
use crate::tally::Tally;
use lucarne::serde_json::json;
use std::fs;
use std::path::Path;

/// So often a piece of work is tried.
const TRIES: usize = 3;
/// Cells of a page of the size of ours, with nothing of ours in it: a browser that does not open it tells nothing of our pages.
const CELLS: usize = 3000;

pub struct Fresh<'a> {
    program: &'a str,
    folder: &'a Path,
    browser: Browser,
    started: usize,
}

impl<'a> Fresh<'a> {
    /// The browser's own files and the plain page stand in this folder.
    pub fn start(program: &'a str, folder: &'a Path) -> Result<Fresh<'a>, Lost> {
        let browser = ready(program, folder, 0)?;
        Ok(Fresh { program, folder, browser, started: 1 })
    }

    /// Work that gets through counts by its comparisons. It fails where the browser is lost each time though it opens the plain page: then our page
    /// is at fault. The browser itself is lost where it does not open even that.
    pub fn work(&mut self, what: &str, tally: &mut Tally, work: impl Fn(&mut Browser, &mut Tally) -> Result<(), Lost>) -> Result<(), Lost> {
        for _ in 0..TRIES {
            match work(&mut self.browser, tally) {
                Ok(()) => return Ok(()),
                Err(lost) => println!("note: {}: {}; once more with a fresh one", what, lost),
            }
            self.browser = ready(self.program, self.folder, self.started)?;
            self.started += 1;
        }
        tally.check(false, "the browser is lost each time", || what.to_string());
        Ok(())
    }
}

/// A browser that has opened the plain page. One that does not start well gets a second chance.
fn ready(program: &str, folder: &Path, place: usize) -> Result<Browser, Lost> {
    let start = |name: &str| plain_opened(program, folder, &folder.join(format!("{}-{}", name, place)));
    start("browser").or_else(|_| start("browser-again"))
}

fn plain_opened(program: &str, folder: &Path, own: &Path) -> Result<Browser, Lost> {
    let page = folder.join("plain.html");
    let table = "<tr><td>up<td>dropped<td>up".repeat(CELLS / 3);
    let count = "<script>document.title = document.querySelectorAll('td').length</script>";
    fs::write(&page, format!("<!DOCTYPE html><title></title><table>{}</table>{}", table, count)).expect("a page is written");
    let mut browser = Browser::start(program, own)?;
    browser.open(&format!("file://{}", page.display()), "")?;
    match browser.evaluate("Number(document.title)")? {
        cells if cells == json!(CELLS) => Ok(browser),
        told => Err(browser.lost(&format!("shows another page than the plain one: {:?}", told))),
    }
}
