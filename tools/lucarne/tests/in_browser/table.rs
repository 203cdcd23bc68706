//! The table as planners use it: as wide as the window, sorted, by unit, with columns hidden, positions by their numbers, two side by side, copied,
//! saved, and questions while they are typed.

use super::{is_up, shown_for, Question, Tried};
use crate::browser::Lost;
use lucarne::plan::program::Atom;
use lucarne::serde_json::json;
use lucarne::show::csv::{self, Heads};

/// What the table shows: its heads, and for each row its number and what each cell says, as far as they are not hidden.
const TABLE: &str = "(() => { const seen = (node) => node.getClientRects().length > 0;
  const heads = [...document.querySelectorAll('#grid thead .r')].filter(seen).map((head) => head.querySelector('.l').textContent);
  const rows = [...document.querySelector('#grid tbody').rows].filter(seen)
    .map((row) => [Number(row.cells[0].textContent),
      [...row.cells].filter((cell) => seen(cell) && !/[nwm]/.test(cell.className)).map((cell) => cell.textContent)]);
  return [heads, rows]; })()";

/// Copies what is selected, or all, as the browser would hand it over.
const COPIED: &str = "(() => { const data = new DataTransfer();
  document.dispatchEvent(new ClipboardEvent('copy', {clipboardData: data, bubbles: true, cancelable: true}));
  return [data.getData('text/plain'), data.getData('text/html').startsWith('<table><tr><td>position</td>')]; })()";

/// The file behind the button, without saving it.
const SAVED: &str = "(() => { const link = document.getElementById('csv'), stop = (event) => event.preventDefault();
  document.addEventListener('click', stop); link.dispatchEvent(new MouseEvent('click', {bubbles: true, cancelable: true}));
  document.removeEventListener('click', stop); return [link.download, decodeURIComponent(link.href.split(',').slice(1).join(','))]; })()";

/// The mark of the column under the pointer beside the cell that is there.
const MARKED: &str = "(() => { const mark = document.getElementById('column'), at = document.querySelector('#grid .at');
  if (mark.hidden || !at) return null;
  const one = mark.getBoundingClientRect(), other = at.getBoundingClientRect();
  return [at.querySelector('.l').textContent, Math.abs(one.left - other.left) < 2 && Math.abs(one.width - other.width) < 2]; })()";

impl<'a> Tried<'a> {
    /// All of it, on a group with labels and several units.
    pub fn table(&mut self) -> Result<(), Lost> {
        self.open("")?;
        self.sorted()?;
        self.by_unit()?;
        self.hidden()?;
        self.suggested()?;
        self.mistyped()?;
        self.positions()?;
        self.side_by_side()?;
        self.pointed()?;
        self.quiet();
        Ok(())
    }

    /// In a window of 3,000 points nothing of 256 positions by 56 relays is left to scroll to sideways.
    pub fn wide(&mut self) -> Result<(), Lost> {
        self.browser.send("Emulation.setDeviceMetricsOverride", "{\"width\":3000,\"height\":1000,\"deviceScaleFactor\":1,\"mobile\":false}")?;
        self.open("")?;
        let room = "(() => { const box = document.querySelector('.scroll'); return [box.scrollWidth - box.clientWidth, box.clientWidth > 1300]; })()";
        self.becomes(room, &json!([0, true]), "the table is not as wide as the window")?;
        self.browser.send("Emulation.clearDeviceMetricsOverride", "{}").map(drop)
    }

    /// What is copied and saved is the list as CSV has it, of the rows and columns that are shown.
    pub fn taken_along(&mut self) -> Result<(), Lost> {
        let group = self.group;
        self.open("")?;
        let whole = csv::show(group, Heads::Labels);
        let told = self.browser.evaluate(SAVED)?;
        self.check(told[1] == json!(whole), "the file is not the list as CSV", &told);
        let relays = group.shown();
        let question: Question = relays.first().map(|&first| (first, true)).into_iter().collect();
        self.browser.evaluate(&format!("location.hash = {}", json!(super::written(group, &question))))?;
        self.shows(&question, "a question before it is saved")?;
        let places = shown_for(group, &question);
        let told = self.browser.evaluate(SAVED)?;
        self.check(told[1] == json!(lines(&whole, &places).concat()), "the file is not what is shown", &told);
        if places.len() < 2 {
            return Ok(());
        }
        self.browser.evaluate("(() => { const rows = [...document.querySelector('#grid tbody').rows].filter((row) => !row.hidden);
            getSelection().setBaseAndExtent(rows[0].cells[0], 0, rows[1].cells[1], 1); })()")?;
        let told = self.browser.evaluate(COPIED)?;
        let wanted: String = lines(&whole, &places[..2]).iter().map(|line| tabbed(line)).collect();
        self.check(told == json!([wanted, true]), "what is copied is no table with heads", &told);
        self.press_by_pointer("#copy")?;
        let count = if places.len() == 1 { "1 position".to_string() } else { format!("{} positions", places.len()) };
        self.becomes("document.getElementById('copied').textContent", &json!(format!("Copied {}, with heads.", count)), "the button does not copy")
    }

    /// The table must show these columns and these rows, counted from 0.
    fn shows_table(&mut self, columns: &[Atom], places: &[usize], what: &str) -> Result<(), Lost> {
        let group = self.group;
        let heads: Vec<&str> = columns.iter().map(|&atom| group.program.label(atom)).collect();
        let cells = |place: usize| columns.iter().map(|&atom| if is_up(group, place, atom) { "up" } else { "dropped" }).collect::<Vec<_>>();
        let wanted = json!([heads, places.iter().map(|&place| json!([place + 1, cells(place)])).collect::<Vec<_>>()]);
        self.becomes(TABLE, &wanted, what)
    }

    /// A press on what a selector finds, by the pointer.
    fn press_by_pointer(&mut self, selector: &str) -> Result<(), Lost> {
        let (x, y) = self.middle(selector)?;
        self.browser.click(x, y)
    }

    fn middle(&mut self, selector: &str) -> Result<(f64, f64), Lost> {
        let script = format!(
            "(() => {{ const node = document.querySelector({}); node.scrollIntoView({{block: 'center', inline: 'center'}});
               const box = node.getBoundingClientRect(); return [box.x + box.width / 2, box.y + box.height / 2]; }})()",
            json!(selector)
        );
        let middle = self.browser.evaluate(&script)?;
        Ok((middle[0].as_f64().unwrap_or(0.0), middle[1].as_f64().unwrap_or(0.0)))
    }

    /// By a relay: up first, dropped first, and as it was; by the pointer, and by keys.
    fn sorted(&mut self) -> Result<(), Lost> {
        let (relays, all) = (self.group.shown(), all_places(self));
        let by = relays[4];
        let group = self.group;
        let sorted = |up_first: bool| {
            let mut places = all.clone();
            places.sort_by_key(|&place| is_up(group, place, by) != up_first);
            places
        };
        self.press_by_pointer("#view [value=sort]")?;
        for (up_first, word) in [(true, "descending"), (false, "ascending")] {
            self.click(4)?;
            self.shows_table(&relays, &sorted(up_first), "the rows are not sorted by a relay")?;
            let told = "[...document.querySelectorAll('#grid [aria-sort]')].map((head) => head.getAttribute('aria-sort'))";
            self.becomes(told, &json!([word]), "the order is not told")?;
        }
        self.press_by_pointer("#order button")?;
        self.shows_table(&relays, &all, "the list's order does not come back")?;
        self.browser.evaluate("document.querySelectorAll('#grid thead button')[4].focus()")?;
        self.browser.press("Enter", 13, "\r")?;
        self.shows_table(&relays, &sorted(true), "a key does not sort")?;
        self.click(4)?;
        self.click(4)?;
        self.shows_table(&relays, &all, "the third press does not bring the list's order back")
    }

    /// Columns under their units, and as they were.
    fn by_unit(&mut self) -> Result<(), Lost> {
        let (group, relays, all) = (self.group, self.group.shown(), all_places(self));
        let unit = |atom: Atom| group.layout.units.iter().position(|unit| unit.rules.iter().any(|&rule| group.program.rules[rule].head.contains(&atom)));
        let place = |atom: Atom| unit(atom).unwrap_or(group.layout.units.len());
        let mut columns = relays.clone();
        columns.sort_by_key(|&atom| place(atom));
        self.press_by_pointer("#by-unit")?;
        self.shows_table(&columns, &all, "the columns are not by unit")?;
        let mut wanted: Vec<(String, usize)> = Vec::new();
        for &atom in &columns {
            let name = unit(atom).map_or("no unit".to_string(), |unit| group.layout.units[unit].name.clone());
            match wanted.last_mut().filter(|(last, _)| *last == name) {
                Some((_, count)) => *count += 1,
                None => wanted.push((name, 1)),
            }
        }
        let heads = "[...document.querySelectorAll('#grid .units th')].map((head) => [head.textContent, head.colSpan])";
        self.becomes(heads, &json!(wanted), "the units do not stand above their columns")?;
        self.press_by_pointer("#by-unit")?;
        self.shows_table(&relays, &all, "the columns do not come back")
    }

    /// A column is hidden by a press, and comes back by its name; all that do not differ, by a button.
    fn hidden(&mut self) -> Result<(), Lost> {
        let (group, relays, all) = (self.group, self.group.shown(), all_places(self));
        self.press_by_pointer("#view [value=hide]")?;
        self.click(1)?;
        let fewer: Vec<Atom> = relays.iter().enumerate().filter(|&(place, _)| place != 1).map(|(_, &atom)| atom).collect();
        self.shows_table(&fewer, &all, "a column is not hidden")?;
        let told = "[document.getElementById('order').textContent.startsWith('1 column hidden'), document.activeElement.dataset.name]";
        self.becomes(told, &json!([true, group.program.name(relays[2])]), "what is hidden is not told, or the focus is lost")?;
        let told = self.browser.evaluate(SAVED)?;
        let is_there = told[1].as_str().map_or(false, |text| text.contains(group.program.label(relays[1])));
        self.check(!is_there, "a hidden column is saved", &told[0]);
        self.press_by_pointer("#order button")?;
        self.shows_table(&relays, &all, "a column does not come back")?;
        self.press_by_pointer("#view [value=ask]")?;
        let question: Question = vec![(relays[0], true), (relays[1], true)];
        self.browser.evaluate(&format!("location.hash = {}", json!(super::written(group, &question))))?;
        self.shows(&question, "a question before columns are hidden")?;
        self.press_by_pointer("#differing")?;
        let places = shown_for(group, &question);
        let differs = |&atom: &Atom| places.iter().any(|&place| is_up(group, place, atom) != is_up(group, places[0], atom));
        self.shows_table(&relays.iter().copied().filter(differs).collect::<Vec<_>>(), &places, "columns that do not differ are not hidden")?;
        self.browser.evaluate("[...document.querySelectorAll('#order button')].pop().click()")?;
        self.browser.evaluate("document.getElementById('clear').click()")?;
        self.shows(&Vec::new(), "all positions, by a button")?;
        self.shows_table(&relays, &all, "the columns do not all come back")
    }

    /// Relays by label or name, in any case, with _ or a space, while a question is typed; an arrow and Enter take one.
    fn suggested(&mut self) -> Result<(), Lost> {
        let (group, relays) = (self.group, self.group.shown());
        let (first, second) = (relays[0], relays[4]);
        self.browser.evaluate("document.getElementById('question').select()")?;
        let typed = format!("{}, -{}", group.program.name(first), mixed(group.program.label(second)).replace(' ', "_"));
        self.browser.send("Input.insertText", &format!("{{\"text\":{}}}", json!(typed)))?;
        let state = "(() => { const input = document.getElementById('question'), list = document.getElementById('suggestions');
            return [list.hidden, input.getAttribute('aria-expanded'), list.children.length ? list.children[0].firstChild.data : '', input.value]; })()";
        self.becomes(state, &json!([false, "true", group.program.label(second), typed]), "no relay is suggested")?;
        self.browser.press("ArrowDown", 40, "")?;
        let active = "document.getElementById(document.getElementById('question').getAttribute('aria-activedescendant')).getAttribute('aria-selected')";
        self.becomes(active, &json!("true"), "a suggestion is not told aloud")?;
        self.browser.press("Enter", 13, "\r")?;
        let wanted = format!("{}, -{}", group.program.name(first), group.program.name(second));
        self.becomes(state, &json!([true, "false", "", wanted]), "a suggestion is not taken")?;
        self.browser.press("Enter", 13, "\r")?;
        self.shows(&vec![(first, true), (second, false)], "a suggested question")?;
        let folded = format!("{},-{}", mixed(group.program.name(first)).replace('_', " "), mixed(group.program.label(second)).replace(' ', "_"));
        self.browser.evaluate(&format!("location.hash = {}", json!(folded)))?;
        self.shows(&vec![(first, true), (second, false)], "a question in another case")
    }

    /// What is not understood stands in the place of the rows, with the nearest name, which is asked by a press.
    fn mistyped(&mut self) -> Result<(), Lost> {
        let (group, relays) = (self.group, self.group.shown());
        let last = relays[relays.len() - 1];
        let name = group.program.name(last);
        self.browser.evaluate(&format!("location.hash = {}", json!(format!("{}z", name))))?;
        let state = "(() => { const instead = document.getElementById('instead');
            return [[...document.querySelector('#grid tbody').rows].filter((row) => row.getClientRects().length).length,
              document.querySelector('#answer b') === null, instead.getClientRects().length > 0, instead.textContent]; })()";
        let near = format!("No relay is called {}z. Is it {}?", name, group.program.label(last));
        self.becomes(state, &json!([0, true, true, near]), "a mistyped question leaves rows")?;
        self.press_by_pointer("#instead button")?;
        self.shows(&vec![(last, true)], "the nearest name")?;
        self.browser.evaluate("location.hash = 'qqqqqqqqqqqqqqqqq'")?;
        self.becomes(state, &json!([0, true, true, "No relay is called qqqqqqqqqqqqqqqqq."]), "what is far from all names")
    }

    /// A position by its number, in the address and by a press, with arrows from one to the next.
    fn positions(&mut self) -> Result<(), Lost> {
        let (group, count) = (self.group, self.group.listing.positions.len());
        let state = "(() => { const here = [...document.querySelectorAll('#grid .here')], box = here[0] && here[0].getBoundingClientRect();
            const heads = document.querySelector('#grid thead th').getBoundingClientRect();
            return [here.map((row) => Number(row.cells[0].textContent)), Boolean(box) && box.bottom <= innerHeight && box.top >= heads.bottom && heads.top >= 0,
              document.querySelector('#grid [aria-current]') === (here[0] || null), document.getElementById('answer').textContent, location.hash]; })()";
        let told_of = |number: usize| format!("Position {} of {}: {} up", number, count, group.told(group.listing.positions[number - 1]));
        let number = count - 7;
        self.open(&format!("#{}", number))?;
        self.becomes(state, &json!([[number], true, true, told_of(number), format!("#{}", number)]), "a link to a position does not lead there")?;
        self.press_by_pointer("#grid tbody tr:nth-child(3) a")?;
        self.becomes(state, &json!([[3], true, true, told_of(3), "#3"]), "a press on a number does not lead there")?;
        self.browser.press("ArrowDown", 40, "")?;
        self.browser.press("Enter", 13, "\r")?;
        self.becomes(state, &json!([[4], true, true, told_of(4), "#4"]), "an arrow and Enter do not lead to the next position")?;
        self.browser.evaluate(&format!("location.hash = '{}'", count + 1))?;
        let instead = "[document.getElementById('instead').textContent, document.querySelectorAll('#grid .here').length]";
        let none = format!("There is no position {}: the list has {}.", count + 1, count);
        self.becomes(instead, &json!([none, 0]), "a position that is not there")
    }

    /// Two positions with what differs: by the field, and with Shift.
    fn side_by_side(&mut self) -> Result<(), Lost> {
        let (group, relays) = (self.group, self.group.shown());
        let (one, other) = (5, 6);
        let here = "[document.querySelectorAll('#grid .here').length, document.getElementById('compare').hidden]";
        self.browser.evaluate("location.hash = '6'")?;
        self.becomes(here, &json!([1, false]), "a position has no field for another")?;
        self.browser.evaluate("document.getElementById('other').focus()")?;
        self.browser.send("Input.insertText", "{\"text\":\"7\"}")?;
        self.browser.press("Enter", 13, "\r")?;
        let differing: Vec<Atom> = relays.iter().copied().filter(|&atom| is_up(group, one, atom) != is_up(group, other, atom)).collect();
        let word = |place: usize, atom: Atom| if is_up(group, place, atom) { "up" } else { "dropped" };
        let mut wanted = vec![vec!["relay".to_string(), "position 6".to_string(), "position 7".to_string()]];
        wanted.extend(differing.iter().map(|&atom| vec![group.program.label(atom).to_string(), word(one, atom).to_string(), word(other, atom).to_string()]));
        let state = "[location.hash, [...document.querySelector('#pair').rows].map((row) => [...row.cells].map((cell) => cell.textContent)),
            [...document.querySelectorAll('#grid .differs .l')].map((label) => label.textContent)]";
        let labels: Vec<&str> = differing.iter().map(|&atom| group.program.label(atom)).collect();
        self.becomes(state, &json!(["#6,7", wanted, labels]), "what differs between two positions is not told")?;
        self.shows_table(&relays, &[one, other], "two positions do not stand side by side")?;
        self.browser.evaluate("location.hash = '6'")?;
        self.becomes(here, &json!([1, false]), "a position behind two")?;
        let (x, y) = self.middle("#grid tbody tr:nth-child(7) a")?;
        self.browser.click_with(x, y, 8)?;
        self.becomes(state, &json!(["#6,7", wanted, labels]), "Shift does not put a position beside the other")?;
        self.browser.evaluate("document.getElementById('clear').click()")?;
        self.shows(&Vec::new(), "all positions behind two")
    }

    /// The column under the pointer is marked, and no other.
    fn pointed(&mut self) -> Result<(), Lost> {
        let relays = self.group.shown();
        let (x, y) = self.middle(&format!("#grid tbody tr:nth-child(5) td:nth-child({})", 2 + 7))?;
        self.browser.hover(x, y)?;
        self.becomes(MARKED, &json!([self.group.program.label(relays[7]), true]), "the column under the pointer is not marked")?;
        self.browser.hover(5.0, 5.0)?;
        self.becomes(MARKED, &json!(null), "the mark stays when the pointer is gone")
    }
}

/// A text in an odd case, which is neither a label's nor a name's.
fn mixed(text: &str) -> String {
    text.chars().enumerate().map(|(place, sign)| if place % 2 == 0 { sign.to_ascii_lowercase() } else { sign.to_ascii_uppercase() }).collect()
}

fn all_places(tried: &Tried) -> Vec<usize> {
    (0..tried.group.listing.positions.len()).collect()
}

/// The heading of a list as CSV and the lines of these positions.
fn lines(whole: &str, places: &[usize]) -> Vec<String> {
    let all: Vec<&str> = whole.split_inclusive("\r\n").collect();
    std::iter::once(0).chain(places.iter().map(|place| place + 1)).map(|line| all[line].to_string()).collect()
}

/// A line of CSV with tabs, as it goes to the clipboard.
fn tabbed(line: &str) -> String {
    let rows = lucarne::read::theirs::cells::rows(line).expect("a line of CSV");
    let cell = |text: &String| if text.contains(['"', '\t']) { format!("\"{}\"", text.replace('"', "\"\"")) } else { text.clone() };
    rows[0].cells.iter().map(cell).collect::<Vec<_>>().join("\t") + "\n"
}
