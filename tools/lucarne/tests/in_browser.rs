//! Pages in a browser: what is shown for a question is what the list holds.

mod table;

use crate::browser::{Browser, Lost};
use crate::fresh::Fresh;
use crate::tally::Tally;
use crate::text_of_pages::readings_of;
use lucarne::plan::group::Group;
use lucarne::serde_json::{json, Value};
use lucarne::plan::program::Atom;
use lucarne::read::theirs::clingo::items;
use lucarne::show::{page, svg};
use std::fs;
use std::path::Path;
use std::time::{Duration, Instant};

/// So long a page may take to show what was asked.
const A_WHILE: Duration = Duration::from_secs(2);

/// What a page shows: the answer, the rows that are not hidden, the counts at the foot, and which relays are asked.
const STATE: &str = "{answer: document.getElementById('answer').textContent,
  rows: [...document.querySelectorAll('#grid tbody tr')].filter((row) => row.getClientRects().length).map((row) => Number(row.cells[0].textContent)),
  counts: [...document.querySelectorAll('#grid tfoot td:not(.w)')].map((cell) => cell.textContent),
  asked: [...document.querySelectorAll('#grid thead button')].map((button) => button.getAttribute('aria-pressed') + button.textContent)}";

/// What of the sheets stands in a page.
const TEXTS: &str = "{hacked: 'hacked' in window, scripts: document.scripts.length, title: document.querySelector('h1').textContent,
  labels: [...document.querySelectorAll('#grid .l')].map((label) => label.textContent),
  rules: [...document.querySelectorAll('.rules code')].map((rule) => rule.textContent)}";

/// How a page is laid out for paper.
const PRINTED: &str = "['#grid thead', '#ask', '.scroll', '#view', '.files', '#column'].map((name) => getComputedStyle(document.querySelector(name)))
  .map((style) => [style.display, style.overflow, style.maxHeight])";

/// The readings of the rows that are not hidden, and the foot's word on them.
const READINGS: &str = "[[...document.querySelectorAll('#grid tbody tr')].filter((row) => row.getClientRects().length)
    .map((row) => Number(row.cells[1].dataset.v ?? -1)), document.querySelector('#grid tfoot').rows[0].cells[1].textContent]";

/// What stands in a picture.
const PICTURE: &str = "[document.documentElement.nodeName, ...['.unit', '.link', '.joined'].map((name) => document.querySelectorAll(name).length),
  'hacked' in window]";

/// A question: relays with whether they are up.
type Question = Vec<(Atom, bool)>;

/// Tries the pages of all groups; the browser is lost where it opens no page at all.
pub fn try_all(groups: &[Group], program: &str, folder: &str, tally: &mut Tally) -> Result<(), Lost> {
    let folder = fs::canonicalize(folder).expect("a folder");
    let mut fresh = Fresh::start(program, &folder)?;
    for (place, group) in groups.iter().enumerate() {
        let url = written_to(&folder, place, "html", &page::show(group, None));
        let picture = written_to(&folder, place, "svg", &svg::show(group));
        let with_readings = written_to(&folder, place, "readings.html", &page::show(group, Some(&readings_of(group))));
        fresh.work(&url, tally, |browser, tally| {
            let mut tried = Tried { group, browser, tally, url: url.clone() };
            tried.all()?;
            if group.title.contains("wide") {
                return Ok(());
            }
            tried.picture(&picture)?;
            tried.readings(&with_readings)
        })?;
    }
    // Last, since a browser that reads aloud is slower from then on.
    for (place, group) in groups.iter().enumerate().filter(|(_, group)| group.title.starts_with("plans/")) {
        let url = written_to(&folder, place, "html", &page::show(group, None));
        fresh.work(&url, tally, |browser, tally| Tried { group, browser, tally, url: url.clone() }.headings())?;
    }
    tally.must_have("clicks");
    tally.must_have("questions");
    Ok(())
}

/// Writes the page of a group; its address.
fn written_to(folder: &Path, place: usize, ending: &str, text: &str) -> String {
    let path = folder.join(format!("page-{}.{}", place, ending));
    fs::write(&path, text).expect("a page is written");
    format!("file://{}", path.display())
}

struct Tried<'a> {
    group: &'a Group,
    browser: &'a mut Browser,
    tally: &'a mut Tally,
    url: String,
}

impl<'a> Tried<'a> {
    /// Samples and names with signs of HTML are tried in every way, the others by the address and by a click.
    fn all(&mut self) -> Result<(), Lost> {
        let is_sample = self.group.title.starts_with("plans/");
        if self.group.title.contains("wide") {
            return self.wide();
        }
        self.asked()?;
        if is_sample || self.group.title.contains("hostile") {
            self.open("")?;
            self.shows(&Vec::new(), "the page as it opens")?;
            self.texts()?;
            self.clicks()?;
            self.typed()?;
            self.quiet();
        }
        if self.group.title.contains("hostile") || self.group.title.contains("story") {
            self.taken_along()?;
        }
        if self.group.title.contains("story") {
            self.table()?;
        }
        if is_sample {
            self.keys()?;
            self.printed()?;
            self.without_script()?;
        }
        Ok(())
    }

    /// Questions in the address: the page is opened with the first, the others are put in its place, and a click makes the last one another.
    fn asked(&mut self) -> Result<(), Lost> {
        let relays = self.group.shown();
        let questions = questions(&relays);
        self.open(&written(self.group, &questions[0]))?;
        for (place, question) in questions.iter().enumerate() {
            if place > 0 {
                self.browser.evaluate(&format!("location.hash = {}", json!(written(self.group, question))))?;
            }
            self.shows(question, "a question in the address")?;
            self.tally.count("questions", 1);
        }
        if let [.., (last, true)] = questions[questions.len() - 1].as_slice() {
            self.click(relays.len() - 1)?;
            self.shows(&vec![(*last, false)], "a click on what was asked")?;
        }
        self.quiet();
        Ok(())
    }

    fn open(&mut self, question: &str) -> Result<(), Lost> {
        self.browser.open(&self.url, question)
    }

    fn check(&mut self, fits: bool, what: &str, told: &Value) {
        let title = &self.group.title;
        self.tally.check(fits, what, || format!("{}: {:?}", title, told));
    }

    /// The page must show what the list holds for a question, on a busy machine after a while. Once one has failed, none is waited for.
    fn shows(&mut self, question: &Question, what: &str) -> Result<(), Lost> {
        let wanted = expected(self.group, question);
        self.becomes(STATE, &wanted, what)
    }

    /// What an expression gives must become this.
    fn becomes(&mut self, expression: &str, wanted: &Value, what: &str) -> Result<(), Lost> {
        let start = Instant::now();
        let mut state = self.browser.evaluate(expression)?;
        while state != *wanted && self.tally.failed == 0 && start.elapsed() < A_WHILE {
            state = self.browser.evaluate(expression)?;
        }
        let title = &self.group.title;
        self.tally.check(state == *wanted, what, || format!("{}\n{:?}\n{:?}", title, state, wanted));
        Ok(())
    }

    /// Nothing but the page itself is asked for, and nothing is logged.
    fn quiet(&mut self) {
        let requests = self.browser.events_of("Network.requestWillBeSent");
        let asked: Vec<Value> = requests.iter().filter_map(|params| params.get("request")?.get("url").cloned()).collect();
        let own = |url: &Value| url.as_str().map_or(false, |url| url.split(|sign| sign == '?' || sign == '#').next() == Some(self.url.as_str()));
        let only = asked.len() == 1 && asked.iter().all(own);
        self.check(only, "the page asks for something", &json!(asked));
        for event in ["Log.entryAdded", "Runtime.exceptionThrown", "Runtime.consoleAPICalled"] {
            let logged = self.browser.events_of(event);
            self.check(logged.is_empty(), "the page logs something", &json!(logged));
        }
    }

    /// Labels and rules are text, and no script but the page's own has run.
    fn texts(&mut self) -> Result<(), Lost> {
        let told = self.browser.evaluate(TEXTS)?;
        let group = self.group;
        let labels: Value = group.shown().iter().map(|&atom| group.program.label(atom)).collect();
        let mut rules: Vec<(String, String)> = Vec::new();
        for unit in &group.layout.units {
            let in_unit = unit.rules.iter().map(|&rule| &group.program.rules[rule]).map(|rule| (rule.told(), rule.text.clone()));
            let mut in_unit: Vec<(String, String)> = in_unit.collect();
            in_unit.dedup();
            rules.extend(in_unit);
        }
        let rules: Value = rules.into_iter().map(|(_, text)| text).collect();
        let fits = told.get("hacked") == Some(&Value::Bool(false)) && told.get("scripts") == Some(&json!(1));
        self.check(fits && told.get("title").and_then(Value::as_str) == Some(group.title.as_str()), "more than text comes from the sheets", &told);
        self.check(told.get("labels") == Some(&labels) && told.get("rules") == Some(&rules), "labels or rules are not those of the sheets", &told);
        Ok(())
    }

    /// What a reader aloud gets: headings of columns and rows by name, and cells in words.
    fn headings(&mut self) -> Result<(), Lost> {
        self.open("")?;
        let tree = self.browser.send("Accessibility.getFullAXTree", "{}")?;
        let nodes = items(&tree["nodes"]);
        let value = |node: &Value, field: &str| node.get(field).and_then(|field| field.get("value")).and_then(Value::as_str).unwrap_or_default().to_string();
        let names = |role: &str| nodes.iter().filter(|node| value(node, "role") == role).map(|node| value(node, "name")).collect::<Vec<_>>();
        let group = self.group;
        let columns = names("columnheader");
        let labels: Vec<&str> = group.shown().iter().map(|&atom| group.program.label(atom)).collect();
        let has_all = labels.iter().all(|label| columns.iter().any(|name| name.trim() == label.trim()));
        self.check(has_all, "a column has no heading", &json!(columns));
        let rows = names("rowheader");
        let has_rows = (1..=group.listing.positions.len()).all(|place| rows.contains(&place.to_string()));
        self.check(has_rows, "a row has no heading", &Value::Null);
        let ups: u32 = group.listing.positions.iter().map(|position| position.count_ones()).sum();
        let cells = names("cell");
        let counted = cells.iter().filter(|name| name.as_str() == "up").count();
        self.check(counted == ups as usize, "the cells do not say up", &json!(counted));
        let (fields, presses, choices) = (names("combobox"), names("radio"), names("checkbox"));
        let is_named = fields == ["Question"] && presses == ["asks for it", "sorts by it", "hides it"] && choices == ["Columns by unit"];
        self.check(is_named, "what asks, sorts and hides is not told by name", &json!([fields, presses, choices]));
        let buttons = names("button").iter().filter(|name| labels.contains(&name.as_str())).count();
        self.check(buttons == labels.len(), "a relay has no button", &json!(buttons));
        Ok(())
    }

    /// Clicks on two relays, each up, dropped and either.
    fn clicks(&mut self) -> Result<(), Lost> {
        let relays = self.group.shown();
        let chosen: Vec<usize> = if relays.len() > 1 { vec![relays.len() / 2, 0] } else { (0..relays.len()).collect() };
        let mut question = Question::new();
        for &place in &chosen {
            for up in [true, false] {
                self.click(place)?;
                question.retain(|(atom, _)| *atom != relays[place]);
                question.push((relays[place], up));
                self.shows(&question, "a click")?;
            }
        }
        for &place in &chosen {
            self.click(place)?;
            question.retain(|(atom, _)| *atom != relays[place]);
            self.shows(&question, "a click for either")?;
        }
        Ok(())
    }

    fn click(&mut self, place: usize) -> Result<(), Lost> {
        let middle = format!(
            "(() => {{ const button = document.querySelectorAll('#grid thead button')[{}]; button.scrollIntoView({{block: 'center', inline: 'center'}});
               const box = button.getBoundingClientRect(); return [box.x + box.width / 2, box.y + box.height / 2]; }})()",
            place
        );
        let middle = self.browser.evaluate(&middle)?;
        if let (Some(x), Some(y)) = (middle[0].as_f64(), middle[1].as_f64()) {
            self.browser.click(x, y)?;
            self.tally.count("clicks", 1);
        }
        Ok(())
    }

    /// The first relay by the tabulator and the space bar, the next by an arrow and Enter.
    fn keys(&mut self) -> Result<(), Lost> {
        let relays = self.group.shown();
        if relays.len() < 2 {
            return Ok(());
        }
        self.open("")?;
        for _ in 0..16 {
            self.browser.press("Tab", 9, "")?;
            if self.browser.evaluate("document.activeElement === document.querySelector('#grid thead button')")? == Value::Bool(true) {
                break;
            }
        }
        self.browser.press(" ", 32, " ")?;
        self.shows(&vec![(relays[0], true)], "the space bar")?;
        self.browser.press("ArrowRight", 39, "")?;
        self.browser.press("Enter", 13, "\r")?;
        self.shows(&vec![(relays[0], true), (relays[1], true)], "an arrow and Enter")
    }

    /// A question that is typed, all positions again, and a relay that is not there.
    fn typed(&mut self) -> Result<(), Lost> {
        let relays = self.group.shown();
        let last = match relays.last() {
            Some(&last) => last,
            None => return Ok(()),
        };
        self.browser.evaluate("document.getElementById('question').focus()")?;
        self.browser.send("Input.insertText", &format!("{{\"text\":{}}}", json!(format!(" not {} ", self.group.program.name(last)))))?;
        self.browser.press("Enter", 13, "\r")?;
        self.shows(&vec![(last, false)], "a typed question")?;
        self.browser.evaluate("document.getElementById('clear').click()")?;
        self.shows(&Vec::new(), "all positions again")?;
        self.browser.evaluate("location.hash = 'nobody'")?;
        let told = self.browser.evaluate("document.getElementById('instead').textContent")?;
        self.check(told.as_str().map_or(false, |text| text.starts_with("No relay is called nobody.")), "a relay that is not there", &told);
        Ok(())
    }

    /// On paper the headings come again on each sheet, and what asks is left out.
    fn printed(&mut self) -> Result<(), Lost> {
        self.browser.send("Emulation.setEmulatedMedia", "{\"media\":\"print\"}")?;
        let told = self.browser.evaluate(PRINTED)?;
        let text = format!("{:?}", told);
        let parts: Vec<String> = items(&told).iter().map(|part| format!("{:?}", part)).collect();
        let wanted = [(0, "table-header-group"), (1, "none"), (2, "visible"), (2, "none"), (3, "none"), (4, "none"), (5, "none")];
        let fits = wanted.iter().all(|&(place, word)| parts.get(place).map_or(false, |part| part.contains(word)));
        self.check(fits, "the page does not print well", &json!(text));
        self.browser.send("Emulation.setEmulatedMedia", "{\"media\":\"\"}").map(drop)
    }

    /// Without scripts all positions stand there.
    fn without_script(&mut self) -> Result<(), Lost> {
        self.browser.send("Emulation.setScriptExecutionDisabled", "{\"value\":true}")?;
        self.open("")?;
        let root = self.browser.send("DOM.getDocument", "{}")?;
        let root = root.get("root").and_then(|root| root.get("nodeId")).cloned().unwrap_or(Value::Null);
        let count = |browser: &mut Browser, what: &str| {
            let found = browser.send("DOM.querySelectorAll", &format!("{{\"nodeId\":{},\"selector\":{}}}", root, json!(what)))?;
            Ok(items(&found["nodeIds"]).len())
        };
        let rows = count(self.browser, "#grid tbody:not([hidden]) tr[id]:not([hidden])")?;
        let forms = count(self.browser, "form:not([hidden])")?;
        let files = count(self.browser, "#csv[href^='data:text/csv']")?;
        self.browser.send("Emulation.setScriptExecutionDisabled", "{\"value\":false}")?;
        self.check(rows == self.group.listing.positions.len() && forms == 0 && files == 1, "the list is not there without scripts", &json!(rows));
        Ok(())
    }

    /// Readings stand beside the positions that are shown, and the foot has the largest of them.
    fn readings(&mut self, url: &str) -> Result<(), Lost> {
        let (group, tenths) = (self.group, readings_of(self.group).tenths);
        let question: Question = group.shown().last().map(|&last| (last, false)).into_iter().collect();
        self.browser.open(url, &written(group, &question))?;
        let told = self.browser.evaluate(READINGS)?;
        let shown: Vec<Option<u64>> = shown_for(group, &question).into_iter().map(|place| tenths[place]).collect();
        let most = shown.iter().flatten().max().map_or(String::new(), |most| format!("most {}.{}", most / 10, most % 10));
        let values: Value = shown.iter().map(|tenths| tenths.map_or(json!(-1), |tenths| json!(tenths))).collect();
        self.check(told == json!([values, most]), "other readings than those of the positions", &told);
        Ok(())
    }

    /// The picture alone is sound, and marks what is joined.
    fn picture(&mut self, url: &str) -> Result<(), Lost> {
        self.browser.open(url, "")?;
        let told = self.browser.evaluate(PICTURE)?;
        let layout = &self.group.layout;
        let numbers = [layout.units.len(), layout.edges.len(), layout.units.iter().filter(|unit| unit.is_joined).count()];
        self.check(told == json!(["svg", numbers[0], numbers[1], numbers[2], false]), "the picture is not that of the units", &told);
        Ok(())
    }
}

/// A few questions: one relay dropped, two relays, the last one up.
fn questions(relays: &[Atom]) -> Vec<Question> {
    match relays {
        [] => vec![Vec::new()],
        [one] => vec![vec![(*one, false)], vec![(*one, true)]],
        [first, .., last] => vec![vec![(*first, false)], vec![(relays[relays.len() / 2], true), (*last, false)], vec![(*last, true)]],
    }
}

/// The question behind # as `lucarne ask` takes it.
fn written(group: &Group, question: &Question) -> String {
    let term = |&(atom, up): &(Atom, bool)| {
        let name = group.program.name(atom);
        let is_opposite = name.starts_with('-') || group.program.find(&format!("-{}", name)).is_some();
        format!("{}{}", if up && name.starts_with('-') { "+" } else if up { "" } else if is_opposite { "not " } else { "-" }, name)
    };
    let terms: Vec<String> = question.iter().map(term).collect();
    format!("#{}", terms.join(",").replace('%', "%25"))
}

/// How a page tells a term of a question: a relay that was asked before with the other sign is asked both ways.
fn told_of(group: &Group, before: &[(Atom, bool)], &(atom, up): &(Atom, bool)) -> String {
    let is_contrary = before.iter().any(|&(other, other_up)| other == atom && other_up != up);
    format!("{} {}", group.program.label(atom), if is_contrary { "both up and dropped" } else if up { "up" } else { "dropped" })
}

fn is_up(group: &Group, place: usize, atom: Atom) -> bool {
    group.plan.word(&[atom]) & group.listing.positions[place] != 0
}

/// The places of the positions that a question fits.
fn shown_for(group: &Group, question: &Question) -> Vec<usize> {
    (0..group.listing.positions.len()).filter(|&place| question.iter().all(|&(atom, up)| is_up(group, place, atom) == up)).collect()
}

/// What a page must show for a question, worked out from the list.
fn expected(group: &Group, question: &Question) -> Value {
    let all = &group.listing.positions;
    let shown = shown_for(group, question);
    let relays = group.shown();
    let count = |&atom: &Atom| {
        let count = shown.iter().filter(|&&place| is_up(group, place, atom)).count();
        json!(format!("{}{}", count, if count > 0 && count == shown.len() { "all" } else { "" }))
    };
    let asked = |&atom: &Atom| {
        let label = group.program.label(atom);
        let told = question.iter().find(|(other, _)| *other == atom).map(|&(_, up)| if up { "up" } else { "dropped" });
        json!(told.map_or(format!("false{}", label), |told| format!("true{}, asked {}", label, told)))
    };
    let told: Vec<String> = question.iter().enumerate().map(|(place, term)| told_of(group, &question[..place], term)).collect();
    let with = if told.is_empty() { String::new() } else { format!(" with {}", told.join(", ")) };
    let answer = format!("{} of {} {}{}", shown.len(), all.len(), if all.len() == 1 { "position" } else { "positions" }, with);
    json!({
        "answer": answer,
        "rows": shown.iter().map(|&place| place + 1).collect::<Vec<_>>(),
        "counts": relays.iter().map(count).collect::<Vec<_>>(),
        "asked": relays.iter().map(asked).collect::<Vec<_>>(),
    })
}
