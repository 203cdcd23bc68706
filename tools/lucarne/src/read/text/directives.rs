//! What stands in comments for this tool alone (`%unit`, `%given`, `%name`, `%table`), `#show` and `#include`, and the statements that no plan has.

use super::ground;
use super::statements::{cut, Statement};
use super::tokens::{Kind, Token};
use super::terms::split;
use crate::fault::{Fault, Spot};
use crate::near;
use crate::read::aspif::{HEURISTICS, PROJECTION};

const WORDS: [&str; 4] = ["unit", "given", "name", "table"];
/// The most inputs of a contact table.
pub const MAX_INPUTS: usize = 6;

#[derive(Clone, Debug)]
pub struct Label {
    pub atom: String,
    pub label: String,
    pub spot: Spot,
}

/// A table as written: bit j of `rows` is set where the row has the k-th input up for every bit k of j.
#[derive(Clone, Debug)]
pub struct WrittenTable {
    pub name: String,
    pub inputs: Vec<(String, Spot)>,
    pub rows: u64,
    pub spot: Spot,
}

pub enum Directive {
    None,
    /// A comment that looks like a directive with a slip in it.
    Doubtful(String),
    Unit(String),
    Given(Vec<(String, Spot)>),
    Label(Label),
    Table(WrittenTable),
}

/// The operands of a directive with the spot where they start.
struct Operands<'a> {
    text: &'a str,
    spot: Spot,
}

impl<'a> Operands<'a> {
    /// The part between two byte offsets, without space around it.
    fn part(&self, from: usize, to: usize) -> Operands<'a> {
        let inner = &self.text[from..to];
        let start = from + inner.len() - inner.trim_start().len();
        let column = self.spot.column + self.text[..start].chars().count();
        Operands { text: inner.trim(), spot: Spot { column, ..self.spot.clone() } }
    }
}

fn word_of(comment: &str) -> &str {
    let rest = &comment[1..];
    &rest[..rest.find(|sign: char| !sign.is_ascii_alphabetic()).unwrap_or(rest.len())]
}

pub fn is_directive(comment: &Token) -> bool {
    !matches!(read(comment), Ok(Directive::None | Directive::Doubtful(_)))
}

/// What a comment says to this tool.
pub fn read(comment: &Token) -> Result<Directive, Fault> {
    let word = word_of(&comment.text);
    if !WORDS.contains(&word) {
        return Ok(doubt(comment, word));
    }
    let start = 1 + word.len();
    let end = comment_in(&comment.text, start);
    let all = Operands { text: &comment.text, spot: comment.spot.clone() };
    let mut operands = all.part(start, end);
    operands.text = operands.text.trim_end_matches('.').trim_end();
    if !comment.text[start..].starts_with(&[' ', '\t'][..]) || !is_meant(word, operands.text) {
        let form = "%unit points, %given annett, f1, %name tr1 \"101 TR\", %table made(f1,f2) 11";
        let form = form.split(", %").find(|form| form.trim_start_matches('%').starts_with(word)).unwrap_or("").trim_start_matches('%');
        return Ok(Directive::Doubtful(format!("{}: %{} is read as a comment: the directive is written %{}", comment.spot, word, form)));
    }
    let read = match word {
        "unit" => unit(&operands),
        "given" => given(&operands),
        "name" => label(&operands),
        _ => table(&operands),
    };
    read.map_err(|fault| if fault.text.is_empty() { fault.text(comment.text.trim_end()) } else { fault })
}

/// Whether operands have the form of the directive; what has it and is wrong is refused. All else is somebody's comment.
fn is_meant(word: &str, operands: &str) -> bool {
    let name = |text: &str| text.starts_with(|sign: char| sign.is_alphabetic() || sign == '-' || sign == '_');
    let words = |text: &str| text.split_whitespace().count();
    match word {
        "unit" => words(operands) == 1 && !operands.contains(&['(', '"'][..]),
        "given" => !operands.is_empty() && outside_brackets(operands).split(',').all(|part| words(part) <= 1),
        "name" => operands.contains('"'),
        _ => {
            let open = operands.find('(').filter(|&open| name(operands) && words(&operands[..open]) == 1);
            let rows = open.and_then(|open| closing(operands, open)).map(|close| &operands[close + 1..]);
            rows.map_or(false, |rows| rows.split_whitespace().all(|row| row.chars().any(|sign| "01-".contains(sign))))
        }
    }
}

/// A text without what stands in brackets.
fn outside_brackets(text: &str) -> String {
    let mut depth = 0;
    text.chars()
        .filter(|&sign| {
            depth += i32::from(sign == '(');
            let is_outside = depth == 0;
            depth -= i32::from(sign == ')');
            is_outside
        })
        .collect()
}

/// A word right behind % that is nearly a directive is told, since a slip there would be passed over as a comment.
fn doubt(comment: &Token, word: &str) -> Directive {
    let letters = |word: &str| {
        let mut letters: Vec<char> = word.to_lowercase().chars().collect();
        letters.sort_unstable();
        letters
    };
    let is_near = |known: &str| word.len() > 2 && (near::distance(&word.to_lowercase(), known) <= 1 || letters(word) == letters(known));
    let near = WORDS.iter().find(|known| is_near(known));
    near.map_or(Directive::None, |known| {
        Directive::Doubtful(format!("{}: %{} is read as a comment: is it %{}? (else put a space behind %)", comment.spot, word, known))
    })
}

/// Where a comment behind the operands begins: the next % outside quotation marks.
fn comment_in(text: &str, from: usize) -> usize {
    let mut quoted = false;
    for (place, sign) in text.char_indices().skip_while(|&(place, _)| place < from) {
        match sign {
            '"' => quoted = !quoted,
            '%' if !quoted => return place,
            _ => {}
        }
    }
    text.len()
}

fn unit(operands: &Operands) -> Result<Directive, Fault> {
    if operands.text.is_empty() || operands.text.contains(|sign: char| sign.is_whitespace() || sign == '"') {
        return Err(Fault::at(&operands.spot, "a unit's name is one word").hint("write: %unit points"));
    }
    Ok(Directive::Unit(operands.text.to_string()))
}

fn given(operands: &Operands) -> Result<Directive, Fault> {
    let atoms = atoms(operands)?;
    if atoms.is_empty() {
        return Err(Fault::at(&operands.spot, "no relay is named").hint("keys that are turned are written so: %given annett, f1"));
    }
    Ok(Directive::Given(atoms))
}

/// Relays between commas; commas in brackets belong to a name.
fn atoms(operands: &Operands) -> Result<Vec<(String, Spot)>, Fault> {
    let (mut found, mut depth, mut from) = (Vec::new(), 0, 0);
    if operands.text.is_empty() {
        return Ok(found);
    }
    for (place, sign) in operands.text.char_indices().chain(Some((operands.text.len(), ','))) {
        match sign {
            '(' => depth += 1,
            ')' => depth -= 1,
            ',' if depth == 0 || place == operands.text.len() => {
                let part = operands.part(from, place);
                found.push((ground::atom_of(part.text, &part.spot)?, part.spot));
                from = place + 1;
            }
            _ => {}
        }
    }
    Ok(found)
}

fn label(operands: &Operands) -> Result<Directive, Fault> {
    let wrong = || Fault::at(&operands.spot, "this label cannot be read").hint("a label is written so: %name tr1 \"101 TR\"");
    let open = operands.text.find('"').ok_or_else(wrong)?;
    let close = operands.text.rfind('"').filter(|&close| close > open + 1 && close + 1 == operands.text.len()).ok_or_else(wrong)?;
    let atom = operands.part(0, open);
    let label = operands.text[open + 1..close].to_string();
    if label.contains('"') || label.trim().is_empty() {
        return Err(wrong());
    }
    Ok(Directive::Label(Label { atom: ground::atom_of(atom.text, &atom.spot)?, label, spot: atom.spot }))
}

fn table(operands: &Operands) -> Result<Directive, Fault> {
    let wrong = || {
        let hint =
            "name and inputs, then the rows in which it is true, a sign for each input (- for either): %table made(f1,f2,f3) 11- 1-1 -11";
        Fault::at(&operands.spot, "this table cannot be read").hint(hint)
    };
    let open = operands.text.find('(').ok_or_else(wrong)?;
    let close = closing(operands.text, open).ok_or_else(wrong)?;
    let name = operands.part(0, open);
    let inputs = atoms(&operands.part(open + 1, close))?;
    check_inputs(&inputs, &name)?;
    let rows = rows(&operands.part(close + 1, operands.text.len()), inputs.len())?;
    let table_name = ground::atom_of(name.text, &name.spot)?;
    if table_name.starts_with('-') {
        return Err(wrong());
    }
    Ok(Directive::Table(WrittenTable { name: table_name, inputs, rows, spot: name.spot }))
}

/// The bracket that closes the one at this place.
fn closing(text: &str, open: usize) -> Option<usize> {
    let mut depth = 0;
    for (place, sign) in text.char_indices().skip_while(|&(place, _)| place < open) {
        match sign {
            '(' => depth += 1,
            ')' if depth == 1 => return Some(place),
            ')' => depth -= 1,
            _ => {}
        }
    }
    None
}

fn check_inputs(inputs: &[(String, Spot)], name: &Operands) -> Result<(), Fault> {
    if inputs.is_empty() {
        return Err(Fault::at(&name.spot, format!("the table {} has no inputs", name.text))
            .hint("name the relays whose contacts it has: made(f1,f2,f3)"));
    }
    if inputs.len() > MAX_INPUTS {
        let what = format!("the table {} has {} inputs; a contact table has at most {}", name.text, inputs.len(), MAX_INPUTS);
        return Err(Fault::at(&inputs[MAX_INPUTS].1, what)
            .hint("split the bank: a table over some of them drives a helper, which another table reads"));
    }
    for (place, (atom, spot)) in inputs.iter().enumerate() {
        if inputs[..place].iter().any(|(before, _)| before == atom) {
            return Err(Fault::at(spot, format!("{} is an input of {} twice", atom, name.text)).hint("name each input once"));
        }
    }
    Ok(())
}

fn rows(operands: &Operands, inputs: usize) -> Result<u64, Fault> {
    let (mut word, mut from) = (0, 0);
    for row in operands.text.split_whitespace() {
        let place = from + operands.text[from..].find(row).unwrap_or(0);
        from = place + row.len();
        let spot = operands.part(place, from).spot;
        if let Some(odd) = row.chars().find(|sign| !"01-".contains(*sign)) {
            return Err(
                Fault::at(&spot, format!("the row {} has the sign {}", row, odd)).hint("a row has 1 for up, 0 for dropped, - for either")
            );
        }
        if row.len() != inputs {
            let what = format!("the row {} has {} signs, and the table {} inputs", row, row.len(), inputs);
            return Err(Fault::at(&spot, what).hint("one sign for each input, in the order of the inputs; a space between rows"));
        }
        word |= row_word(row);
    }
    if word == 0 {
        return Err(Fault::at(&operands.spot, "this table has no row in which it is true")
            .hint("write the rows behind the inputs: %table made(f1,f2,f3) 11- 1-1 -11"));
    }
    Ok(word)
}

/// The rows that a row with signs for either stands for.
fn row_word(row: &str) -> u64 {
    let fits = |j: usize| row.bytes().enumerate().all(|(k, sign)| sign == b'-' || (sign == b'1') == (j >> k & 1 == 1));
    (0..1 << row.len()).filter(|&j| fits(j)).fold(0, |word, j| word | 1 << j)
}

/// What a statement is to this tool.
pub enum Special {
    /// A rule, a key, or what gringo alone reads.
    Rule,
    /// `#show name/number.`, or `#show.`, which names none.
    Show(Vec<(String, usize)>),
    /// `#show term : condition.`, as a rule for a relay of our own.
    Term(Vec<Token>),
    Include(String),
    /// It changes nothing in the list; with what to say of it.
    Idle(Option<String>),
}

/// The predicate of what is shown as a term. No sheet has it: people do not write names so.
pub const SHOWN: &str = "lucarne'shows";

pub fn kind(statement: &Statement) -> Result<Special, Fault> {
    let first = &statement.tokens[0];
    if first.kind != Kind::Hash && first.kind != Kind::If {
        return Ok(Special::Rule);
    }
    let idle = |what: &str| Special::Idle(Some(format!("{}: {} is passed over: {}", statement.spot(), first.text, what)));
    match first.text.as_str() {
        "#show" => show(statement),
        "#include" => include(statement),
        "#program" if statement.text() == "#program base." => Ok(Special::Idle(None)),
        "#project" => Ok(idle(PROJECTION)),
        "#heuristic" => Ok(idle(HEURISTICS)),
        _ => no_part_of_a_plan(statement).map_or(Ok(Special::Rule), Err),
    }
}

/// `#include "FILE".`
fn include(statement: &Statement) -> Result<Special, Fault> {
    match &statement.tokens[1..] {
        [file, dot] if file.kind == Kind::Quoted && dot.kind == Kind::Dot => {
            Ok(Special::Include(file.text.trim_matches('"').replace("\\\"", "\"").replace("\\\\", "\\")))
        }
        _ => Err(Fault::at(&statement.tokens[0].spot, "only a file by its name can be included")
            .text(cut(&statement.text(), 100))
            .hint("write: #include \"points.lp\".")),
    }
}

/// `#show name/number.`, `#show.`, which names none, or a term with its condition.
fn show(statement: &Statement) -> Result<Special, Fault> {
    let tokens = &statement.tokens[1..];
    let sign = usize::from(tokens[0].is("-"));
    let dash = if sign == 1 { "-" } else { "" };
    match &tokens[sign..] {
        [dot] if dot.kind == Kind::Dot && sign == 0 => Ok(Special::Show(Vec::new())),
        [name, slash, number, dot]
            if name.kind == Kind::Name && slash.is("/") && dot.kind == Kind::Dot && number.text.parse::<usize>().is_ok() =>
        {
            Ok(Special::Show(vec![(format!("{}{}", dash, name.text), number.text.parse().unwrap_or(0))]))
        }
        [name, dot] if name.kind == Kind::Name && dot.kind == Kind::Dot => {
            Err(Fault::at(&name.spot, format!("#show {} would print a term of that name in every position", name.text))
                .text(statement.text())
                .hint(format!("to show the relay {0}, write: #show {0}/0.", name.text)))
        }
        [name, slash, ..] if slash.is("/") || name.is("$") => Err(Fault::at(&tokens[0].spot, "only relays by name, and terms, can be shown")
            .text(cut(&statement.text(), 100))
            .hint("write the name and the number of its arguments: #show gr/0. #show lock/1.")),
        _ => Ok(Special::Term(shown_rule(tokens))),
    }
}

/// `term : body.` as the rule `lucarne'shows(term) :- body.`
fn shown_rule(tokens: &[Token]) -> Vec<Token> {
    let parts = split(&tokens[..tokens.len() - 1], &[":"]);
    let (term, end) = (parts[0], &tokens[tokens.len() - 1]);
    let word = |kind: Kind, text: &str, gap: bool| Token { kind, text: text.to_string(), gap, ..tokens[0].clone() };
    let mut rule = vec![word(Kind::Name, SHOWN, false), word(Kind::Sign, "(", false)];
    rule.extend(term.iter().cloned());
    rule.push(word(Kind::Sign, ")", false));
    if term.len() + 1 < tokens.len() {
        rule.push(word(Kind::If, ":-", true));
        rule.extend(tokens[term.len() + 1..tokens.len() - 1].iter().cloned());
    }
    rule.push(end.clone());
    rule
}

/// Statements of clingo that say more than a plan can.
fn no_part_of_a_plan(statement: &Statement) -> Option<Fault> {
    let (what, hint) = match statement.tokens[0].text.as_str() {
        "#minimize" | "#minimise" | "#maximize" | "#maximise" => {
            ("optimisation is", "list all positions and sort them: every settled position is wanted, not the best one")
        }
        ":~" => {
            ("optimisation (a weak constraint) is", "list all positions and sort them: every settled position is wanted, not the best one")
        }
        "#script" => ("scripts are", "write out what the script makes, or run it before"),
        "#program" => ("program parts but base are", "put each part into a file, and name the files that are wanted"),
        _ => return None,
    };
    Some(Fault::at(statement.spot(), format!("{} no part of a plan", what)).text(cut(&statement.text(), 100)).hint(hint))
}
