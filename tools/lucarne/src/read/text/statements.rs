//! A sheet's statements, and what its directives say. A file is a sheet; `%unit NAME` starts another one within it.

use super::directives::{self, Directive, Label, Special, WrittenTable};
use super::tokens::{tokens, Kind, Token};
use crate::fault::{Fault, Spot};
use crate::plan::program::Shows;
use std::collections::{BTreeSet, HashMap};
use std::path::Path;
use std::sync::Arc;

/// A statement from its first token to its full stop; behind an external stands its setting, too.
#[derive(Clone, Debug)]
pub struct Statement {
    pub sheet: usize,
    pub tokens: Vec<Token>,
    /// The rule for gringo, where that is another: a term is shown where a relay of our own is up.
    pub rule: Option<Vec<Token>>,
}

impl Statement {
    /// What gringo reads.
    pub fn rule(&self) -> &[Token] {
        self.rule.as_ref().unwrap_or(&self.tokens)
    }

    pub fn spot(&self) -> &Spot {
        &self.tokens[0].spot
    }

    /// The source's own text on one line, without comments.
    pub fn text(&self) -> String {
        written(&self.tokens)
    }

    /// Whether it is a fact with nothing but names and numbers in it. Of these there may be many, and they are passed over where that is sure.
    pub fn is_plain_fact(&self) -> bool {
        let is_name = |token: &Token| token.kind == Kind::Name && !token.is("not");
        let is_number = |token: &Token| token.kind == Kind::Number && token.text.bytes().all(|digit| digit.is_ascii_digit());
        let is_decimal = |token: &Token| is_number(token) && (token.text == "0" || !token.text.starts_with('0'));
        match self.tokens.as_slice() {
            [name, end] => is_name(name) && end.kind == Kind::Dot,
            [name, open, inner @ .., close, end] => {
                let is_there = |(place, token): (usize, &Token)| match place % 2 {
                    0 => is_name(token) || is_decimal(token),
                    _ => token.is(","),
                };
                let is_list = inner.len() % 2 == 1 && inner.iter().enumerate().all(is_there);
                is_name(name) && open.is("(") && close.is(")") && end.kind == Kind::Dot && is_list
            }
            _ => false,
        }
    }
}

/// Tokens as they are written, on one line.
pub fn written(tokens: &[Token]) -> String {
    let mut text = String::new();
    for (place, token) in tokens.iter().enumerate() {
        if place > 0 && token.gap {
            text.push(' ');
        }
        text += &token.text;
    }
    text
}

/// All sheets of a group.
#[derive(Clone, Debug, Default)]
pub struct Sheets {
    pub names: Vec<String>,
    pub statements: Vec<Statement>,
    pub tables: Vec<WrittenTable>,
    pub given: Vec<(String, Spot)>,
    pub labels: Vec<Label>,
    pub shows: Shows,
    /// Where each `#show` that names relays stands.
    pub show_spots: Vec<((String, usize), Spot)>,
    pub notes: Vec<String>,
    /// Files that `#include` names, each with the file that names it.
    pub includes: Vec<(String, Spot)>,
    files: Vec<String>,
    /// The numbers of sheets by name.
    numbers: HashMap<String, usize>,
}

impl Sheets {
    /// Adds a file's text. A fault that the rest can be read in spite of is put to the others.
    pub fn add_file(&mut self, path: &str, text: &str, faults: &mut Vec<Fault>) {
        let file: Arc<str> = Arc::from(path);
        let mut sheet = self.name_of_file(path);
        let tokens = match tokens(&file, text) {
            Ok(tokens) => tokens,
            Err(fault) => return faults.push(fault),
        };
        for piece in pieces(tokens, faults) {
            let done = match piece {
                Piece::Comment(comment) => self.directive(&comment, &mut sheet),
                Piece::Statement(tokens) => self.statement(tokens, &sheet),
            };
            faults.extend(done.err());
        }
    }

    /// The file's name without its ending, or the whole path where another file has that name.
    fn name_of_file(&mut self, path: &str) -> String {
        let stem = Path::new(path).file_stem().map_or(path.into(), |stem| stem.to_string_lossy()).to_string();
        let name = if self.files.contains(&stem) { path.to_string() } else { stem };
        self.files.push(name.clone());
        name
    }

    fn directive(&mut self, comment: &Token, sheet: &mut String) -> Result<(), Fault> {
        match directives::read(comment)? {
            Directive::None => {}
            Directive::Doubtful(note) => self.notes.push(note),
            Directive::Unit(name) => *sheet = name,
            Directive::Given(atoms) => self.given.extend(atoms),
            Directive::Label(label) => self.labels.push(label),
            Directive::Table(table) => self.tables.push(table),
        }
        Ok(())
    }

    fn statement(&mut self, tokens: Vec<Token>, sheet: &str) -> Result<(), Fault> {
        let mut statement = Statement { sheet: 0, tokens, rule: None };
        match directives::kind(&statement)? {
            Special::Rule => {}
            Special::Term(rule) => statement.rule = Some(rule),
            Special::Show(shown) => {
                self.show_spots.extend(shown.iter().map(|name| (name.clone(), statement.spot().clone())));
                self.shows.get_or_insert_with(BTreeSet::new).extend(shown);
                return Ok(());
            }
            Special::Include(path) => {
                self.includes.push((path, statement.spot().clone()));
                return Ok(());
            }
            Special::Idle(note) => {
                self.notes.extend(note);
                return Ok(());
            }
        }
        let sheet = self.number(sheet);
        self.statements.push(Statement { sheet, ..statement });
        Ok(())
    }

    fn number(&mut self, sheet: &str) -> usize {
        if let Some(&number) = self.numbers.get(sheet) {
            return number;
        }
        self.names.push(sheet.to_string());
        self.numbers.insert(sheet.to_string(), self.names.len() - 1);
        self.names.len() - 1
    }
}

enum Piece {
    Comment(Token),
    Statement(Vec<Token>),
}

/// Cuts tokens into statements and comments between them. A comment inside a statement is none, but may not be a directive.
fn pieces(tokens: Vec<Token>, faults: &mut Vec<Fault>) -> Vec<Piece> {
    let mut found = Vec::new();
    let mut open: Vec<Token> = Vec::new();
    let mut has_dot = false; // whether a full stop is among the open tokens
    let mut rest = tokens.into_iter().peekable();
    while let Some(token) = rest.next() {
        if token.kind == Kind::Comment {
            if !open.is_empty() && directives::is_directive(&token) {
                faults.push(not_ended(&open, &format!("before the directive {}", token.text)));
                open.clear();
                has_dot = false;
            }
            if open.is_empty() {
                found.push(Piece::Comment(token));
            }
            continue;
        }
        let ends = token.kind == Kind::Dot || token.is("]") && has_dot;
        has_dot |= token.kind == Kind::Dot;
        open.push(token);
        if ends && !rest.peek().map_or(false, |next| next.is("[")) {
            found.push(Piece::Statement(std::mem::take(&mut open)));
            has_dot = false;
        }
    }
    if !open.is_empty() {
        faults.push(not_ended(&open, "before the sheet ends"));
    }
    found
}

fn not_ended(open: &[Token], before: &str) -> Fault {
    let text = written(open);
    let last = &open[open.len() - 1];
    let what = format!("this statement has no full stop {}", before);
    Fault::at(&open[0].spot, what)
        .text(cut(&text, 100))
        .hint(format!("a rule ends in a full stop; the last word read is \"{}\" in line {}", last.text, last.spot.line))
}

/// At most so many characters of a text.
pub fn cut(text: &str, most: usize) -> String {
    match text.char_indices().nth(most) {
        Some((end, _)) => format!("{} ..", &text[..end]),
        None => text.to_string(),
    }
}
