//! Tokens of a sheet, each with its spot. Comments come along, since directives stand in them.

use crate::fault::{Fault, Spot};
use std::sync::Arc;

#[derive(Clone, Copy, Debug, PartialEq, Eq)]
pub enum Kind {
    /// A name that starts with a small letter; `not` is one.
    Name,
    /// A name that starts with a capital letter, or the nameless variable.
    Variable,
    Number,
    Quoted,
    /// `#show`, `#external` and so on.
    Hash,
    /// `:-` or `:~`.
    If,
    /// The full stop behind a statement.
    Dot,
    /// `..` between numbers.
    Range,
    Sign,
    Comment,
}

#[derive(Clone, Debug)]
pub struct Token {
    pub kind: Kind,
    pub text: String,
    pub spot: Spot,
    /// Whether space or a comment stands before it.
    pub gap: bool,
}

impl Token {
    pub fn is(&self, text: &str) -> bool {
        self.kind != Kind::Quoted && self.text == text
    }
}

/// Signs of several characters, longest first.
const LONG_SIGNS: [&str; 6] = ["<=", ">=", "!=", "==", "<>", "**"];
const SIGNS: &str = "-{}()[],;|:=<>!+*/&@~?^$\\";

/// The tokens of a text, block comments left out.
pub fn tokens(file: &Arc<str>, text: &str) -> Result<Vec<Token>, Fault> {
    let mut scanner = Scanner { file, rest: text, line: 1, column: 1 };
    let mut found = Vec::new();
    let mut gap = false;
    loop {
        gap |= scanner.skip_space();
        if scanner.rest.is_empty() {
            return Ok(found);
        }
        if scanner.rest.starts_with("%*") {
            scanner.skip_block()?;
            gap = true;
            continue;
        }
        let token = scanner.token(gap)?;
        gap = token.kind == Kind::Comment;
        if token.is("#script") {
            // What stands in a script has no tokens of ours, and the statement is refused in any case.
            let end = Token { kind: Kind::Dot, text: String::new(), ..token.clone() };
            found.extend([token, end]);
            return Ok(found);
        }
        found.push(token);
    }
}

struct Scanner<'a> {
    file: &'a Arc<str>,
    rest: &'a str,
    line: usize,
    column: usize,
}

impl<'a> Scanner<'a> {
    fn spot(&self) -> Spot {
        Spot { file: self.file.clone(), line: self.line, column: self.column }
    }

    fn take(&mut self, length: usize) -> &'a str {
        let (taken, rest) = self.rest.split_at(length);
        for sign in taken.chars() {
            if sign == '\n' {
                self.line += 1;
                self.column = 1;
            } else {
                self.column += 1;
            }
        }
        self.rest = rest;
        taken
    }

    fn skip_space(&mut self) -> bool {
        let space = length_while(self.rest, |sign| sign.is_ascii_whitespace());
        self.take(space);
        space > 0
    }

    /// Block comments stand within each other, as in clingo.
    fn skip_block(&mut self) -> Result<(), Fault> {
        let (start, mut depth) = (self.spot(), 0);
        while !self.rest.is_empty() {
            if self.rest.starts_with("%*") {
                depth += 1;
                self.take(2);
            } else if self.rest.starts_with("*%") {
                depth -= 1;
                self.take(2);
                if depth == 0 {
                    return Ok(());
                }
            } else {
                self.take(first(self.rest).len_utf8());
            }
        }
        Err(Fault::at(&start, "this comment is not closed").hint("a comment over several lines ends in *%"))
    }

    fn token(&mut self, gap: bool) -> Result<Token, Fault> {
        let spot = self.spot();
        let (kind, length) = measure(self.rest).ok_or_else(|| self.unknown(&spot))?;
        Ok(Token { kind, text: self.take(length).to_string(), spot, gap })
    }

    fn unknown(&self, spot: &Spot) -> Fault {
        match first(self.rest) {
            '"' => Fault::at(spot, "this quotation mark has no second one").hint("a quotation ends on its line, in another \""),
            '#' => Fault::at(spot, "here stands #, with no word behind it").hint("comments start with %"),
            '\'' | '\u{2018}' | '\u{2019}' | '\u{201c}' | '\u{201d}' => Fault::at(spot, "this kind of quotation mark has no place here")
                .hint("labels stand in plain double ones: %name tr1 \"101 TR\""),
            sign if sign.is_alphabetic() => Fault::at(spot, format!("the letter {} has no place in a name", sign))
                .hint("names are written in plain letters, figures and _; the label may have any: %name tr1 \"101 TR\""),
            sign if "\u{2190}\u{2192}\u{21d0}\u{21d2}\u{27f5}\u{27f6}\u{27f8}\u{27f9}".contains(sign) => {
                Fault::at(spot, format!("the arrow {} has no place here", sign)).hint("write :- for \"if\": tr1 :- tr2, not tr3.")
            }
            sign => Fault::at(spot, format!("the character {} has no place here", sign.escape_debug())).hint("comments start with %"),
        }
    }
}

fn first(text: &str) -> char {
    text.chars().next().unwrap_or(' ')
}

fn length_while(text: &str, belongs: impl Fn(char) -> bool) -> usize {
    text.find(|sign| !belongs(sign)).unwrap_or(text.len())
}

/// Kind and length of the token at the front, if one stands there.
fn measure(text: &str) -> Option<(Kind, usize)> {
    let sign = first(text);
    match sign {
        '%' => Some((Kind::Comment, length_while(text, |sign| sign != '\n' && sign != '\r'))),
        '"' => quotation(text).map(|length| (Kind::Quoted, length)),
        '#' => Some(1 + length_while(&text[1..], |sign| sign.is_ascii_lowercase()))
            .filter(|&length| length > 1)
            .map(|length| (Kind::Hash, length)),
        '.' => Some(if text.starts_with("..") { (Kind::Range, 2) } else { (Kind::Dot, 1) }),
        ':' if text.starts_with(":-") || text.starts_with(":~") => Some((Kind::If, 2)),
        '0'..='9' => Some((Kind::Number, length_while(text, |sign| sign.is_ascii_alphanumeric() || sign == '_'))),
        'a'..='z' | 'A'..='Z' | '_' => Some(name(text)),
        _ => sign_length(text).map(|length| (Kind::Sign, length)),
    }
}

fn sign_length(text: &str) -> Option<usize> {
    let long = LONG_SIGNS.iter().find(|sign| text.starts_with(**sign)).map(|sign| sign.len());
    long.or_else(|| Some(1).filter(|_| SIGNS.contains(first(text))))
}

fn name(text: &str) -> (Kind, usize) {
    let length = length_while(text, |sign| sign.is_ascii_alphanumeric() || sign == '_' || sign == '\'');
    let letter = text[..length].chars().find(|&sign| sign != '_');
    (if letter.map_or(false, |letter| letter.is_ascii_lowercase()) { Kind::Name } else { Kind::Variable }, length)
}

fn quotation(text: &str) -> Option<usize> {
    let mut escaped = false;
    for (place, sign) in text.char_indices().skip(1) {
        match sign {
            '\n' => return None,
            _ if escaped => escaped = false,
            '\\' => escaped = true,
            '"' => return Some(place + 1),
            _ => {}
        }
    }
    None
}
