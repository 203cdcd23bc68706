//! Sentences that say something else to gringo than to those who write them: arrows and comparisons between relays, and ; in a body.

use super::shapes::COMPARISONS;
use super::statements::{cut, written, Sheets, Statement};
use super::terms::{split, step, term, Term};
use super::tokens::{Kind, Token};
use crate::fault::Fault;
use std::collections::BTreeSet;

/// A comparison in which a relay's name stands: gringo would read it, and the rule would be gone. A name with a digit before it, and `NOT`: gringo's own
/// word for them says nothing to those who write them.
pub fn misread(statement: &Statement, constants: &BTreeSet<String>) -> Option<Fault> {
    let tokens = &statement.tokens;
    // In theories signs of comparison are what the theory says.
    let is_other = tokens[0].is("#const") || tokens[0].is("#theory") || tokens.iter().any(|token| token.is("&"));
    let slip = tokens.iter().find_map(digit_first).or_else(|| tokens.windows(2).find_map(|pair| capital_not(&pair[0], &pair[1])));
    let compared = || (0..tokens.len()).filter(|_| !is_other).find_map(|place| comparison(tokens, place, constants));
    Some(slip.or_else(compared)?.text(cut(&statement.text(), 100)))
}

/// `1a_lr`, as railways name relays. `0x1f`, `0b11` and `0o17` are numbers.
fn digit_first(token: &Token) -> Option<Fault> {
    let is_digit = |base: u32| move |sign: char| sign.is_digit(base);
    let is_number = token.text.chars().all(is_digit(10))
        || [("0x", 16), ("0b", 2), ("0o", 8)].iter().any(|(start, base)| {
            token.text.strip_prefix(start).map_or(false, |rest| !rest.is_empty() && rest.chars().all(is_digit(*base)))
        });
    if token.kind != Kind::Number || is_number {
        return None;
    }
    let name = format!("r{}", token.text.to_lowercase());
    Some(
        Fault::at(&token.spot, format!("{} begins with a digit, and the name of a relay begins with a small letter", token.text))
            .hint(format!("write {0}, and what is to be printed by: %name {0} \"{1}\"", name, token.text)),
    )
}

/// `NOT a`: a word in capitals is a variable.
fn capital_not(token: &Token, next: &Token) -> Option<Fault> {
    let is_not = token.kind == Kind::Variable && token.text.eq_ignore_ascii_case("not");
    if !is_not || !next.gap || !(matches!(next.kind, Kind::Name | Kind::Variable) || next.is("-")) {
        return None;
    }
    Some(
        Fault::at(&token.spot, format!("\"{}\" is read as a variable: \"not\" is written in small letters", token.text))
            .hint(format!("write: not {}", next.text)),
    )
}

/// The fault of the comparison sign at this place, if it compares a relay's name with something that has no variable.
fn comparison(tokens: &[Token], place: usize, constants: &BTreeSet<String>) -> Option<Fault> {
    let token = tokens.get(place).filter(|token| COMPARISONS.iter().any(|sign| token.is(sign)))?;
    let (left, right) = (before(&tokens[..place]), behind(&tokens[place + 1..]));
    let names = [left, right].iter().filter(|side| is_relay(side, constants)).count();
    let is_fixed = |side: &[Token]| !side.is_empty() && term(side, constants).is_ground();
    if names == 0 || !is_fixed(left) || !is_fixed(right) {
        return None;
    }
    let is_arrow = token.is("<") && sign_of(right) == 1 && !right[0].gap;
    let what = if is_arrow {
        "\"<-\" is read as a comparison, \"less than minus\", and not as \"if\"".to_string()
    } else {
        format!("\"{}\" compares names, and says nothing of relays that are up", token.text)
    };
    let is_head = names == 2 && place == left.len();
    let hint = if is_head {
        format!("to drive {0} where {1} is up, write: {0} :- {1}.", written(left), written(&right[sign_of(right)..]))
    } else {
        "a relay that is up is named, and one that is dropped has not before it: a :- b, not c.".to_string()
    };
    Some(Fault::at(&token.spot, what).hint(hint))
}

/// Whether a relay's name stands here: no variable, number or constant of `#const`.
fn is_relay(side: &[Token], constants: &BTreeSet<String>) -> bool {
    let name = side.get(sign_of(side));
    name.map_or(false, |name| name.kind == Kind::Name && !constants.contains(&name.text)) && !matches!(term(side, constants), Term::Any)
}

fn sign_of(side: &[Token]) -> usize {
    usize::from(side.first().map_or(false, |token| token.is("-")))
}

/// What ends a side of a comparison.
fn ends(token: &Token) -> bool {
    let is_sign = [",", ";", ":", "|", "not"].iter().chain(&COMPARISONS).any(|sign| token.is(sign));
    is_sign || matches!(token.kind, Kind::If | Kind::Dot)
}

/// The term behind a comparison sign.
fn behind(tokens: &[Token]) -> &[Token] {
    let mut depth = 0;
    let end = tokens.iter().position(|token| {
        let is_end = depth == 0 && (ends(token) || step(token) < 0);
        depth += step(token);
        is_end
    });
    &tokens[..end.unwrap_or(tokens.len())]
}

/// The term before a comparison sign.
fn before(tokens: &[Token]) -> &[Token] {
    let mut depth = 0;
    let start = tokens.iter().rposition(|token| {
        let is_end = depth == 0 && (ends(token) || step(token) > 0);
        depth -= step(token);
        is_end
    });
    &tokens[start.map_or(0, |start| start + 1)..]
}

/// For each sheet the first body with ; between plain literals, which says "and".
pub fn semicolons(sheets: &Sheets) -> Vec<String> {
    let (mut notes, mut told) = (Vec::new(), BTreeSet::new());
    for statement in &sheets.statements {
        if let Some(token) = semicolon(statement).filter(|_| told.insert(statement.sheet)) {
            let what = "; in a body says \"and\": for \"or\" write a rule for each, a :- b. a :- c.";
            notes.push(format!("{}: {} ({})", token.spot, what, cut(&statement.text(), 100)));
        }
    }
    notes
}

/// The first ; of a body outside brackets, where no condition needs one.
fn semicolon(statement: &Statement) -> Option<&Token> {
    let arrow = statement.tokens.iter().position(|token| token.kind == Kind::If)?;
    let body = &statement.tokens[arrow + 1..];
    if split(body, &[":"]).len() > 1 {
        return None;
    }
    let first = split(body, &[";"]).first()?.len();
    body.get(first).filter(|token| token.is(";"))
}
