//! Terms as sheets write them, and ground ones as gringo prints them: whether the one may stand for the other.

use super::tokens::{Kind, Token};
use std::collections::BTreeSet;

/// Terms that are nested deeper may be anything.
const MOST_NESTED: usize = 50;

/// A relay's name with its arguments is a term as well.
#[derive(Clone, Debug, PartialEq, Eq, PartialOrd, Ord)]
pub enum Term {
    Variable(String),
    /// What gringo works out: arithmetic, ranges, constants of `#const`.
    Any,
    /// A name whose arguments are a pool, `p(1;2)`.
    Pool(String),
    /// A number, a quotation, or a name without arguments.
    Plain(String),
    /// A name with arguments; a tuple has the empty one.
    Call(String, Vec<Term>),
}

/// Values of variables, in the order in which they were found.
pub type Values<'a> = Vec<(&'a str, &'a Term)>;

impl Term {
    /// The name in front, if there is one.
    pub fn name(&self) -> &str {
        match self {
            Term::Plain(name) | Term::Pool(name) | Term::Call(name, _) => name,
            Term::Variable(_) | Term::Any => "",
        }
    }

    pub fn is_ground(&self) -> bool {
        match self {
            Term::Plain(_) => true,
            Term::Call(_, terms) => terms.iter().all(Term::is_ground),
            _ => false,
        }
    }

    /// A ground term as gringo prints it.
    pub fn text(&self) -> String {
        match self {
            Term::Call(name, terms) => {
                let inner: Vec<String> = terms.iter().map(Term::text).collect();
                let comma = if name.is_empty() && terms.len() == 1 { "," } else { "" };
                format!("{}({}{})", name, inner.join(","), comma)
            }
            _ => self.name().to_string(),
        }
    }

    /// Whether a ground term is an instance of this one, with these values; new ones are put to them.
    pub fn fits<'a>(&'a self, ground: &'a Term, values: &mut Values<'a>) -> bool {
        match (self, ground) {
            (Term::Any, _) => true,
            (Term::Variable(name), _) if name == "_" => true,
            (Term::Variable(name), _) => match values.iter().find(|(known, _)| known == name) {
                Some((_, value)) => *value == ground,
                None => {
                    values.push((name, ground));
                    true
                }
            },
            (Term::Pool(name), _) => name == ground.name(),
            (Term::Call(name, terms), Term::Call(other, grounds)) => {
                name == other && terms.len() == grounds.len() && terms.iter().zip(grounds).all(|(term, ground)| term.fits(ground, values))
            }
            _ => self == ground,
        }
    }

    /// Whether two terms as written may have an instance in common.
    pub fn may_meet(&self, other: &Term) -> bool {
        match (self, other) {
            (Term::Any | Term::Variable(_), _) | (_, Term::Any | Term::Variable(_)) => true,
            (Term::Pool(_), _) | (_, Term::Pool(_)) => self.name() == other.name(),
            (Term::Call(name, terms), Term::Call(called, others)) => {
                name == called && terms.len() == others.len() && terms.iter().zip(others).all(|(term, other)| term.may_meet(other))
            }
            _ => self == other,
        }
    }

    /// The term with its variables replaced by these values.
    pub fn with(&self, values: &Values) -> Term {
        match self {
            Term::Variable(name) => values.iter().find(|(known, _)| known == name).map_or(Term::Any, |(_, value)| (*value).clone()),
            Term::Call(name, terms) => Term::Call(name.clone(), terms.iter().map(|term| term.with(values)).collect()),
            _ => self.clone(),
        }
    }
}

/// The term that these tokens write; `constants` are the names of `#const`.
pub fn term(tokens: &[Token], constants: &BTreeSet<String>) -> Term {
    read(tokens, constants, 0)
}

fn read(tokens: &[Token], constants: &BTreeSet<String>, depth: usize) -> Term {
    let (sign, rest) = match tokens {
        [sign, rest @ ..] if sign.is("-") => ("-", rest),
        _ => ("", tokens),
    };
    match rest {
        _ if depth > MOST_NESTED => Term::Any,
        [one] => single(sign, one, constants),
        [open, inner @ .., close] if open.is("(") && closes(rest) && close.is(")") && sign.is_empty() => tuple(inner, constants, depth),
        [name, open, inner @ .., _] if name.kind == Kind::Name && open.is("(") && closes(&rest[1..]) => {
            let name = format!("{}{}", sign, name.text);
            match split(inner, &[";"]).len() {
                0 | 1 => Term::Call(name, parts(inner, constants, depth)),
                _ => Term::Pool(name),
            }
        }
        _ => Term::Any,
    }
}

fn single(sign: &str, token: &Token, constants: &BTreeSet<String>) -> Term {
    let is_decimal = token.text == "0" && sign.is_empty() || !token.text.starts_with('0');
    match token.kind {
        Kind::Variable if sign.is_empty() => Term::Variable(token.text.clone()),
        Kind::Name if !constants.contains(&token.text) => Term::Plain(format!("{}{}", sign, token.text)),
        Kind::Number if is_decimal && token.text.bytes().all(|digit| digit.is_ascii_digit()) => {
            Term::Plain(format!("{}{}", sign, token.text))
        }
        Kind::Quoted | Kind::Hash if sign.is_empty() => Term::Plain(token.text.clone()),
        _ => Term::Any,
    }
}

/// What stands in brackets of its own: a tuple where a comma is, else the term itself.
fn tuple(inner: &[Token], constants: &BTreeSet<String>, depth: usize) -> Term {
    match split(inner, &[";"]).len() {
        0 => Term::Call(String::new(), Vec::new()),
        1 if split(inner, &[","]).len() > 1 => Term::Call(String::new(), parts(inner, constants, depth)),
        1 => read(inner, constants, depth + 1),
        _ => Term::Any,
    }
}

fn parts(inner: &[Token], constants: &BTreeSet<String>, depth: usize) -> Vec<Term> {
    let parts = split(inner, &[","]).into_iter();
    parts.filter(|part| !part.is_empty()).map(|part| read(part, constants, depth + 1)).collect()
}

/// Whether the bracket in front is closed by the last token and not before.
fn closes(tokens: &[Token]) -> bool {
    let mut depth = 0;
    let first = tokens.iter().position(|token| {
        depth += step(token);
        depth == 0
    });
    first.map_or(false, |place| place + 1 == tokens.len())
}

/// How a token changes the depth of brackets.
pub fn step(token: &Token) -> i32 {
    match token.text.as_str() {
        "(" | "{" | "[" => 1,
        ")" | "}" | "]" => -1,
        _ => 0,
    }
}

/// The parts between these signs outside all brackets; of no tokens there are none.
pub fn split<'a>(tokens: &'a [Token], signs: &[&str]) -> Vec<&'a [Token]> {
    let (mut found, mut depth, mut from) = (Vec::new(), 0, 0);
    for (place, token) in tokens.iter().enumerate() {
        depth += step(token);
        if depth == 0 && signs.iter().any(|sign| token.is(sign)) {
            found.push(&tokens[from..place]);
            from = place + 1;
        }
    }
    if !tokens.is_empty() {
        found.push(&tokens[from..]);
    }
    found
}
