//! What a statement has in its head, in its body, and within sums and conditions, as terms that ground rules may be instances of.

use super::statements::{written, Statement};
use super::terms::{split, term, Term};
use super::tokens::{Kind, Token};
use crate::fault::Spot;
use std::collections::BTreeSet;

pub const COMPARISONS: [&str; 8] = ["=", "==", "!=", "<>", "<", ">", "<=", ">="];

/// A relay as a statement writes it.
#[derive(Clone, Debug)]
pub struct Place {
    pub term: Term,
    pub is_up: bool,
    pub spot: Spot,
    pub text: String,
}

/// A comparison between terms.
#[derive(Clone, Debug)]
pub struct Comparison {
    pub left: Term,
    pub sign: String,
    pub right: Term,
}

#[derive(Clone, Debug, Default)]
pub struct Shape {
    /// Relays of the head whose variables the body has, too.
    pub heads: Vec<Place>,
    /// Relays of the head under a condition or in a sum.
    pub inner_heads: Vec<Place>,
    pub body: Vec<Place>,
    pub comparisons: Vec<Comparison>,
    /// Relays within sums and conditions, of head and body.
    pub inner: Vec<Place>,
    pub is_choice: bool,
    /// Whether gringo needs nameless atoms for it, or more rules than one for an instance.
    pub is_complex: bool,
    /// Whether its head does, so that constraints come of it as well.
    pub has_complex_head: bool,
    pub is_external: bool,
}

/// The names that `#const` and the command line (NAME=VALUE) define.
pub fn constants(statements: &[Statement], set: &[String]) -> BTreeSet<String> {
    let defined = statements.iter().filter(|statement| statement.tokens[0].is("#const"));
    let named = defined.filter_map(|statement| statement.tokens.get(1)).map(|token| token.text.as_str());
    named.chain(set.iter().map(|constant| constant.split('=').next().unwrap_or(constant))).map(str::to_string).collect()
}

impl Shape {
    pub fn of(statement: &Statement, constants: &BTreeSet<String>) -> Shape {
        if constants.is_empty() && statement.is_plain_fact() {
            return Shape::of_fact(&statement.tokens[..statement.tokens.len() - 1]);
        }
        let mut builder = Builder { shape: Shape::default(), constants };
        let end = statement.rule().iter().position(|token| token.kind == Kind::Dot).unwrap_or(statement.rule().len());
        let tokens = &statement.rule()[..end];
        match tokens {
            [first, rest @ ..] if first.is("#external") => builder.external(rest),
            [first, ..] if first.is("#theory") => {}
            // What starts with another word of gringo's is no rule, but for the sums that may stand in a head.
            [first, ..] if first.kind == Kind::Hash && !tokens.iter().any(|token| token.is("{") || token.kind == Kind::If) => {}
            _ => builder.rule(tokens),
        }
        builder.shape.body.sort_by_key(|place| !place.is_up); // what binds variables comes first
        builder.shape
    }

    fn of_fact(tokens: &[Token]) -> Shape {
        let name = tokens[0].text.clone();
        let arguments = tokens[1..].iter().filter(|token| token.kind != Kind::Sign).map(|token| Term::Plain(token.text.clone()));
        let term = if tokens.len() == 1 { Term::Plain(name) } else { Term::Call(name, arguments.collect()) };
        let place = Place { term, is_up: true, spot: tokens[0].spot.clone(), text: written(tokens) };
        Shape { heads: vec![place], ..Shape::default() }
    }

    /// All relays that the statement drives or names as keys.
    pub fn driven(&self) -> impl Iterator<Item = &Place> {
        self.heads.iter().chain(&self.inner_heads)
    }

    /// All relays that the statement looks at.
    pub fn looked_at(&self) -> impl Iterator<Item = &Place> {
        self.body.iter().chain(&self.inner)
    }
}

struct Builder<'a> {
    shape: Shape,
    constants: &'a BTreeSet<String>,
}

impl<'a> Builder<'a> {
    fn rule(&mut self, tokens: &[Token]) {
        let arrow = tokens.iter().position(|token| token.kind == Kind::If);
        let (head, body) = arrow.map_or((tokens, &[][..]), |arrow| (&tokens[..arrow], &tokens[arrow + 1..]));
        match head.iter().position(|token| token.is("{")) {
            _ if is_theory(head) => self.shape.is_complex = true,
            Some(open) => self.set(head, open, true),
            None => split(head, &[";", "|"]).into_iter().for_each(|part| self.head(part)),
        }
        self.shape.has_complex_head = self.shape.is_complex;
        elements(body).into_iter().for_each(|part| self.element(part));
        self.shape.is_complex |= body.iter().any(|token| token.is("_")); // gringo has an atom for what is left of p(_,X)
    }

    /// `#external k(X) : d(X).`
    fn external(&mut self, tokens: &[Token]) {
        self.shape.is_external = true;
        let mut parts = split(tokens, &[":"]).into_iter();
        let key = parts.next().and_then(|part| self.place(part));
        self.shape.heads.extend(key);
        parts.for_each(|part| self.condition(part));
    }

    /// A relay of a head without brackets, or a comparison or a dropped one, which gringo takes to the body.
    fn head(&mut self, part: &[Token]) {
        let mut parts = split(part, &[":"]).into_iter();
        let first = parts.next().unwrap_or_default();
        let rest: Vec<&[Token]> = parts.collect();
        self.shape.is_complex |= !rest.is_empty();
        match self.place(first) {
            Some(place) if !place.is_up => {
                self.shape.is_complex = true;
                self.shape.inner.push(place);
            }
            Some(place) if rest.is_empty() => self.shape.heads.push(place),
            Some(place) => self.shape.inner_heads.push(place),
            None => self.shape.is_complex = true,
        }
        rest.into_iter().for_each(|part| self.condition(part));
    }

    /// A part of a body.
    fn element(&mut self, part: &[Token]) {
        if is_theory(part) {
            self.shape.is_complex = true;
            return;
        }
        if let Some(open) = part.iter().position(|token| token.is("{")) {
            return self.set(part, open, false);
        }
        let is_double = part.len() > 1 && part[0].is("not") && part[1].is("not");
        if is_double || split(part, &[":"]).len() > 1 {
            self.shape.is_complex = true;
            return split(part, &[":"]).into_iter().for_each(|part| self.condition(part));
        }
        match self.place(part) {
            Some(place) => self.shape.body.push(place),
            None => self.comparison(part),
        }
    }

    fn comparison(&mut self, part: &[Token]) {
        let sign = part.iter().find(|token| COMPARISONS.iter().any(|sign| token.is(sign)));
        if let (Some(sign), [left, right]) = (sign, split(part, &COMPARISONS).as_slice()) {
            let (left, right) = (term(left, self.constants), term(right, self.constants));
            self.shape.comparisons.push(Comparison { left, sign: sign.text.clone(), right });
        }
    }

    /// `{ a : b; c }`, or a sum `#sum { 1,X : p(X), q(X) }`, in a head or a body, with its bounds around it.
    fn set(&mut self, tokens: &[Token], open: usize, is_head: bool) {
        let is_sum = open > 0 && tokens[open - 1].kind == Kind::Hash;
        let close = tokens.iter().rposition(|token| token.is("}")).unwrap_or(tokens.len()).max(open + 1);
        let has_bounds = open > 0 || close + 1 < tokens.len();
        self.shape.is_choice |= is_head;
        self.shape.is_complex |= has_bounds || !is_head;
        for element in split(&tokens[open + 1..close.min(tokens.len())], &[";"]) {
            let parts = split(element, &[":"]);
            let place = usize::from(is_sum);
            for (number, part) in parts.iter().enumerate().skip(place) {
                let is_driven = is_head && number == place;
                match self.place(part).filter(|_| is_driven) {
                    Some(head) if has_bounds || parts.len() > 1 => self.shape.inner_heads.push(head),
                    Some(head) => self.shape.heads.push(head),
                    None => self.condition(part),
                }
            }
            self.shape.is_complex |= parts.len() > 1;
        }
    }

    /// Literals under a condition, between commas.
    fn condition(&mut self, part: &[Token]) {
        for literal in split(part, &[","]) {
            let place = self.place(literal);
            self.shape.inner.extend(place);
        }
    }

    /// The relay of a literal; none where a comparison or something else stands.
    fn place(&self, literal: &[Token]) -> Option<Place> {
        let nots = literal.iter().take_while(|token| token.is("not")).count();
        let rest = &literal[nots..];
        let name = rest.iter().find(|token| !token.is("-"))?;
        let term = term(rest, &BTreeSet::new());
        let is_relay = name.kind == Kind::Name && !matches!(term, Term::Any | Term::Variable(_));
        let text = written(rest);
        // A constant of `#const` within the arguments stands for something else.
        let term = if self.constants.is_empty() { term } else { self.with_constants(rest, term) };
        Some(Place { term, is_up: nots % 2 == 0, spot: name.spot.clone(), text }).filter(|_| is_relay)
    }

    fn with_constants(&self, tokens: &[Token], written: Term) -> Term {
        match term(tokens, self.constants) {
            Term::Any => written,
            replaced => replaced,
        }
    }
}

/// Whether a theory atom stands here, `&diff { x - y } <= 3`: gringo has a nameless atom for it, and what it holds are no relays.
fn is_theory(part: &[Token]) -> bool {
    part.iter().find(|token| !token.is("not")).map_or(false, |token| token.is("&"))
}

/// The parts of a body: a comma does not end a condition, a semicolon does.
fn elements(body: &[Token]) -> Vec<&[Token]> {
    let mut found = Vec::new();
    for part in split(body, &[";"]) {
        let mut from = 0;
        for literal in split(part, &[","]) {
            if split(literal, &[":"]).len() > 1 {
                found.push(&part[from..]);
                break;
            }
            found.push(literal);
            from += literal.len() + 1;
        }
    }
    found.retain(|part| !part.is_empty());
    found
}
