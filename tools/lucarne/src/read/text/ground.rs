//! The reader for ground statements. What the larger grammar of gringo may allow stops it as `Large`; what is wrong in both is a fault.

use super::statements::Statement;
use super::tokens::{tokens, Kind, Token};
use crate::fault::{Fault, Spot};
use crate::plan::program::Setting;
use std::collections::{HashMap, HashSet};

/// Why a statement was not read: it is gringo's, it may be gringo's or a slip, or it is wrong in any case.
pub enum Stop {
    Large(Spot, String),
    Doubtful(Fault),
    Wrong(Fault),
}

impl From<Fault> for Stop {
    fn from(fault: Fault) -> Stop {
        Stop::Doubtful(fault)
    }
}

#[derive(Clone, Debug, PartialEq, Eq)]
pub enum Head {
    /// At least one of these; none is a constraint.
    AnyOf(Vec<String>),
    /// Each of these as it likes.
    Choice(Vec<String>),
    /// Just one of these, which no other rule drives.
    JustOne(Vec<String>),
}

#[derive(Clone, Debug)]
pub struct GroundRule {
    pub head: Head,
    pub pos: Vec<String>,
    pub neg: Vec<String>,
    pub uses: Vec<(String, bool)>,
}

pub enum Ground {
    Rule(GroundRule),
    External(String, Setting),
}

/// Reads a statement; `is_table` tells the names of contact tables.
pub fn read(statement: &Statement, is_table: &dyn Fn(&str) -> bool) -> Result<Ground, Stop> {
    let mut reader = Reader { tokens: &statement.tokens, at: 0 };
    let read = match reader.peek() {
        token if token.is("#external") => reader.external(is_table),
        token if token.kind == Kind::Hash => Err(large(token)),
        _ => reader.rule(is_table).map(Ground::Rule),
    };
    read.map_err(|stop| match stop {
        Stop::Wrong(fault) if fault.text.is_empty() => Stop::Wrong(fault.text(statement.text())),
        Stop::Doubtful(fault) if fault.text.is_empty() => Stop::Doubtful(fault.text(statement.text())),
        stop => stop,
    })
}

/// The relay that this text names, and nothing else.
pub fn atom_of(text: &str, spot: &Spot) -> Result<String, Fault> {
    let mut found = tokens(&spot.file, text)?;
    found.iter_mut().for_each(|token| {
        token.spot.line = spot.line;
        token.spot.column += spot.column - 1;
    });
    let end = Token { kind: Kind::Dot, text: "the end".to_string(), spot: spot.clone(), gap: false };
    found.push(end);
    let mut reader = Reader { tokens: &found, at: 0 };
    let wrong = || {
        Fault::at(spot, format!("{} is not the name of one relay", if text.is_empty() { "nothing" } else { text }))
            .hint("write out its name: tr1, or lock(3)")
    };
    match reader.atom() {
        Ok((atom, _)) if reader.peek().kind == Kind::Dot => Ok(atom),
        Err(Stop::Wrong(fault) | Stop::Doubtful(fault)) if !text.is_empty() => Err(fault),
        _ => Err(wrong()),
    }
}

/// Terms that are nested deeper are left to gringo.
const MOST_NESTED: usize = 50;

fn large(token: &Token) -> Stop {
    Stop::Large(token.spot.clone(), token.text.clone())
}

struct Reader<'a> {
    tokens: &'a [Token],
    at: usize,
}

impl<'a> Reader<'a> {
    fn peek(&self) -> &'a Token {
        self.ahead(0)
    }

    /// A token further on; behind the last one stands the last one.
    fn ahead(&self, by: usize) -> &'a Token {
        &self.tokens[(self.at + by).min(self.tokens.len() - 1)]
    }

    /// Steps over the token if it is this one.
    fn takes(&mut self, text: &str) -> bool {
        let is = self.peek().is(text);
        self.at += usize::from(is);
        is
    }

    fn external(&mut self, is_table: &dyn Fn(&str) -> bool) -> Result<Ground, Stop> {
        self.at += 1;
        let (atom, spot) = self.atom()?;
        if is_table(&atom) {
            let what = format!("{} is a contact table, and no key", atom);
            return Err(Stop::Wrong(Fault::at(&spot, what).hint("give its inputs instead")));
        }
        if !self.takes(".") {
            return Err(self.unexpected(&["."]));
        }
        if self.at == self.tokens.len() {
            return Ok(Ground::External(atom, Setting::Released));
        }
        let value = self.ahead(1);
        let setting = match value.text.as_str() {
            "true" => Setting::Turned,
            "false" => Setting::Released,
            "release" => return Err(large(value)),
            "free" => Setting::Free,
            _ => {
                let what = format!("{} is no setting of a key", value.text);
                return Err(Stop::Wrong(Fault::at(&value.spot, what).hint("write [true], [false] or [free]")));
            }
        };
        if !self.ahead(2).is("]") {
            return Err(Fault::at(&self.ahead(2).spot, "behind the setting a bracket is missing")
                .hint("write [true], [false] or [free]")
                .into());
        }
        Ok(Ground::External(atom, setting))
    }

    fn rule(&mut self, is_table: &dyn Fn(&str) -> bool) -> Result<GroundRule, Stop> {
        let head = self.head()?;
        let mut rule = GroundRule { head, pos: Vec::new(), neg: Vec::new(), uses: Vec::new() };
        if self.peek().is(":-") {
            self.at += 1;
            self.body(&mut rule, is_table)?;
        }
        if self.peek().kind != Kind::Dot {
            return Err(self.unexpected(&[":-", "."]));
        }
        let atoms = match &rule.head {
            Head::AnyOf(atoms) | Head::Choice(atoms) | Head::JustOne(atoms) => atoms,
        };
        if let Some(table) = atoms.iter().find(|atom| is_table(atom)) {
            let what = format!("{} is a contact table, and no rule can drive it", table);
            return Err(Stop::Wrong(Fault::at(&self.tokens[0].spot, what).hint("give the relay another name than the table")));
        }
        if rule.head == Head::AnyOf(Vec::new()) && rule.pos.is_empty() && rule.neg.is_empty() && rule.uses.is_empty() {
            let what = "a rule without head and body leaves no position at all";
            return Err(Stop::Wrong(Fault::at(&self.tokens[0].spot, what).hint("leave it out")));
        }
        Ok(rule)
    }

    fn head(&mut self) -> Result<Head, Stop> {
        let first = self.peek();
        if first.kind == Kind::If || first.kind == Kind::Dot {
            return Ok(Head::AnyOf(Vec::new()));
        }
        if first.is("1") && self.ahead(1).is("{") {
            self.at += 2;
            let atoms = self.choice()?;
            return if self.takes("1") { Ok(Head::JustOne(atoms)) } else { Err(large(self.peek())) };
        }
        if first.is("{") {
            self.at += 1;
            let atoms = self.choice()?;
            return if matches!(self.peek().kind, Kind::If | Kind::Dot) {
                Ok(Head::Choice(atoms))
            } else {
                Err(self.unexpected(&[":-", "."]))
            };
        }
        self.disjunction()
    }

    fn disjunction(&mut self) -> Result<Head, Stop> {
        let mut atoms = Vec::new();
        loop {
            if self.peek().is("not") {
                return Err(large(self.peek()));
            }
            atoms.push(self.atom()?.0);
            if matches!(self.peek().kind, Kind::If | Kind::Dot) {
                return Ok(Head::AnyOf(unique(atoms)));
            }
            if !self.takes(";") && !self.takes("|") {
                return Err(self.unexpected(&[";", ":-", "."]));
            }
        }
    }

    /// The atoms of a choice, up to its closing bracket.
    fn choice(&mut self) -> Result<Vec<String>, Stop> {
        let mut atoms = Vec::new();
        while !self.takes("}") {
            if !atoms.is_empty() && !self.takes(";") {
                return Err(self.unexpected(&[";", "}"]));
            }
            atoms.push(self.atom()?.0);
        }
        Ok(unique(atoms))
    }

    fn body(&mut self, rule: &mut GroundRule, is_table: &dyn Fn(&str) -> bool) -> Result<(), Stop> {
        if self.peek().kind == Kind::Dot {
            return Ok(());
        }
        let mut seen = HashMap::new();
        loop {
            self.literal(rule, is_table, &mut seen)?;
            if self.peek().kind == Kind::Dot {
                return Ok(());
            }
            self.at += 1;
        }
    }

    /// A literal of a body; `seen` tells the relays before it, each with whether it is wanted up.
    fn literal(&mut self, rule: &mut GroundRule, is_table: &dyn Fn(&str) -> bool, seen: &mut HashMap<String, bool>) -> Result<(), Stop> {
        let is_up = !self.takes("not");
        if !is_up && self.peek().is("not") {
            return Err(large(self.peek()));
        }
        let (atom, spot) = self.atom()?;
        if !matches!(self.peek().kind, Kind::Dot) && !self.peek().is(",") && !self.peek().is(";") {
            return Err(self.unexpected(&[",", "."]));
        }
        if is_table(&atom) {
            if rule.uses.contains(&(atom.clone(), !is_up)) {
                return Err(never_acts(&spot, &atom, "true and false"));
            }
            rule.uses.push((atom, is_up));
            return Ok(());
        }
        if *seen.entry(atom.clone()).or_insert(is_up) != is_up {
            return Err(never_acts(&spot, &atom, "up and dropped"));
        }
        (if is_up { &mut rule.pos } else { &mut rule.neg }).push(atom);
        Ok(())
    }

    /// A relay's name with its arguments, written without spaces.
    fn atom(&mut self) -> Result<(String, Spot), Stop> {
        let sign = if self.takes("-") { "-" } else { "" };
        let token = self.peek();
        if token.kind == Kind::Variable {
            return Err(self.capital(token));
        }
        if token.kind != Kind::Name || token.is("not") {
            return Err(no_name(token));
        }
        self.at += 1;
        let arguments = if self.peek().is("(") { self.arguments(0)? } else { String::new() };
        Ok((format!("{}{}{}", sign, token.text, arguments), token.spot.clone()))
    }

    /// A capital letter is the commonest slip. In a statement with arguments it may well be meant as a variable.
    fn capital(&self, token: &Token) -> Stop {
        let pairs = self.tokens.windows(2);
        let has_arguments = pairs.into_iter().any(|pair| pair[0].kind == Kind::Name && !pair[0].is("not") && pair[1].is("("));
        if has_arguments && !self.ahead(1).is("(") {
            return large(token);
        }
        let small = token.text.to_lowercase();
        let hint = format!("write {0}, and what is to be printed by: %name {0} \"{1}\"", small, token.text);
        Fault::at(&token.spot, format!("{} starts with a capital letter, which ASP reads as a variable", token.text)).hint(hint).into()
    }

    /// Arguments in brackets, written without spaces.
    fn arguments(&mut self, depth: usize) -> Result<String, Stop> {
        if depth > MOST_NESTED {
            return Err(large(self.peek()));
        }
        self.at += 1;
        let mut terms = vec![self.term(depth)?];
        while self.takes(",") {
            terms.push(self.term(depth)?);
        }
        if matches!(self.peek().kind, Kind::Dot | Kind::If) {
            return Err(not_closed(self.peek()));
        }
        if self.peek().is(";") {
            return Err(large(self.peek())); // a pool
        }
        if !self.takes(")") {
            return Err(self.unexpected(&[",", ")"]));
        }
        Ok(format!("({})", terms.join(",")))
    }

    /// One ground term. Tuples and arithmetic are gringo's.
    fn term(&mut self, depth: usize) -> Result<String, Stop> {
        let (token, next) = (self.peek(), self.ahead(1));
        let is_negative = token.is("-") && next.kind == Kind::Number && is_decimal(&next.text) && next.text != "0";
        match token.kind {
            Kind::Name if !token.is("not") => {
                self.at += 1;
                let arguments = if self.peek().is("(") { self.arguments(depth + 1)? } else { String::new() };
                Ok(format!("{}{}", token.text, arguments))
            }
            Kind::Quoted => {
                self.at += 1;
                Ok(token.text.clone())
            }
            Kind::Number if is_decimal(&token.text) => {
                self.at += 1;
                Ok(token.text.clone())
            }
            Kind::Dot | Kind::If => Err(not_closed(token)),
            _ if is_negative => {
                self.at += 2;
                Ok(format!("-{}", next.text))
            }
            _ => Err(large(token)),
        }
    }

    /// Something stands where one of these should.
    fn unexpected(&self, wanted: &[&str]) -> Stop {
        let token = self.peek();
        let is_larger = matches!(token.kind, Kind::Range | Kind::Number | Kind::Quoted | Kind::Variable | Kind::Hash)
            || ["+", "*", "**", "/", "=", "<", ">", "<=", ">=", "!=", "==", "@", ":", "\\", "^", "?", "{", "$"].contains(&token.text.as_str());
        if is_larger {
            return large(token);
        }
        let wanted: Vec<String> = wanted.iter().map(|sign| format!("\"{}\"", sign)).collect();
        let what = format!("here stands \"{}\", where {} should stand", token.text, wanted.join(" or "));
        let fault = Fault::at(&token.spot, what).hint(self.hint(token));
        // gringo takes `a, b :- c` for "a or b".
        if token.is(",") && self.is_in_head() {
            return Stop::Wrong(fault);
        }
        fault.into()
    }

    fn is_in_head(&self) -> bool {
        !self.tokens[..self.at].iter().any(|token| token.kind == Kind::If)
    }

    fn hint(&self, token: &Token) -> String {
        let before = &self.tokens[self.at.saturating_sub(1)];
        let brace = self.tokens[..self.at].iter().rev().find(|token| token.is("{") || token.is("}"));
        match token.text.as_str() {
            "," if brace.map_or(false, |brace| brace.is("{")) => "between braces relays stand apart by ; each of them up or dropped: { a; b }.".to_string(),
            "," if self.is_in_head() => {
                "a head lists its relays by ; and one of them is up; for relays that are driven together write a rule for each".to_string()
            }
            ":-" => "a rule has one :- ; is the full stop of the rule before it missing?".to_string(),
            "-" if self.ahead(1).is(">") && !self.ahead(1).gap => {
                "write :- for \"if\", and what is driven before it: tr1 :- tr2, not tr3.".to_string()
            }
            "." if self.tokens[..self.at].iter().any(|token| token.is("{")) => "is a bracket not closed?".to_string(),
            _ if before.spot.line < token.spot.line => {
                format!("is the full stop behind \"{}\" in line {} missing?", before.text, before.spot.line)
            }
            _ if token.kind == Kind::Name => "is a comma missing?".to_string(),
            _ => "a rule is written so: a ; b :- c, not d.".to_string(),
        }
    }
}

fn not_closed(token: &Token) -> Stop {
    Fault::at(&token.spot, "a bracket is not closed").hint("each ( needs its )").into()
}

fn no_name(token: &Token) -> Stop {
    let is_larger = matches!(token.kind, Kind::Number | Kind::Hash | Kind::Quoted) || ["{", "(", "@", "$", "&"].contains(&token.text.as_str());
    if is_larger {
        return large(token);
    }
    let hint = if token.kind == Kind::Dot { "is a relay missing before it?" } else { "relays are written in small letters: tr1, lock(3)" };
    Fault::at(&token.spot, format!("here stands \"{}\", where the name of a relay should stand", token.text)).hint(hint).into()
}

fn never_acts(spot: &Spot, atom: &str, both: &str) -> Stop {
    Stop::Wrong(Fault::at(spot, format!("{} is wanted {} in one body: this rule can never act", atom, both)).hint("take one of the two out"))
}

fn is_decimal(number: &str) -> bool {
    number == "0" || !number.starts_with('0') && number.bytes().all(|digit| digit.is_ascii_digit())
}

fn unique(atoms: Vec<String>) -> Vec<String> {
    let mut found = HashSet::new();
    atoms.into_iter().filter(|atom| found.insert(atom.clone())).collect()
}
