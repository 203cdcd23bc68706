//! Which statement each ground rule comes from. gringo does not tell, so a rule is held against the statements: its head and what is left of its body
//! must be instances of a statement's literals, and what is missing must be what gringo leaves out. Where that fails, the rule has no line; the list is
//! the same.

use crate::read::aspif::{Aspif, Literal, RawRule};
use crate::read::text::shapes::{Comparison, Place, Shape};
use crate::read::text::terms::{term, Term, Values};
use crate::read::text::tokens::tokens;
use std::collections::{BTreeMap, BTreeSet, HashMap};
use std::sync::Arc;

/// So many steps are taken for a rule and a statement; a search that is longer finds nothing.
const MOST_STEPS: usize = 5000;
/// Bodies above this are not searched.
const MOST_LITERALS: usize = 64;

/// The term of a ground atom's name.
pub fn ground_term(name: &str) -> Term {
    let inner = name.strip_suffix(')').and_then(|name| name.split_once('('));
    let is_plain = |inner: &str| !inner.is_empty() && !inner.contains(&['(', '"'][..]);
    if let Some((name, inner)) = inner.filter(|(name, inner)| !name.is_empty() && is_plain(inner)) {
        return Term::Call(name.to_string(), inner.split(',').map(|part| Term::Plain(part.to_string())).collect());
    }
    tokens(&Arc::from("gringo"), name).map_or(Term::Any, |tokens| term(&tokens, &BTreeSet::new()))
}

/// Writes to each rule its statement, where one is found. Rules that share a nameless atom come from one statement.
pub fn find(aspif: &mut Aspif, shapes: &[Shape]) {
    let known = Known::of(aspif, shapes);
    let finder = Finder { shapes, by_head: by_head(shapes), known: &known };
    let rules: Vec<Named> = aspif.rules.iter().map(|rule| known.named(rule)).collect();
    let mut fitting: Vec<Option<Vec<usize>>> = rules.iter().map(|rule| finder.fitting(rule)).collect();
    // `:- a, -a.` is gringo's own, unless a plain constraint says so: a choice that has both does not.
    for (_, fitting) in aspif.rules.iter().zip(&mut fitting).filter(|(rule, _)| is_opposite(rule, &aspif.names)) {
        fitting.iter_mut().for_each(|fitting| fitting.retain(|&number| !shapes[number].is_complex));
    }
    let mut seen: BTreeMap<Vec<&Term>, usize> = BTreeMap::new();
    let mut found: Vec<Option<usize>> = vec![None; rules.len()];
    for cluster in clusters(aspif) {
        let common = common(&cluster, &fitting);
        // Rules alike come in the order of the statements.
        let content: Vec<&Term> = cluster.iter().flat_map(|&rule| rules[rule].all()).collect();
        let before = seen.entry(content).or_default();
        for &rule in &cluster {
            let own = fitting[rule].as_deref().unwrap_or_default();
            let of = if common.is_empty() { own } else { &common };
            found[rule] = of.get((*before).min(of.len().saturating_sub(1))).copied();
        }
        // gringo may share a nameless atom between statements: what fits none of them goes with the first.
        let first = cluster.iter().find_map(|&rule| found[rule]);
        cluster.iter().for_each(|&rule| found[rule] = found[rule].or(first));
        *before += 1;
    }
    aspif.rules.iter_mut().zip(found).for_each(|(rule, statement)| rule.statement = statement);
}

/// Whether a rule says that a relay and its opposite are never up together.
fn is_opposite(rule: &RawRule, names: &BTreeMap<Literal, String>) -> bool {
    let name = |literal: &Literal| names.get(literal).map_or("", String::as_str);
    let is_pair = |one: &Literal, other: &Literal| name(one).strip_prefix('-').map_or(false, |relay| relay == name(other));
    matches!(rule.body.literals.as_slice(), [one, other] if is_pair(one, other) || is_pair(other, one))
        && rule.heads.is_empty()
        && rule.body.sums.is_empty()
}

/// The statements that fit every rule of a cluster.
fn common(cluster: &[usize], fitting: &[Option<Vec<usize>>]) -> Vec<usize> {
    let mut told = cluster.iter().filter_map(|&rule| fitting[rule].as_ref());
    let first = told.next().cloned().unwrap_or_default();
    let rest: Vec<&Vec<usize>> = told.collect();
    first.into_iter().filter(|statement| rest.iter().all(|other| other.contains(statement))).collect()
}

/// Rules that share nameless atoms, however indirectly, in the order of their first rules.
fn clusters(aspif: &Aspif) -> Vec<Vec<usize>> {
    let mut leader: Vec<usize> = (0..aspif.rules.len()).collect();
    let mut first: BTreeMap<Literal, usize> = BTreeMap::new();
    for (number, rule) in aspif.rules.iter().enumerate() {
        for atom in rule.atoms().into_iter().filter(|atom| !aspif.names.contains_key(atom)) {
            let (one, other) = (lead(&leader, *first.entry(atom).or_insert(number)), lead(&leader, number));
            leader[one.max(other)] = one.min(other);
        }
    }
    let mut clusters: BTreeMap<usize, Vec<usize>> = BTreeMap::new();
    (0..leader.len()).for_each(|rule| clusters.entry(lead(&leader, rule)).or_default().push(rule));
    clusters.into_values().collect()
}

/// The lowest rule of a cluster.
fn lead(leader: &[usize], rule: usize) -> usize {
    if leader[rule] == rule {
        rule
    } else {
        lead(leader, leader[rule])
    }
}

/// A ground rule by its names.
struct Named<'a> {
    heads: Vec<&'a Term>,
    body: Vec<(bool, &'a Term)>,
    summed: Vec<&'a Term>,
    is_choice: bool,
    is_constraint: bool,
    has_nameless: bool,
}

impl<'a> Named<'a> {
    fn all(&self) -> impl Iterator<Item = &'a Term> + '_ {
        self.heads.iter().copied().chain(self.body.iter().map(|&(_, term)| term)).chain(self.summed.iter().copied())
    }
}

/// What gringo's output names: atoms by their numbers, and facts by their names.
struct Known {
    terms: BTreeMap<Literal, Term>,
    open: BTreeSet<Term>,
    facts: HashMap<String, Vec<Term>>,
}

impl Known {
    /// Of the facts those are read that a search may ask for; there may be many others.
    fn of(aspif: &Aspif, shapes: &[Shape]) -> Known {
        let terms: BTreeMap<Literal, Term> = aspif.names.iter().map(|(&atom, name)| (atom, ground_term(name))).collect();
        let chosen = shapes.iter().filter(|shape| shape.is_choice).flat_map(|shape| &shape.heads);
        let asked: BTreeSet<&str> = shapes.iter().flat_map(|shape| &shape.body).chain(chosen).map(|place| place.term.name()).collect();
        let mut facts: HashMap<String, Vec<Term>> = HashMap::new();
        for name in &aspif.always {
            let predicate = &name[..name.find('(').unwrap_or(name.len())];
            if asked.contains(predicate) {
                facts.entry(predicate.to_string()).or_default().push(ground_term(name));
            }
        }
        Known { open: terms.values().cloned().collect(), terms, facts }
    }

    fn named(&self, rule: &RawRule) -> Named<'_> {
        let term = |literal: Literal| self.terms.get(&literal.abs());
        let summed = rule.body.sums.iter().flat_map(|sum| sum.parts.iter().map(|&(literal, _)| literal));
        Named {
            heads: rule.heads.iter().filter_map(|&head| term(head)).collect(),
            body: rule.body.literals.iter().filter_map(|&literal| Some((literal > 0, term(literal)?))).collect(),
            summed: summed.filter_map(term).collect(),
            is_choice: rule.is_choice,
            is_constraint: rule.heads.is_empty(),
            has_nameless: rule.atoms().into_iter().any(|atom| term(atom).is_none()),
        }
    }

    fn facts_like(&self, term: &Term) -> &[Term] {
        self.facts.get(term.name()).map_or(&[], Vec::as_slice)
    }
}

fn by_head(shapes: &[Shape]) -> HashMap<&str, Vec<usize>> {
    let mut found: HashMap<&str, Vec<usize>> = HashMap::new();
    for (number, shape) in shapes.iter().enumerate().filter(|(_, shape)| !shape.is_external) {
        for place in shape.driven() {
            let numbers = found.entry(place.term.name()).or_default();
            if numbers.last() != Some(&number) {
                numbers.push(number);
            }
        }
    }
    found
}

struct Finder<'a> {
    shapes: &'a [Shape],
    by_head: HashMap<&'a str, Vec<usize>>,
    known: &'a Known,
}

impl<'a> Finder<'a> {
    /// The statements that a rule may come from, plain ones before all others; nothing is known of a rule without any name.
    fn fitting(&self, rule: &'a Named<'a>) -> Option<Vec<usize>> {
        if rule.has_nameless && rule.all().next().is_none() {
            return None;
        }
        let driving = rule.heads.first().map(|head| self.by_head.get(head.name()).cloned().unwrap_or_default());
        let tried = driving.unwrap_or_else(|| (0..self.shapes.len()).collect());
        let mut fitting: Vec<usize> = tried.into_iter().filter(|&number| self.fits(number, rule)).collect();
        if fitting.iter().any(|&number| !self.shapes[number].is_complex) {
            fitting.retain(|&number| !self.shapes[number].is_complex);
        }
        Some(fitting)
    }

    fn fits(&self, number: usize, rule: &'a Named<'a>) -> bool {
        let shape = &self.shapes[number];
        let is_wider = rule.has_nameless || !rule.summed.is_empty();
        let has_other_head = rule.is_constraint && shape.driven().next().is_some() && !shape.has_complex_head;
        // Of a choice with bounds `simplify` may have made a disjunction; all others stay choices.
        let is_choice = rule.is_choice || rule.has_nameless || shape.is_complex && rule.heads.len() != 1;
        let is_other = is_wider && !shape.is_complex || rule.is_choice && !shape.is_choice || shape.is_choice && !is_choice;
        let is_rule =
            !shape.is_external && (shape.driven().next().is_some() || shape.looked_at().next().is_some() || !shape.comparisons.is_empty());
        if is_other || has_other_head || !is_rule || rule.body.len() > MOST_LITERALS {
            return false;
        }
        Search { shape, rule, known: self.known, values: Vec::new(), steps: MOST_STEPS }.heads(0)
    }
}

/// One rule held against one statement: a value for each variable, so that everything fits.
struct Search<'a> {
    shape: &'a Shape,
    rule: &'a Named<'a>,
    known: &'a Known,
    values: Values<'a>,
    steps: usize,
}

impl<'a> Search<'a> {
    /// Goes on where the term fits, and takes the values back where that does not help.
    fn with(&mut self, place: &'a Place, ground: &'a Term, next: impl Fn(&mut Search<'a>) -> bool) -> bool {
        if self.steps == 0 {
            return false;
        }
        self.steps -= 1;
        let before = self.values.len();
        let found = place.term.fits(ground, &mut self.values) && next(self);
        self.values.truncate(before);
        found
    }

    /// Whether the term fits; the values are as before.
    fn fits(&mut self, place: &'a Place, ground: &'a Term) -> bool {
        self.with(place, ground, |_| true)
    }

    fn heads(&mut self, number: usize) -> bool {
        let (shape, rule) = (self.shape, self.rule);
        match rule.heads.get(number) {
            None => self.body(0, 0),
            Some(head) => {
                shape.heads.iter().any(|place| self.with(place, head, |search| search.heads(number + 1)))
                    || shape.inner_heads.iter().any(|place| self.fits(place, head)) && self.heads(number + 1)
            }
        }
    }

    /// Each literal of the statement is a literal of the rule, or one that gringo leaves out. Bit k of `covered` is for the rule's k-th literal.
    fn body(&mut self, number: usize, covered: u64) -> bool {
        let (shape, rule, known) = (self.shape, self.rule, self.known);
        let missing = rule.body.len() - covered.count_ones() as usize;
        let is_short = !shape.is_complex && missing > shape.body.len() - number;
        if is_short || !shape.comparisons.iter().all(|comparison| may_hold(comparison, &self.values)) {
            return false;
        }
        let place = match shape.body.get(number) {
            None => return self.rest(covered),
            Some(place) => place,
        };
        let mut literals = rule.body.iter().enumerate().filter(|(_, (is_up, _))| *is_up == place.is_up);
        literals.any(|(k, (_, ground))| self.with(place, ground, |search| search.body(number + 1, covered | 1 << k)))
            || place.is_up
                && known.facts_like(&place.term).iter().any(|fact| self.with(place, fact, |search| search.body(number + 1, covered)))
            || (rule.has_nameless || !place.is_up && self.is_never_up(place)) && self.body(number + 1, covered)
    }

    fn is_never_up(&self, place: &Place) -> bool {
        let instance = place.term.with(&self.values);
        !instance.is_ground() || !self.known.open.contains(&instance) && !self.known.facts_like(&instance).contains(&instance)
    }

    /// What is left of the rule stands within sums and conditions, and no head of a plain statement is missing.
    fn rest(&mut self, covered: u64) -> bool {
        let (shape, rule) = (self.shape, self.rule);
        let literals = rule.body.iter().enumerate().filter(|(k, _)| covered >> k & 1 == 0).map(|(_, &(_, term))| term);
        let in_sums =
            |search: &mut Search<'a>, term: &'a Term| shape.inner.iter().chain(shape.driven()).any(|place| search.fits(place, term));
        // Of a choice gringo leaves out what is up in any case.
        let is_there = |place: &Place| {
            let head = place.term.with(&self.values);
            !head.is_ground() || rule.heads.contains(&&head) || rule.is_choice && self.known.facts_like(&head).contains(&head)
        };
        (shape.is_complex || shape.heads.iter().all(is_there))
            && literals.chain(rule.summed.iter().copied()).all(|term| in_sums(self, term))
    }
}

/// Whether a comparison holds with these values, as far as numbers and equal terms tell.
fn may_hold(comparison: &Comparison, values: &Values) -> bool {
    let (left, right) = (comparison.left.with(values), comparison.right.with(values));
    let number = |term: &Term| term.name().parse::<i64>().ok();
    match (comparison.sign.as_str(), number(&left), number(&right)) {
        ("<", Some(left), Some(right)) => left < right,
        (">", Some(left), Some(right)) => left > right,
        ("<=", Some(left), Some(right)) => left <= right,
        (">=", Some(left), Some(right)) => left >= right,
        ("=" | "==", _, _) if left.is_ground() && right.is_ground() => left == right,
        ("!=" | "<>", _, _) if left.is_ground() && right.is_ground() => left != right,
        _ => true,
    }
}
