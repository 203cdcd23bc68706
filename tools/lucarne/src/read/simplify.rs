//! What gringo's nameless atoms cost is saved where that is sure: facts are folded, and definitions written out where they are used.
//!
//! An atom in one head alone, and not in that rule's body, is an explicit definition: it may be replaced by its body. Under `not` that needs a body
//! whose negation is a body. A positive atom and a sum that reaches a bound have one in any case. A sum becomes a contact table, which is asked anew below
//! a position. That says the same, since what may fall there stands in it without `not` (see `translate::part`): a sum that is not reached is then not
//! reached below either. Any other sum, and `not a`, is negated only where nothing in it hangs on what the rule drives: then it is settled before the rule.
//! By the same token rules alike but for the values of one sum are one rule.

use crate::read::aspif::{Aspif, Body, Literal, RawRule};
use crate::read::values::Sum;
use std::collections::{BTreeMap, BTreeSet};

impl Body {
    pub fn is_empty(&self) -> bool {
        self.literals.is_empty() && self.sums.is_empty()
    }

    /// Whether the body can never hold: it wants something and its opposite, or a sum that is never reached.
    pub fn is_contradictory(&self) -> bool {
        self.literals.iter().any(|literal| self.literals.contains(&-literal)) || self.sums.iter().any(Sum::is_never)
    }

    /// The body that holds where this one does not, if there is one.
    fn negated(&self) -> Option<Body> {
        match (self.literals.as_slice(), self.sums.as_slice()) {
            ([literal], []) => Some(Body { literals: vec![-literal], sums: Vec::new() }),
            ([], [sum]) => Some(Body { literals: Vec::new(), sums: vec![sum.negated()] }),
            _ => None,
        }
    }

    /// Whether its negation says the same to a table that is asked below a position, whatever hangs on whatever.
    fn is_plain(&self) -> bool {
        self.literals.iter().all(|&literal| literal > 0) && self.sums.iter().all(Sum::is_at_least)
    }

    /// The atoms of a body.
    fn atoms(&self) -> impl Iterator<Item = Literal> + '_ {
        let summed = self.sums.iter().flat_map(|sum| sum.parts.iter().map(|&(literal, _)| literal));
        self.literals.iter().copied().chain(summed).map(Literal::abs)
    }

    /// Sums over the same parts are one, and one that always holds is none.
    fn join_sums(&mut self) {
        let mut joined: Vec<Sum> = Vec::new();
        for sum in self.sums.drain(..).filter(|sum| !sum.is_always()) {
            match joined.iter_mut().find(|other| other.key() == sum.key()) {
                Some(other) => *other = other.and(&sum),
                None => joined.push(sum),
            }
        }
        self.sums = joined;
    }
}

/// What each atom hangs on: all atoms of the rules that have it in the head, other heads among them.
pub struct Loops {
    looks_at: BTreeMap<Literal, BTreeSet<Literal>>,
}

impl Loops {
    pub fn of(aspif: &Aspif) -> Loops {
        let tables = aspif.tables.iter().map(|(table, inputs)| (*table, inputs.iter().copied().collect()));
        let mut looks_at: BTreeMap<Literal, BTreeSet<Literal>> = tables.collect();
        for rule in &aspif.rules {
            let atoms = rule.atoms();
            rule.heads.iter().for_each(|&head| looks_at.entry(head).or_default().extend(&atoms));
        }
        Loops { looks_at }
    }

    /// Whether one of the atoms hangs on one of these, however indirectly.
    pub fn hang_on(&self, atoms: impl Iterator<Item = Literal>, heads: &[Literal]) -> bool {
        let (mut seen, mut open): (BTreeSet<Literal>, Vec<Literal>) = (BTreeSet::new(), atoms.collect());
        while let Some(next) = open.pop() {
            if heads.contains(&next) {
                return true;
            }
            if seen.insert(next) {
                open.extend(self.looks_at.get(&next).into_iter().flatten());
            }
        }
        false
    }
}

/// Folds facts and atoms that nothing drives, then writes out definitions and joins rules until nothing changes.
pub fn simplify(aspif: &mut Aspif) {
    fold_facts(aspif);
    while fold_undriven(aspif) {}
    fold_conditions(aspif);
    aspif.rules.iter_mut().for_each(|rule| rule.body.join_sums());
    let is_nameless = |aspif: &Aspif, one: &RawRule, _: &RawRule| {
        !one.heads.is_empty() && one.heads.iter().all(|head| !aspif.names.contains_key(head))
    };
    while write_out_one(aspif) || join_one(aspif, is_nameless) {}
    aspif.rules.retain(|rule| !rule.body.is_contradictory());
    just_one(aspif);
}
/// gringo folds most facts itself, but leaves some in bodies, such as that of `:- a, -a`.
fn fold_facts(aspif: &mut Aspif) {
    let facts: BTreeSet<Literal> = aspif.rules.iter().filter(|rule| rule.is_fact()).map(|rule| rule.heads[0]).collect();
    let named = facts.iter().filter_map(|fact| aspif.names.remove(fact));
    let named: Vec<String> = named.collect();
    aspif.always.extend(named);
    fold(&mut aspif.rules, &facts);
    let mut shown = std::mem::take(&mut aspif.shown);
    shown.retain(|(_, condition)| !condition.iter().any(|literal| facts.contains(&-literal)));
    shown.iter_mut().for_each(|(_, condition)| condition.retain(|literal| !facts.contains(literal)));
    let (up, others): (Vec<_>, Vec<_>) = shown.into_iter().partition(|(_, condition)| condition.is_empty());
    aspif.always.extend(up.into_iter().map(|(name, _)| name));
    aspif.shown = others;
    let always: BTreeSet<&String> = aspif.always.iter().collect();
    aspif.shown.retain(|(name, _)| !always.contains(name));
}

/// A nameless atom in no head is dropped in every position. gringo leaves some in bodies, such as -a where no rule for it is left, and then adds
/// `:- a, -a` too.
fn fold_undriven(aspif: &mut Aspif) -> bool {
    let heads = aspif.rules.iter().flat_map(|rule| rule.heads.iter().copied());
    let driven: BTreeSet<Literal> = heads.chain(aspif.externals.iter().map(|&(atom, _)| atom)).chain(aspif.names.keys().copied()).collect();
    let atoms = aspif.rules.iter().flat_map(RawRule::atoms);
    let dropped: BTreeSet<Literal> = atoms.filter(|atom| !driven.contains(atom)).map(|atom| -atom).collect();
    fold(&mut aspif.rules, &dropped);
    !dropped.is_empty()
}

/// The same in conditions under which something is shown.
fn fold_conditions(aspif: &mut Aspif) {
    let heads = aspif.rules.iter().flat_map(|rule| rule.heads.iter().copied());
    let driven: BTreeSet<Literal> = heads.chain(aspif.externals.iter().map(|&(atom, _)| atom)).chain(aspif.names.keys().copied()).collect();
    aspif.shown.retain(|(_, condition)| condition.iter().all(|literal| *literal < 0 || driven.contains(literal)));
    aspif.shown.iter_mut().for_each(|(_, condition)| condition.retain(|literal| driven.contains(&literal.abs())));
    let (always, shown): (Vec<_>, Vec<_>) = std::mem::take(&mut aspif.shown).into_iter().partition(|(_, condition)| condition.is_empty());
    aspif.shown = shown;
    let always: BTreeSet<String> = always.into_iter().map(|(name, _)| name).collect();
    aspif.shown.retain(|(name, _)| !always.contains(name));
    aspif.always.extend(always);
}

/// Takes literals that hold in every position out of all rules, and rules that they make idle.
fn fold(rules: &mut Vec<RawRule>, sure: &BTreeSet<Literal>) {
    rules.retain_mut(|rule| {
        let is_met = !rule.is_choice && rule.heads.iter().any(|head| sure.contains(head));
        let is_idle = rule.body.literals.iter().any(|literal| sure.contains(&-literal));
        rule.heads.retain(|head| !sure.contains(head));
        rule.body.literals.retain(|literal| !sure.contains(literal));
        rule.body.sums.iter_mut().for_each(|sum| fold_sum(sum, sure));
        !is_met && !is_idle && !(rule.is_choice && rule.heads.is_empty())
    });
}

fn fold_sum(sum: &mut Sum, sure: &BTreeSet<Literal>) {
    let reached: i64 = sum.parts.iter().filter(|(literal, _)| sure.contains(literal)).map(|(_, weight)| weight).sum();
    *sum = sum.without(reached, |literal| sure.contains(&literal) || sure.contains(&-literal));
}

/// Where atoms stand: how many heads, and which rules have them in a body or a sum.
#[derive(Default)]
struct Places {
    heads: BTreeMap<Literal, Vec<usize>>,
    up: BTreeMap<Literal, Vec<usize>>,
    dropped: BTreeMap<Literal, Vec<usize>>,
    in_sums: BTreeSet<Literal>,
}

fn places(rules: &[RawRule]) -> Places {
    let mut places = Places::default();
    for (number, rule) in rules.iter().enumerate() {
        rule.heads.iter().for_each(|&head| places.heads.entry(head).or_default().push(number));
        for &literal in &rule.body.literals {
            let side = if literal > 0 { &mut places.up } else { &mut places.dropped };
            side.entry(literal.abs()).or_default().push(number);
        }
        let summed = rule.body.sums.iter().flat_map(|sum| sum.parts.iter().map(|&(literal, _)| literal.abs()));
        places.in_sums.extend(summed);
    }
    places
}

/// Replaces one nameless atom by its definition, if there is one to replace.
fn write_out_one(aspif: &mut Aspif) -> bool {
    let places = places(&aspif.rules);
    let conditions = aspif.shown.iter().flat_map(|(_, condition)| condition.iter().map(|literal| literal.abs()));
    let bound = aspif.externals.iter().map(|&(atom, _)| atom).chain(aspif.names.keys().copied()).chain(conditions);
    let is_bound: BTreeSet<Literal> = bound.collect();
    let sole = places.heads.iter().filter(|(atom, rules)| rules.len() == 1 && !is_bound.contains(atom) && !places.in_sums.contains(atom));
    let mut definitions = sole.map(|(&atom, rules)| (atom, rules[0]));
    let mut loops = None;
    let found = definitions.find(|&(atom, number)| {
        let rule = &aspif.rules[number];
        let is_definition = !rule.is_choice && rule.heads.len() == 1;
        let is_own = rule.body.atoms().any(|other| other == atom);
        is_definition && !is_own && may_be_negated(aspif, &rule.body, places.dropped.get(&atom), &mut loops)
    });
    let (atom, number) = match found {
        Some(found) => found,
        None => return false,
    };
    let definition = aspif.rules.remove(number).body;
    aspif.rules.retain(|rule| !(definition.is_empty() && rule.body.literals.contains(&-atom)));
    for rule in &mut aspif.rules {
        rule.is_bound |= rule.heads.is_empty() && !definition.sums.is_empty() && rule.body.literals.contains(&-atom);
        write_out(&mut rule.body, atom, &definition);
    }
    true
}

/// Whether a definition can be written out in the rules that have its atom under `not`.
fn may_be_negated(aspif: &Aspif, body: &Body, rules: Option<&Vec<usize>>, loops: &mut Option<Loops>) -> bool {
    let rules = match rules {
        Some(rules) if !body.is_empty() => rules,
        _ => return true,
    };
    if body.negated().is_none() || body.is_plain() {
        return body.negated().is_some();
    }
    rules.iter().all(|&rule| {
        let heads = &aspif.rules[rule].heads;
        heads.is_empty() || !loops.get_or_insert_with(|| Loops::of(aspif)).hang_on(body.atoms(), heads)
    })
}

fn write_out(body: &mut Body, atom: Literal, definition: &Body) {
    for (literal, written) in [(atom, Some(definition.clone())), (-atom, definition.negated())] {
        if let (true, Some(written)) = (body.literals.contains(&literal), written) {
            body.literals.retain(|other| *other != literal);
            let new = written.literals.into_iter().filter(|literal| !body.literals.contains(literal)).collect::<Vec<_>>();
            body.literals.extend(new);
            body.sums.extend(written.sums);
            body.join_sums();
        }
    }
}

/// Joins rules of one statement, where statements are known: what several say stays apart.
pub fn join_rules(aspif: &mut Aspif) {
    while join_one(aspif, |_, one, other| one.statement == other.statement) {}
}

/// Two rules that are alike but for the values of one sum, which hangs on nothing that they drive, are one.
fn join_one(aspif: &mut Aspif, may_join: impl Fn(&Aspif, &RawRule, &RawRule) -> bool) -> bool {
    let mut loops = None;
    let with_sums: Vec<usize> = (0..aspif.rules.len()).filter(|&rule| !aspif.rules[rule].body.sums.is_empty()).collect();
    for (place, &one) in with_sums.iter().enumerate() {
        for &other in &with_sums[place + 1..] {
            let (first, second) = (&aspif.rules[one], &aspif.rules[other]);
            let number = match joint(first, second).filter(|_| may_join(aspif, first, second)) {
                Some(number) => number,
                None => continue,
            };
            let sum = &first.body.sums[number];
            let summed = sum.parts.iter().map(|&(literal, _)| literal.abs());
            if !first.heads.is_empty() && loops.get_or_insert_with(|| Loops::of(aspif)).hang_on(summed, &first.heads) {
                continue;
            }
            let same = second.body.sums.iter().find(|other| other.key() == sum.key());
            let joined = same.map_or(sum.clone(), |other| sum.or(other));
            aspif.rules[one].body.sums[number] = joined;
            aspif.rules[one].body.join_sums();
            aspif.rules.remove(other);
            return true;
        }
    }
    false
}

/// The sum in which alone two rules may differ.
fn joint(one: &RawRule, other: &RawRule) -> Option<usize> {
    let set = |literals: &[Literal]| literals.iter().copied().collect::<BTreeSet<_>>();
    let (sums, others) = (&one.body.sums, &other.body.sums);
    let is_like = !one.is_choice && !other.is_choice && sums.len() == others.len() && set(&one.heads) == set(&other.heads);
    if !is_like || set(&one.body.literals) != set(&other.body.literals) {
        return None;
    }
    let differing: Vec<usize> = (0..sums.len()).filter(|&number| !others.contains(&sums[number])).collect();
    match differing.as_slice() {
        [] => Some(0),
        [number] => Some(*number).filter(|_| others.iter().any(|sum| sum.key() == sums[*number].key())),
        _ => None,
    }
}

/// `1 { a; b; c } 1 :- B` over atoms that no other rule drives is the disjunction `a ; b ; c :- B`: its positions have just one of them up. Where at most
/// one may be up, a nameless atom stands for none.
fn just_one(aspif: &mut Aspif) {
    let mut number = 0;
    while number < aspif.rules.len() {
        if let Some((constraint, needs_one)) = bounds_of(aspif, number) {
            let fresh = aspif.rules.iter().flat_map(RawRule::atoms).chain(aspif.names.keys().copied()).max().unwrap_or(0) + 1;
            aspif.rules[number].is_choice = false;
            aspif.rules[number].heads.extend(Some(fresh).filter(|_| !needs_one));
            aspif.rules.remove(constraint);
            number = 0;
        } else {
            number += 1;
        }
    }
}

/// The constraint by which gringo says "just one" or "at most one" of a choice, and whether one must be up.
fn bounds_of(aspif: &Aspif, number: usize) -> Option<(usize, bool)> {
    let rule = &aspif.rules[number];
    if !rule.is_choice || rule.heads.len() < 2 {
        return None;
    }
    let places = places(&aspif.rules);
    let is_driven = |head: &Literal| places.heads[head].len() > 1 || aspif.externals.iter().any(|(atom, _)| atom == head);
    if rule.heads.iter().any(is_driven) {
        return None;
    }
    let parts: Vec<(Literal, i64)> = rule.heads.iter().map(|&head| (head, 1)).collect();
    let two = Sum::at_least(2, &parts);
    if two.parts.len() != rule.heads.len() {
        return None;
    }
    let literals = |rule: &RawRule| rule.body.literals.iter().copied().collect::<BTreeSet<_>>();
    let bounded = |bound: &Sum| {
        let sorted = |sums: Vec<&Sum>| sums.iter().map(|sum| (sum.key(), sum.values.clone())).collect::<BTreeSet<_>>();
        let wanted = sorted(rule.body.sums.iter().chain(Some(bound)).collect());
        aspif.rules.iter().position(|other| {
            let sums = sorted(other.body.sums.iter().collect());
            other.is_bound && !other.is_choice && sums == wanted && literals(other) == literals(rule)
        })
    };
    let just_one = Sum::new(&parts, &[(1, 2)]).negated();
    bounded(&just_one).map(|constraint| (constraint, true)).or_else(|| bounded(&two).map(|constraint| (constraint, false)))
}
