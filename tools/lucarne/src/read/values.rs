//! Sums over literals, each with the values at which it holds: whole numbers between bounds, as few runs of them as there are.

use crate::read::aspif::Literal;
use std::collections::BTreeMap;

/// A sum over literals, each once and with a positive weight, and the values at which it holds: runs from the first on and below the second, rising,
/// with gaps between them, and none outside what the sum can be.
#[derive(Clone, Debug, PartialEq, Eq)]
pub struct Sum {
    pub parts: Vec<(Literal, i64)>,
    pub values: Values,
}

pub type Values = Vec<(i64, i64)>;

impl Sum {
    /// The sum reaches the bound.
    pub fn at_least(bound: i64, parts: &[(Literal, i64)]) -> Sum {
        Sum::new(parts, &[(bound, i64::MAX)])
    }

    pub fn new(parts: &[(Literal, i64)], values: &[(i64, i64)]) -> Sum {
        let mut weights: BTreeMap<Literal, i64> = BTreeMap::new();
        parts.iter().for_each(|&(literal, weight)| *weights.entry(literal).or_default() += weight);
        let each = parts.iter().filter_map(|&(literal, _)| Some((literal, weights.remove(&literal)?)));
        let parts: Vec<(Literal, i64)> = each.filter(|&(_, weight)| weight != 0).collect();
        let end = parts.iter().map(|part| part.1).sum::<i64>() + 1;
        Sum { parts, values: common(values, &[(0, end)]) }
    }

    /// The parts in an order of their own.
    pub fn key(&self) -> Vec<(Literal, i64)> {
        let mut parts = self.parts.clone();
        parts.sort_unstable();
        parts
    }

    /// One more than the most that the sum can be.
    pub fn end(&self) -> i64 {
        self.parts.iter().map(|part| part.1).sum::<i64>() + 1
    }

    pub fn is_never(&self) -> bool {
        self.values.is_empty()
    }

    pub fn is_always(&self) -> bool {
        self.values == [(0, self.end())]
    }

    /// Whether it holds from one value on.
    pub fn is_at_least(&self) -> bool {
        matches!(self.values.as_slice(), [(_, end)] if *end == self.end())
    }

    pub fn negated(&self) -> Sum {
        let mut from = 0;
        let mut values = Vec::new();
        for &(low, high) in self.values.iter().chain(Some(&(self.end(), self.end()))) {
            values.extend(Some((from, low)).filter(|(from, low)| from < low));
            from = high;
        }
        Sum { parts: self.parts.clone(), values }
    }

    /// Where both hold; they have the same parts.
    pub fn and(&self, other: &Sum) -> Sum {
        Sum { parts: self.parts.clone(), values: common(&self.values, &other.values) }
    }

    /// Where one of the two holds; they have the same parts.
    pub fn or(&self, other: &Sum) -> Sum {
        self.negated().and(&other.negated()).negated()
    }

    /// Takes parts out, whose weights are reached in any case or never.
    pub fn without(&self, reached: i64, is_out: impl Fn(Literal) -> bool) -> Sum {
        let parts: Vec<(Literal, i64)> = self.parts.iter().copied().filter(|&(literal, _)| !is_out(literal)).collect();
        let values: Vec<(i64, i64)> = self.values.iter().map(|&(low, high)| (low - reached, high - reached)).collect();
        Sum::new(&parts, &values)
    }

    /// As text, with these words for its literals.
    pub fn told(&self, name: &dyn Fn(Literal) -> String) -> String {
        let part = |&(literal, weight): &(Literal, i64)| {
            format!("{},{}:{}{}", weight, name(literal.abs()), if literal < 0 { "not " } else { "" }, name(literal.abs()))
        };
        let sum = format!("#sum{{{}}}", self.parts.iter().map(part).collect::<Vec<_>>().join("; "));
        let end = self.end();
        let run = |&(low, high): &(i64, i64)| match (low, high) {
            (0, high) => format!("not {} <= {}", high, sum),
            (low, high) if high == end => format!("{} <= {}", low, sum),
            (low, high) if low + 1 == high => format!("{} = {}", low, sum),
            (low, high) => format!("{} <= {} <= {}", low, sum, high - 1),
        };
        self.values.iter().map(run).collect::<Vec<_>>().join(" or ")
    }
}

/// Values in both.
fn common(one: &[(i64, i64)], other: &[(i64, i64)]) -> Values {
    let pairs = one.iter().flat_map(|&(low, high)| other.iter().map(move |&(from, to)| (low.max(from), high.min(to))));
    let mut values: Values = pairs.filter(|(low, high)| low < high).collect();
    values.sort_unstable();
    values
}

pub fn holds_at(values: &[(i64, i64)], sum: i64) -> bool {
    values.iter().any(|&(low, high)| low <= sum && sum < high)
}
