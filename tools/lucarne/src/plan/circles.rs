//! Circles in a small graph.

use std::collections::{BTreeMap, BTreeSet, VecDeque};

/// The nodes of a shortest circle, each with an edge to the next and the last with one to the first; none if there is no circle.
pub fn shortest(edges: impl Iterator<Item = (usize, usize)>) -> Option<Vec<usize>> {
    let out = ways_out(edges);
    out.keys().filter_map(|&start| back_to(&out, start)).min_by_key(Vec::len)
}

/// Where edges lead from each node.
pub fn ways_out(edges: impl Iterator<Item = (usize, usize)>) -> BTreeMap<usize, BTreeSet<usize>> {
    let mut out: BTreeMap<usize, BTreeSet<usize>> = BTreeMap::new();
    for (from, to) in edges {
        out.entry(from).or_default().insert(to);
    }
    out
}

/// The nodes of a shortest way from a node back to it, which comes first.
pub fn back_to(out: &BTreeMap<usize, BTreeSet<usize>>, start: usize) -> Option<Vec<usize>> {
    let (mut came_from, mut open) = (BTreeMap::new(), VecDeque::from(vec![start]));
    while let Some(node) = open.pop_front() {
        for &next in out.get(&node).into_iter().flatten() {
            if next == start {
                return Some(way(&came_from, node));
            }
            if !came_from.contains_key(&next) {
                came_from.insert(next, node);
                open.push_back(next);
            }
        }
    }
    None
}

fn way(came_from: &BTreeMap<usize, usize>, last: usize) -> Vec<usize> {
    let mut nodes: Vec<usize> = std::iter::successors(Some(last), |node| came_from.get(node).copied()).collect();
    nodes.reverse();
    nodes
}
