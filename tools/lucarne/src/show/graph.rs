//! Where the units and links of a picture stand: layers by dependence, a unit above all that it depends on.

use crate::plan::layout::Edges;
use std::collections::BTreeMap;

pub const GAP: f64 = 28.0;
pub const LAYER_GAP: f64 = 66.0;
const SWEEPS: usize = 24;
/// So many units without any link stand in a row.
const ROW: usize = 5;

/// The size of a unit's box.
#[derive(Clone, Copy, Debug)]
pub struct Size {
    pub width: f64,
    pub height: f64,
}

/// A link by the points that it passes, from the unit that depends on the other one down to that, and where its text stands.
#[derive(Clone, Debug)]
pub struct Way {
    pub points: Vec<(f64, f64)>,
    pub text: (f64, f64),
}

/// Boxes by their middle and top, and links.
#[derive(Clone, Debug, Default)]
pub struct Places {
    pub boxes: Vec<(f64, f64)>,
    pub links: BTreeMap<(usize, usize), Way>,
    pub width: f64,
    pub height: f64,
}

/// A unit, or a place that a long link passes between units.
struct Node {
    layer: usize,
    size: Size,
    above: Vec<usize>,
    below: Vec<usize>,
    x: f64,
}

impl Node {
    fn is_linked(&self) -> bool {
        !self.above.is_empty() || !self.below.is_empty()
    }
}

struct Net {
    nodes: Vec<Node>,
    layers: Vec<Vec<usize>>,
    ways: BTreeMap<(usize, usize), Vec<usize>>,
}

/// The places of units of these sizes; a link's text has this width.
pub fn places(sizes: &[Size], edges: &Edges, text_width: &dyn Fn((usize, usize)) -> f64) -> Places {
    if sizes.is_empty() {
        return Places::default();
    }
    let mut net = Net::of(sizes, edges, text_width);
    net.order();
    net.set_apart();
    net.places(sizes.len())
}

/// The layer of each unit: how many units stand below it in the longest way down. Units without any link stand in rows of their own below all.
fn levels(count: usize, edges: &Edges) -> Vec<usize> {
    let is_linked = |unit: usize| edges.keys().any(|&(from, to)| from == unit || to == unit);
    let alone: Vec<usize> = (0..count).filter(|&unit| !is_linked(unit)).collect();
    let rows = (alone.len() + ROW - 1) / ROW;
    let mut levels = vec![rows; count];
    for _ in 0..count {
        edges.keys().for_each(|&(from, to)| levels[from] = levels[from].max(levels[to] + 1).min(rows + count));
    }
    alone.iter().enumerate().for_each(|(place, &unit)| levels[unit] = rows - 1 - place / ROW);
    levels
}

impl Net {
    fn of(sizes: &[Size], edges: &Edges, text_width: &dyn Fn((usize, usize)) -> f64) -> Net {
        let levels = levels(sizes.len(), edges);
        let node = |layer: usize, size: Size| Node { layer, size, above: Vec::new(), below: Vec::new(), x: 0.0 };
        let mut net = Net { nodes: sizes.iter().zip(&levels).map(|(&size, &layer)| node(layer, size)).collect(), layers: Vec::new(), ways: BTreeMap::new() };
        for &(from, to) in edges.keys() {
            let mut way = vec![from];
            for layer in (levels[to] + 1..levels[from]).rev() {
                // The text of a long link stands between the units of the first layer that it passes.
                let width = if way.len() == 1 { text_width((from, to)) } else { 0.0 };
                way.push(net.nodes.len());
                net.nodes.push(node(layer, Size { width, height: 0.0 }));
            }
            way.push(to);
            for step in way.windows(2) {
                net.nodes[step[0]].below.push(step[1]);
                net.nodes[step[1]].above.push(step[0]);
            }
            net.ways.insert((from, to), way);
        }
        net.layers = vec![Vec::new(); levels.iter().max().map_or(0, |top| top + 1)];
        (0..net.nodes.len()).for_each(|node| net.layers[net.nodes[node].layer].push(node));
        net
    }

    fn neighbours(&self, node: usize, look_down: bool) -> &[usize] {
        if look_down {
            &self.nodes[node].below
        } else {
            &self.nodes[node].above
        }
    }

    /// Each layer in the order of what its nodes are linked with, up and down in turn, so that few links cross.
    fn order(&mut self) {
        for sweep in 0..SWEEPS {
            let look_down = sweep % 2 == 0;
            let count = self.layers.len();
            let layers: Vec<usize> = if look_down { (1..count).collect() } else { (0..count.saturating_sub(1)).rev().collect() };
            for layer in layers {
                let mut place = vec![0.0; self.nodes.len()];
                self.layers.iter().flat_map(|nodes| nodes.iter().enumerate()).for_each(|(at, &node)| place[node] = at as f64);
                let key = |node: &usize| mean(self.neighbours(*node, look_down).iter().map(|&other| place[other])).unwrap_or(place[*node]);
                let mut nodes = self.layers[layer].clone();
                nodes.sort_by(|one, other| key(one).total_cmp(&key(other)));
                self.layers[layer] = nodes;
            }
        }
    }

    /// Places from left to right: near what a node is linked with, and apart from its neighbours.
    fn set_apart(&mut self) {
        for layer in 0..self.layers.len() {
            self.settle(layer, &vec![0.0; self.layers[layer].len()]);
        }
        for sweep in 0..SWEEPS {
            let middle = mean(self.nodes.iter().filter(|node| node.is_linked()).map(|node| node.x)).unwrap_or(0.0);
            for layer in 0..self.layers.len() {
                let layer = if sweep % 2 == 0 { layer } else { self.layers.len() - 1 - layer };
                let wanted = |&node: &usize| {
                    let linked = self.nodes[node].above.iter().chain(&self.nodes[node].below);
                    mean(linked.map(|&other| self.nodes[other].x)).unwrap_or(middle)
                };
                let wanted: Vec<f64> = self.layers[layer].iter().map(wanted).collect();
                self.settle(layer, &wanted);
            }
        }
    }

    /// As near to the wanted places as the widths allow: midway between pushing all to the right and all to the left.
    fn settle(&mut self, layer: usize, wanted: &[f64]) {
        let nodes = self.layers[layer].clone();
        let apart = |one: usize, other: usize| (self.nodes[one].size.width + self.nodes[other].size.width) / 2.0 + GAP;
        let (mut right, mut left) = (wanted.to_vec(), wanted.to_vec());
        for k in 1..nodes.len() {
            right[k] = right[k].max(right[k - 1] + apart(nodes[k - 1], nodes[k]));
        }
        for k in (1..nodes.len()).rev() {
            left[k - 1] = left[k - 1].min(left[k] - apart(nodes[k - 1], nodes[k]));
        }
        nodes.iter().enumerate().for_each(|(k, &node)| self.nodes[node].x = (right[k] + left[k]) / 2.0);
    }

    fn places(&self, units: usize) -> Places {
        let leftmost = self.nodes.iter().map(|node| node.x - node.size.width / 2.0).fold(f64::MAX, f64::min);
        let rightmost = self.nodes.iter().map(|node| node.x + node.size.width / 2.0).fold(f64::MIN, f64::max);
        let heights: Vec<f64> = self.layers.iter().map(|nodes| nodes.iter().map(|&node| self.nodes[node].size.height).fold(0.0, f64::max)).collect();
        let top = |layer: usize| heights[layer + 1..].iter().map(|height| height + LAYER_GAP).sum::<f64>();
        let y = |node: &Node| top(node.layer) + (heights[node.layer] - node.size.height) / 2.0;
        let boxes = self.nodes[..units].iter().map(|node| (node.x - leftmost, y(node))).collect();
        let links = self.ways.iter().map(|(&link, way)| {
            let mut points = vec![(self.port(link.0, way[1], true) - leftmost, y(&self.nodes[link.0]) + self.nodes[link.0].size.height)];
            // A link passes a layer straight down, so that it meets no unit there.
            let between = way[1..way.len() - 1].iter().map(|&node| &self.nodes[node]);
            points.extend(between.flat_map(|node| [0.0, heights[node.layer]].map(|down| (node.x - leftmost, top(node.layer) + down))));
            points.push((self.port(link.1, way[way.len() - 2], false) - leftmost, y(&self.nodes[link.1])));
            let (first, second) = if points.len() > 2 { (points[1], points[2]) } else { (points[0], points[1]) };
            let text = ((first.0 + second.0) / 2.0, (first.1 + second.1) / 2.0);
            (link, Way { points, text })
        });
        Places { boxes, links: links.collect(), width: rightmost - leftmost, height: top(0) + heights[0] }
    }

    /// Where a link leaves or reaches a unit: the links of a side are spread over it from left to right.
    fn port(&self, unit: usize, other: usize, look_down: bool) -> f64 {
        let mut others = self.neighbours(unit, look_down).to_vec();
        others.sort_by(|one, two| self.nodes[*one].x.total_cmp(&self.nodes[*two].x));
        let place = others.iter().position(|&node| node == other).unwrap_or(0);
        let node = &self.nodes[unit];
        let step = node.size.width * 0.8 / others.len() as f64;
        node.x + step * (place as f64 - (others.len() - 1) as f64 / 2.0)
    }
}

fn mean(values: impl Iterator<Item = f64>) -> Option<f64> {
    let (sum, count) = values.fold((0.0, 0), |(sum, count), value| (sum + value, count + 1));
    Some(sum / f64::from(count)).filter(|_| count > 0)
}
