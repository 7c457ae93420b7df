//! The diagram as it is lent, and the checks 1 to 6 that come before all else.
//!
//! A passed check leaves a `Shape`: where each layer's nodes and edges lie.
//! Layers never fall along the list, so each is one stretch, and all targets
//! of a layer can be held against one range at a time.

use crate::{refuse, Refusal};

/// The three lent lists.
#[derive(Clone, Copy, Debug)]
pub struct Diagram<'a> {
    /// One entry per option: how many values it takes.
    pub domains: &'a [u32],
    /// One entry per node: the option it asks about, from 1.
    pub layers: &'a [u32],
    /// For each node, one reference per value of its option.
    pub targets: &'a [u32],
}

impl Diagram<'_> {
    pub const MOST_OPTIONS: usize = 64;
    pub const MOST_VALUES: u32 = 32;
    pub const MOST_NODES: usize = 4096;
}

/// Checks 1 to 6, in order.
pub fn check(d: &Diagram) -> Result<(), Refusal> {
    Shape::of(d).map(|_| ())
}

/// Where a sound diagram's layers lie. Entry i speaks of layer i + 1, and
/// ends where entry i + 1 begins.
pub(crate) struct Shape {
    /// The first node of each layer, counted from 0.
    pub nodes: [u32; Diagram::MOST_OPTIONS + 1],
    /// The first edge of each layer, counted from 0.
    pub edges: [u32; Diagram::MOST_OPTIONS + 1],
    /// D, the sum of the domains.
    pub values: u32,
    /// E, the number of edges.
    pub edge_count: usize,
}

impl Shape {
    /// The shape of a diagram that passes checks 1 to 6.
    pub fn of(d: &Diagram) -> Result<Shape, Refusal> {
        let n = d.domains.len();
        if n == 0 || n > Diagram::MOST_OPTIONS {
            return refuse(1, 0);
        }
        let fits = |&v: &u32| v.wrapping_sub(1) < Diagram::MOST_VALUES;
        if let Some(place) = d.domains.iter().position(|v| !fits(v)) {
            return refuse(2, place);
        }
        if d.layers.is_empty() || d.layers.len() > Diagram::MOST_NODES {
            return refuse(3, 0);
        }
        let nodes = layer_starts(d.layers, n)?;
        let shape = Shape::from_nodes(d.domains, nodes);
        if d.targets.len() != shape.edge_count {
            return refuse(5, 0);
        }
        shape.check_targets(d)?;
        Ok(shape)
    }

    /// Adds what follows from the domains and the first node of each layer.
    fn from_nodes(domains: &[u32], nodes: [u32; 65]) -> Shape {
        let mut edges = [0; Diagram::MOST_OPTIONS + 1];
        let (mut values, mut edge_count) = (0, 0);
        for (i, &size) in domains.iter().enumerate() {
            values += size;
            edge_count += (nodes[i + 1] - nodes[i]) * size;
            edges[i + 1] = edge_count;
        }
        Shape {
            nodes,
            edges,
            values,
            edge_count: edge_count as usize,
        }
    }

    /// The references that edges of the layer at entry i may take besides F:
    /// the first, and the one past the last.
    fn permitted(&self, i: usize, n: usize) -> (u32, u32) {
        if i + 1 == n {
            (1, 2)
        } else {
            (self.nodes[i + 1] + 2, self.nodes[i + 2] + 2)
        }
    }

    /// Check 6. Per layer, the highest target and the lowest besides F tell
    /// whether all are permitted; only a failing layer is searched.
    fn check_targets(&self, d: &Diagram) -> Result<(), Refusal> {
        let n = d.domains.len();
        for i in 0..n {
            let from = self.edges[i] as usize;
            let edges = &d.targets[from..self.edges[i + 1] as usize];
            let (first, end) = self.permitted(i, n);
            let (low, high) = extremes(edges);
            if high >= end || low < first - 1 {
                let bad = |&t: &u32| t != 0 && !(first..end).contains(&t);
                let at = edges.iter().position(bad).unwrap_or(0);
                return refuse(6, from + at);
            }
        }
        Ok(())
    }
}

/// One less than the lowest of the targets besides F, and the highest. Both
/// halves are gone through side by side, so that fewer comparisons wait.
fn extremes(targets: &[u32]) -> (u32, u32) {
    let (front, back) = targets.split_at(targets.len() / 2);
    let (mut low, mut high) = match back.last() {
        Some(&last) => (last.wrapping_sub(1), last),
        None => (u32::MAX, 0),
    };
    let (mut low_2, mut high_2) = (low, high);
    for (&one, &two) in front.iter().zip(back) {
        low = low.min(one.wrapping_sub(1));
        high = high.max(one);
        low_2 = low_2.min(two.wrapping_sub(1));
        high_2 = high_2.max(two);
    }
    (low.min(low_2), high.max(high_2))
}

/// Check 4, and the first node of each layer.
fn layer_starts(layers: &[u32], n: usize) -> Result<[u32; 65], Refusal> {
    if let Some(place) = broken_layer(layers, n as u32) {
        return refuse(4, place);
    }
    let mut nodes = [layers.len() as u32; Diagram::MOST_OPTIONS + 1];
    nodes[0] = 0;
    for (start, layer) in nodes[1..n].iter_mut().zip(2..) {
        *start = layers.partition_point(|&l| l < layer) as u32;
    }
    Ok(nodes)
}

/// The first layer that breaks the rule. Where none falls, the first two and
/// the last tell of all the others.
fn broken_layer(layers: &[u32], n: u32) -> Option<usize> {
    let later = &layers[1..];
    let falls = layers
        .iter()
        .zip(later)
        .fold(false, |falls, (a, b)| falls | (a > b));
    let permitted = 2..=n;
    let mut ends = later.first().into_iter().chain(later.last());
    if layers[0] == 1 && !falls && ends.all(|l| permitted.contains(l)) {
        return None;
    }
    if layers[0] != 1 {
        return Some(0);
    }
    let mut pairs = layers.iter().zip(later);
    let breaks = pairs.position(|(a, b)| a > b || !permitted.contains(b));
    breaks.map(|at| at + 1)
}
