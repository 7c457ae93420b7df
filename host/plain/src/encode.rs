//! The encoder: a sound diagram's clauses as signed words, in the fixed order
//! of options, ends and root, then nodes.

use crate::diagram::{Diagram, Shape};
use crate::{refuse, Refusal, Tally};

/// Words of the three single-literal clauses: T, not F, root.
const ENDS: usize = 6;
/// Words of one edge's four clauses, T2 to T5.
const EDGE: usize = 13;

/// Checks 1 to 7, then writes the clauses at the front of `out`.
pub fn encode(d: &Diagram, out: &mut [i32]) -> Result<Tally, Refusal> {
    let shape = Shape::of(d)?;
    let tally = tally(d, &shape);
    let Some(room) = out.get_mut(..tally.words) else {
        return refuse(7, tally.words);
    };
    let mut rest = room;
    let mut value = 1;
    for &size in d.domains {
        let words = size as usize + 1 + 3 * pairs(size);
        let (option, tail) = rest.split_at_mut(words);
        write_option(option, value, size as usize);
        value += size as i32;
        rest = tail;
    }
    let (ends, nodes) = rest.split_at_mut(ENDS);
    let reference = shape.values as i32 + 1;
    ends.copy_from_slice(&[reference + 1, 0, -reference, 0, reference + 2, 0]);
    write_nodes(nodes, d, &shape);
    Ok(tally)
}

/// Pairs of different values in a domain.
fn pairs(size: u32) -> usize {
    (size * (size - 1) / 2) as usize
}

/// The counts of the whole result.
fn tally(d: &Diagram, shape: &Shape) -> Tally {
    let (nodes, edges) = (d.layers.len(), shape.edge_count);
    let mut words = 6 + 2 * nodes + 14 * edges;
    let mut clauses = 3 + nodes + 4 * edges;
    for &size in d.domains {
        words += size as usize + 1 + 3 * pairs(size);
        clauses += 1 + pairs(size);
    }
    let variables = shape.values + (nodes + 2 + edges) as u32;
    Tally {
        words,
        clauses: clauses as u32,
        variables,
    }
}

/// One option's clauses: at least one value, then no two.
fn write_option(out: &mut [i32], first: i32, size: usize) {
    let (any, mut rest) = out.split_at_mut(size + 1);
    count_up(&mut any[..size], first);
    any[size] = 0;
    for a in 0..size as i32 {
        let (row, tail) = rest.split_at_mut(3 * (size - 1 - a as usize));
        let mut b = first + a;
        for clause in row.chunks_exact_mut(3) {
            b += 1;
            clause.copy_from_slice(&[-first - a, -b, 0]);
        }
        rest = tail;
    }
}

/// Fills a stretch with `first` and the numbers after it.
fn count_up(out: &mut [i32], first: i32) {
    for (word, number) in out.iter_mut().zip(first..) {
        *word = number;
    }
}

/// The clauses of all nodes, layer by layer.
fn write_nodes(out: &mut [i32], d: &Diagram, shape: &Shape) {
    let mut rest = out;
    let reference = shape.values as i32 + 1;
    let mut edge = reference + d.layers.len() as i32 + 2;
    let mut value = 1;
    for (i, &size) in d.domains.iter().enumerate() {
        let size = size as usize;
        let edges = shape.edges[i] as usize..shape.edges[i + 1] as usize;
        let nodes = reference + 2 + shape.nodes[i] as i32..;
        for (targets, node) in d.targets[edges].chunks_exact(size).zip(nodes) {
            let (own, tail) = rest.split_at_mut(size + 2 + EDGE * size);
            let (any, each) = own.split_at_mut(size + 2);
            any[0] = -node;
            count_up(&mut any[1..=size], edge);
            any[size + 1] = 0;
            write_edges(each, targets, [node, edge, value, reference]);
            edge += size as i32;
            rest = tail;
        }
        value += size as i32;
    }
}

/// T2 to T5 of one node's edges. `numbers` holds the variables of the node,
/// of its first edge, of its option's first value and of reference 0.
fn write_edges(out: &mut [i32], targets: &[u32], numbers: [i32; 4]) {
    let [node, mut edge, mut value, reference] = numbers;
    for (words, &target) in out.chunks_exact_mut(EDGE).zip(targets) {
        let goal = reference + target as i32;
        let (two, last) = words.split_at_mut(EDGE - 1);
        let pairs = [
            pair(-edge, node),
            pair(0, -edge),
            pair(goal, 0),
            pair(-edge, value),
            pair(0, -goal),
            pair(-value, edge),
        ];
        for (words, pair) in two.chunks_exact_mut(2).zip(pairs) {
            words[0] = pair as i32;
            words[1] = (pair >> 32) as i32;
        }
        last[0] = 0;
        edge += 1;
        value += 1;
    }
}

/// Two words in one, so that they are stored at once.
fn pair(first: i32, second: i32) -> u64 {
    u64::from(first as u32) | u64::from(second as u32) << 32
}
