//! The labelling rule, with degrees kept as nodes are deleted. A node's cut is
//! tested last, and only where it would be chosen.

use super::image::{all, reached};
use super::members;

/// Writes the label of each node at the front of `out`.
pub fn labels(near: &[u64; 64], nodes: usize, out: &mut [u8]) {
    let mut remains = all(nodes);
    let mut degrees = near.map(|row| row.count_ones() as usize);
    for label in 1..=nodes {
        let node = choose(near, remains, &degrees);
        out[node] = label as u8;
        remains &= !(1 << node);
        for next in members(near[node] & remains) {
            degrees[next] -= 1;
        }
    }
}

fn choose(near: &[u64; 64], remains: u64, degrees: &[usize; 64]) -> usize {
    let (mut best, mut least) = (64, usize::MAX);
    for v in members(remains) {
        let d = degrees[v];
        if d < least && bounded(near[v] & remains, d, degrees) && !cuts(near, remains, v) {
            (best, least) = (v, d);
        }
    }
    best
}

fn bounded(others: u64, d: usize, degrees: &[usize; 64]) -> bool {
    let sum: usize = members(others).map(|u| degrees[u] - 1).sum();
    d * d.saturating_sub(1) <= sum
}

/// Whether what is left without v is not reached from its lowest node.
fn cuts(near: &[u64; 64], remains: u64, v: usize) -> bool {
    let left = remains & !(1 << v);
    left != 0 && reached(near, left & left.wrapping_neg(), left) != left
}
