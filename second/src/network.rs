//! A cabling that passed its checks (refusals 2 to 7), as neighbour lists,
//! and the count of its turns.

use crate::refusal::{refusal, Refusal};
use std::collections::VecDeque;

pub const LEAST_NODES: usize = 2;
pub const MOST_NODES: usize = 64;
pub const MOST_LINKS: usize = 512;
pub const MOST_AT_NODE: usize = 16;

/// Links as pairs in image order, and the neighbours of each node.
#[derive(Clone, Debug, PartialEq, Eq)]
pub struct Network {
    pub pairs: Vec<(usize, usize)>,
    pub near: Vec<Vec<usize>>,
}

impl Network {
    /// From the body of kind 1, which has at least two bytes.
    pub fn from_links(body: &[u8]) -> Result<Network, Refusal> {
        let nodes = usize::from(body[0]);
        check_nodes(nodes)?;
        if body[1] != 0 {
            return Err(refusal(3, 0));
        }
        Network::from_pairs(nodes, &body[2..])
    }

    /// From a node count and the bytes of the pairs.
    pub fn from_pairs(nodes: usize, bytes: &[u8]) -> Result<Network, Refusal> {
        check_nodes(nodes)?;
        if !bytes.len().is_multiple_of(2) || bytes.len() > 2 * MOST_LINKS {
            return Err(refusal(3, 0));
        }
        let pairs = pairs_of(bytes);
        check_pairs(nodes, &pairs)?;
        let near = neighbours(nodes, &pairs);
        check_degrees(&near)?;
        check_connected(&near)?;
        Ok(Network { pairs, near })
    }

    pub fn nodes(&self) -> usize {
        self.near.len()
    }

    pub fn links(&self) -> usize {
        self.pairs.len()
    }

    /// The pairs as bytes, in image order.
    pub fn pair_bytes(&self) -> Vec<u8> {
        let both = |&(a, b): &(usize, usize)| [a as u8, b as u8];
        self.pairs.iter().flat_map(both).collect()
    }

    /// The body of kind 1.
    pub fn links_body(&self) -> Vec<u8> {
        let mut body = vec![self.nodes() as u8, 0];
        body.extend(self.pair_bytes());
        body
    }

    /// T, the number of turns.
    pub fn turns(&self) -> usize {
        let choices = |list: &Vec<usize>| two_of(list.len());
        self.near.iter().map(choices).sum()
    }
}

/// The number of ways to take two out of d.
pub fn two_of(d: usize) -> usize {
    d * d.saturating_sub(1) / 2
}

/// Bytes taken two by two as pairs of numbers.
pub fn pairs_of(bytes: &[u8]) -> Vec<(usize, usize)> {
    let pair = |two: &[u8]| (usize::from(two[0]), usize::from(two[1]));
    bytes.chunks_exact(2).map(pair).collect()
}

fn check_nodes(nodes: usize) -> Result<(), Refusal> {
    match nodes {
        LEAST_NODES..=MOST_NODES => Ok(()),
        _ => Err(refusal(2, 0)),
    }
}

/// The first bad pair decides; at one pair 4 stands before 5.
fn check_pairs(nodes: usize, pairs: &[(usize, usize)]) -> Result<(), Refusal> {
    let mut before = None;
    for (place, &(a, b)) in pairs.iter().enumerate() {
        if a >= b || b >= nodes {
            return Err(refusal(4, place));
        }
        if before >= Some((a, b)) {
            return Err(refusal(5, place));
        }
        before = Some((a, b));
    }
    Ok(())
}

fn neighbours(nodes: usize, pairs: &[(usize, usize)]) -> Vec<Vec<usize>> {
    let mut near = vec![Vec::new(); nodes];
    for &(a, b) in pairs {
        near[a].push(b);
        near[b].push(a);
    }
    near
}

fn check_degrees(near: &[Vec<usize>]) -> Result<(), Refusal> {
    match near.iter().position(|list| list.len() > MOST_AT_NODE) {
        Some(node) => Err(refusal(6, node)),
        None => Ok(()),
    }
}

fn check_connected(near: &[Vec<usize>]) -> Result<(), Refusal> {
    match reached_from_zero(near).iter().position(|seen| !seen) {
        Some(node) => Err(refusal(7, node)),
        None => Ok(()),
    }
}

fn reached_from_zero(near: &[Vec<usize>]) -> Vec<bool> {
    let mut seen = vec![false; near.len()];
    seen[0] = true;
    let mut queue = VecDeque::from([0]);
    while let Some(node) = queue.pop_front() {
        for &next in &near[node] {
            if !seen[next] {
                seen[next] = true;
                queue.push_back(next);
            }
        }
    }
    seen
}
