//! Next-hop tables by searches forward over (node, class), the row and hop
//! calls over lent tables and labels, and the route that follows the tables.

use crate::network::{Network, LEAST_NODES, MOST_NODES};
use crate::refusal::{refusal, Refusal};
use std::collections::VecDeque;

pub const FREE: usize = 0;
pub const FALLING: usize = 1;
/// Stored in a falling row where no path of falls exists.
pub const NO_PATH: u8 = 255;

/// The free and the falling table, N × N bytes each.
#[derive(Clone, Debug, PartialEq, Eq)]
pub struct Tables {
    pub free: Vec<u8>,
    pub falling: Vec<u8>,
}

/// Both tables of a labelled network.
pub fn tables(network: &Network, labels: &[usize]) -> Tables {
    let table = |class| {
        let row = |source| search_row(network, labels, source, class);
        (0..network.nodes()).flat_map(row).collect()
    };
    Tables {
        free: table(FREE),
        falling: table(FALLING),
    }
}

/// How a state is reached: hops, and the lowest first node of such a path.
#[derive(Clone, Copy, Debug, PartialEq, Eq, PartialOrd, Ord)]
struct Reach {
    hops: usize,
    first: usize,
}

type Reached = Vec<[Option<Reach>; 2]>;

/// One row: the first node on a shortest path to each destination.
fn search_row(network: &Network, labels: &[usize], source: usize, class: usize) -> Vec<u8> {
    let reached = search(network, labels, source, class);
    let best = |t: usize| reached[t].iter().flatten().min();
    let byte = |t: usize| match best(t) {
        _ if t == source => source as u8,
        Some(reach) => reach.first as u8,
        None => NO_PATH,
    };
    (0..network.nodes()).map(byte).collect()
}

/// Breadth-first from (source, class). A state's first node is final when it
/// leaves the queue, since all states with fewer hops left it before.
fn search(network: &Network, labels: &[usize], source: usize, class: usize) -> Reached {
    let mut reached: Reached = vec![[None; 2]; network.nodes()];
    let start = Reach {
        hops: 0,
        first: source,
    };
    reached[source][class] = Some(start);
    let mut queue = VecDeque::from([(source, class)]);
    while let Some((node, class)) = queue.pop_front() {
        let here = reached[node][class].expect("queued states are reached");
        for &next in &network.near[node] {
            let Some(after) = class_after(labels, node, next, class) else {
                continue;
            };
            let first = if here.hops == 0 { next } else { here.first };
            let hops = here.hops + 1;
            let found = Reach { hops, first };
            match &mut reached[next][after] {
                Some(old) => *old = (*old).min(found),
                none => {
                    *none = Some(found);
                    queue.push_back((next, after));
                }
            }
        }
    }
    reached
}

/// The class after a hop, or none if the hop would rise after a fall.
fn class_after(labels: &[usize], from: usize, to: usize, class: usize) -> Option<usize> {
    match (labels[to] > labels[from], class) {
        (true, FALLING) => None,
        (true, _) => Some(FREE),
        (false, _) => Some(FALLING),
    }
}

/// The row of a node in one of the two lent tables; empty means refusal 10.
pub fn row<'a>(
    free: &'a [u8],
    falling: &'a [u8],
    nodes: usize,
    node: usize,
    class: usize,
) -> &'a [u8] {
    let sizes = (LEAST_NODES..=MOST_NODES).contains(&nodes)
        && free.len() == nodes * nodes
        && falling.len() == nodes * nodes;
    if !sizes || node >= nodes {
        return &[];
    }
    let part = node * nodes..(node + 1) * nodes;
    match class {
        FREE => &free[part],
        FALLING => &falling[part],
        _ => &[],
    }
}

/// Labels and both tables of N nodes, lent to hop; from an image or not.
#[derive(Clone, Copy, Debug)]
pub struct Lent<'a> {
    pub labels: &'a [u8],
    pub free: &'a [u8],
    pub falling: &'a [u8],
    pub nodes: usize,
}

/// Where a message goes: the next node, and the class to use there.
#[derive(Clone, Copy, Debug, PartialEq, Eq)]
pub struct Next {
    pub node: usize,
    pub class: usize,
}

/// The next node and the class to use there, or none where 255 is stored.
pub fn hop(
    lent: &Lent,
    node: usize,
    class: usize,
    destination: usize,
) -> Result<Option<Next>, Refusal> {
    let row = row(lent.free, lent.falling, lent.nodes, node, class);
    if lent.labels.len() != lent.nodes || destination >= row.len() {
        return Err(refusal(10, 0));
    }
    match row[destination] {
        NO_PATH => Ok(None),
        byte if usize::from(byte) >= lent.nodes => Err(refusal(10, 0)),
        byte => {
            let next = usize::from(byte);
            let falls = node != destination && lent.labels[next] < lent.labels[node];
            let class = if falls { FALLING } else { class };
            Ok(Some(Next { node: next, class }))
        }
    }
}

/// The nodes a message passes, source first, by the entries of the tables and
/// the labels themselves, without hop.
pub fn follow(tables: &Tables, labels: &[usize], source: usize, destination: usize) -> Vec<usize> {
    let nodes = labels.len();
    let mut class = FREE;
    let mut route = vec![source];
    let mut at = source;
    while at != destination {
        let row = row(&tables.free, &tables.falling, nodes, at, class);
        let next = usize::from(row[destination]);
        if labels[next] < labels[at] {
            class = FALLING;
        }
        route.push(next);
        at = next;
    }
    route
}
