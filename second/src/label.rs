//! The labelling rule: cut nodes of the remaining graph by depth-first
//! search with low numbers, the choice of each stage, and the count W.

use crate::network::{two_of, Network};

/// The label of each node, 1 to N.
pub fn labels(network: &Network) -> Vec<usize> {
    let nodes = network.nodes();
    let mut remains = vec![true; nodes];
    let mut labels = vec![0; nodes];
    for label in 1..=nodes {
        let node = choose(&network.near, &remains);
        labels[node] = label;
        remains[node] = false;
    }
    labels
}

/// The candidate of least degree, the lowest number among equals.
fn choose(near: &[Vec<usize>], remains: &[bool]) -> usize {
    let cut = cut_nodes(near, remains);
    let degrees = degrees(near, remains);
    (0..near.len())
        .filter(|&v| remains[v] && !cut[v])
        .filter(|&v| within_bound(near, remains, &degrees, v))
        .min_by_key(|&v| (degrees[v], v))
        .expect("a candidate always exists")
}

/// The number of remaining neighbours of each node.
fn degrees(near: &[Vec<usize>], remains: &[bool]) -> Vec<usize> {
    let count = |list: &Vec<usize>| list.iter().filter(|&&w| remains[w]).count();
    near.iter().map(count).collect()
}

/// d(d-1) is at most the sum of (degree - 1) over the remaining neighbours.
fn within_bound(near: &[Vec<usize>], remains: &[bool], degrees: &[usize], v: usize) -> bool {
    let others = near[v].iter().filter(|&&w| remains[w]);
    let sum: usize = others.map(|&w| degrees[w] - 1).sum();
    2 * two_of(degrees[v]) <= sum
}

/// For each node, whether it is a cut node of the remaining graph.
pub fn cut_nodes(near: &[Vec<usize>], remains: &[bool]) -> Vec<bool> {
    let nodes = near.len();
    let mut search = Search {
        near,
        remains,
        count: 0,
        order: vec![0; nodes],
        low: vec![0; nodes],
        cut: vec![false; nodes],
    };
    if let Some(root) = remains.iter().position(|&r| r) {
        search.visit(root, None);
    }
    search.cut
}

/// A depth-first search; order 0 means not yet visited.
struct Search<'a> {
    near: &'a [Vec<usize>],
    remains: &'a [bool],
    count: usize,
    order: Vec<usize>,
    low: Vec<usize>,
    cut: Vec<bool>,
}

impl Search<'_> {
    fn visit(&mut self, node: usize, parent: Option<usize>) {
        self.count += 1;
        self.order[node] = self.count;
        self.low[node] = self.count;
        let near = self.near;
        let mut children = 0;
        for &next in &near[node] {
            if !self.remains[next] || Some(next) == parent {
                continue;
            }
            if self.order[next] == 0 {
                children += 1;
                self.descend(node, next, parent.is_none());
            } else {
                self.low[node] = self.low[node].min(self.order[next]);
            }
        }
        if parent.is_none() && children > 1 {
            self.cut[node] = true;
        }
    }

    fn descend(&mut self, node: usize, child: usize, is_root: bool) {
        self.visit(child, Some(node));
        self.low[node] = self.low[node].min(self.low[child]);
        if !is_root && self.low[child] >= self.order[node] {
            self.cut[node] = true;
        }
    }
}

/// W, the number of prohibited turns: both others have higher labels.
pub fn prohibited(network: &Network, labels: &[usize]) -> usize {
    let higher = |v: usize| {
        let list = network.near[v].iter();
        list.filter(|&&w| labels[w] > labels[v]).count()
    };
    (0..network.nodes()).map(|v| two_of(higher(v))).sum()
}
