//! Makers of random networks: trees, sparse and dense ones, blocks joined by
//! cut nodes, and forms that the labelling rule is most easily wrong on.

use super::cabling::{circulant, Cabling};
use super::random::Random;
use crate::network::{MOST_AT_NODE, MOST_LINKS};

/// A growing set of links that keeps to the limits.
struct Growing {
    nodes: usize,
    linked: Vec<Vec<bool>>,
    degrees: Vec<usize>,
    count: usize,
}

impl Growing {
    fn new(nodes: usize) -> Growing {
        Growing {
            nodes,
            linked: vec![vec![false; nodes]; nodes],
            degrees: vec![0; nodes],
            count: 0,
        }
    }

    fn add(&mut self, a: usize, b: usize) -> bool {
        let full = |v: usize| self.degrees[v] >= MOST_AT_NODE;
        if a == b || self.linked[a][b] || full(a) || full(b) || self.count >= MOST_LINKS {
            return false;
        }
        self.linked[a][b] = true;
        self.linked[b][a] = true;
        self.degrees[a] += 1;
        self.degrees[b] += 1;
        self.count += 1;
        true
    }

    fn cabling(&self) -> Cabling {
        let from = |a: usize| (0..self.nodes).map(move |b| (a, b));
        let all = (0..self.nodes).flat_map(from);
        Cabling::new(self.nodes, all.filter(|&(a, b)| self.linked[a][b]))
    }
}

/// Hangs each node from 1 on to an earlier one that has room.
fn grow_tree(growing: &mut Growing, random: &mut Random) {
    for v in 1..growing.nodes {
        while !growing.add(v, random.below(v)) {}
    }
}

pub fn random_tree(nodes: usize, random: &mut Random) -> Cabling {
    let mut growing = Growing::new(nodes);
    grow_tree(&mut growing, random);
    growing.cabling().shuffled(random)
}

/// A connected network with about `links` links, as the limits allow.
pub fn random_connected(nodes: usize, links: usize, random: &mut Random) -> Cabling {
    let mut growing = Growing::new(nodes);
    grow_tree(&mut growing, random);
    for _ in 0..20 * links {
        if growing.count >= links {
            break;
        }
        growing.add(random.below(nodes), random.below(nodes));
    }
    growing.cabling().shuffled(random)
}

/// Blocks (complete, rings or thinned ones) that share cut nodes or hang on
/// single links.
pub fn random_blocks(nodes: usize, random: &mut Random) -> Cabling {
    let mut growing = Growing::new(nodes);
    let mut used = 1;
    while used < nodes {
        let size = random.between(1, 6).min(nodes - used);
        let mut block: Vec<usize> = (used..used + size).collect();
        let hang = random_with_room(&growing, used, random);
        if random.one_in(3) {
            growing.add(hang, used);
        } else {
            block.push(hang);
        }
        link_block(&mut growing, &block, random);
        used += size;
    }
    growing.cabling().shuffled(random)
}

/// A node below `used` that still takes a whole block.
fn random_with_room(growing: &Growing, used: usize, random: &mut Random) -> usize {
    loop {
        let v = random.below(used);
        if growing.degrees[v] + 6 <= MOST_AT_NODE {
            return v;
        }
    }
}

/// A path through the block keeps it connected; the rest as drawn.
fn link_block(growing: &mut Growing, block: &[usize], random: &mut Random) {
    for two in block.windows(2) {
        growing.add(two[0], two[1]);
    }
    let form = random.below(3);
    for (i, &a) in block.iter().enumerate() {
        for &b in &block[..i] {
            let around = i + 1 == block.len() && b == block[0];
            if form == 0 || (form == 1 && around) || (form == 2 && random.one_in(2)) {
                growing.add(a, b);
            }
        }
    }
}

/// As many links as the limits allow, 16 at each node; 17 nodes or more.
pub fn random_regular(nodes: usize, random: &mut Random) -> Cabling {
    let start = circulant(nodes, &[1, 2, 3, 4, 5, 6, 7, 8]);
    let mut links = start.pairs.clone();
    for _ in 0..4 * links.len() {
        switch_two(&mut links, random);
    }
    let switched = Cabling::new(nodes, links);
    let kept = if switched.accepted() { switched } else { start };
    kept.shuffled(random)
}

/// Changes a-b, c-d into a-d, c-b where that makes no loop and no double.
fn switch_two(links: &mut [(usize, usize)], random: &mut Random) {
    let (i, j) = (random.below(links.len()), random.below(links.len()));
    let ((a, b), (c, d)) = (links[i], links[j]);
    let linked = |x: usize, y: usize| links.contains(&(x, y)) || links.contains(&(y, x));
    if a == d || c == b || linked(a, d) || linked(c, b) {
        return;
    }
    links[i] = (a, d);
    links[j] = (c, b);
}

/// All links among these nodes but, now and then, a few.
fn link_thickly(growing: &mut Growing, block: &[usize], random: &mut Random) {
    let thinned = random.one_in(2);
    for (i, &a) in block.iter().enumerate() {
        for &b in &block[..i] {
            let wanted = a == b + 1 || !thinned || !random.one_in(6);
            if wanted {
                growing.add(a, b);
            }
        }
    }
}

/// Thick blocks joined by nodes of few links, which are cut nodes although
/// their degree is low. At most `most` nodes, at least eleven.
pub fn random_joints(most: usize, random: &mut Random) -> Cabling {
    let mut blocks: Vec<Vec<usize>> = Vec::new();
    let mut joints = Vec::new();
    let mut used = 0;
    loop {
        let size = random.between(4, 7);
        let first = blocks.is_empty();
        if used + size + usize::from(!first) > most {
            break;
        }
        if !first {
            joints.push((used, blocks.len(), random.below(blocks.len())));
            used += 1;
        }
        blocks.push((used..used + size).collect());
        used += size;
    }
    let mut growing = Growing::new(used);
    for block in &blocks {
        link_thickly(&mut growing, block, random);
    }
    for (joint, one, other) in joints {
        for block in [&blocks[one], &blocks[other]] {
            hang_joint(&mut growing, joint, block, random);
        }
    }
    growing.cabling().shuffled(random)
}

/// One to three links from a joint to nodes of a block.
fn hang_joint(growing: &mut Growing, joint: usize, block: &[usize], random: &mut Random) {
    for _ in 0..random.between(1, 3) {
        let end = random.pick(block);
        growing.add(joint, end);
    }
}

/// As the worked network of 26 nodes: hubs linked to all middle nodes, each
/// of which has a thick block behind it. The hubs have few links, but their
/// neighbours too few for the rule's bound.
pub fn random_hall(random: &mut Random) -> Cabling {
    let hubs = random.between(2, 3);
    let middles = random.between(hubs + 2, 5);
    let most = (64 - hubs - middles) / middles;
    let size = random.between(middles + 1, most.min(9));
    let first = hubs + middles;
    let mut growing = Growing::new(first + middles * size);
    for middle in hubs..first {
        for hub in 0..hubs {
            growing.add(hub, middle);
        }
        let start = first + (middle - hubs) * size;
        let block: Vec<usize> = (start..start + size).collect();
        link_thickly(&mut growing, &block, random);
        growing.add(middle, random.pick(&block));
    }
    growing.cabling().shuffled(random)
}
