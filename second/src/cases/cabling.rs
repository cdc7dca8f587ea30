//! Cablings as the cases use them: regular shapes and the worked networks.

use super::random::Random;
use crate::calls::write;
use crate::image::lay_out;

/// N and pairs. Makers give pairs in image order; `raw` keeps any order.
#[derive(Clone, Debug, PartialEq, Eq)]
pub struct Cabling {
    pub nodes: usize,
    pub pairs: Vec<(usize, usize)>,
}

impl Cabling {
    /// Puts each pair the right way round, in order, once.
    pub fn new(nodes: usize, links: impl IntoIterator<Item = (usize, usize)>) -> Cabling {
        let upright = |(a, b): (usize, usize)| (a.min(b), a.max(b));
        let mut pairs: Vec<_> = links.into_iter().map(upright).collect();
        pairs.sort_unstable();
        pairs.dedup();
        Cabling { nodes, pairs }
    }

    /// Keeps the pairs as they are given.
    pub fn raw(nodes: usize, pairs: &[(usize, usize)]) -> Cabling {
        Cabling {
            nodes,
            pairs: pairs.to_vec(),
        }
    }

    pub fn pair_bytes(&self) -> Vec<u8> {
        let both = |&(a, b): &(usize, usize)| [a as u8, b as u8];
        self.pairs.iter().flat_map(both).collect()
    }

    pub fn links_body(&self) -> Vec<u8> {
        let mut body = vec![self.nodes as u8, 0];
        body.extend(self.pair_bytes());
        body
    }

    /// The links image, laid out without any check.
    pub fn links_image(&self) -> Vec<u8> {
        lay_out(&[(1, &self.links_body())])
    }

    /// The sheet, put together without any check.
    pub fn sheet(&self) -> Vec<u8> {
        let line = |(a, b): &(usize, usize)| format!("{a} {b}\n");
        let links: String = self.pairs.iter().map(line).collect();
        format!("{}\n{links}", self.nodes).into_bytes()
    }

    /// The full image; the cabling must be an accepted one.
    pub fn full_image(&self) -> Vec<u8> {
        let mut room = vec![0; 65_535];
        let length = write(self.nodes, &self.pair_bytes(), true, &mut room);
        room.truncate(length.expect("an accepted cabling"));
        room
    }

    pub fn accepted(&self) -> bool {
        let mut room = vec![0; 65_535];
        write(self.nodes, &self.pair_bytes(), false, &mut room).is_ok()
    }

    pub fn degrees(&self) -> Vec<usize> {
        let mut degrees = vec![0; self.nodes];
        for &(a, b) in &self.pairs {
            degrees[a] += 1;
            degrees[b] += 1;
        }
        degrees
    }

    /// The same network under other node numbers.
    pub fn renumbered(&self, numbers: &[usize]) -> Cabling {
        let pairs = self.pairs.iter().map(|&(a, b)| (numbers[a], numbers[b]));
        Cabling::new(self.nodes, pairs)
    }

    /// Node v becomes N - 1 - v.
    pub fn reversed(&self) -> Cabling {
        let numbers: Vec<usize> = (0..self.nodes).rev().collect();
        self.renumbered(&numbers)
    }

    pub fn shuffled(&self, random: &mut Random) -> Cabling {
        let mut numbers: Vec<usize> = (0..self.nodes).collect();
        random.shuffle(&mut numbers);
        self.renumbered(&numbers)
    }
}

pub fn path(nodes: usize) -> Cabling {
    Cabling::new(nodes, (1..nodes).map(|v| (v - 1, v)))
}

pub fn ring(nodes: usize) -> Cabling {
    circulant(nodes, &[1])
}

/// Each node linked to those the given steps further, going round.
pub fn circulant(nodes: usize, steps: &[usize]) -> Cabling {
    let from = |v: usize| steps.iter().map(move |s| (v, (v + s) % nodes));
    Cabling::new(nodes, (0..nodes).flat_map(from))
}

/// Hub 0 with leaves.
pub fn star(leaves: usize) -> Cabling {
    Cabling::new(leaves + 1, (1..=leaves).map(|leaf| (0, leaf)))
}

/// Hub 0 with a ring around it.
pub fn wheel(rim: usize) -> Cabling {
    let spokes = (1..=rim).map(|v| (0, v));
    let around = (0..rim).map(|v| (1 + v, 1 + (v + 1) % rim));
    Cabling::new(rim + 1, spokes.chain(around))
}

pub fn complete(nodes: usize) -> Cabling {
    Cabling::new(nodes, complete_among(0, nodes))
}

/// All links among `count` nodes from `first` on.
fn complete_among(first: usize, count: usize) -> Vec<(usize, usize)> {
    let last = first + count;
    let from = |a: usize| (a + 1..last).map(move |b| (a, b));
    (first..last).flat_map(from).collect()
}

/// Two sides, each node of one linked to each of the other.
pub fn two_sides(left: usize, right: usize) -> Cabling {
    let from = |a: usize| (left..left + right).map(move |b| (a, b));
    Cabling::new(left + right, (0..left).flat_map(from))
}

pub fn grid(rows: usize, columns: usize) -> Cabling {
    let mut links = Vec::new();
    for v in 0..rows * columns {
        if v % columns + 1 < columns {
            links.push((v, v + 1));
        }
        if v / columns + 1 < rows {
            links.push((v, v + columns));
        }
    }
    Cabling::new(rows * columns, links)
}

/// A grid that closes round both ways; at least three rows and columns.
pub fn torus(rows: usize, columns: usize) -> Cabling {
    let node = |r: usize, c: usize| (r % rows) * columns + c % columns;
    let mut links = Vec::new();
    for r in 0..rows {
        for c in 0..columns {
            links.push((node(r, c), node(r, c + 1)));
            links.push((node(r, c), node(r + 1, c)));
        }
    }
    Cabling::new(rows * columns, links)
}

pub fn cube(dimensions: usize) -> Cabling {
    let nodes = 1 << dimensions;
    let from = |v: usize| (0..dimensions).map(move |d| (v, v ^ (1 << d)));
    Cabling::new(nodes, (0..nodes).flat_map(from))
}

/// Each node above 0 linked to its half.
pub fn halving_tree(nodes: usize) -> Cabling {
    Cabling::new(nodes, (1..nodes).map(|v| ((v - 1) / 2, v)))
}

/// Complete blocks of one size in a ring, each linked to the next by one link.
pub fn ring_of_blocks(blocks: usize, size: usize) -> Cabling {
    let mut links = Vec::new();
    for block in 0..blocks {
        links.extend(complete_among(block * size, size));
        let next = (block + 1) % blocks * size;
        links.push((block * size + size - 1, next));
    }
    Cabling::new(blocks * size, links)
}

/// A complete block with a path hanging from its last node.
pub fn block_and_tail(size: usize, tail: usize) -> Cabling {
    let mut links = complete_among(0, size);
    links.extend((size..size + tail).map(|v| (v - 1, v)));
    Cabling::new(size + tail, links)
}

/// Complete blocks in a row, neighbours sharing one node.
pub fn chain_of_blocks(blocks: usize, size: usize) -> Cabling {
    let block = |i: usize| complete_among(i * (size - 1), size);
    Cabling::new(blocks * (size - 1) + 1, (0..blocks).flat_map(block))
}

/// The worked network of 26 nodes.
pub fn hall() -> Cabling {
    let mut links = Vec::new();
    for outer in 0..4 {
        links.extend([(0, 2 + outer), (1, 2 + outer)]);
        links.push((2 + outer, 6 + 5 * outer));
        links.extend(complete_among(6 + 5 * outer, 5));
    }
    Cabling::new(26, links)
}

/// 64 nodes with 16 links each.
pub fn largest() -> Cabling {
    circulant(64, &[1, 2, 3, 4, 5, 6, 7, 8])
}
