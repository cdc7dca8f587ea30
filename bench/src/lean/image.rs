//! An image's bodies, the checks of its cabling, and what the rules give.

use super::{labels::labels, rows, union};

/// The body of kind 1, and the bodies of kinds 2 to 4 as one piece.
pub fn bodies(image: &[u8]) -> Option<(&[u8], Option<&[u8]>)> {
    let count = match image.get(..2)? {
        [1, 1] => 1,
        [1, 4] => 4,
        _ => return None,
    };
    let contents = image.get(2..2 + 6 * count)?;
    let mut end = 2 + 6 * count;
    for (i, entry) in contents.chunks_exact(6).enumerate() {
        let offset = usize::from(u16::from_le_bytes([entry[2], entry[3]]));
        if usize::from(entry[0]) != i + 1 || entry[1] != 0 || offset != end {
            return None;
        }
        end += usize::from(u16::from_le_bytes([entry[4], entry[5]]));
    }
    let first = 2 + 6 * count + usize::from(u16::from_le_bytes([contents[4], contents[5]]));
    let links = image.get(2 + 6 * count..first)?;
    let tables = (count == 4).then(|| &image[first..]);
    (end == image.len() && end <= 65_535 && links.len() >= 2).then_some((links, tables))
}

/// The contents of a full image.
pub fn put_contents(out: &mut [u8], links: usize, nodes: usize) {
    out[..2].copy_from_slice(&[1, 4]);
    let mut offset = 26;
    for (i, length) in [links, nodes, nodes * nodes, nodes * nodes]
        .into_iter()
        .enumerate()
    {
        let entry = &mut out[2 + 6 * i..8 + 6 * i];
        entry[..2].copy_from_slice(&[i as u8 + 1, 0]);
        entry[2..4].copy_from_slice(&(offset as u16).to_le_bytes());
        entry[4..].copy_from_slice(&(length as u16).to_le_bytes());
        offset += length;
    }
}

/// An accepted cabling, and the bodies of kinds 2 to 4 one after the other.
pub struct Fabric {
    pub nodes: usize,
    pub tables: Vec<u8>,
}

impl Fabric {
    pub fn new(links: &[u8]) -> Option<Fabric> {
        let nodes = usize::from(links[0]);
        if !(2..=64).contains(&nodes) || links[1] != 0 {
            return None;
        }
        let near = neighbours(nodes, &links[2..])?;
        let mut tables = vec![0; nodes + 2 * nodes * nodes];
        labels(&near, nodes, &mut tables);
        rows::fill(&near, nodes, &mut tables);
        Some(Fabric { nodes, tables })
    }
}

/// The neighbours of each node, where pairs, degrees and reach are in order.
fn neighbours(nodes: usize, pairs: &[u8]) -> Option<[u64; 64]> {
    if !pairs.len().is_multiple_of(2) || pairs.len() > 1_024 {
        return None;
    }
    let mut near = [0u64; 64];
    let mut before = (0, 0);
    for pair in pairs.chunks_exact(2) {
        let (a, b) = (usize::from(pair[0]), usize::from(pair[1]));
        if a >= b || b >= nodes || (a, b) <= before {
            return None;
        }
        before = (a, b);
        near[a] |= 1 << b;
        near[b] |= 1 << a;
    }
    let crowded = near.iter().any(|row| row.count_ones() > 16);
    (!crowded && reached(&near, 1, !0) == all(nodes)).then_some(near)
}

pub fn all(nodes: usize) -> u64 {
    !0 >> (64 - nodes)
}

/// What is reached from `start` inside `within`.
pub fn reached(near: &[u64; 64], start: u64, within: u64) -> u64 {
    let mut seen = start;
    let mut front = start;
    while front != 0 {
        front = union(near, front) & within & !seen;
        seen |= front;
    }
    seen
}
