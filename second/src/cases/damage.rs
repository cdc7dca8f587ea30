//! Damaged images: single bytes changed, cut short, made longer, and
//! contents whose kinds, offsets, lengths or bodies do not fit.

use super::cabling::{complete, path, ring, star, Cabling};
use super::pack::{drain_input, list, read_call};
use super::{Case, Set};
use crate::image::{bodies, lay_out, Allowed};

pub fn cases(set: Set) -> Vec<Case> {
    let mut cases = Vec::new();
    for image in bases(set) {
        cases.extend(changed_bytes(&image, set));
        cases.extend(cut_short(&image));
        cases.extend(made_longer(&image));
    }
    cases.extend(drain_cut_short());
    cases.extend(through_sheet());
    for cabling in [path(2), ring(4)] {
        cases.extend(on_both("contents", contents(&cabling)));
    }
    cases
}

fn bases(set: Set) -> Vec<Vec<u8>> {
    let mut cablings = vec![path(2), ring(4)];
    if set == Set::Large {
        cablings.extend([complete(3), path(3), star(3), complete(4)]);
    }
    let both = |cabling: &Cabling| [cabling.links_image(), cabling.full_image()];
    cablings.iter().flat_map(both).collect()
}

/// An image goes to show and, by turns, to build or read.
fn on_both(family: &'static str, images: Vec<Vec<u8>>) -> Vec<Case> {
    let mut cases = Vec::new();
    for (i, image) in images.into_iter().enumerate() {
        if i % 2 == 0 {
            cases.push(Case::new(family, "calls", read_call(&image, 20)));
        } else {
            cases.push(Case::new(family, "build", image.clone()));
        }
        cases.push(Case::new(family, "show", image));
    }
    cases
}

/// The ring's links image, damaged, through sheet.
fn through_sheet() -> Vec<Case> {
    let image = ring(4).links_image();
    let mut cases = changed_bytes(&image, Set::Small);
    cases.extend(cut_short(&image));
    cases.extend(made_longer(&image));
    cases.retain(|case| case.program == "show");
    for case in &mut cases {
        case.program = "sheet";
    }
    cases
}

/// Each byte in turn gets other values.
fn changed_bytes(image: &[u8], set: Set) -> Vec<Case> {
    let changes: &[fn(u8) -> u8] = match set {
        Set::Small => &[|b| b.wrapping_add(1), |b| !b],
        Set::Large => &[
            |b| b.wrapping_add(1),
            |b| b.wrapping_sub(1),
            |b| b ^ 0x80,
            |b| b ^ 2,
            |b| b.wrapping_add(4),
            |b| !b,
            |_| 0,
            |_| 255,
        ],
    };
    let mut images = Vec::new();
    for place in 0..image.len() {
        for change in changes {
            let mut changed = image.to_vec();
            changed[place] = change(image[place]);
            images.push(changed);
        }
    }
    images.retain(|changed| changed != image);
    on_both("changed", images)
}

fn cut_short(image: &[u8]) -> Vec<Case> {
    let prefix = |length: usize| image[..length].to_vec();
    on_both("cut", (0..image.len()).map(prefix).collect())
}

fn made_longer(image: &[u8]) -> Vec<Case> {
    let tails: [&[u8]; 6] = [&[0], &[1], &[255], &[0, 0], &[0, 1, 2, 3, 4, 5], &[9; 300]];
    on_both("longer", tails.map(|t| [image, t].concat()).to_vec())
}

/// Every prefix of a drain input, for drain itself.
fn drain_cut_short() -> Vec<Case> {
    let image = ring(4).links_image();
    let input = drain_input(&image, 5, &list(&[(0, 2), (1, 3), (2, 0)]));
    (0..=input.len())
        .map(|length| Case::new("cut", "drain", input[..length].to_vec()))
        .collect()
}

/// The bodies of a full image, to be laid out in other ways.
fn full_bodies(cabling: &Cabling) -> [Vec<u8>; 4] {
    let image = cabling.full_image();
    let parts = bodies(&image, Allowed::Either).expect("a full image");
    let [two, three, four] = parts.tables.expect("a full image");
    [parts.links, two, three, four].map(|body| body.to_vec())
}

fn contents(cabling: &Cabling) -> Vec<Vec<u8>> {
    let bodies = full_bodies(cabling);
    let mut images = other_kinds(&bodies);
    images.extend(other_orders(&bodies));
    images.extend(other_bodies(&bodies));
    images.extend(short_first_kinds(&bodies));
    for image in [cabling.links_image(), cabling.full_image()] {
        images.extend(other_heads(&image));
        images.extend(other_entries(&image));
        images.extend(with_gaps(&image));
        images.extend(moved_borders(&image));
    }
    images
}

fn body_of(bodies: &[Vec<u8>; 4], kind: u8) -> &[u8] {
    match kind {
        1..=4 => &bodies[usize::from(kind) - 1],
        _ => &[7, 7],
    }
}

/// Lists of kinds laid out without a gap, each with its own body.
fn other_kinds(bodies: &[Vec<u8>; 4]) -> Vec<Vec<u8>> {
    let lists: [&[u8]; 24] = [
        &[],
        &[0],
        &[1],
        &[2],
        &[5],
        &[255],
        &[1, 0],
        &[1, 1],
        &[1, 2],
        &[2, 1],
        &[1, 2, 3],
        &[1, 2, 4],
        &[2, 3, 4],
        &[1, 2, 3, 4],
        &[1, 2, 4, 3],
        &[1, 3, 2, 4],
        &[2, 1, 3, 4],
        &[4, 3, 2, 1],
        &[1, 2, 3, 3],
        &[1, 1, 3, 4],
        &[1, 2, 3, 5],
        &[1, 2, 3, 4, 5],
        &[1, 2, 3, 4, 4],
        &[1, 1, 2, 3, 4],
    ];
    let image = |kinds: &[u8]| {
        let parts: Vec<_> = kinds.iter().map(|&k| (k, body_of(bodies, k))).collect();
        lay_out(&parts)
    };
    lists.map(image).to_vec()
}

/// The right kinds over bodies in another order.
fn other_orders(bodies: &[Vec<u8>; 4]) -> Vec<Vec<u8>> {
    let orders = [[1, 3, 2, 4], [1, 2, 4, 3], [2, 1, 3, 4], [4, 3, 2, 1]];
    let image = |order: [u8; 4]| {
        let part = |i: usize| (i as u8 + 1, body_of(bodies, order[i]));
        lay_out(&[part(0), part(1), part(2), part(3)])
    };
    orders.map(image).to_vec()
}

/// Another body for a body.
type Change = fn(&[u8]) -> Vec<u8>;

/// Kinds 1 to 4 one byte longer, one shorter, empty or doubled, no gap.
fn other_bodies(bodies: &[Vec<u8>; 4]) -> Vec<Vec<u8>> {
    let changes: [Change; 5] = [
        |body| [body, &[0]].concat(),
        |body| body[..body.len() - 1].to_vec(),
        |_| vec![],
        |body| [body, body].concat(),
        |body| [body, &[0; 256]].concat(),
    ];
    let mut images = Vec::new();
    for kind in 0..4 {
        for change in changes {
            let mut other = bodies.clone();
            other[kind] = change(&bodies[kind]);
            let part = |i: usize| (i as u8 + 1, other[i].as_slice());
            images.push(lay_out(&[part(0), part(1), part(2), part(3)]));
        }
    }
    images
}

/// Kind 1 of 0 to 5 bytes, alone and before the other kinds.
fn short_first_kinds(bodies: &[Vec<u8>; 4]) -> Vec<Vec<u8>> {
    let mut images = Vec::new();
    for length in 0..=bodies[0].len().min(5) {
        let short = &bodies[0][..length];
        images.push(lay_out(&[(1, short)]));
        let part = |i: usize| (i as u8 + 1, bodies[i].as_slice());
        images.push(lay_out(&[(1, short), part(1), part(2), part(3)]));
    }
    images
}

/// Other values of byte 0 and of the number of entries.
fn other_heads(image: &[u8]) -> Vec<Vec<u8>> {
    let head = |place: usize, value: u8| {
        let mut other = image.to_vec();
        other[place] = value;
        other
    };
    let firsts = [0, 2, 3, 255].map(|value| head(0, value));
    let counts = [0, 1, 2, 3, 4, 5, 6, 128, 255].map(|value| head(1, value));
    firsts.into_iter().chain(counts).collect()
}

/// Each field of each entry changed on its own, and entries swapped.
fn other_entries(image: &[u8]) -> Vec<Vec<u8>> {
    let count = usize::from(image[1]);
    let mut images = Vec::new();
    for start in (0..count).map(|i| 2 + 6 * i) {
        for second in [1, 255] {
            let mut other = image.to_vec();
            other[start + 1] = second;
            images.push(other);
        }
        for field in [start + 2, start + 4] {
            for change in [1, 2, 255, 256, 32_768, 65_280, 65_534, 65_535] {
                images.push(field_added(image, field, change));
            }
        }
    }
    for i in 1..count {
        let mut other = image.to_vec();
        let (front, back) = other.split_at_mut(2 + 6 * i);
        front[6 * i - 4..].swap_with_slice(&mut back[..6]);
        images.push(other);
    }
    images
}

/// Adds to a field of 16 bits, wrapping.
fn field_added(image: &[u8], field: usize, change: u16) -> Vec<u8> {
    let old = u16::from_le_bytes([image[field], image[field + 1]]);
    let new = old.wrapping_add(change).to_le_bytes();
    let mut other = image.to_vec();
    other[field..field + 2].copy_from_slice(&new);
    other
}

/// A byte put before each body, with the offsets after it set right.
fn with_gaps(image: &[u8]) -> Vec<Vec<u8>> {
    let count = usize::from(image[1]);
    let mut images = Vec::new();
    for gap in 0..count {
        let field = 4 + 6 * gap;
        let at = usize::from(u16::from_le_bytes([image[field], image[field + 1]]));
        let mut other = image.to_vec();
        for later in gap..count {
            other = field_added(&other, 4 + 6 * later, 1);
        }
        other.insert(at, 0);
        images.push(other);
    }
    images
}

/// The border between two bodies moved by some bytes, still without a gap.
fn moved_borders(image: &[u8]) -> Vec<Vec<u8>> {
    let count = usize::from(image[1]);
    let mut images = Vec::new();
    for border in 1..count {
        for by in [1u16, 2, 65_534, 65_535] {
            let entry = 2 + 6 * border;
            let longer = field_added(image, entry - 2, by);
            let moved = field_added(&longer, entry + 2, by);
            images.push(field_added(&moved, entry + 4, by.wrapping_neg()));
        }
    }
    images
}
