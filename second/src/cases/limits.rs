//! Limits reached and passed by one, two faults at once (which refusal comes
//! first), and message lists of all lengths.

use super::cabling::{complete, largest, path, ring, star, two_sides, Cabling};
use super::pack::*;
use super::Case;
use crate::image::lay_out;

pub fn cases() -> Vec<Case> {
    let mut cases = Vec::new();
    for cabling in limit_cablings() {
        cases.extend(any_cabling("limits", &cabling));
    }
    for image in long_images() {
        cases.extend(any_image("limits", &image));
    }
    for image in long_images().iter().chain(&longer_by_65_536()) {
        cases.extend(calls_on(image));
    }
    cases.extend(lengths_beyond_16_bits());
    cases.extend(long_calls());
    cases.extend(long_inputs());
    cases.extend(rows());
    cases.extend(buffers());
    for image in images_with_two_faults() {
        cases.extend(any_image("order", &image));
        if image[1] == 1 {
            cases.push(Case::new("order", "sheet", image));
        }
    }
    cases.extend(calls_with_two_faults());
    cases.extend(message_lists());
    cases
}

/// The largest cabling and one pair more.
pub fn too_many_pairs() -> Cabling {
    let links = largest().pairs.into_iter().chain([(0, 9)]);
    Cabling::new(64, links)
}

/// To build, show and drain, and to the calls that take an image.
fn any_image(family: &'static str, image: &[u8]) -> Vec<Case> {
    let mut cases = vec![
        Case::new(family, "build", image.to_vec()),
        Case::new(family, "show", image.to_vec()),
    ];
    if image.len() < 65_000 {
        let drain = drain_input(image, 3, &[0, 1, 1, 0]);
        cases.push(Case::new(family, "drain", drain));
        cases.push(Case::new(family, "calls", route_call(image, 0, 1, 64)));
    }
    cases
}

/// As an image, to and from its sheet, and through write, links and full.
fn any_cabling(family: &'static str, cabling: &Cabling) -> Vec<Case> {
    let mut cases = any_image(family, &cabling.links_image());
    cases.push(Case::new(family, "sheet", cabling.links_image()));
    cases.push(Case::new(family, "cable", cabling.sheet()));
    for full in [0, 1] {
        let input = write_call(cabling.nodes, full, &cabling.pair_bytes(), 9_400);
        cases.push(Case::new(family, "calls", input));
    }
    cases
}

fn limit_cablings() -> Vec<Cabling> {
    let mut list = vec![largest(), too_many_pairs()];
    for nodes in [0, 1, 2, 3, 63, 64, 65, 66, 128, 254, 255] {
        list.push(Cabling::raw(nodes, &[]));
        list.push(path(nodes));
        list.push(Cabling::raw(nodes, &[(0, nodes)]));
    }
    list.extend([star(15), star(16), star(17), star(63)]);
    list.extend([complete(17), complete(18), two_sides(16, 17)]);
    list.extend([star(16).reversed(), star(17).reversed()]);
    list.extend([two_hubs(3, 40), two_hubs(40, 3), two_hubs(63, 0)]);
    list.extend(unconnected());
    list.extend(bad_pairs());
    list
}

/// A path with two hubs of 17 links or more.
fn two_hubs(one: usize, other: usize) -> Cabling {
    let spokes = |hub: usize| (20..37).filter(move |&v| v != hub).map(move |v| (hub, v));
    let links = path(64).pairs.into_iter();
    Cabling::new(64, links.chain(spokes(one)).chain(spokes(other)))
}

fn unconnected() -> Vec<Cabling> {
    vec![
        Cabling::raw(4, &[(0, 1), (2, 3)]),
        Cabling::raw(4, &[(0, 3), (1, 2)]),
        Cabling::raw(4, &[(1, 2), (2, 3)]),
        Cabling::raw(5, &[(0, 4), (1, 3), (2, 4)]),
        Cabling::raw(64, &path(63).pairs),
        Cabling::raw(64, &path(64).pairs[1..]),
    ]
}

fn bad_pairs() -> Vec<Cabling> {
    vec![
        Cabling::raw(4, &[(0, 0)]),
        Cabling::raw(4, &[(1, 0)]),
        Cabling::raw(4, &[(0, 4)]),
        Cabling::raw(4, &[(3, 4)]),
        Cabling::raw(4, &[(255, 255)]),
        Cabling::raw(4, &[(0, 255)]),
        Cabling::raw(4, &[(0, 1), (0, 1), (1, 2)]),
        Cabling::raw(4, &[(0, 2), (0, 1), (1, 3)]),
        Cabling::raw(4, &[(1, 2), (0, 3)]),
        Cabling::raw(4, &[(0, 1), (1, 2), (0, 3)]),
        Cabling::raw(4, &[(0, 1), (1, 2), (2, 2)]),
        Cabling::raw(4, &[(0, 1), (1, 2), (2, 3), (3, 2)]),
        Cabling::raw(4, &[(0, 1), (1, 2), (1, 2), (2, 4)]),
        Cabling::raw(4, &[(0, 1), (1, 2), (2, 4), (1, 2)]),
        Cabling::raw(4, &[(0, 2), (1, 0), (0, 2)]),
        Cabling::raw(4, &[(0, 2), (0, 1), (3, 3)]),
        Cabling::raw(4, &[(1, 2), (0, 4)]),
    ]
}

/// Images whose contents fit together at 65,534 to 65,537 bytes and beyond.
pub fn long_images() -> Vec<Vec<u8>> {
    let body = ring(4).links_body();
    let mut images = Vec::new();
    for total in [65_534, 65_535, 65_536, 65_537, 70_000] {
        let one = [body.as_slice(), &vec![0; total - 8 - body.len()]].concat();
        images.push(lay_out(&[(1, &one)]));
        let rest = total - 26 - body.len();
        let (half, last) = (vec![0; rest / 2], vec![0; rest - rest / 2]);
        images.push(lay_out(&[(1, &body), (2, &[]), (3, &half), (4, &last)]));
        let valid = ring(4).links_image();
        let mut padded = valid.clone();
        padded.resize(total, 0);
        images.push(padded);
    }
    images
}

/// Images that are in order up to their last 65,536 bytes.
fn longer_by_65_536() -> Vec<Vec<u8>> {
    let behind = |image: Vec<u8>| [image.as_slice(), &[0; 65_536]].concat();
    vec![
        behind(vec![]),
        behind(ring(4).links_image()),
        behind(ring(4).full_image()),
    ]
}

/// An image through every call that takes one.
fn calls_on(image: &[u8]) -> Vec<Case> {
    let inputs = [
        entry_call(image, 0),
        entry_call(image, 3),
        walk_call(image, 6),
        route_call(image, 0, 1, 4),
        read_call(image, 16),
        build_call(image, 16),
        sheet_call(image, 16),
        steps_call(image, &[0, 1, 1, 0], &[0, 1, 0]),
    ];
    let case = |input| Case::new("limits", "calls", input);
    inputs.map(case).to_vec()
}

/// Tables, pairs and lists that are too long, some of them by 65,536 bytes.
fn lengths_beyond_16_bits() -> Vec<Case> {
    let ring = ring(4);
    let pairs = ring.pair_bytes();
    let behind = |bytes: &[u8], more: usize| [bytes, &vec![0; more]].concat();
    let mut inputs = Vec::new();
    for more in [65_534, 65_535, 65_536, 65_537] {
        let table = behind(&[0, 1, 0, 1], more);
        inputs.push(row_call(&table, &[0, 255, 0, 1], [2, 0, 0]));
        inputs.push(row_call(&[0, 1, 0, 1], &table, [2, 0, 0]));
        inputs.push(write_call(4, 0, &behind(&pairs, more), 20));
        inputs.push(write_call(4, 1, &behind(&pairs, more), 80));
        let list = behind(&[0, 1, 1, 0], more);
        inputs.push(steps_call(&ring.links_image(), &list, &[0, 1, 0]));
    }
    let case = |input| Case::new("limits", "calls", input);
    inputs.into_iter().map(case).collect()
}

/// Inputs of `calls` at and beyond its own limit, and a long drain input.
fn long_calls() -> Vec<Case> {
    let long = vec![1; 65_535];
    let row = |length: usize| row_call(&long, &vec![2; length], [2, 0, 0]);
    let mut left_over = row(65_522);
    left_over.extend([0; 9]);
    let image = ring(4).links_image();
    let list = vec![1; 65_536 - 6 - image.len()];
    let drain = drain_input(&image, 1, &list);
    let longer = [drain.as_slice(), &[1, 1, 1]].concat();
    let whole = drain_input(&vec![1; 65_535], 1, &[]);
    vec![
        Case::new("limits", "calls", row(65_521)),
        Case::new("limits", "calls", row(65_522)),
        Case::new("limits", "calls", row(65_523)),
        Case::new("limits", "calls", left_over),
        Case::new("limits", "drain", drain),
        Case::new("limits", "drain", longer),
        Case::new("limits", "drain", whole),
        Case::new("limits", "calls", walk_call(&long, 65_535)),
    ]
}

/// Inputs whose last bytes decide: a fitting image of 65,535 bytes and one
/// byte more, and drain inputs of 65,536 bytes and one more.
fn long_inputs() -> Vec<Case> {
    let body = ring(4).links_body();
    let image = |total: usize| {
        let rest = total - 8 - body.len();
        lay_out(&[(1, &[body.as_slice(), &vec![0; rest]].concat())])
    };
    let one_more = [image(65_535).as_slice(), &[0]].concat();
    let drain = |total: usize| drain_input(&image(total), 1, &[]);
    vec![
        Case::new("limits", "build", one_more.clone()),
        Case::new("limits", "show", one_more.clone()),
        Case::new("limits", "sheet", one_more),
        Case::new("limits", "drain", drain(65_529)),
        Case::new("limits", "drain", drain(65_530)),
        Case::new("limits", "drain", drain(65_531)),
        Case::new("limits", "drain", drain(65_532)),
    ]
}

/// Row with each argument at its limit, past it, and past a byte.
fn rows() -> Vec<Case> {
    let mut inputs = Vec::new();
    for nodes in [2, 3, 64] {
        let free: Vec<u8> = (0..nodes * nodes).map(|i| i as u8).collect();
        let falling: Vec<u8> = free.iter().map(|byte| !byte).collect();
        let mut row = |numbers| inputs.push(row_call(&free, &falling, numbers));
        for class in [0, 1, 2, 255, 256, 257, 65_535] {
            row([nodes, nodes - 1, class]);
        }
        for far in [nodes, 255, 256, 255 + nodes, 65_535] {
            row([nodes, far, 0]);
        }
        for count in [0, 1, nodes - 1, nodes + 1, 65, 256, 256 + nodes, 65_535] {
            row([count, 0, 0]);
        }
        let lengths = [0, nodes, nodes * nodes - 1, nodes * nodes - nodes];
        for length in lengths {
            let short = &free[..length];
            inputs.push(row_call(short, &falling, [nodes, 0, 1]));
            inputs.push(row_call(&falling, short, [nodes, 0, 0]));
        }
    }
    for nodes in [0, 1, 65, 255] {
        let table = vec![0; nodes * nodes];
        inputs.push(row_call(&table, &table, [nodes, 0, 0]));
    }
    let case = |input| Case::new("limits", "calls", input);
    inputs.into_iter().map(case).collect()
}

/// Buffers exactly long enough, one short, one longer, empty.
fn buffers() -> Vec<Case> {
    let mut cases = Vec::new();
    for cabling in [path(2), ring(4), star(3)] {
        let (links, full) = (cabling.links_image(), cabling.full_image());
        let pairs = cabling.pair_bytes();
        let around = |length: usize| [0, 1, length - 1, length, length + 1];
        let read = around(pairs.len());
        cases.extend(read.map(|room| read_call(&links, room)));
        cases.extend(read.map(|room| read_call(&full, room)));
        cases.extend(around(full.len()).map(|room| build_call(&links, room)));
        let sheet = cabling.sheet();
        cases.extend(around(links.len()).map(|room| cable_call(&sheet, room)));
        cases.extend(around(sheet.len()).map(|room| sheet_call(&links, room)));
        let write = |wish, room| write_call(cabling.nodes, wish, &pairs, room);
        cases.extend(around(links.len()).map(|room| write(0, room)));
        cases.extend(around(full.len()).map(|room| write(1, room)));
        cases.extend(around(full.len()).map(|room| write(256, room)));
        cases.extend((0..5).map(|room| route_call(&full, 0, cabling.nodes - 1, room)));
        cases.extend((0..3).map(|room| route_call(&links, 1, 1, room)));
    }
    let case = |input| Case::new("limits", "calls", input);
    cases.into_iter().map(case).collect()
}

/// Full images of the ring with other bytes in kind 1 or behind it.
fn images_with_two_faults() -> Vec<Vec<u8>> {
    let wrong: [(u8, &[u8]); 3] = [(2, &[9, 9, 9, 9]), (3, &[9]), (4, &[])];
    let firsts: [&[u8]; 14] = [
        &[4, 0, 0, 1, 0, 3, 1, 2, 2, 3],
        &[4, 1, 0, 1, 0, 3, 1, 2, 2, 3],
        &[1, 1, 0, 1, 0, 3, 1, 2, 2, 3],
        &[65, 0, 0, 1, 0],
        &[4, 0, 0, 1, 0, 3, 1, 2, 2, 3, 3],
        &[4, 7, 1, 0],
        &[4, 0, 1, 0, 1],
        &[4, 0, 0, 1, 0, 1, 2, 4],
        &[4, 0, 0, 1, 3, 2, 0, 1],
        &[4, 0, 0, 2, 0, 1, 1, 0],
        &[4, 0, 0, 1, 2, 3],
        &[4, 0],
        &[0],
        &[0, 0],
    ];
    let mut images = Vec::new();
    for first in firsts {
        images.push(lay_out(&[(1, first)]));
        images.push(lay_out(&[(1, first), wrong[0], wrong[1], wrong[2]]));
        let mut gap = lay_out(&[(1, first)]);
        gap.push(0);
        images.push(gap);
    }
    images.extend(crowded_and_unconnected());
    images
}

/// 17 links at node 40, then also at node 2, and node 1 not reached.
fn crowded_and_unconnected() -> Vec<Vec<u8>> {
    let hub = |v: usize| (41..58).map(move |w| (v, w));
    let one = Cabling::new(64, hub(40));
    let two = Cabling::new(64, hub(40).chain(hub(2)));
    let doubled = [hub(40).collect::<Vec<_>>(), vec![(40, 41)]].concat();
    let three = Cabling::raw(64, &doubled);
    let full = |cabling: &Cabling| {
        let body = cabling.links_body();
        lay_out(&[(1, &body), (2, &[]), (3, &[]), (4, &[])])
    };
    let list = [one, two, three];
    let links = list.each_ref().map(Cabling::links_image);
    links.into_iter().chain(list.each_ref().map(full)).collect()
}

/// Faults of image, list, node and buffer against each other.
fn calls_with_two_faults() -> Vec<Case> {
    let good = ring(4).full_image();
    let mut eight = good.clone();
    *eight.last_mut().expect("not empty") = 9;
    let seven = Cabling::raw(4, &[(0, 1), (2, 3)]).links_image();
    let mut inputs = Vec::new();
    for image in [&good, &eight, &seven, &vec![]] {
        for list in [
            vec![9, 9, 9],
            vec![9; 514],
            vec![9, 9],
            vec![0, 1, 9, 0, 4, 4],
        ] {
            inputs.push(steps_call(image, &list, &[0, 0, 1]));
        }
        for (source, destination, room) in [(4, 0, 0), (0, 4, 9), (0, 2, 2), (300, 300, 0)] {
            inputs.push(route_call(image, source, destination, room));
        }
        inputs.push(read_call(image, 0));
        inputs.push(build_call(image, 0));
        inputs.push(sheet_call(image, 0));
    }
    let pairs: [&[u8]; 6] = [&[], &[0], &[1, 0], &[0, 1], &[0, 1, 0, 1], &[0, 9, 0]];
    for pairs in pairs {
        for nodes in [0, 2, 4, 65, 258, 65_535] {
            inputs.push(write_call(nodes, 1, pairs, 0));
            inputs.push(write_call(nodes, 0, pairs, 12));
        }
    }
    let case = |input| Case::new("order", "calls", input);
    inputs.into_iter().map(case).collect()
}

/// Lists of 0 to 257 messages, odd ones, self messages, nodes not there.
fn message_lists() -> Vec<Case> {
    let image = ring(5).links_image();
    let mut lists: Vec<Vec<u8>> = Vec::new();
    for count in [0, 1, 2, 3, 4, 5, 128, 254, 255, 256, 257, 258, 1_000] {
        lists.push(list(&vec![(0, 2); count]));
        lists.push(list(&vec![(3, 3); count]));
        let spread = |i: usize| (i % 5, (i * 7 + 3) % 5);
        lists.push(list(&(0..count).map(spread).collect::<Vec<_>>()));
    }
    for length in [1, 3, 5, 509, 511, 513, 515] {
        lists.push(vec![1; length]);
    }
    for bad in [5, 64, 255] {
        for place in [0, 1, 9, 254, 255] {
            let mut other = vec![2; 512];
            other[2 * place + place % 2] = bad;
            lists.push(other.clone());
            other[2 * place..].fill(bad);
            lists.push(other);
        }
    }
    let mut cases = Vec::new();
    for (seed, messages) in lists.iter().enumerate() {
        let input = drain_input(&image, seed as u32, messages);
        cases.push(Case::new("lists", "calls", trace_call(&input)));
        cases.push(Case::new("lists", "drain", input));
        let named: Vec<usize> = (0..300).map(|i| i * 13 % 259).collect();
        let steps = steps_call(&image, messages, &named);
        cases.push(Case::new("lists", "calls", steps));
    }
    cases
}
