//! The networks worked by hand, the refusals listed beside them, and messages
//! that go one at a time into and out of a node.

use super::cabling::{complete, hall, path, ring, star, Cabling};
use super::limits::too_many_pairs;
use super::pack::*;
use super::restarts::passes;
use super::Case;

/// The worked networks that are accepted.
pub fn networks() -> Vec<Cabling> {
    vec![
        path(2),
        complete(3),
        path(3),
        ring(4),
        star(3),
        complete(4),
        hall(),
    ]
}

/// The messages worked on the ring.
pub fn ring_messages() -> Vec<u8> {
    list(&[(0, 2), (1, 3), (2, 0), (3, 1)])
}

/// The lists of messages worked on the link and on the ring.
pub fn message_lists(cabling: &Cabling) -> Vec<Vec<u8>> {
    if *cabling == path(2) {
        vec![list(&[(0, 1)]), list(&[(0, 0)])]
    } else if *cabling == ring(4) {
        vec![ring_messages()]
    } else {
        vec![]
    }
}

/// The hops worked on the ring and on the hub: node, class, destination.
pub fn hops(cabling: &Cabling) -> Vec<[usize; 3]> {
    if *cabling == ring(4) {
        vec![[0, 0, 2], [2, 0, 0], [1, 1, 0], [0, 1, 2], [3, 1, 3]]
    } else if *cabling == star(3) {
        vec![[1, 0, 3], [0, 0, 3]]
    } else {
        vec![]
    }
}

pub fn cases() -> Vec<Case> {
    let mut cases = Vec::new();
    for cabling in networks() {
        let last = cabling.nodes - 1;
        let messages = list(&[(0, last), (last, 0), (1, 0), (0, 1), (last, 1), (1, 1)]);
        cases.extend(network_cases("worked", &cabling, &messages, 0));
        cases.push(Case::new("worked", "cable", cabling.sheet()));
        cases.push(Case::new("worked", "sheet", cabling.links_image()));
        cases.push(Case::new("worked", "sheet", cabling.full_image()));
        cases.extend(writes(&cabling));
        cases.extend(routes(&cabling));
        cases.extend(rows(&cabling));
    }
    cases.extend(ring_drains());
    cases.extend(link_drains());
    cases.extend(on_the_link());
    cases.extend(on_the_path());
    cases.extend(many_at_a_node());
    cases.extend(listed_refusals());
    cases
}

fn writes(cabling: &Cabling) -> Vec<Case> {
    let pairs = cabling.pair_bytes();
    let rooms = [(0, links_length(cabling)), (1, full_length(cabling))];
    let case = |(full, room)| write_call(cabling.nodes, full, &pairs, room);
    let inputs = rooms.map(case);
    inputs.map(|i| Case::new("worked", "calls", i)).to_vec()
}

/// All routes of a small network, and those of two nodes of a larger one.
fn routes(cabling: &Cabling) -> Vec<Case> {
    let image = cabling.full_image();
    let sources = cabling.nodes.min(4);
    let from = |s: usize| (0..cabling.nodes).map(move |d| (s, d));
    (0..sources)
        .flat_map(from)
        .map(|(s, d)| route_call(&image, s, d, cabling.nodes + 1))
        .map(|input| Case::new("worked", "calls", input))
        .collect()
}

/// Both rows of each node, out of the full image's own tables.
fn rows(cabling: &Cabling) -> Vec<Case> {
    let (nodes, image) = (cabling.nodes, cabling.full_image());
    let (front, falling) = image.split_at(image.len() - nodes * nodes);
    let free = &front[front.len() - nodes * nodes..];
    let from = |v: usize| [(v, 0), (v, 1)];
    (0..nodes)
        .flat_map(from)
        .map(|(v, class)| row_call(free, falling, [nodes, v, class]))
        .map(|input| Case::new("worked", "calls", input))
        .collect()
}

/// The ring's four messages from several seeds, and no messages at all.
fn ring_drains() -> Vec<Case> {
    let image = ring(4).full_image();
    let mut cases = Vec::new();
    for seed in [0, 1, 2, 3, 65_535, 65_536, 0x7FFF_FFFF, u32::MAX] {
        cases.extend(drained(drain_input(&image, seed, &ring_messages())));
    }
    let none = drain_input(&image, 0, &[]);
    cases.push(Case::new("worked", "drain", none));
    let all: Vec<usize> = (0..4).cycle().take(36).collect();
    let steps = steps_call(&image, &ring_messages(), &all);
    cases.push(Case::new("worked", "calls", steps));
    cases
}

/// The link's lists of messages.
fn link_drains() -> Vec<Case> {
    let image = path(2).links_image();
    let lists = message_lists(&path(2));
    let inputs = lists.iter().map(|list| drain_input(&image, 0, list));
    inputs.flat_map(drained).collect()
}

/// A drain input, traced and drained.
fn drained(input: Vec<u8>) -> [Case; 2] {
    [
        Case::new("worked", "calls", trace_call(&input)),
        Case::new("worked", "drain", input),
    ]
}

/// Two messages over the link, one behind the other and against each other.
fn on_the_link() -> Vec<Case> {
    let link = path(2);
    let behind: [&[usize]; 2] = [
        &[0, 1, 0, 0, 0, 1],
        &[0, 1, 0, 1, 0, 1, 0, 1, 1, 1, 0, 1, 1],
    ];
    let against: [&[usize]; 5] = [
        &[0, 1, 0, 1, 0, 1, 0, 1, 0, 1],
        &[1, 0, 1, 0, 1, 0, 1, 0, 1, 0],
        &[0, 0, 1, 1, 0, 0, 1, 1],
        &[0, 0, 0, 1, 1, 1],
        &[0, 0, 0, 1, 1, 1, 1, 0],
    ];
    [
        moved(&link, &[(0, 1), (0, 1)], &behind),
        moved(&link, &[(0, 1), (1, 0)], &against),
    ]
    .concat()
}

/// Messages that meet in the middle of a path, that begin there, that pass by
/// one from there to itself, and many of all these.
fn on_the_path() -> Vec<Case> {
    let three = path(3);
    let meet: [&[usize]; 3] = [
        &[0, 1, 0, 1, 0, 1],
        &[0, 1, 0, 1, 0, 1, 0, 1, 1],
        &[1, 1, 1, 0, 0, 0, 1, 0, 0],
    ];
    let pass: [&[usize]; 2] = [&[0, 0, 1, 1, 0, 0], &[0, 0, 1, 1, 0, 0, 1, 0, 1]];
    let many = [(1, 1), (1, 1), (1, 0), (0, 1), (2, 1), (1, 2), (1, 1)];
    let backwards: Vec<usize> = passes(7, 24).into_iter().rev().collect();
    [
        moved(&three, &[(0, 1), (2, 1)], &meet),
        moved(&three, &[(1, 0), (1, 2)], &[&passes(2, 8)]),
        moved(&three, &[(0, 2), (1, 1)], &pass),
        moved(&three, &many, &[&passes(7, 7), &passes(7, 24), &backwards]),
    ]
    .concat()
}

/// A start with these messages, and each of these orders of moves after it.
fn moved(cabling: &Cabling, ends: &[(usize, usize)], orders: &[&[usize]]) -> Vec<Case> {
    let (image, messages) = (cabling.links_image(), list(ends));
    let steps = |named: &&[usize]| steps_call(&image, &messages, named);
    let case = |named| Case::new("worked", "calls", steps(named));
    orders.iter().map(case).collect()
}

/// 256 messages to one node and from one node, drained from a seed, and moved
/// four by four, where each of the four has at most 5 moves.
fn many_at_a_node() -> Vec<Case> {
    let four = |first: usize| passes(4, 20).into_iter().map(move |m| first + m);
    let named: Vec<usize> = (0..256).step_by(4).flat_map(four).collect();
    let mut cases = Vec::new();
    for (seed, cabling) in [path(3), star(6)].iter().enumerate() {
        let image = cabling.full_image();
        let far = |i: usize| i % cabling.nodes;
        let to_one: Vec<_> = (0..256).map(|i| (far(i), 1)).collect();
        let from_one: Vec<_> = (0..256).map(|i| (1, far(i))).collect();
        for ends in [to_one, from_one] {
            let input = drain_input(&image, seed as u32, &list(&ends));
            cases.extend(drained(input));
            cases.extend(moved(cabling, &ends, &[&named]));
        }
    }
    cases
}

/// The images listed beside the worked networks, each with a few words.
pub fn listed() -> Vec<(&'static str, Vec<u8>)> {
    let doubled = Cabling::raw(3, &[(0, 1), (0, 1), (1, 2)]);
    let apart = Cabling::raw(4, &[(0, 1), (2, 3)]);
    vec![
        ("no input", vec![]),
        ("1 node", Cabling::raw(1, &[]).links_image()),
        ("65 nodes", path(65).links_image()),
        ("64 nodes in a path", path(64).links_image()),
        ("513 pairs", too_many_pairs().links_image()),
        ("the pair 1 0", Cabling::raw(2, &[(1, 0)]).links_image()),
        ("a pair twice", doubled.links_image()),
        ("degree 16", star(16).links_image()),
        ("degree 17", star(17).links_image()),
        ("links 0-1 and 2-3", apart.links_image()),
    ]
}

/// The sheets listed there, each with a few words.
pub fn listed_sheets() -> Vec<(&'static str, Vec<u8>)> {
    let sheets = [
        ("an empty sheet", ""),
        ("links 0-1 and 2-3 on a sheet", "4\n0 1\n2 3\n"),
        ("a pair twice on a sheet", "4\n0 1\n0 1\n"),
        ("a sheet's last line not closed", "2\n0 1"),
        ("two spaces on a sheet", "2\n0  1\n"),
        ("an empty line alone", "\n"),
        ("a sheet of one node", "1\n"),
        ("the pair (1, 0) on a sheet", "2\n1 0\n"),
    ];
    sheets.map(|(words, text)| (words, text.into())).to_vec()
}

fn listed_refusals() -> Vec<Case> {
    let programs = |(_, image): &(&str, Vec<u8>)| {
        let drain = drain_input(image, 7, &list(&[(0, 1), (1, 0)]));
        [
            Case::new("worked", "build", image.clone()),
            Case::new("worked", "show", image.clone()),
            Case::new("worked", "sheet", image.clone()),
            Case::new("worked", "drain", drain),
            Case::new("worked", "calls", read_call(image, 1_100)),
        ]
    };
    let mut cases: Vec<Case> = listed().iter().flat_map(programs).collect();
    for (_, sheet) in listed_sheets() {
        cases.push(Case::new("worked", "cable", sheet));
    }
    cases.push(Case::new("worked", "drain", vec![]));
    cases.push(Case::new("worked", "calls", vec![]));
    cases
}

/// The program that prints what is found of all of them: it reads nothing.
pub fn by_hand() -> Vec<Case> {
    vec![Case::new("hand", "worked", vec![])]
}
