//! Drawn cases: random networks through the programs, random damage, and
//! random calls for every selector, right and wrong.

use super::boards::{put, random_board, random_classes, resize, spoil};
use super::cabling::*;
use super::growing::*;
use super::pack::*;
use super::random::Random;
use super::restarts::passes;
use super::sheets::edit;
use super::turning::random_turning;
use super::{Case, Set};
use crate::calls::route;

type Drawer = fn(&mut Random, Set) -> (&'static str, Vec<u8>);

/// The drawn families; cases go round them by index.
pub const DRAWN: [(&str, Drawer); 26] = [
    ("trees", |r, set| on_network(r, set, tree)),
    ("sparse", |r, set| on_network(r, set, sparse)),
    ("mixed", |r, set| on_network(r, set, mixed)),
    ("dense", |r, set| on_network(r, set, dense)),
    ("blocks", |r, set| on_network(r, set, blocks)),
    ("joints", |r, set| on_network(r, set, joints)),
    ("halls", |r, set| on_network(r, set, hall_like)),
    ("meshes", |r, set| on_network(r, set, mesh)),
    ("turning", turning),
    ("damaged", damaged),
    ("sheets", sheets),
    ("entry", entry),
    ("walk", walk),
    ("row", row),
    ("hop", hop),
    ("route", routes),
    ("read", read),
    ("write", write),
    ("build", build),
    ("cable", cable),
    ("sheet", sheet),
    ("steps", steps),
    ("rounds", rounds),
    ("moves", moves),
    ("trace", trace),
    ("bad", bad_call),
];

/// The case with this index: a function of set, seed and index.
pub fn drawn(set: Set, seed: u64, index: usize) -> Case {
    let (family, drawer) = DRAWN[index % DRAWN.len()];
    let mut random = Random::at(seed, index as u64);
    let (program, input) = drawer(&mut random, set);
    Case::new(family, program, input)
}

fn most_nodes(set: Set) -> usize {
    match set {
        Set::Small => 12,
        Set::Large => 64,
    }
}

fn some_nodes(random: &mut Random, set: Set) -> usize {
    let most = most_nodes(set);
    match random.below(8) {
        0 => most,
        1 => random.between(2, 5),
        _ => random.between(2, most),
    }
}

fn tree(random: &mut Random, set: Set) -> Cabling {
    let nodes = some_nodes(random, set);
    random_tree(nodes, random)
}

/// Average degree 3 to 10.
fn sparse(random: &mut Random, set: Set) -> Cabling {
    let nodes = some_nodes(random, set);
    let links = nodes * random.between(3, 10) / 2;
    random_connected(nodes, links, random)
}

/// Any number of links from a tree's up to the limits.
fn mixed(random: &mut Random, set: Set) -> Cabling {
    let nodes = some_nodes(random, set);
    let most = (nodes * (nodes - 1) / 2).min(8 * nodes);
    let links = random.between(nodes - 1, most);
    random_connected(nodes, links, random)
}

fn dense(random: &mut Random, set: Set) -> Cabling {
    let nodes = match set {
        Set::Small => random.between(2, 12),
        Set::Large if random.one_in(3) => 64,
        Set::Large => random.between(17, 64),
    };
    if nodes < 17 || random.one_in(2) {
        random_connected(nodes, 8 * nodes, random)
    } else {
        random_regular(nodes, random)
    }
}

fn blocks(random: &mut Random, set: Set) -> Cabling {
    let nodes = some_nodes(random, set);
    random_blocks(nodes, random)
}

fn joints(random: &mut Random, set: Set) -> Cabling {
    let most = match set {
        Set::Small => random.between(11, 24),
        Set::Large => random.between(16, 64),
    };
    random_joints(most, random)
}

fn hall_like(random: &mut Random, _: Set) -> Cabling {
    random_hall(random)
}

/// A regular shape under shuffled numbers.
fn mesh(random: &mut Random, set: Set) -> Cabling {
    let most = most_nodes(set);
    let side = |random: &mut Random| random.between(2, 8);
    let shape = loop {
        let (rows, columns) = (side(random), side(random));
        let shape = match random.below(5) {
            0 => torus(rows.max(3), columns.max(3)),
            1 => cube(random.between(1, 6)),
            2 => complete(rows + columns),
            3 => two_sides(rows, columns),
            _ => grid(rows, columns),
        };
        if shape.nodes <= most {
            break shape;
        }
    };
    if random.one_in(3) {
        shape
    } else {
        shape.shuffled(random)
    }
}

fn any_network(random: &mut Random, set: Set) -> Cabling {
    match random.below(5) {
        0 => tree(random, set),
        1 => sparse(random, set),
        2 => mixed(random, set),
        3 => blocks(random, set),
        _ => mesh(random, set),
    }
}

fn any_image(random: &mut Random, set: Set) -> Vec<u8> {
    let cabling = any_network(random, set);
    either_image(random, &cabling)
}

fn either_image(random: &mut Random, cabling: &Cabling) -> Vec<u8> {
    if random.one_in(2) {
        cabling.full_image()
    } else {
        cabling.links_image()
    }
}

fn some_messages(random: &mut Random, nodes: usize) -> Vec<u8> {
    let count = match random.below(6) {
        0 => random.between(0, 3),
        1 => random.between(200, 256),
        2 => nodes,
        _ => random.between(2, 40),
    };
    random_list(nodes, count, random)
}

/// A network of the given maker through one of the programs.
fn on_network(
    random: &mut Random,
    set: Set,
    make: fn(&mut Random, Set) -> Cabling,
) -> (&'static str, Vec<u8>) {
    let cabling = make(random, set);
    match random.below(6) {
        0 | 1 => ("build", cabling.links_image()),
        2 => ("show", cabling.links_image()),
        3 => ("show", cabling.full_image()),
        4 => ("drain", some_drain(random, &cabling)),
        _ => ("calls", trace_call(&some_drain(random, &cabling))),
    }
}

fn some_drain(random: &mut Random, cabling: &Cabling) -> Vec<u8> {
    let messages = some_messages(random, cabling.nodes);
    let image = either_image(random, cabling);
    drain_input(&image, random.draw() as u32, &messages)
}

/// Routes and drains that go wrong where a fall is forgotten.
fn turning(random: &mut Random, set: Set) -> (&'static str, Vec<u8>) {
    let found = random_turning(random, set);
    let image = either_image(random, &found.cabling);
    let (source, destination) = random.pick(&found.ends);
    if random.one_in(2) {
        return ("calls", route_call(&image, source, destination, 64));
    }
    let count = random.between(1, 40);
    let nodes = found.cabling.nodes;
    let message = |random: &mut Random| match random.below(3) {
        0 => (random.below(nodes), random.below(nodes)),
        _ => random.pick(&found.ends),
    };
    let messages: Vec<_> = (0..count).map(|_| message(random)).collect();
    let input = drain_input(&image, random.draw() as u32, &list(&messages));
    ("calls", trace_call(&input))
}

/// One to three faults in an image, through any program that takes it.
fn damaged(random: &mut Random, set: Set) -> (&'static str, Vec<u8>) {
    let mut image = any_image(random, set);
    for _ in 0..random.between(1, 3) {
        damage(random, &mut image);
    }
    match random.below(8) {
        0 => ("build", image),
        1 => ("drain", drain_input(&image, 9, &[0, 1, 1, 0])),
        2 => ("calls", read_call(&image, 1_024)),
        3 => ("calls", route_call(&image, 0, 1, 64)),
        4 => ("calls", build_call(&image, 9_400)),
        5 => ("sheet", image),
        _ => ("show", image),
    }
}

/// Most faults fall near the front, where contents and pairs are.
fn damage(random: &mut Random, image: &mut Vec<u8>) {
    if image.is_empty() {
        return;
    }
    let end = match random.below(4) {
        0 => image.len(),
        1 => image.len().min(8),
        _ => image.len().min(60),
    };
    let place = random.below(end);
    match random.below(10) {
        0 => image.truncate(place),
        1 => image.insert(place, random.byte()),
        2 => drop(image.remove(place)),
        3 => image.swap(place, random.below(end)),
        4 => image[place] = random.byte(),
        5 => image.push(random.byte()),
        6 => image[place] ^= 1 << random.below(8),
        7 => image[place] = image[place].wrapping_add(1),
        8 => image[place] = image[place].wrapping_sub(1),
        _ => image[place] = random.pick(&[0, 1, 2, 4, 16, 17, 63, 64, 65, 255]),
    }
}

/// A network of any of the makers, to sheet as an image or to cable as a
/// sheet; two sheets of three have faults.
fn sheets(random: &mut Random, set: Set) -> (&'static str, Vec<u8>) {
    let makers = [tree, sparse, mixed, dense, blocks, joints, hall_like, mesh];
    let cabling = random.pick(&makers)(random, set);
    match random.below(4) {
        0 => ("sheet", cabling.links_image()),
        1 => ("cable", cabling.sheet()),
        _ => ("cable", edited(random, &cabling)),
    }
}

/// A sheet with one to three faults.
fn edited(random: &mut Random, cabling: &Cabling) -> Vec<u8> {
    let mut sheet = cabling.sheet();
    for _ in 0..random.between(1, 3) {
        edit(random, &mut sheet);
    }
    sheet
}

/// An image as it should be, or damaged, or any bytes.
fn image_or_not(random: &mut Random, set: Set) -> Vec<u8> {
    match random.below(6) {
        0 => {
            let length = random.below(60);
            random.bytes(length)
        }
        1 => {
            let mut image = any_image(random, set);
            damage(random, &mut image);
            image
        }
        _ => any_image(random, set),
    }
}

/// A number below `end` as a rule; now and then one too large, also one that
/// looks right in its low byte.
fn below_or_not(random: &mut Random, end: usize) -> usize {
    match random.below(12) {
        0 => end,
        1 => 256 + random.below(end.max(1)),
        2 => random.pick(&[255, 256, 32_768, 65_535]),
        _ => random.below(end.max(1)),
    }
}

/// Exactly long enough, one short, longer, empty, or anything.
fn some_room(random: &mut Random, needed: usize) -> usize {
    match random.below(7) {
        0 => needed.saturating_sub(1),
        1 => 0,
        2 => random.below(needed + 5),
        3 => needed + 1,
        4 => needed + random.below(40),
        _ => needed,
    }
}

fn entry(random: &mut Random, set: Set) -> (&'static str, Vec<u8>) {
    let mut image = some_contents(random, set);
    if random.one_in(4) {
        image.truncate(random.below(40));
    }
    let number = match random.below(6) {
        0 => random.draw(),
        1 => random.pick(&[u64::MAX, 1 << 32, 1 << 63, u64::MAX / 6, u64::MAX / 6 + 1]),
        2 => (u64::MAX / 6 * random.between(1, 5) as u64).wrapping_add(random.below(4) as u64),
        3 => (1 << 16) + random.below(5) as u64,
        _ => random.below(7) as u64,
    };
    ("calls", entry_call(&image, number))
}

/// An image, or bytes that say they have some entries.
fn some_contents(random: &mut Random, set: Set) -> Vec<u8> {
    if random.one_in(2) {
        return image_or_not(random, set);
    }
    let length = random.below(80);
    let mut bytes = random.bytes(length);
    if let Some(count) = bytes.get_mut(1) {
        *count = random.pick(&[0, 1, 2, 3, 4, 5, 11, 12, 13, 255]);
    }
    bytes
}

fn walk(random: &mut Random, set: Set) -> (&'static str, Vec<u8>) {
    let image = some_contents(random, set);
    let steps = random.pick(&[0, 1, 2, 4, 5, 6, 15, 300]);
    ("calls", walk_call(&image, steps))
}

/// Two tables for N nodes, random bytes, sometimes of a wrong length.
fn some_tables(random: &mut Random, set: Set) -> (Vec<u8>, Vec<u8>, usize) {
    let nodes = match random.below(10) {
        0 => random.pick(&[0, 1, 2, 64, 65]),
        _ => random.between(2, most_nodes(set)),
    };
    let size = nodes * nodes;
    let length = |random: &mut Random| match random.below(16) {
        0 => size + 1,
        1 => size.saturating_sub(1),
        2 => size + nodes,
        3 => 0,
        _ => size,
    };
    let (one, two) = (length(random), length(random));
    (random.bytes(one), random.bytes(two), nodes)
}

/// N itself, or now and then another number.
fn count_or_not(random: &mut Random, nodes: usize) -> usize {
    match random.below(14) {
        0 => nodes + 1,
        1 => nodes + 256,
        2 => random.pick(&[0, 1, 255, 256, 257, 65_535]),
        _ => nodes,
    }
}

fn some_class(random: &mut Random) -> usize {
    match random.below(10) {
        0 => random.pick(&[2, 3, 255, 256, 257, 65_535]),
        _ => random.below(2),
    }
}

fn row(random: &mut Random, set: Set) -> (&'static str, Vec<u8>) {
    let (free, falling, nodes) = some_tables(random, set);
    let node = below_or_not(random, nodes);
    let numbers = [count_or_not(random, nodes), node, some_class(random)];
    ("calls", row_call(&free, &falling, numbers))
}

/// An image's own labels and tables, the same with bytes changed, or drawn
/// ones; and N.
fn some_board(random: &mut Random, set: Set) -> (usize, Board) {
    let cabling = match random.below(3) {
        0 => random_turning(random, set).cabling,
        _ => any_network(random, set),
    };
    let (nodes, mut board) = (cabling.nodes, Board::of(&cabling));
    match random.below(4) {
        0 => {}
        1 => board = random_board(random, nodes),
        _ => spoil(random, nodes, &mut board),
    }
    (nodes, board)
}

/// Two of three with nothing wrong but what the tables hold, where every other
/// time the byte that is read is drawn anew; one of four at the destination.
fn hop(random: &mut Random, set: Set) -> (&'static str, Vec<u8>) {
    let (mut nodes, mut board) = some_board(random, set);
    if random.one_in(12) {
        nodes = random.pick(&[0, 1, 2, 64, 65]);
        board = random_board(random, nodes);
    }
    let node = random.below(nodes.max(1));
    let destination = match random.below(4) {
        0 => node,
        _ => random.below(nodes.max(1)),
    };
    if random.one_in(2) {
        put(random, nodes, &mut board, node * nodes + destination);
    }
    let mut numbers = [nodes, node, random.below(2), destination];
    match random.below(18) {
        0 => numbers[0] = random.pick(&[0, 1, nodes + 1, nodes + 256, 258, 65_535]),
        1 => numbers[1] = random.pick(&[nodes, nodes + 256, 255, 65_535]),
        2 => numbers[2] = random.pick(&[2, 3, 255, 256, 257, 65_535]),
        3 => numbers[3] = random.pick(&[nodes, nodes + 256, 255, 65_535]),
        4 | 5 => resize(random, nodes, &mut board),
        _ => {}
    }
    ("calls", hop_call(&board, numbers))
}

/// A record that no start made, with messages also from and to nodes that are
/// not there, some of them falling, and moves of any messages in any order.
fn moves(random: &mut Random, set: Set) -> (&'static str, Vec<u8>) {
    let (nodes, mut board) = some_board(random, set);
    if random.one_in(8) {
        resize(random, nodes, &mut board);
    }
    let mut messages = some_messages(random, nodes);
    for end in messages.iter_mut() {
        if random.one_in(25) {
            *end = random.pick(&[nodes as u8, nodes as u8 + 1, 63, 64, 254, 255]);
        }
    }
    match random.below(12) {
        0 => messages.push(0),
        1 => messages.resize(515, 1),
        _ => {}
    }
    let classes = random_classes(random, messages.len() / 2);
    let named = some_named(random, messages.len() / 2);
    let count = match random.below(8) {
        0 => random.pick(&[0, 1, nodes - 1, nodes + 1, 64, 65, nodes + 256, 65_535]),
        _ => nodes,
    };
    let input = moves_call(count, &board, &messages, &classes, &named);
    ("calls", input)
}

fn routes(random: &mut Random, set: Set) -> (&'static str, Vec<u8>) {
    let cabling = any_network(random, set);
    let mut image = either_image(random, &cabling);
    if random.one_in(10) {
        damage(random, &mut image);
    }
    let ends = (
        below_or_not(random, cabling.nodes),
        below_or_not(random, cabling.nodes),
    );
    let needed = route(&image, ends.0, ends.1, &mut [0; 64]).unwrap_or(5);
    let room = some_room(random, needed);
    ("calls", route_call(&image, ends.0, ends.1, room))
}

fn read(random: &mut Random, set: Set) -> (&'static str, Vec<u8>) {
    let cabling = any_network(random, set);
    let mut image = either_image(random, &cabling);
    if random.one_in(5) {
        damage(random, &mut image);
    }
    let room = some_room(random, 2 * cabling.pairs.len());
    ("calls", read_call(&image, room))
}

/// Pairs as they should be or with some faults; N likewise.
fn write(random: &mut Random, set: Set) -> (&'static str, Vec<u8>) {
    let cabling = any_network(random, set);
    let mut pairs = cabling.pair_bytes();
    if random.one_in(3) {
        for _ in 0..random.between(1, 2) {
            damage(random, &mut pairs);
        }
    }
    let nodes = count_or_not(random, cabling.nodes);
    let full = random.pick(&[0, 0, 1, 1, 2, 256, 65_535]);
    let needed = if full == 0 {
        links_length(&cabling)
    } else {
        full_length(&cabling)
    };
    let room = some_room(random, needed);
    ("calls", write_call(nodes, full, &pairs, room))
}

fn build(random: &mut Random, set: Set) -> (&'static str, Vec<u8>) {
    let cabling = any_network(random, set);
    let mut image = match random.below(6) {
        0 => cabling.full_image(),
        _ => cabling.links_image(),
    };
    if random.one_in(6) {
        damage(random, &mut image);
    }
    let room = some_room(random, full_length(&cabling));
    ("calls", build_call(&image, room))
}

fn cable(random: &mut Random, set: Set) -> (&'static str, Vec<u8>) {
    let cabling = any_network(random, set);
    let sheet = match random.below(2) {
        0 => cabling.sheet(),
        _ => edited(random, &cabling),
    };
    let room = some_room(random, links_length(&cabling));
    ("calls", cable_call(&sheet, room))
}

fn sheet(random: &mut Random, set: Set) -> (&'static str, Vec<u8>) {
    let cabling = any_network(random, set);
    let mut image = match random.below(6) {
        0 => cabling.full_image(),
        _ => cabling.links_image(),
    };
    if random.one_in(3) {
        damage(random, &mut image);
    }
    let room = some_room(random, cabling.sheet().len());
    ("calls", sheet_call(&image, room))
}

/// A start, right or wrong, and moves of any messages in any order.
fn steps(random: &mut Random, set: Set) -> (&'static str, Vec<u8>) {
    let cabling = any_network(random, set);
    let messages = some_messages(random, cabling.nodes);
    ("calls", rounds_call(&[round(random, &cabling, messages)]))
}

fn round(random: &mut Random, cabling: &Cabling, mut messages: Vec<u8>) -> Round {
    let mut image = either_image(random, cabling);
    if random.one_in(12) {
        damage(random, &mut image);
    }
    if random.one_in(8) {
        damage(random, &mut messages);
    }
    let named = some_named(random, messages.len() / 2);
    Round::new(&image, &messages, &named)
}

/// Messages that are to move, now and then one that is not there.
fn some_named(random: &mut Random, count: usize) -> Vec<usize> {
    let most = 16 * count + 10;
    (0..random.between(0, most))
        .map(|_| match random.below(60) {
            0 => below_or_not(random, count),
            _ => random.below(count.max(1)),
        })
        .collect()
}

/// Several starts on one record, on the same network or another, two in three
/// for routes that turn; some refused, some drained to the end.
fn rounds(random: &mut Random, set: Set) -> (&'static str, Vec<u8>) {
    let mut rounds: Vec<Round> = Vec::new();
    let mut last = random_turning(random, set);
    for _ in 0..random.between(2, 4) {
        if random.one_in(3) {
            last = random_turning(random, set);
        }
        let count = random.between(1, 20);
        let messages = match random.below(3) {
            0 => some_messages(random, last.cabling.nodes),
            _ => list(
                &(0..count)
                    .map(|_| random.pick(&last.ends))
                    .collect::<Vec<_>>(),
            ),
        };
        let mut next = round(random, &last.cabling, messages);
        match random.below(8) {
            0 => damage(random, &mut next.image),
            1 => next.list.push(0),
            2 => next.list.extend([0, 64]),
            3 => next.named = passes(next.list.len() / 2, 40),
            _ => {}
        }
        rounds.push(next);
    }
    ("calls", rounds_call(&rounds))
}

fn trace(random: &mut Random, set: Set) -> (&'static str, Vec<u8>) {
    let cabling = any_network(random, set);
    let mut input = some_drain(random, &cabling);
    if random.one_in(6) {
        damage(random, &mut input);
    }
    match random.below(3) {
        0 => ("drain", input),
        _ => ("calls", trace_call(&input)),
    }
}

/// Calls cut short, with bytes left over, or with another selector.
fn bad_call(random: &mut Random, set: Set) -> (&'static str, Vec<u8>) {
    let drawers = [
        entry, walk, row, hop, routes, read, write, build, cable, sheet, steps, rounds, moves,
    ];
    let (_, mut input) = random.pick(&drawers)(random, set);
    match random.below(5) {
        0 => input.truncate(random.below(input.len() + 1)),
        1 => input.push(random.byte()),
        2 => input[0] = random.byte(),
        3 => input[0] = random.between(0, 14) as u8,
        _ => damage(random, &mut input),
    }
    ("calls", input)
}
