//! Labels and tables that no image has: drawn ones, and an image's own with
//! bytes changed and with other lengths; and the classes of messages.

use super::pack::Board;
use super::random::Random;

/// A node's number as a rule; now and then 255, or what is no node's number.
fn entry(random: &mut Random, nodes: usize) -> u8 {
    match random.below(16) {
        0 => 255,
        1 => random.pick(&[nodes, nodes + 1, 64, 254]) as u8,
        _ => random.below(nodes.max(1)) as u8,
    }
}

/// The numbers 1 to N in any order, or with some or all of them equal, or any.
fn labels(random: &mut Random, nodes: usize) -> Vec<u8> {
    let mut labels: Vec<u8> = (1..=nodes).map(|label| label as u8).collect();
    match random.below(6) {
        0 => labels.fill(random.byte()),
        1 => labels = random.bytes(nodes),
        2 => labels.iter_mut().for_each(|label| *label %= 3),
        _ => {}
    }
    random.shuffle(&mut labels);
    labels
}

pub fn random_board(random: &mut Random, nodes: usize) -> Board {
    let table = |random: &mut Random| -> Vec<u8> {
        (0..nodes * nodes).map(|_| entry(random, nodes)).collect()
    };
    Board {
        labels: labels(random, nodes),
        free: table(random),
        falling: table(random),
    }
}

/// Other labels, or another entry in one place of ten.
pub fn spoil(random: &mut Random, nodes: usize, board: &mut Board) {
    if random.one_in(4) {
        board.labels = labels(random, nodes);
        return;
    }
    for table in [&mut board.free, &mut board.falling] {
        for byte in table.iter_mut() {
            if random.one_in(10) {
                *byte = entry(random, nodes);
            }
        }
    }
}

/// Another entry in one place of both tables, where they have it.
pub fn put(random: &mut Random, nodes: usize, board: &mut Board, place: usize) {
    for table in [&mut board.free, &mut board.falling] {
        if let Some(byte) = table.get_mut(place) {
            *byte = entry(random, nodes);
        }
    }
}

/// Labels or a table of another length.
pub fn resize(random: &mut Random, nodes: usize, board: &mut Board) {
    let (part, right) = match random.below(4) {
        0 => (&mut board.free, nodes * nodes),
        1 => (&mut board.falling, nodes * nodes),
        _ => (&mut board.labels, nodes),
    };
    let length = match random.below(6) {
        0 => 0,
        1 => right + 256,
        2 => 64,
        3 => right + 1,
        _ => right.saturating_sub(1),
    };
    part.resize(length, 1);
}

/// The classes of messages: all free or a few of them falling, as a rule; now
/// and then most falling, some of no class, or fewer or more classes.
pub fn random_classes(random: &mut Random, messages: usize) -> Vec<u8> {
    let form = random.below(10);
    if form < 2 {
        return Vec::new();
    }
    let class = |random: &mut Random| match form {
        2 | 3 => 0,
        4..=6 => u8::from(random.one_in(6)),
        7 => random.pick(&[0, 1, 1]),
        _ => random.pick(&[0, 0, 0, 1, 1, 1, 2, 255]),
    };
    let length = match form {
        9 => random.pick(&[messages / 2, messages + 1, 255, 256, 257, 300]),
        _ => messages,
    };
    (0..length).map(|_| class(random)).collect()
}
