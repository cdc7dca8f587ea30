//! Hops by hand: each refusal and each reading of hop, over tables of an image
//! and over tables of none, moves in records that no start made, and inputs
//! that are neither call.

use super::cabling::{grid, ring, star, Cabling};
use super::pack::*;
use super::restarts::passes;
use super::worked::ring_messages;
use super::Case;

pub fn cases() -> Vec<Case> {
    let hops = [
        own_tables(),
        at_the_limits(),
        nodes_outside(),
        other_lengths(),
        stored_bytes(),
        the_byte_read_alone(),
        falls(),
        at_the_destination(),
    ];
    let moves = [
        other_counts(),
        other_arrays(),
        other_lists(),
        other_classes(),
        without_channels(),
        going_round(),
    ];
    let calls = hops.into_iter().chain(moves).chain([not_calls()]);
    let inputs = calls.flatten();
    let case = |input| Case::new("hops", "calls", input);
    inputs.map(case).collect()
}

/// Every hop of the ring, and of a hub whose labels are not in the order of
/// its numbers.
fn own_tables() -> Vec<Vec<u8>> {
    let mut inputs = Vec::new();
    for cabling in [ring(4), star(2)] {
        let (nodes, board) = (cabling.nodes, Board::of(&cabling));
        for asked in 0..2 * nodes * nodes {
            let (node, rest) = (asked / (2 * nodes), asked % (2 * nodes));
            let numbers = [nodes, node, rest / nodes, rest % nodes];
            inputs.push(hop_call(&board, numbers));
        }
    }
    inputs
}

/// Tables of no image: a free message goes straight to its destination, a
/// falling one to the node behind it. All bytes are below N.
fn straight(nodes: usize) -> Board {
    let bytes = |count: usize, byte: fn(usize) -> usize| -> Vec<u8> {
        let byte = |i: usize| (byte(i) % nodes) as u8;
        (0..count).map(byte).collect()
    };
    Board {
        labels: bytes(nodes, |i| 7 * i + 3),
        free: bytes(nodes * nodes, |i| i),
        falling: bytes(nodes * nodes, |i| i + 1),
    }
}

/// Each number at its limit, past it, and past a byte.
fn at_the_limits() -> Vec<Vec<u8>> {
    let mut inputs = Vec::new();
    for nodes in [2, 64] {
        let (board, last) = (straight(nodes), nodes - 1);
        let mut ask = |numbers| inputs.push(hop_call(&board, numbers));
        for class in [0, 1, 2, 255, 256, 257, 65_535] {
            ask([nodes, last, class, 0]);
        }
        for far in [nodes, 255, 256, 256 + last, 256 + nodes, 65_535] {
            ask([nodes, far, 0, 0]);
            ask([nodes, 0, 1, far]);
        }
        for count in [0, nodes - 1, nodes + 1, 256, 256 + nodes, 65_535] {
            ask([count, 0, 0, 1]);
        }
    }
    inputs
}

/// Labels and tables that fit an N which is not 2 to 64.
fn nodes_outside() -> Vec<Vec<u8>> {
    let mut inputs = Vec::new();
    for nodes in [0, 1, 65, 255] {
        let table = vec![0; nodes * nodes];
        let board = Board::new(&vec![1; nodes], &table, &table);
        inputs.push(hop_call(&board, [nodes, 0, 0, 0]));
        inputs.push(hop_call(&board, [nodes, nodes / 2, 1, nodes / 3]));
    }
    inputs
}

/// Labels and tables that are too short or too long, also by what looks right
/// in the low bits, where a node and where 255 is stored, on the way and at
/// the destination.
fn other_lengths() -> Vec<Vec<u8>> {
    let mut inputs = Vec::new();
    for (nodes, lengths) in [
        (2, vec![0, 1, 3, 64, 258, 65_538]),
        (3, vec![2, 4, 9]),
        (64, vec![0, 63, 65, 128]),
    ] {
        for length in lengths {
            for stored in [1, 255] {
                let mut board = all(nodes, stored);
                board.labels.resize(length, 1);
                inputs.push(hop_call(&board, [nodes, 0, length % 2, 1]));
                inputs.push(hop_call(&board, [nodes, 1, length % 2, 1]));
            }
        }
    }
    for length in [0, 6, 8, 10, 12, 265, 65_545] {
        let (mut free, mut falling) = (all(3, 1), all(3, 1));
        free.free.resize(length, 1);
        falling.falling.resize(length, 1);
        inputs.push(hop_call(&free, [3, 0, 0, 1]));
        inputs.push(hop_call(&free, [3, 0, 1, 1]));
        inputs.push(hop_call(&falling, [3, 0, 0, 1]));
    }
    inputs
}

/// One byte all over both tables, and labels that fall from node to node.
fn all(nodes: usize, byte: u8) -> Board {
    let labels: Vec<u8> = (1..=nodes as u8).rev().collect();
    let table = vec![byte; nodes * nodes];
    Board::new(&labels, &table, &table)
}

/// Bytes around N and around what stands for no node, in either table.
fn stored_bytes() -> Vec<Vec<u8>> {
    let mut inputs = Vec::new();
    for nodes in [2, 3, 64] {
        let last = nodes as u8 - 1;
        for byte in [last, last + 1, last + 2, 128, 254, 255] {
            let board = all(nodes, byte);
            inputs.push(hop_call(&board, [nodes, 0, 0, 1]));
            if nodes == 3 {
                inputs.push(hop_call(&board, [nodes, 0, 1, 1]));
                inputs.push(hop_call(&board, [nodes, 1, 0, 1]));
            }
        }
    }
    inputs
}

/// All bytes are the same but one of the free table: the byte that is read, or
/// that of the way back, or the first. A falling message reads none of these.
fn the_byte_read_alone() -> Vec<Vec<u8>> {
    let mut inputs = Vec::new();
    for (rest, read) in [(200, 2), (255, 2), (2, 200), (2, 255)] {
        for (place, class) in [(5, 0), (5, 1), (7, 0), (0, 0)] {
            let mut board = all(3, rest);
            board.free[place] = read;
            inputs.push(hop_call(&board, [3, 1, class, 2]));
        }
    }
    inputs
}

/// The labels of node and next node, with all others on the wrong side; and
/// a way that leads to the node itself or to the destination at once.
fn falls() -> Vec<Vec<u8>> {
    let mut inputs = Vec::new();
    let labels = [
        (2, 1),
        (1, 2),
        (5, 5),
        (0, 0),
        (0, 255),
        (255, 0),
        (127, 128),
        (128, 127),
        (255, 255),
    ];
    for (here, next) in labels {
        let mut board = all(4, 2);
        let others = if next < here { 255 } else { 0 };
        board.labels = vec![others, here, next, others];
        inputs.push(hop_call(&board, [4, 1, 0, 3]));
        inputs.push(hop_call(&board, [4, 1, 1, 3]));
        board.labels.reverse();
        inputs.push(hop_call(&board, [4, 1, 0, 0]));
    }
    for (byte, class) in [(1, 0), (1, 1), (3, 0), (3, 1)] {
        inputs.push(hop_call(&all(4, byte), [4, 1, class, 3]));
    }
    inputs
}

/// A node, the node itself, none or no node at all is stored at the
/// destination, under labels that rise and that fall.
fn at_the_destination() -> Vec<Vec<u8>> {
    let mut inputs = Vec::new();
    for byte in [0, 1, 2, 255] {
        for labels in [[1, 2], [2, 1], [7, 7]] {
            let table = [9, 9, 9, byte];
            let board = Board::new(&labels, &table, &table);
            inputs.push(hop_call(&board, [2, 1, 0, 1]));
            inputs.push(hop_call(&board, [2, 1, 1, 1]));
        }
    }
    for byte in [0, 39, 40, 41, 63, 64, 255] {
        let mut board = all(64, byte);
        inputs.push(hop_call(&board, [64, 40, 0, 40]));
        board.labels.reverse();
        inputs.push(hop_call(&board, [64, 40, 0, 40]));
    }
    inputs
}

/// Messages among four nodes, to oneself, and from and to nodes not there.
fn near_and_far() -> Vec<u8> {
    let mut messages = ring_messages();
    messages.extend(list(&[(3, 3), (0, 4), (4, 0), (4, 4), (0, 64), (64, 0)]));
    messages.extend(list(&[(64, 64), (255, 0), (0, 255), (255, 255)]));
    messages
}

/// A cabling's own tables under its own N and under others.
fn other_counts() -> Vec<Vec<u8>> {
    let board = Board::of(&ring(4));
    let counts = [4, 0, 1, 2, 3, 5, 63, 64, 65, 256, 260, 65_535];
    let input = |nodes| moves_call(nodes, &board, &near_and_far(), &[], &passes(19, 9));
    counts.map(input).to_vec()
}

/// Labels and tables shorter and longer than N asks for and than the record's
/// arrays are.
fn other_arrays() -> Vec<Vec<u8>> {
    let mut inputs = Vec::new();
    let mut ask = |cabling: &Cabling, change: &dyn Fn(&mut Board)| {
        let mut board = Board::of(cabling);
        change(&mut board);
        let last = cabling.nodes - 1;
        let messages = list(&[(last, 0), (0, last), (last, last - 1), (1, last)]);
        let named = passes(4, last + 6);
        inputs.push(moves_call(cabling.nodes, &board, &messages, &[], &named));
    };
    for length in [0, 1, 3, 5, 64, 65, 320] {
        ask(&ring(4), &|board| board.labels.resize(length, 9));
    }
    for length in [0, 12, 14, 17, 4_097] {
        ask(&ring(4), &|board| board.free.resize(length, 9));
        ask(&ring(4), &|board| board.falling.resize(length, 9));
    }
    ask(&grid(8, 8), &|board| board.labels.extend([0; 9]));
    for length in [4_094, 4_096, 4_097, 4_160] {
        ask(&grid(8, 8), &|board| board.free.resize(length, 9));
    }
    inputs
}

/// No message, half a message, and 255 to 300 messages.
fn other_lists() -> Vec<Vec<u8>> {
    let board = Board::of(&ring(4));
    let lengths = [0, 1, 2, 3, 510, 511, 512, 513, 514, 600];
    let input = |length| {
        let messages: Vec<u8> = (0..length).map(|i| (i % 4) as u8).collect();
        let mut named = vec![0, 1, 254, 255, 256, 257, 299, 65_535];
        named.extend([0, 0, 0, 254, 255]);
        moves_call(4, &board, &messages, &[], &named)
    };
    lengths.map(input).to_vec()
}

/// Messages that begin falling or with no class, and fewer and more classes
/// than messages and than the record has.
fn other_classes() -> Vec<Vec<u8>> {
    let mut inputs = Vec::new();
    let board = Board::of(&ring(4));
    let forms: [&[u8]; 8] = [
        &[1],
        &[2],
        &[255],
        &[0, 1],
        &[1, 0],
        &[0, 2, 1],
        &[1, 0, 255, 0],
        &[3, 128, 0, 254, 1],
    ];
    let messages = near_and_far();
    for form in forms {
        let classes: Vec<u8> = form.iter().copied().cycle().take(14).collect();
        inputs.push(moves_call(4, &board, &messages, &classes, &passes(14, 9)));
    }
    for length in [1, 2, 3, 18, 255, 256, 257, 300] {
        let mut classes = vec![1; length];
        inputs.push(to_the_next_node(&classes));
        classes.fill(0);
        classes[length - 1] = 2;
        inputs.push(to_the_next_node(&classes));
    }
    inputs
}

/// 256 messages on a ring, each to the next node, whose label is higher as a
/// rule: a message that begins falling does not get there. Those that are to
/// move are from one node each, so that each of them comes to its hop.
fn to_the_next_node(classes: &[u8]) -> Vec<u8> {
    let nodes = 24;
    let next = |i: usize| (i % nodes, (i + 1) % nodes);
    let messages = list(&(0..256).map(next).collect::<Vec<_>>());
    let once = [0, 1, 2, 3, 16, 17, 18, 43, 253, 254, 255, 256];
    let board = Board::of(&ring(nodes));
    moves_call(nodes, &board, &messages, classes, &once.repeat(2))
}

/// Messages from and to nodes around 64, the first of a node to itself, and two
/// of node 5 to itself, which is not there; all of them free, or of no class.
fn without_channels() -> Vec<Vec<u8>> {
    let board = Board::of(&ring(4));
    let mut messages = list(&[(63, 63), (64, 64), (65, 65), (255, 255), (5, 5), (5, 5)]);
    messages.extend(list(&[(63, 0), (64, 0), (64, 63), (63, 64), (255, 64)]));
    messages.extend(list(&[(0, 63), (1, 64), (2, 255), (3, 3)]));
    let input = |nodes, class: u8| {
        let classes = [class; 15];
        moves_call(nodes, &board, &messages, &classes, &passes(15, 8))
    };
    let mut inputs = [4, 0, 63, 64, 65].map(|nodes| input(nodes, 0)).to_vec();
    inputs.push(input(4, 255));
    inputs
}

/// Ways that run in a ring or stay at a node, so that a message meets itself;
/// ways that end after a fall, and others that begin there.
fn going_round() -> Vec<Vec<u8>> {
    let mut inputs = Vec::new();
    let round = to_node_3([1, 2, 0, 3]);
    let none = to_node_3([255; 4]);
    let away = to_node_3([3; 4]);
    let bad = to_node_3([4; 4]);
    let messages = list(&[(0, 3), (1, 3), (0, 3), (3, 3), (2, 1)]);
    for labels in [[1; 4], [1, 2, 3, 4], [4, 3, 2, 1], [2, 1, 3, 0]] {
        for falling in [&round, &none, &away, &bad] {
            let board = Board::new(&labels, &round, falling);
            for classes in [[0; 5], [1, 0, 2, 255, 1]] {
                let named = passes(5, 10);
                inputs.push(moves_call(4, &board, &messages, &classes, &named));
            }
        }
    }
    let stay = Board::new(&[1; 4], &to_node_3([0, 1, 2, 3]), &none);
    inputs.push(moves_call(4, &stay, &messages, &[], &passes(5, 5)));
    let alone = Board::new(&[1; 4], &round, &none);
    inputs.push(moves_call(4, &alone, &list(&[(0, 3)]), &[], &[0; 6]));
    inputs
}

/// A table of four nodes that has entries for one destination alone.
fn to_node_3(entries: [u8; 4]) -> Vec<u8> {
    entries.iter().flat_map(|&entry| [9, 9, 9, entry]).collect()
}

/// A hop and moves cut short at each place and with a byte left over, with
/// lengths far too great, also where the numbers would fit if nothing were
/// taken, and with another count of moves than are named.
fn not_calls() -> Vec<Vec<u8>> {
    let mut inputs = Vec::new();
    let board = Board::new(&[1, 2], &[0, 1, 0, 1], &[0, 255, 0, 1]);
    let hop = hop_call(&board, [2, 0, 0, 1]);
    let moves = moves_call(2, &board, &[0, 1], &[1], &[0]);
    for whole in [&hop, &moves] {
        inputs.extend((1..whole.len()).map(|length| whole[..length].to_vec()));
        inputs.push([whole.as_slice(), &[0]].concat());
    }
    let none = Board::new(&[], &[], &[]);
    let bare_hop = hop_call(&none, [2, 0, 0, 1]);
    let bare_moves = moves_call(2, &none, &[], &[], &[0]);
    for (input, first, fields) in [
        (hop, 1, 3),
        (bare_hop, 1, 3),
        (moves.clone(), 3, 5),
        (bare_moves, 3, 5),
    ] {
        for place in length_places(&input, first, fields) {
            for length in [0x8000_0000_u32, 0xFFFF_FFFF] {
                let mut other = input.clone();
                other[place..place + 4].copy_from_slice(&length.to_le_bytes());
                inputs.push(other);
            }
        }
    }
    let counted = moves.len() - 4;
    for count in [0, 2, 257, 32_769, 65_535_u16] {
        let mut other = moves.clone();
        other[counted..counted + 2].copy_from_slice(&count.to_le_bytes());
        inputs.push(other);
    }
    inputs
}

/// Where the lengths of arguments stand that follow one another.
fn length_places(input: &[u8], first: usize, fields: usize) -> Vec<usize> {
    let mut places = vec![first];
    while places.len() < fields {
        let place = places[places.len() - 1];
        places.push(place + 4 + usize::from(input[place]));
    }
    places
}
