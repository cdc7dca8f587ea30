//! Hop: the hops worked by hand, each refusal and reading, walks by hop beside
//! the route, and moves in a record that no start made.

use second::calls::{accept, route};
use second::cases::cabling::*;
use second::cases::growing::*;
use second::cases::pack::{list, random_list, Board};
use second::cases::random::Random;
use second::cases::turning::random_turning;
use second::cases::Set;
use second::drain::{Answer, Channel, Record};
use second::refusal::{refusal, Refusal};
use second::rows::{hop, Lent, Next};
use second::unstarted::Unstarted;

/// The next node and its class, none, or the refusal.
type Found = Result<Option<(usize, usize)>, Refusal>;

fn lent(board: &Board, nodes: usize) -> Lent<'_> {
    Lent {
        labels: &board.labels,
        free: &board.free,
        falling: &board.falling,
        nodes,
    }
}

/// Hop with N, node, class and destination.
fn found(board: &Board, [nodes, node, class, destination]: [usize; 4]) -> Found {
    let next = hop(&lent(board, nodes), node, class, destination)?;
    Ok(next.map(|Next { node, class }| (node, class)))
}

const REFUSED: Found = Err(Refusal {
    number: 10,
    place: 0,
});

#[test]
fn hops_of_the_ring_and_of_hubs() {
    let board = Board::of(&ring(4));
    let ring = |node, class, destination| found(&board, [4, node, class, destination]);
    assert_eq!(ring(0, 0, 2), Ok(Some((1, 0))));
    assert_eq!(ring(2, 0, 0), Ok(Some((1, 1))));
    assert_eq!(ring(1, 1, 0), Ok(Some((0, 1))));
    assert_eq!(ring(0, 1, 2), Ok(None));
    assert_eq!(ring(3, 1, 3), Ok(Some((3, 1))));
    let hub = Board::of(&star(3));
    assert_eq!(hub.labels, [3, 1, 2, 4]);
    assert_eq!(found(&hub, [4, 1, 0, 3]), Ok(Some((0, 0))));
    assert_eq!(found(&hub, [4, 0, 0, 3]), Ok(Some((3, 0))));
    let small = Board::of(&star(2));
    assert_eq!(small.labels, [2, 1, 3]);
    assert_eq!(found(&small, [3, 1, 0, 2]), Ok(Some((0, 0))));
    assert_eq!(found(&small, [3, 0, 0, 2]), Ok(Some((2, 0))));
    assert_eq!(found(&small, [3, 2, 0, 1]), Ok(Some((0, 1))));
}

/// Two nodes, every byte of both tables the same.
fn pair(labels: &[u8], byte: u8) -> Board {
    Board::new(labels, &[byte; 4], &[byte; 4])
}

#[test]
fn the_class_at_the_next_node() {
    let after = |labels: [u8; 2], class| found(&pair(&labels, 1), [2, 0, class, 1]);
    assert_eq!(after([1, 2], 0), Ok(Some((1, 0))));
    assert_eq!(after([2, 1], 0), Ok(Some((1, 1))));
    assert_eq!(after([7, 7], 0), Ok(Some((1, 0))));
    assert_eq!(after([0, 255], 0), Ok(Some((1, 0))));
    assert_eq!(after([128, 127], 0), Ok(Some((1, 1))));
    assert_eq!(after([1, 2], 1), Ok(Some((1, 1))));
    assert_eq!(after([7, 7], 1), Ok(Some((1, 1))));
    let stays = pair(&[2, 1], 0);
    assert_eq!(found(&stays, [2, 0, 0, 1]), Ok(Some((0, 0))));
}

#[test]
fn at_the_destination_the_class_stays() {
    for labels in [[1, 2], [2, 1]] {
        for class in [0, 1] {
            let here = |byte| found(&pair(&labels, byte), [2, 1, class, 1]);
            assert_eq!(here(0), Ok(Some((0, class))));
            assert_eq!(here(1), Ok(Some((1, class))));
            assert_eq!(here(255), Ok(None));
            assert_eq!(here(2), REFUSED);
        }
    }
}

#[test]
fn numbers_that_are_refused() {
    let board = pair(&[1, 2], 1);
    assert_eq!(found(&board, [2, 0, 0, 0]), Ok(Some((1, 0))));
    for wrong in [2, 3, 255, 256, 257, 65_535] {
        assert_eq!(found(&board, [wrong, 0, 0, 0]).is_ok(), wrong == 2);
        assert_eq!(found(&board, [2, wrong, 0, 0]), REFUSED);
        assert_eq!(found(&board, [2, 0, wrong, 0]), REFUSED);
        assert_eq!(found(&board, [2, 0, 0, wrong]), REFUSED);
    }
    assert_eq!(found(&board, [258, 0, 0, 0]), REFUSED);
    for (nodes, fits) in [(0, false), (1, false), (64, true), (65, false)] {
        let table = vec![0; nodes * nodes];
        let board = Board::new(&vec![1; nodes], &table, &table);
        assert_eq!(found(&board, [nodes, 0, 0, 0]).is_ok(), fits);
    }
}

#[test]
fn lengths_that_are_refused() {
    for length in [0, 1, 3, 64, 258] {
        for byte in [1, 2, 255] {
            let labels = pair(&vec![1; length], byte);
            assert_eq!(found(&labels, [2, 0, 0, 1]), REFUSED);
            assert_eq!(found(&labels, [2, 1, 1, 1]), REFUSED);
        }
    }
    for length in [0, 2, 3, 5, 6, 260] {
        let short = vec![1; length];
        let free = Board::new(&[1, 2], &short, &[1; 4]);
        let falling = Board::new(&[1, 2], &[1; 4], &short);
        for class in [0, 1] {
            assert_eq!(found(&free, [2, 0, class, 1]), REFUSED);
            assert_eq!(found(&falling, [2, 0, class, 1]), REFUSED);
        }
    }
}

#[test]
fn the_byte_that_is_read_alone() {
    for nodes in [2, 3, 64] {
        let labels: Vec<u8> = (1..=nodes as u8).collect();
        for byte in 0..=255 {
            let expected = match usize::from(byte) {
                255 => Ok(None),
                next if next < nodes => Ok(Some((next, 0))),
                _ => REFUSED,
            };
            let mut table = vec![200; nodes * nodes];
            table[1] = byte;
            let board = Board::new(&labels, &table, &vec![77; nodes * nodes]);
            assert_eq!(found(&board, [nodes, 0, 0, 1]), expected);
            assert_eq!(found(&board, [nodes, 0, 1, 1]), REFUSED);
            assert_eq!(found(&board, [nodes, 1, 0, 0]), REFUSED);
        }
    }
}

/// The nodes passed by asking hop at each, free at first.
fn walk(board: &Board, nodes: usize, source: usize, destination: usize) -> Vec<u8> {
    let (mut at, mut class) = (source, 0);
    let mut passed = vec![at as u8];
    while at != destination && passed.len() <= nodes {
        let next = found(board, [nodes, at, class, destination]);
        (at, class) = next.expect("no refusal").expect("a next node");
        passed.push(at as u8);
    }
    passed
}

fn some_network(random: &mut Random) -> Cabling {
    let nodes = random.between(2, 24);
    match random.below(3) {
        0 => random_tree(nodes, random),
        1 => random_blocks(nodes, random),
        _ => random_connected(nodes, nodes * random.between(2, 4) / 2, random),
    }
}

#[test]
fn a_walk_by_hop_is_the_route() {
    let mut random = Random::new(21);
    let mut falling_only = 0;
    for _ in 0..60 {
        let cabling = some_network(&mut random);
        let (nodes, image) = (cabling.nodes, cabling.full_image());
        let board = Board::of(&cabling);
        for pair in 0..nodes * nodes {
            let (source, destination) = (pair / nodes, pair % nodes);
            let mut out = [0; 64];
            let length = route(&image, source, destination, &mut out).expect("a route");
            assert_eq!(walk(&board, nodes, source, destination), out[..length]);
            let free = |at: u8| board.free[usize::from(at) * nodes + destination];
            let turns = out[..length].windows(2).any(|two| free(two[0]) != two[1]);
            falling_only += usize::from(turns);
        }
    }
    assert!(falling_only > 0, "no route needed the falling rows");
}

/// All that a record shows.
type Seen = (usize, usize, Vec<usize>, Vec<(Channel, usize)>);

fn seen(record: &Unstarted) -> Seen {
    let (messages, moves) = (record.messages(), record.moves());
    (
        messages,
        moves,
        record.delivered().collect(),
        record.held().collect(),
    )
}

/// A network and messages on it, all of which need the falling rows.
fn turning_messages(random: &mut Random, count: usize) -> (Cabling, Vec<u8>) {
    let found = random_turning(random, Set::Small);
    let ends: Vec<_> = (0..count).map(|_| random.pick(&found.ends)).collect();
    (found.cabling, list(&ends))
}

#[test]
fn over_an_image_it_moves_as_after_a_start() {
    let mut random = Random::new(22);
    for round in 0..150 {
        let count = random.between(1, 30);
        let (cabling, messages) = match round % 2 {
            0 => turning_messages(&mut random, count),
            _ => {
                let cabling = some_network(&mut random);
                let messages = random_list(cabling.nodes, count, &mut random);
                (cabling, messages)
            }
        };
        let mut started = Record::default();
        let start = started.start(&cabling.full_image(), &messages);
        start.expect("accepted");
        let board = Board::of(&cabling);
        let mut record = Unstarted::new(&lent(&board, cabling.nodes), &messages, &[]);
        for _ in 0..30 * count {
            let message = random.below(count + 1);
            assert_eq!(record.step(message), started.step(message));
            let (_, moves, delivered, held) = seen(&record);
            assert_eq!(moves, started.moves());
            assert_eq!(delivered, started.delivered().collect::<Vec<_>>());
            assert_eq!(held, started.held().collect::<Vec<_>>());
        }
    }
}

#[test]
fn moves_that_are_refused_change_nothing() {
    let (fabric, _) = accept(&ring(4).links_image()).expect("accepted");
    let messages = list(&[(2, 0), (0, 9), (9, 0), (1, 3), (200, 200)]);
    let mut tables = fabric.tables;
    tables.falling[4] = 255;
    tables.free[4 + 3] = 4;
    let board = Board::new(&[1, 2, 3, 4], &tables.free, &tables.falling);
    let mut record = Unstarted::new(&lent(&board, 4), &messages, &[0, 0]);
    moves(&mut record, &[0, 1, 2, 3, 0]);
    let before = record.clone();
    for number in [0, 1, 2, 3, 4, 5, 256] {
        assert_eq!(record.step(number), Err(refusal(10, 0)));
        assert_eq!(record, before);
    }
    let held = vec![
        (Channel::injection(0), 1),
        (Channel::injection(1), 3),
        (Channel::link(2, 1), 0),
        (Channel::injection(2), 0),
        (Channel::injection(9), 2),
    ];
    assert_eq!(seen(&record), (5, 5, vec![], held));
}

/// Each of these messages takes a channel, one after the other.
fn moves(record: &mut Unstarted, named: &[usize]) {
    for &number in named {
        assert_eq!(record.step(number), Ok(Answer::Moved));
    }
}

#[test]
fn nodes_from_64_on_have_no_channels() {
    let board = Board::of(&ring(4));
    for (nodes, class) in [(4, 0), (4, 255), (64, 0), (65, 1), (0, 0)] {
        let mut messages = list(&[(64, 64), (64, 0), (65, 63), (255, 255), (128, 128)]);
        messages.extend(list(&[(63, 63), (0, 64), (1, 255)]));
        let mut record = Unstarted::new(&lent(&board, nodes), &messages, &[class; 8]);
        let before = record.clone();
        for number in 0..5 {
            assert_eq!(record.step(number), Err(refusal(10, 0)));
            assert_eq!(record, before);
        }
        moves(&mut record, &[5, 5]);
        assert_eq!(record.step(5), Ok(Answer::Delivered));
        for number in [6, 7] {
            moves(&mut record, &[number]);
            assert_eq!(record.step(number), Err(refusal(10, 0)));
        }
        let held = vec![(Channel::injection(0), 6), (Channel::injection(1), 7)];
        assert_eq!(seen(&record), (8, 5, vec![5], held));
    }
}

#[test]
fn nodes_not_there_have_channels_below_64() {
    let board = Board::of(&ring(4));
    let messages = list(&[(5, 5), (5, 5), (5, 0)]);
    let mut record = Unstarted::new(&lent(&board, 4), &messages, &[]);
    moves(&mut record, &[0, 0]);
    assert_eq!(record.step(1), Ok(Answer::Blocked(0)));
    let held = vec![(Channel::injection(5), 0), (Channel::consumption(5), 0)];
    assert_eq!(seen(&record), (3, 2, vec![], held));
    assert_eq!(record.step(0), Ok(Answer::Delivered));
    moves(&mut record, &[1, 1]);
    assert_eq!(record.step(2), Ok(Answer::Blocked(1)));
    assert_eq!(record.step(1), Ok(Answer::Delivered));
    moves(&mut record, &[2]);
    assert_eq!(record.step(2), Err(refusal(10, 0)));
    let held = vec![(Channel::injection(5), 2)];
    assert_eq!(seen(&record), (3, 7, vec![0, 1], held));
}

#[test]
fn a_hop_that_stays_takes_neither_channel_of_the_node() {
    let board = Board::new(&[5; 3], &[9, 9, 0, 9, 9, 9, 9, 9, 9], &[255; 9]);
    let messages = list(&[(0, 2), (0, 0)]);
    let mut record = Unstarted::new(&lent(&board, 3), &messages, &[]);
    moves(&mut record, &[0, 0]);
    assert_eq!(record.step(0), Ok(Answer::Blocked(0)));
    assert_eq!(record.step(1), Ok(Answer::Blocked(0)));
    let held = vec![(Channel::link(0, 0), 0), (Channel::injection(0), 0)];
    assert_eq!(seen(&record), (2, 2, vec![], held));
}

#[test]
fn a_message_meets_itself_and_others() {
    let round = [9, 9, 1, 9, 9, 0, 9, 9, 9];
    let board = Board::new(&[5, 5, 5], &round, &[255; 9]);
    let mut record = Unstarted::new(&lent(&board, 3), &list(&[(0, 2), (1, 2)]), &[]);
    moves(&mut record, &[0, 0, 0]);
    assert_eq!(record.step(0), Ok(Answer::Blocked(0)));
    moves(&mut record, &[1]);
    assert_eq!(record.step(1), Ok(Answer::Blocked(0)));
    let held = vec![
        (Channel::link(0, 1), 0),
        (Channel::injection(0), 0),
        (Channel::link(1, 0), 0),
        (Channel::injection(1), 1),
    ];
    assert_eq!(seen(&record), (2, 4, vec![], held));
    let falls = Board::new(&[5, 4, 5], &round, &[9, 9, 9, 9, 9, 2, 9, 9, 9]);
    let mut record = Unstarted::new(&lent(&falls, 3), &list(&[(0, 2)]), &[0]);
    moves(&mut record, &[0, 0, 0, 0]);
    let held = vec![
        (Channel::link(0, 1), 0),
        (Channel::injection(0), 0),
        (Channel::link(1, 2), 0),
        (Channel::consumption(2), 0),
    ];
    assert_eq!(seen(&record), (1, 4, vec![], held));
    assert_eq!(record.step(0), Ok(Answer::Delivered));
    assert_eq!(seen(&record), (1, 5, vec![0], vec![]));
}

#[test]
fn any_labels_tables_and_lists_are_taken() {
    let empty = Board::new(&[], &[], &[]);
    let mut record = Unstarted::new(&lent(&empty, 64), &[63, 1, 7], &[]);
    assert_eq!(record.messages(), 1);
    moves(&mut record, &[0, 0]);
    let held = [(Channel::link(63, 0), 0), (Channel::injection(63), 0)];
    assert_eq!(record.held().collect::<Vec<_>>(), held);
    for nodes in [0, 1, 65, 258, 65_535] {
        let mut record = Unstarted::new(&lent(&empty, nodes), &[0, 1, 3, 3], &[]);
        moves(&mut record, &[0, 1, 1]);
        assert_eq!(record.step(0), Err(refusal(10, 0)));
        assert_eq!(record.step(1), Ok(Answer::Delivered));
    }
    let long = Board::new(&[3; 70], &[1; 5_000], &[1; 5_000]);
    let mut record = Unstarted::new(&lent(&long, 2), &[0; 600], &[2; 300]);
    assert_eq!(record.messages(), 256);
    moves(&mut record, &[255, 255]);
    assert_eq!(record.step(255), Ok(Answer::Delivered));
    assert_eq!(record.step(256), Err(refusal(10, 0)));
    let mut record = Unstarted::new(&lent(&long, 2), &[0, 1], &[0; 300]);
    moves(&mut record, &[0, 0, 0]);
    assert_eq!(record.step(0), Ok(Answer::Delivered));
}

#[test]
fn a_falling_message_takes_the_falling_rows() {
    let (free, falling) = ([9, 9, 1, 9, 9, 2, 9, 9, 9], [9, 9, 2, 9, 9, 0, 9, 9, 9]);
    let board = Board::new(&[1, 2, 3], &free, &falling);
    let messages = list(&[(0, 2), (1, 2)]);
    let mut record = Unstarted::new(&lent(&board, 3), &messages, &[1, 1]);
    moves(&mut record, &[0, 1, 0, 1]);
    let held = vec![
        (Channel::link(0, 2), 0),
        (Channel::injection(0), 0),
        (Channel::link(1, 0), 1),
        (Channel::injection(1), 1),
    ];
    assert_eq!(seen(&record), (2, 4, vec![], held));
    assert_eq!(record.step(1), Ok(Answer::Blocked(0)));
    moves(&mut record, &[0]);
    assert_eq!(record.step(1), Ok(Answer::Blocked(0)));
    assert_eq!(record.step(0), Ok(Answer::Delivered));
    moves(&mut record, &[1, 1]);
    assert_eq!(record.step(1), Ok(Answer::Delivered));
    let mut record = Unstarted::new(&lent(&board, 3), &messages, &[]);
    moves(&mut record, &[0, 1, 0, 1]);
    let held = vec![
        (Channel::link(0, 1), 0),
        (Channel::injection(0), 0),
        (Channel::link(1, 2), 1),
        (Channel::injection(1), 1),
    ];
    assert_eq!(seen(&record), (2, 4, vec![], held));
    assert_eq!(record.step(0), Ok(Answer::Blocked(1)));
}

#[test]
fn a_message_of_no_class_is_refused_where_it_has_a_hop_to_go() {
    let board = pair(&[1, 2], 1);
    let messages = list(&[(0, 1), (1, 1), (0, 1), (200, 200), (0, 1), (9, 9)]);
    for class in [2, 3, 128, 255] {
        let classes = [class, class, 0, class, 0, class];
        let mut record = Unstarted::new(&lent(&board, 2), &messages, &classes);
        moves(&mut record, &[2]);
        assert_eq!(record.step(0), Ok(Answer::Blocked(2)));
        moves(&mut record, &[2, 2]);
        assert_eq!(record.step(2), Ok(Answer::Delivered));
        moves(&mut record, &[0]);
        let before = record.clone();
        assert_eq!(record.step(0), Err(refusal(10, 0)));
        assert_eq!(record.step(3), Err(refusal(10, 0)));
        assert_eq!(record, before);
        assert_eq!(record.step(4), Ok(Answer::Blocked(0)));
        for number in [1, 5] {
            moves(&mut record, &[number, number]);
            assert_eq!(record.step(number), Ok(Answer::Delivered));
            assert_eq!(record.step(number), Ok(Answer::Already));
        }
        let held = vec![(Channel::injection(0), 0)];
        assert_eq!(seen(&record), (6, 11, vec![1, 2, 5], held));
    }
}

#[test]
fn the_classes_are_256() {
    let board = Board::new(&[1, 2], &[1; 4], &[255; 4]);
    let messages = [0, 1].repeat(256);
    let first_hop = |classes: &[u8], number: usize| {
        let mut record = Unstarted::new(&lent(&board, 2), &messages, classes);
        moves(&mut record, &[number]);
        record.step(number)
    };
    for length in [0, 1, 255, 256, 257, 300] {
        let classes = vec![1; length];
        for number in [0, 1, 254, 255] {
            let expected = match number < length {
                true => Err(refusal(10, 0)),
                false => Ok(Answer::Moved),
            };
            assert_eq!(first_hop(&classes, number), expected);
        }
        let mut last = vec![0; length];
        last.extend([1]);
        assert_eq!(first_hop(&last, 0).is_ok(), length != 0);
        assert_eq!(first_hop(&last, 255).is_ok(), length != 255);
    }
}
