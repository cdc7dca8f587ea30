//! Self-checks by brute force on random networks: cut nodes by deletion,
//! labels by the rule's words, rows by all paths, drains in random orders and
//! in every order, messages that go one at a time into and out of a node.

use second::calls::Fabric;
use second::cases::cabling::*;
use second::cases::growing::*;
use second::cases::pack::{list, random_list};
use second::cases::random::Random;
use second::drain::{Answer, Record};
use second::label::{cut_nodes, prohibited};
use second::network::Network;
use second::rows::follow;
use std::collections::BTreeSet;

fn network(cabling: &Cabling) -> Network {
    Network::from_pairs(cabling.nodes, &cabling.pair_bytes()).expect("accepted")
}

/// Networks of all sorts with at most `most` nodes.
fn some_network(random: &mut Random, most: usize) -> Cabling {
    let nodes = random.between(2, most);
    let links = random.between(nodes - 1, 3 * nodes);
    match random.below(if most < 20 { 3 } else { 5 }) {
        0 => random_tree(nodes, random),
        1 => random_blocks(nodes, random),
        3 => random_joints(most, random),
        4 => random_joints(16, random),
        _ => random_connected(nodes, links, random),
    }
}

/// Whether all remaining nodes are reached from the first of them.
fn is_connected(near: &[Vec<usize>], remains: &[bool]) -> bool {
    let all = remains.iter().filter(|&&r| r).count();
    let Some(first) = remains.iter().position(|&r| r) else {
        return true;
    };
    let mut seen = vec![first];
    let mut i = 0;
    while i < seen.len() {
        for &w in &near[seen[i]] {
            if remains[w] && !seen.contains(&w) {
                seen.push(w);
            }
        }
        i += 1;
    }
    seen.len() == all
}

fn cut_by_deletion(near: &[Vec<usize>], remains: &[bool], node: usize) -> bool {
    let mut without = remains.to_vec();
    without[node] = false;
    remains[node] && !is_connected(near, &without)
}

#[test]
fn cut_nodes_by_deletion() {
    let mut random = Random::new(11);
    for _ in 0..300 {
        let near = network(&some_network(&mut random, 24)).near;
        let mut remains = vec![true; near.len()];
        for _ in 0..near.len() {
            let cut = cut_nodes(&near, &remains);
            for (node, &found) in cut.iter().enumerate() {
                assert_eq!(found, cut_by_deletion(&near, &remains, node));
            }
            let others: Vec<usize> = (0..near.len()).filter(|&v| remains[v] && !cut[v]).collect();
            remains[random.pick(&others)] = false;
        }
    }
}

/// The rule word for word: every stage looks at every node afresh.
fn labels_by_words(near: &[Vec<usize>]) -> Vec<usize> {
    let nodes = near.len();
    let mut remains = vec![true; nodes];
    let mut labels = vec![0; nodes];
    for label in 1..=nodes {
        let degree = |v: usize| near[v].iter().filter(|&&w| remains[w]).count() as i64;
        let mut chosen: Option<usize> = None;
        for v in (0..nodes).filter(|&v| remains[v]) {
            let around = near[v].iter().filter(|&&w| remains[w]);
            let sum: i64 = around.map(|&w| degree(w) - 1).sum();
            let fits = degree(v) * (degree(v) - 1) <= sum;
            if !fits || cut_by_deletion(near, &remains, v) {
                continue;
            }
            if chosen.is_none_or(|c| degree(v) < degree(c)) {
                chosen = Some(v);
            }
        }
        let node = chosen.expect("a candidate");
        labels[node] = label;
        remains[node] = false;
    }
    labels
}

#[test]
fn labels_by_the_rule() {
    let mut random = Random::new(12);
    for _ in 0..300 {
        let network = network(&some_network(&mut random, 40));
        let words = labels_by_words(&network.near);
        assert_eq!(second::label::labels(&network), words);
    }
    for _ in 0..20 {
        let network = network(&random_hall(&mut random));
        assert_eq!(
            second::label::labels(&network),
            labels_by_words(&network.near)
        );
    }
    for cabling in [largest(), hall(), torus(8, 8), cube(6), complete(17)] {
        let network = network(&cabling);
        assert_eq!(
            second::label::labels(&network),
            labels_by_words(&network.near)
        );
    }
}

/// T and W by all turns (a, b, c) with a < c.
fn turns_one_by_one(near: &[Vec<usize>], labels: &[usize]) -> (usize, usize) {
    let (mut all, mut forbidden) = (0, 0);
    for b in 0..near.len() {
        for &a in &near[b] {
            for &c in near[b].iter().filter(|&&c| c > a) {
                all += 1;
                forbidden += usize::from(labels[b] < labels[a] && labels[b] < labels[c]);
            }
        }
    }
    (all, forbidden)
}

#[test]
fn turns_counted_one_by_one() {
    let mut random = Random::new(13);
    for _ in 0..200 {
        let fabric = Fabric::new(network(&some_network(&mut random, 30)));
        let t = fabric.network.turns();
        let w = prohibited(&fabric.network, &fabric.labels);
        let counted = turns_one_by_one(&fabric.network.near, &fabric.labels);
        assert_eq!((t, w), counted);
        assert!(3 * w <= t);
    }
}

/// All paths without a repeated node, each checked turn by turn.
fn all_paths(near: &[Vec<usize>], path: &mut Vec<usize>, found: &mut Vec<Vec<usize>>) {
    found.push(path.clone());
    for &next in &near[path[path.len() - 1]] {
        if !path.contains(&next) {
            path.push(next);
            all_paths(near, path, found);
            path.pop();
        }
    }
}

fn is_lawful(labels: &[usize], path: &[usize]) -> bool {
    let turn = |three: &[usize]| {
        labels[three[1]] < labels[three[0]] && labels[three[1]] < labels[three[2]]
    };
    !path.windows(3).any(turn)
}

fn only_falls(labels: &[usize], path: &[usize]) -> bool {
    path.windows(2).all(|two| labels[two[1]] < labels[two[0]])
}

/// Length and first node of the best of these paths that ends at `end`.
fn best(
    paths: &[Vec<usize>],
    end: usize,
    allowed: impl Fn(&[usize]) -> bool,
) -> Option<(usize, usize)> {
    let ends = paths.iter().filter(|path| path[path.len() - 1] == end);
    let lawful = ends.filter(|path| allowed(path));
    let key = |path: &Vec<usize>| (path.len() - 1, path[1.min(path.len() - 1)]);
    lawful.map(key).min()
}

#[test]
fn rows_by_all_paths() {
    let mut random = Random::new(14);
    for _ in 0..150 {
        let fabric = Fabric::new(network(&some_network(&mut random, 7)));
        let (labels, tables) = (&fabric.labels, &fabric.tables);
        let nodes = labels.len();
        for v in 0..nodes {
            let mut paths = Vec::new();
            all_paths(&fabric.network.near, &mut vec![v], &mut paths);
            for t in 0..nodes {
                let free = best(&paths, t, |path| is_lawful(labels, path));
                let (hops, first) = free.expect("a lawful path");
                assert_eq!(usize::from(tables.free[v * nodes + t]), first);
                let falling = best(&paths, t, |path| only_falls(labels, path));
                let byte = falling.map_or(255, |(_, first)| first as u8);
                assert_eq!(tables.falling[v * nodes + t], byte);
                let route = follow(tables, labels, v, t);
                assert_eq!(route.len(), hops + 1);
                assert!(is_lawful(labels, &route));
            }
        }
    }
}

#[test]
fn lawful_lengths_by_relaxation() {
    let mut random = Random::new(15);
    for _ in 0..40 {
        let fabric = Fabric::new(network(&some_network(&mut random, 40)));
        let far = lengths_by_relaxation(&fabric.network.near, &fabric.labels);
        for (v, row) in far.iter().enumerate() {
            for (t, &length) in row.iter().enumerate() {
                let route = follow(&fabric.tables, &fabric.labels, v, t);
                assert_eq!(route.len() - 1, length);
                assert_eq!(far[t][v], length);
            }
        }
    }
}

/// Rising distances up to a top node, falling ones down from it.
fn lengths_by_relaxation(near: &[Vec<usize>], labels: &[usize]) -> Vec<Vec<usize>> {
    let nodes = near.len();
    let mut order: Vec<usize> = (0..nodes).collect();
    order.sort_by_key(|&v| labels[v]);
    const NONE: usize = 1_000;
    let mut rise = vec![vec![NONE; nodes]; nodes];
    for (from, row) in rise.iter_mut().enumerate() {
        row[from] = 0;
        for &v in &order {
            for &w in near[v].iter().filter(|&&w| labels[w] > labels[v]) {
                row[w] = row[w].min(row[v] + 1);
            }
        }
    }
    let over = |v: usize, t: usize| (0..nodes).map(|top| rise[v][top] + rise[t][top]).min();
    let row = |v: usize| (0..nodes).map(|t| over(v, t).expect("nodes")).collect();
    (0..nodes).map(row).collect()
}

#[test]
fn drains_in_random_orders() {
    let mut random = Random::new(16);
    for round in 0..400 {
        let cabling = some_network(&mut random, 20);
        let count = if round % 10 == 0 {
            256
        } else {
            random.between(0, 60)
        };
        let list = random_list(cabling.nodes, count, &mut random);
        let watched = Watched::all(&cabling, &list);
        let mut record = started(&cabling, &list);
        drain_in_any_order(&mut record, &mut random);
        assert_eq!(record.moves(), watched.iter().map(Watched::needed).sum());
    }
}

fn started(cabling: &Cabling, list: &[u8]) -> Record {
    let mut record = Record::default();
    let start = record.start(&cabling.full_image(), list);
    start.expect("accepted");
    record
}

/// Draws messages until all are delivered; a whole round without a move
/// would be a deadlock.
fn drain_in_any_order(record: &mut Record, random: &mut Random) {
    let count = record.messages();
    while !record.all_delivered() {
        let look = random.below(count);
        let before = record.moves();
        let moved = (0..count).map(|i| (look + i) % count).any(|m| {
            let answer = record.step(m).expect("there");
            match answer {
                Answer::Moved | Answer::Delivered => true,
                Answer::Blocked(by) => {
                    assert!(by != m && by < count);
                    false
                }
                Answer::Already => false,
            }
        });
        assert!(moved);
        assert_eq!(record.moves(), before + 1);
    }
}

/// A message as it is seen from outside: its ends, its hops, and how many of
/// its moves succeeded.
struct Watched {
    source: usize,
    destination: usize,
    hops: usize,
    moves: usize,
}

impl Watched {
    fn all(cabling: &Cabling, list: &[u8]) -> Vec<Watched> {
        let fabric = Fabric::new(network(cabling));
        let message = |two: &[u8]| {
            let (source, destination) = (usize::from(two[0]), usize::from(two[1]));
            let route = follow(&fabric.tables, &fabric.labels, source, destination);
            Watched {
                source,
                destination,
                hops: route.len() - 1,
                moves: 0,
            }
        };
        list.chunks(2).map(message).collect()
    }

    /// Into the network, the hops, out of it, and the delivery.
    fn needed(&self) -> usize {
        self.hops + 3
    }

    fn is_delivered(&self) -> bool {
        self.moves == self.needed()
    }

    /// Whether it has taken its injection channel and is not delivered.
    fn is_inside(&self) -> bool {
        self.moves > 0 && !self.is_delivered()
    }

    /// Whether it has taken its consumption channel and is not delivered.
    fn is_leaving(&self) -> bool {
        self.moves == self.hops + 2
    }

    fn held(&self) -> usize {
        if self.is_delivered() {
            0
        } else {
            self.moves
        }
    }
}

/// One message at a time into and out of each node, and every channel taken
/// is held, each by one message, until its message is delivered.
fn check_one_at_a_time(watched: &[Watched], record: &Record, nodes: usize) {
    for node in 0..nodes {
        let inside = |m: &&Watched| m.is_inside() && m.source == node;
        let leaving = |m: &&Watched| m.is_leaving() && m.destination == node;
        assert!(watched.iter().filter(inside).count() <= 1);
        assert!(watched.iter().filter(leaving).count() <= 1);
    }
    for (number, message) in watched.iter().enumerate() {
        let held = record.held().filter(|&(_, holder)| holder == number);
        assert_eq!(held.count(), message.held());
    }
    let all = watched.iter().map(|m| m.moves).sum();
    assert_eq!(record.moves(), all);
}

/// Tries a message; whether it moved. An answer other than the one that its
/// moves so far call for is a mistake, and so is a holder that holds nothing.
fn try_watched(watched: &mut [Watched], record: &mut Record, number: usize) -> bool {
    let answer = record.step(number).expect("there");
    match answer {
        Answer::Already => assert!(watched[number].is_delivered()),
        Answer::Moved => assert!(watched[number].moves < watched[number].hops + 2),
        Answer::Delivered => assert!(watched[number].is_leaving()),
        Answer::Blocked(by) => assert!(by != number && watched[by].is_inside()),
    }
    let moved = matches!(answer, Answer::Moved | Answer::Delivered);
    watched[number].moves += usize::from(moved);
    moved
}

#[test]
fn one_message_at_a_time_into_and_out_of_a_node() {
    let mut random = Random::new(17);
    for round in 0..600 {
        let cabling = some_network(&mut random, 8);
        let count = random.between(1, 24);
        let list = random_list(cabling.nodes, count, &mut random);
        let mut watched = Watched::all(&cabling, &list);
        let mut record = started(&cabling, &list);
        let mut order: Vec<usize> = (0..count).collect();
        while !watched.iter().all(Watched::is_delivered) {
            if round % 3 != 0 || random.one_in(5) {
                random.shuffle(&mut order);
            }
            let mut tried = order.iter();
            assert!(tried.any(|&m| try_watched(&mut watched, &mut record, m)));
            check_one_at_a_time(&watched, &record, cabling.nodes);
        }
        assert!(record.all_delivered());
        assert_eq!(record.held().count(), 0);
        assert_eq!(record.moves(), watched.iter().map(Watched::needed).sum());
    }
}

/// All pairs of nodes, a node and itself among them.
fn all_ends(nodes: usize) -> Vec<(usize, usize)> {
    let from = |s: usize| (0..nodes).map(move |d| (s, d));
    (0..nodes).flat_map(from).collect()
}

/// Goes through all that moves lead to, by the moves of each message: some
/// message can move until all are delivered.
fn check_every_order(record: Record, needed: &[usize]) {
    let start = vec![0; needed.len()];
    let mut seen = BTreeSet::from([start.clone()]);
    let mut left = vec![(start, record)];
    while let Some((moves, record)) = left.pop() {
        assert_eq!(record.all_delivered(), moves == needed);
        let mut some = false;
        for number in 0..needed.len() {
            let mut next = record.clone();
            let answer = next.step(number).expect("there");
            if !matches!(answer, Answer::Moved | Answer::Delivered) {
                assert_eq!(next, record);
                continue;
            }
            some = true;
            let mut further = moves.clone();
            further[number] += 1;
            if seen.insert(further.clone()) {
                left.push((further, next));
            }
        }
        assert!(some || moves == needed);
    }
}

#[test]
fn every_order_of_three_messages() {
    for cabling in [path(2), path(3), complete(3), ring(4)] {
        let ends = all_ends(cabling.nodes);
        for &first in &ends {
            for &second in &ends {
                for &third in &ends {
                    let list = list(&[first, second, third]);
                    let watched = Watched::all(&cabling, &list);
                    let needed: Vec<usize> = watched.iter().map(Watched::needed).collect();
                    check_every_order(started(&cabling, &list), &needed);
                }
            }
        }
    }
}
