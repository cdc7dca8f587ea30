//! The networks worked by hand, with the values of RULES 11.

use second::calls::{accept, build, read, write, Fabric, Read};
use second::cases::cabling::*;
use second::cases::pack::{drain_input, full_length, list, trace_call};
use second::cases::worked::ring_messages;
use second::drain::{Answer, Channel, Record};
use second::image::{entry, Walker};
use second::label::prohibited;
use second::programs::{drain, drained, run, show};
use second::rows::row;

fn fabric(cabling: &Cabling) -> Fabric {
    accept(&cabling.links_image()).expect("accepted").0
}

fn labels(cabling: &Cabling) -> Vec<usize> {
    fabric(cabling).labels
}

fn w(cabling: &Cabling) -> usize {
    let fabric = fabric(cabling);
    prohibited(&fabric.network, &fabric.labels)
}

fn t(cabling: &Cabling) -> usize {
    fabric(cabling).network.turns()
}

#[test]
fn one_link() {
    let cabling = Cabling::raw(2, &[(0, 1)]);
    assert_eq!(labels(&cabling), [1, 2]);
    let links = [1, 1, 1, 0, 8, 0, 4, 0, 2, 0, 0, 1];
    assert_eq!(cabling.links_image(), links);
    let mut out = [0; 12];
    assert_eq!(write(2, &[0, 1], false, &mut out), Ok(12));
    assert_eq!(out, links);
    let full = cabling.full_image();
    assert_eq!(full.len(), 40);
    let bodies = [2, 0, 0, 1, 1, 2, 0, 1, 0, 1, 0, 255, 0, 1];
    assert_eq!(full[26..], bodies);
    let contents = [
        1, 4, 1, 0, 26, 0, 4, 0, 2, 0, 30, 0, 2, 0, 3, 0, 32, 0, 4, 0, 4, 0, 36, 0, 4, 0,
    ];
    assert_eq!(full[..26], contents);
}

#[test]
fn triangle_and_path() {
    assert_eq!(labels(&complete(3)), [1, 2, 3]);
    assert_eq!((t(&complete(3)), w(&complete(3))), (3, 1));
    assert_eq!(labels(&path(3)), [1, 2, 3]);
    assert_eq!(w(&path(3)), 0);
}

#[test]
fn four_in_a_ring() {
    let fabric = fabric(&ring(4));
    assert_eq!(ring(4).pairs, [(0, 1), (0, 3), (1, 2), (2, 3)]);
    assert_eq!(fabric.labels, [1, 2, 3, 4]);
    let none = 255;
    let falling = [
        [0, none, none, none],
        [0, 1, none, none],
        [1, 1, 2, none],
        [0, 2, 2, 3],
    ];
    assert_eq!(fabric.tables.falling, falling.concat());
    let text = "fabric 4 4 4 1\n0 1 0 1 1 3\n1 2 0 1 2 2\n2 3 1 1 2 3\n3 4 0 2 2 3\n";
    assert_eq!(show(&ring(4).links_image()), text.as_bytes());
    assert_eq!(show(&ring(4).full_image()), text.as_bytes());
}

#[test]
fn hub_and_four_all_linked() {
    assert_eq!(labels(&star(3)), [3, 1, 2, 4]);
    assert_eq!((t(&complete(4)), w(&complete(4))), (12, 4));
}

#[test]
fn the_network_of_26_nodes() {
    let cabling = hall();
    assert_eq!(cabling.pairs.len(), 8 + 4 + 4 * 10);
    assert_eq!(labels(&cabling)[7], 1);
    let degrees = cabling.degrees();
    assert_eq!((degrees[0], degrees[1], degrees[7]), (4, 4, 4));
}

#[test]
fn messages_on_the_ring() {
    for seed in 0..200 {
        let input = drain_input(&ring(4).links_image(), seed, &ring_messages());
        assert_eq!(drain(&input), b"drained 4 20\n");
    }
    let input = drain_input(&ring(4).full_image(), 0, &ring_messages());
    let run = drained(&input).expect("accepted");
    assert_eq!(run.steps[0], (2, 2));
    assert_eq!(run.steps.len(), 20);
    let traced = second::protocol::calls(&trace_call(&input));
    assert!(traced.starts_with(b"2 2\n") && traced.ends_with(b"\ndrained 4 20\n"));
}

#[test]
fn moves_one_by_one() {
    let image = ring(4).links_image();
    let mut record = Record::default();
    let messages = list(&[(0, 2), (0, 1), (1, 0), (3, 3)]);
    record.start(&image, &messages).expect("accepted");
    assert_eq!(record.step(0), Ok(Answer::Moved));
    assert_eq!(record.step(1), Ok(Answer::Blocked(0)));
    assert_eq!(record.step(2), Ok(Answer::Moved));
    assert_eq!(record.step(3), Ok(Answer::Moved));
    assert_eq!(record.step(3), Ok(Answer::Moved));
    assert_eq!(record.step(3), Ok(Answer::Delivered));
    assert_eq!(record.step(3), Ok(Answer::Already));
    assert_eq!(tries(&mut record, &[0, 2, 2, 0, 0]), [Answer::Moved; 5]);
    assert_eq!(record.step(1), Ok(Answer::Blocked(0)));
    assert_eq!(record.moves(), 10);
    assert_eq!(record.step(0), Ok(Answer::Delivered));
    assert_eq!(tries(&mut record, &[1, 1, 1]), [Answer::Moved; 3]);
    assert_eq!(record.step(2), Ok(Answer::Delivered));
    assert_eq!(record.step(1), Ok(Answer::Delivered));
    assert_eq!((record.moves(), record.held().count()), (16, 0));
    record.start(&image, &[]).expect("accepted");
    assert_eq!((record.messages(), record.moves()), (0, 0));
}

fn started(cabling: &Cabling, ends: &[(usize, usize)]) -> Record {
    let mut record = Record::default();
    let start = record.start(&cabling.links_image(), &list(ends));
    start.expect("accepted");
    record
}

fn tries(record: &mut Record, named: &[usize]) -> Vec<Answer> {
    let answer = |&m: &usize| record.step(m).expect("there");
    named.iter().map(answer).collect()
}

#[test]
fn messages_on_the_link() {
    use Answer::{Blocked, Delivered, Moved};
    let mut alone = started(&path(2), &[(0, 1)]);
    let four = [Moved, Moved, Moved, Delivered];
    assert_eq!(tries(&mut alone, &[0; 4]), four);
    let mut itself = started(&path(2), &[(0, 0)]);
    assert_eq!(tries(&mut itself, &[0; 3]), [Moved, Moved, Delivered]);
    let mut behind = started(&path(2), &[(0, 1), (0, 1)]);
    let six = [Moved, Blocked(0), Moved, Moved, Delivered, Moved];
    assert_eq!(tries(&mut behind, &[0, 1, 0, 0, 0, 1]), six);
    let mut behind = started(&path(2), &[(0, 1), (0, 1)]);
    for _ in 0..3 {
        assert_eq!(tries(&mut behind, &[0, 1]), [Moved, Blocked(0)]);
    }
    assert_eq!(tries(&mut behind, &[0, 1]), [Delivered, Moved]);
    let one = drain_input(&path(2).links_image(), 0, &[0, 1]);
    assert_eq!(drain(&one), b"drained 1 4\n");
    let one = drain_input(&path(2).links_image(), 0, &[1, 1]);
    assert_eq!(drain(&one), b"drained 1 3\n");
}

#[test]
fn against_each_other_on_the_link_in_every_order() {
    let mut orders = 0;
    for bits in 0..256_usize {
        let named: Vec<usize> = (0..8).map(|i| bits >> i & 1).collect();
        if named.iter().sum::<usize>() != 4 {
            continue;
        }
        orders += 1;
        let mut record = started(&path(2), &[(0, 1), (1, 0)]);
        for (place, &m) in named.iter().enumerate() {
            let before = named[..place].iter().filter(|&&n| n == m).count();
            let expected = match before {
                3 => Answer::Delivered,
                _ => Answer::Moved,
            };
            assert_eq!(record.step(m), Ok(expected));
        }
        assert!(record.all_delivered() && record.held().count() == 0);
    }
    assert_eq!(orders, 70);
}

#[test]
fn at_the_middle_of_a_path() {
    use Answer::{Blocked, Delivered, Moved};
    let mut meet = started(&path(3), &[(0, 1), (2, 1)]);
    assert_eq!(tries(&mut meet, &[0, 1, 0, 1, 0]), [Moved; 5]);
    assert_eq!(tries(&mut meet, &[1, 1]), [Blocked(0); 2]);
    assert_eq!(tries(&mut meet, &[0, 1, 1]), [Delivered, Moved, Delivered]);
    let mut part = started(&path(3), &[(1, 0), (1, 2)]);
    for _ in 0..3 {
        assert_eq!(tries(&mut part, &[0, 1]), [Moved, Blocked(0)]);
    }
    let rest = [Delivered, Moved, Moved, Moved, Delivered];
    assert_eq!(tries(&mut part, &[0, 1, 1, 1, 1]), rest);
    let mut pass = started(&path(3), &[(1, 1), (0, 2), (1, 1)]);
    assert_eq!(tries(&mut pass, &[0, 0, 1, 1, 1, 1]), [Moved; 6]);
    assert_eq!(
        tries(&mut pass, &[2, 1, 2]),
        [Blocked(0), Delivered, Blocked(0)]
    );
    assert_eq!(
        tries(&mut pass, &[0, 2, 2, 2]),
        [Delivered, Moved, Moved, Delivered]
    );
}

#[test]
fn channels_in_order() {
    let mut record = started(&path(3), &[(0, 2), (1, 0), (2, 1)]);
    let named = [0, 0, 0, 0, 1, 1, 1, 2, 2, 2];
    assert_eq!(tries(&mut record, &named), [Answer::Moved; 10]);
    let held = [
        (Channel::link(0, 1), 0),
        (Channel::injection(0), 0),
        (Channel::consumption(0), 1),
        (Channel::link(1, 0), 1),
        (Channel::link(1, 2), 0),
        (Channel::injection(1), 1),
        (Channel::consumption(1), 2),
        (Channel::link(2, 1), 2),
        (Channel::injection(2), 2),
        (Channel::consumption(2), 0),
    ];
    assert_eq!(record.held().collect::<Vec<_>>(), held);
    assert_eq!(record.step(1), Ok(Answer::Delivered));
    let left = held.into_iter().filter(|&(_, holder)| holder != 1);
    assert!(record.held().eq(left));
}

#[test]
fn listed_refusals() {
    let both = |image: &[u8], text: &str| {
        for program in ["build", "show"] {
            assert_eq!(run(program, image).expect("known"), text.as_bytes());
        }
    };
    both(&[], "refused 1 0\n");
    both(&Cabling::raw(1, &[]).links_image(), "refused 2 0\n");
    both(&path(65).links_image(), "refused 2 0\n");
    let many = second::cases::limits::too_many_pairs();
    assert_eq!(many.pairs.len(), 513);
    both(&many.links_image(), "refused 3 0\n");
    both(&Cabling::raw(2, &[(1, 0)]).links_image(), "refused 4 0\n");
    let twice = Cabling::raw(3, &[(0, 1), (0, 1), (1, 2)]);
    both(&twice.links_image(), "refused 5 1\n");
    both(&star(17).links_image(), "refused 6 0\n");
    both(
        &Cabling::raw(4, &[(0, 1), (2, 3)]).links_image(),
        "refused 7 2\n",
    );
    assert!(accept(&path(64).links_image()).is_ok());
    assert!(accept(&star(16).links_image()).is_ok());
    assert!(accept(&largest().links_image()).is_ok());
    let none = drain_input(&ring(4).links_image(), 0, &[]);
    assert_eq!(drain(&none), b"drained 0 0\n");
}

#[test]
fn full_images_have_their_length_and_read_back() {
    for cabling in [path(2), ring(4), hall(), largest()] {
        let mut out = vec![77; 10_000];
        let length = build(&cabling.links_image(), &mut out).expect("built");
        assert_eq!(length, full_length(&cabling));
        assert!(out[length..].iter().all(|&byte| byte == 77));
        let mut pairs = vec![0; 2 * cabling.pairs.len()];
        let answer = read(&out[..length], &mut pairs);
        let expected = Read {
            nodes: cabling.nodes,
            links: cabling.pairs.len(),
            full: true,
        };
        assert_eq!(answer, Ok(expected));
        assert_eq!(pairs, cabling.pair_bytes());
    }
}

#[test]
fn walking_the_contents() {
    let image = ring(4).full_image();
    let mut walker = Walker::new(&image);
    let kinds: Vec<u8> = (0..4).map(|_| walker.step().expect("there").kind).collect();
    assert_eq!(kinds, [1, 2, 3, 4]);
    assert_eq!(walker.step(), None);
    assert_eq!(walker.step(), None);
    assert_eq!(entry(&image, u64::MAX), None);
    assert_eq!(entry(&image[..25], 3), None);
    assert!(entry(&image[..26], 3).is_some());
    assert_eq!(entry(&[9, 255], 0), None);
    assert_eq!(entry(&[9], 0), None);
}

#[test]
fn rows_are_parts_of_the_lent_tables() {
    let free: Vec<u8> = (0..9).collect();
    let falling: Vec<u8> = (100..109).collect();
    assert_eq!(row(&free, &falling, 3, 1, 0), [3, 4, 5]);
    let part = row(&free, &falling, 3, 2, 1);
    assert!(std::ptr::eq(part, &falling[6..9]));
    assert!(row(&free, &falling, 3, 3, 0).is_empty());
    assert!(row(&free, &falling, 3, 0, 2).is_empty());
    assert!(row(&free, &falling, 2, 0, 0).is_empty());
    assert!(row(&free, &falling[1..], 3, 0, 0).is_empty());
    assert!(row(&[0], &[0], 1, 0, 0).is_empty());
}

#[test]
fn networks_marked_run() {
    let text = String::from_utf8(run("worked", &[]).expect("a program")).expect("text");
    let last = [
        "no input: refused 1 0",
        "1 node: refused 2 0",
        "65 nodes: refused 2 0",
        "64 nodes in a path: accepted",
        "513 pairs: refused 3 0",
        "the pair 1 0: refused 4 0",
        "a pair twice: refused 5 1",
        "degree 16: accepted",
        "degree 17: refused 6 0",
        "links 0-1 and 2-3: refused 7 2",
        "no messages: drained 0 0",
        "an empty sheet: refused 12 0",
        "links 0-1 and 2-3 on a sheet: refused 7 2",
        "a pair twice on a sheet: refused 5 1",
        "a sheet's last line not closed: refused 12 1",
        "two spaces on a sheet: refused 12 1",
        "an empty line alone: refused 12 0",
        "a sheet of one node: refused 2 0",
        "the pair (1, 0) on a sheet: refused 4 0",
    ];
    let lines: Vec<&str> = text.lines().collect();
    assert!(lines.ends_with(&last));
    assert!(text.contains("3 4 0 2 2 3\ndrained 4 20\nlooks 2\nfalling"));
    let drains = "image 1 1 1 0 8 0 4 0 2 0 0 1\n\
        drained 1 4\nlooks 0\ndrained 1 3\nlooks 0\nimage 1 4 1 ";
    assert!(text.contains(drains));
    assert_eq!(text.matches("\nlooks ").count(), 3);
    let link = "falling 0 255 0 1\nsheet 50 10 48 32 49 10\nfabric 3 3 3 1\n";
    assert!(text.contains(link));
    let hops = "falling 0 255 255 255 0 1 255 255 1 1 2 255 0 2 2 3\n\
        hop 0 0 2 1 0\nhop 2 0 0 1 1\nhop 1 1 0 0 1\nhop 0 1 2 none\nhop 3 1 3 3 1\n\
        sheet 52 10 ";
    assert!(text.contains(hops));
    let hub = "\nhop 1 0 3 0 0\nhop 0 0 3 3 0\nfabric 4 6 12 4\n";
    assert!(text.contains(hub));
    assert_eq!(text.matches("\nhop ").count(), 7);
    let ring = "sheet 52 10 48 32 49 10 48 32 51 10 49 32 50 10 50 32 51 10\nfabric 4 3 3 0\n";
    assert!(text.contains(ring));
}
