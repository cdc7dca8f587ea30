//! Starts on a used record: it is filled anew, or stays as it was where the
//! start is refused.

use super::cabling::{path, ring, star, Cabling};
use super::limits::long_images;
use super::pack::*;
use super::Case;

/// Each way to use a record, each start on it, and that start again.
pub fn cases() -> Vec<Case> {
    let mut cases = Vec::new();
    let again = Round::new(&ring(5).full_image(), &spread(5, 7), &passes(8, 5));
    for first in first_rounds() {
        for second in second_rounds() {
            let three = [first.clone(), second.clone(), again.clone()];
            cases.push(rounds_call(&three[..2]));
            cases.push(rounds_call(&three));
        }
    }
    cases.extend(before_any_start());
    cases.extend(cut_short());
    cases.extend(long_images().iter().map(|image| refused_between(image)));
    let case = |input| Case::new("restarts", "calls", input);
    cases.into_iter().map(case).collect()
}

/// So many messages, from all nodes and to nodes near and far.
fn spread(nodes: usize, count: usize) -> Vec<u8> {
    let ends = |i: usize| (i % nodes, (i * 3 + 2) % nodes);
    list(&(0..count).map(ends).collect::<Vec<_>>())
}

/// All messages in turn, several times over.
pub fn passes(count: usize, times: usize) -> Vec<usize> {
    (0..times).flat_map(|_| 0..count).collect()
}

/// Records with nothing moved, in the middle, at a standstill, some delivered,
/// all delivered, and full.
fn first_rounds() -> Vec<Round> {
    let image = ring(5).links_image();
    let four = spread(5, 4);
    vec![
        Round::new(&image, &four, &[]),
        Round::new(&image, &four, &passes(4, 1)),
        Round::new(&image, &list(&[(0, 2), (0, 2), (0, 1)]), &[0, 1, 2, 0, 1]),
        Round::new(&image, &four, &[0, 0, 0, 0, 0, 1, 2]),
        Round::new(&image, &four, &passes(4, 20)),
        Round::new(&image, &spread(5, 256), &passes(256, 2)),
    ]
}

/// Starts with the same, with fewer and with more messages, on the same and on
/// other networks, and refused by each number that start knows.
fn second_rounds() -> Vec<Round> {
    let image = ring(5).links_image();
    let mut eight = ring(5).full_image();
    *eight.last_mut().expect("not empty") = 9;
    let two = spread(2, 3);
    let tries = passes(6, 7);
    let mut rounds = vec![
        Round::new(&image, &spread(5, 4), &[]),
        Round::new(&image, &spread(5, 4), &tries),
        Round::new(&image, &[], &tries),
        Round::new(&image, &spread(5, 2), &tries),
        Round::new(&image, &spread(5, 256), &passes(257, 1)),
        Round::new(&path(2).full_image(), &two, &tries),
        Round::new(&star(9).full_image(), &spread(10, 6), &tries),
        Round::new(&path(64).links_image(), &spread(64, 5), &tries),
        Round::new(&image, &[0], &tries),
        Round::new(&image, &vec![0; 514], &tries),
        Round::new(&image, &[0, 1, 0, 5], &tries),
        Round::new(&eight, &two, &tries),
    ];
    let refused = [
        vec![],
        path(65).links_image(),
        [&image[..9], &[1], &image[10..]].concat(),
        Cabling::raw(2, &[(1, 0)]).links_image(),
        Cabling::raw(3, &[(0, 1), (0, 1), (1, 2)]).links_image(),
        star(17).links_image(),
        Cabling::raw(4, &[(0, 1), (2, 3)]).links_image(),
    ];
    let refused = refused.iter();
    rounds.extend(refused.map(|image| Round::new(image, &two, &tries)));
    rounds
}

/// Refused on a record that has no messages yet, and then not.
fn before_any_start() -> Vec<Vec<u8>> {
    let image = ring(4).links_image();
    let refused = Round::new(&[], &[], &[0, 1]);
    let odd = Round::new(&image, &[1], &[0]);
    let started = Round::new(&image, &spread(4, 4), &passes(4, 9));
    let rounds = [refused, odd, started];
    (1..=3).map(|count| rounds_call(&rounds[..count])).collect()
}

/// A whole round, and behind it another that is cut short at each place.
fn cut_short() -> Vec<Vec<u8>> {
    let image = path(2).links_image();
    let rounds = [Round::new(&image, &[], &[]), Round::new(&[], &[], &[0, 1])];
    let first = rounds_call(&rounds[..1]).len();
    let both = rounds_call(&rounds);
    let cuts = first + 1..both.len();
    cuts.map(|size| both[..size].to_vec()).collect()
}

/// A start that is refused for its image, between moves of a ring's messages.
fn refused_between(image: &[u8]) -> Vec<u8> {
    let ring = ring(5).full_image();
    rounds_call(&[
        Round::new(&ring, &spread(5, 4), &passes(4, 2)),
        Round::new(image, &spread(4, 2), &passes(4, 9)),
    ])
}
