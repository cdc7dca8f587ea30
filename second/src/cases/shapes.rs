//! Regular shapes, each under its own numbers and under reversed ones.

use super::cabling::*;
use super::pack::{network_cases, random_list};
use super::random::Random;
use super::{Case, Set};

pub fn cases(set: Set) -> Vec<Case> {
    let shapes = match set {
        Set::Small => small(),
        Set::Large => large(),
    };
    let mut random = Random::new(1);
    let mut cases = Vec::new();
    for (i, cabling) in shapes.iter().enumerate() {
        let count = (2 * cabling.nodes).min(256);
        let messages = random_list(cabling.nodes, count, &mut random);
        let seed = random.draw() as u32;
        cases.extend(network_cases("shapes", cabling, &messages, seed));
        let reversed = cabling.reversed();
        let links = reversed.links_image();
        cases.push(Case::new("shapes", "build", links));
        cases.push(Case::new("shapes", "show", reversed.full_image()));
        cases.push(match i % 2 {
            0 => Case::new("shapes", "cable", cabling.sheet()),
            _ => Case::new("shapes", "sheet", cabling.links_image()),
        });
    }
    cases
}

fn small() -> Vec<Cabling> {
    let mut list: Vec<Cabling> = (2..=7).map(path).collect();
    list.extend((3..=7).map(ring));
    list.extend((1..=6).map(star));
    list.extend((3..=6).map(complete));
    list.extend([grid(2, 2), grid(2, 3), grid(3, 3), torus(3, 3)]);
    list.extend([cube(1), cube(2), cube(3)]);
    list.extend([two_sides(2, 3), two_sides(3, 3), wheel(5), halving_tree(7)]);
    list.extend([chain_of_blocks(2, 3), chain_of_blocks(3, 4)]);
    list.extend([ring_of_blocks(3, 3), block_and_tail(4, 3)]);
    list
}

fn large() -> Vec<Cabling> {
    let mut list = small();
    list.extend([8, 16, 31, 32, 33, 48, 63, 64].map(path));
    list.extend([8, 9, 16, 31, 32, 33, 63, 64].map(ring));
    list.extend((7..=16).map(star));
    list.extend((7..=17).map(complete));
    list.extend(grids().map(|(r, c)| grid(r, c)));
    list.extend(tori().map(|(r, c)| torus(r, c)));
    list.extend((4..=6).map(cube));
    list.extend([two_sides(16, 16), two_sides(4, 16), two_sides(1, 9)]);
    list.extend([wheel(3), wheel(16), halving_tree(31), halving_tree(64)]);
    list.extend([chain_of_blocks(21, 4), chain_of_blocks(7, 9)]);
    list.extend([ring_of_blocks(4, 16), ring_of_blocks(16, 4)]);
    list.extend([block_and_tail(16, 48), block_and_tail(3, 61)]);
    list.extend([5, 10, 33, 64].map(|nodes| circulant(nodes, &[1, 2])));
    list.extend([circulant(64, &[1, 8]), circulant(64, &[1, 13, 21])]);
    list.extend([largest(), hall()]);
    list
}

fn grids() -> [(usize, usize); 7] {
    [(1, 9), (2, 32), (3, 5), (4, 16), (5, 5), (7, 9), (8, 8)]
}

fn tori() -> [(usize, usize); 6] {
    [(3, 4), (3, 21), (4, 4), (4, 16), (5, 7), (8, 8)]
}
