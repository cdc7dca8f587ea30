//! Networks on which free rows used after a fall give another route, and the
//! messages for which they do.

use super::cabling::Cabling;
use super::growing::random_connected;
use super::random::Random;
use super::Set;
use crate::calls::{accept, Fabric};
use crate::rows::follow;

/// A network and the ends of all its routes that need the falling rows.
pub struct Turning {
    pub cabling: Cabling,
    pub ends: Vec<(usize, usize)>,
}

/// Draws networks until one has such routes.
pub fn random_turning(random: &mut Random, set: Set) -> Turning {
    loop {
        let nodes = match set {
            Set::Small => random.between(9, 12),
            Set::Large => random.between(9, 64),
        };
        let links = nodes * random.between(3, 4) / 2;
        let cabling = random_connected(nodes, links, random);
        let ends = turning_ends(&cabling);
        if !ends.is_empty() {
            return Turning { cabling, ends };
        }
    }
}

fn turning_ends(cabling: &Cabling) -> Vec<(usize, usize)> {
    let (fabric, _) = accept(&cabling.links_image()).expect("an accepted cabling");
    let from = |s: usize| (0..cabling.nodes).map(move |d| (s, d));
    (0..cabling.nodes)
        .flat_map(from)
        .filter(|&(s, d)| needs_falling(&fabric, s, d))
        .collect()
}

/// Whether the free rows alone lead another way than the lawful route.
fn needs_falling(fabric: &Fabric, source: usize, destination: usize) -> bool {
    let nodes = fabric.labels.len();
    let route = follow(&fabric.tables, &fabric.labels, source, destination);
    let free = |at: usize| usize::from(fabric.tables.free[at * nodes + destination]);
    route.windows(2).any(|two| free(two[0]) != two[1])
}
