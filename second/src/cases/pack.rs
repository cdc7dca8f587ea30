//! Inputs put together: the arguments of `calls`, drain inputs, images with
//! any kinds and bodies, and the cases that every network gives.

use super::cabling::Cabling;
use super::random::Random;
use super::Case;
use crate::calls::accept;

/// The input of `calls`, argument by argument.
pub struct Pack {
    input: Vec<u8>,
}

impl Pack {
    pub fn call(selector: u8) -> Pack {
        Pack {
            input: vec![selector],
        }
    }

    pub fn number(mut self, number: usize) -> Pack {
        let short = u16::try_from(number).expect("a number of 16 bits");
        self.input.extend(short.to_le_bytes());
        self
    }

    pub fn long_number(mut self, number: u64) -> Pack {
        self.input.extend(number.to_le_bytes());
        self
    }

    /// The length in 32 bits, and the bytes.
    pub fn bytes(mut self, bytes: &[u8]) -> Pack {
        let length = u32::try_from(bytes.len()).expect("a length of 32 bits");
        self.input.extend(length.to_le_bytes());
        self.input.extend_from_slice(bytes);
        self
    }

    pub fn numbers(self, numbers: &[usize]) -> Pack {
        numbers
            .iter()
            .fold(self, |pack, &number| pack.number(number))
    }

    pub fn done(self) -> Vec<u8> {
        self.input
    }
}

pub fn entry_call(image: &[u8], number: u64) -> Vec<u8> {
    Pack::call(0).bytes(image).long_number(number).done()
}

pub fn walk_call(image: &[u8], steps: usize) -> Vec<u8> {
    Pack::call(1).bytes(image).number(steps).done()
}

/// Row's numbers are N, node, class.
pub fn row_call(free: &[u8], falling: &[u8], numbers: [usize; 3]) -> Vec<u8> {
    let tables = Pack::call(2).bytes(free).bytes(falling);
    tables.numbers(&numbers).done()
}

/// What a switch has to hop by: labels and both tables, an image's or not.
#[derive(Clone, Debug, PartialEq, Eq)]
pub struct Board {
    pub labels: Vec<u8>,
    pub free: Vec<u8>,
    pub falling: Vec<u8>,
}

impl Board {
    pub fn new(labels: &[u8], free: &[u8], falling: &[u8]) -> Board {
        Board {
            labels: labels.to_vec(),
            free: free.to_vec(),
            falling: falling.to_vec(),
        }
    }

    /// The cabling's own; it must be an accepted one.
    pub fn of(cabling: &Cabling) -> Board {
        let (fabric, _) = accept(&cabling.links_image()).expect("an accepted cabling");
        let tables = &fabric.tables;
        Board::new(&fabric.label_bytes(), &tables.free, &tables.falling)
    }
}

/// Hop's numbers are N, node, class, destination.
pub fn hop_call(board: &Board, numbers: [usize; 4]) -> Vec<u8> {
    let lent = Pack::call(3).bytes(&board.labels).bytes(&board.free);
    lent.bytes(&board.falling).numbers(&numbers).done()
}

/// A record that no start made, its messages and their classes, and those
/// that are to move in it.
pub fn moves_call(
    nodes: usize,
    board: &Board,
    list: &[u8],
    classes: &[u8],
    named: &[usize],
) -> Vec<u8> {
    let labels = Pack::call(12).number(nodes).bytes(&board.labels);
    let tables = labels.bytes(&board.free).bytes(&board.falling);
    let messages = tables.bytes(list).bytes(classes);
    messages.number(named.len()).numbers(named).done()
}

pub fn route_call(image: &[u8], source: usize, destination: usize, room: usize) -> Vec<u8> {
    let image = Pack::call(4).bytes(image);
    image.numbers(&[source, destination, room]).done()
}

pub fn read_call(image: &[u8], room: usize) -> Vec<u8> {
    Pack::call(5).bytes(image).number(room).done()
}

pub fn write_call(nodes: usize, full: usize, pairs: &[u8], room: usize) -> Vec<u8> {
    let cabling = Pack::call(6).numbers(&[nodes, full]).bytes(pairs);
    cabling.number(room).done()
}

pub fn build_call(image: &[u8], room: usize) -> Vec<u8> {
    Pack::call(7).bytes(image).number(room).done()
}

pub fn cable_call(sheet: &[u8], room: usize) -> Vec<u8> {
    Pack::call(10).bytes(sheet).number(room).done()
}

pub fn sheet_call(image: &[u8], room: usize) -> Vec<u8> {
    Pack::call(11).bytes(image).number(room).done()
}

/// A start and the messages that are to move after it.
#[derive(Clone, Debug)]
pub struct Round {
    pub image: Vec<u8>,
    pub list: Vec<u8>,
    pub named: Vec<usize>,
}

impl Round {
    pub fn new(image: &[u8], list: &[u8], named: &[usize]) -> Round {
        Round {
            image: image.to_vec(),
            list: list.to_vec(),
            named: named.to_vec(),
        }
    }
}

/// Rounds one after the other on one record.
pub fn rounds_call(rounds: &[Round]) -> Vec<u8> {
    let round = |pack: Pack, round: &Round| {
        let start = pack.bytes(&round.image).bytes(&round.list);
        start.number(round.named.len()).numbers(&round.named)
    };
    rounds.iter().fold(Pack::call(8), round).done()
}

pub fn steps_call(image: &[u8], list: &[u8], messages: &[usize]) -> Vec<u8> {
    rounds_call(&[Round::new(image, list, messages)])
}

pub fn trace_call(drain_input: &[u8]) -> Vec<u8> {
    Pack::call(9).bytes(drain_input).done()
}

/// Image length, image, seed, pairs.
pub fn drain_input(image: &[u8], seed: u32, list: &[u8]) -> Vec<u8> {
    let mut input = (image.len() as u16).to_le_bytes().to_vec();
    input.extend_from_slice(image);
    input.extend(seed.to_le_bytes());
    input.extend_from_slice(list);
    input
}

/// A list of messages as bytes.
pub fn list(messages: &[(usize, usize)]) -> Vec<u8> {
    let both = |&(source, destination): &(usize, usize)| [source as u8, destination as u8];
    messages.iter().flat_map(both).collect()
}

/// Messages for a network: across, round, to one node, to itself, or drawn.
pub fn random_list(nodes: usize, count: usize, random: &mut Random) -> Vec<u8> {
    let form = random.below(6);
    let (step, end) = (random.below(nodes), random.below(nodes));
    let mut message = |i: usize| match form {
        0 => (i % nodes, (i + nodes / 2) % nodes),
        1 => (i % nodes, (i + step) % nodes),
        2 => (random.below(nodes), end),
        3 => (end, random.below(nodes)),
        _ => (random.below(nodes), random.below(nodes)),
    };
    let messages: Vec<_> = (0..count).map(&mut message).collect();
    list(&messages)
}

/// The length of a cabling's full image.
pub fn full_length(cabling: &Cabling) -> usize {
    let nodes = cabling.nodes;
    28 + 2 * cabling.pairs.len() + nodes + 2 * nodes * nodes
}

/// The length of a cabling's links image.
pub fn links_length(cabling: &Cabling) -> usize {
    10 + 2 * cabling.pairs.len()
}

/// What every accepted network is put through.
pub fn network_cases(
    family: &'static str,
    cabling: &Cabling,
    messages: &[u8],
    seed: u32,
) -> Vec<Case> {
    let (links, full) = (cabling.links_image(), cabling.full_image());
    let room = 2 * cabling.pairs.len() + 3;
    vec![
        Case::new(family, "build", links.clone()),
        Case::new(family, "build", full.clone()),
        Case::new(family, "show", links.clone()),
        Case::new(family, "show", full.clone()),
        Case::new(family, "drain", drain_input(&links, seed, messages)),
        Case::new(
            family,
            "calls",
            trace_call(&drain_input(&full, seed, messages)),
        ),
        Case::new(family, "calls", read_call(&links, room)),
        Case::new(family, "calls", read_call(&full, room - 3)),
    ]
}
