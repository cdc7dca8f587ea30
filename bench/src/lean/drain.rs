//! A whole drain: each message keeps its next channel and those it holds.

use super::image::{bodies, Fabric};
use crate::work::next_seed;

/// Channels by number: 64 a + b from a to b, then the injection channel of
/// each node, then the consumption channel of each.
const INJECTION: usize = 64 * 64;
const CONSUMPTION: usize = INJECTION + 64;
const CHANNELS: usize = CONSUMPTION + 64;

/// In the place of a next channel.
const DELIVERED: usize = usize::MAX;
const ALL_TAKEN: usize = usize::MAX - 1;

struct Message {
    at: usize,
    target: usize,
    falling: bool,
    next: usize,
    held: Vec<usize>,
}

struct Machine {
    fabric: Fabric,
    messages: Vec<Message>,
    held: [bool; CHANNELS],
}

/// Starts, moves until all are delivered, and answers the moves.
pub fn drain(image: &[u8], list: &[u8], seed: u32) -> Option<usize> {
    drain_telling(image, list, seed, |_| ())
}

/// The same, and tells each message that moves.
pub fn drain_telling(
    image: &[u8],
    list: &[u8],
    mut seed: u32,
    mut tell: impl FnMut(usize),
) -> Option<usize> {
    let mut machine = start(image, list)?;
    let count = machine.messages.len();
    let mut left = count;
    let mut moves = 0;
    while left > 0 {
        seed = next_seed(seed);
        let look = (seed >> 16) as usize % count;
        let m = machine.ready_from(look)?;
        tell(m);
        left -= usize::from(machine.step(m));
        moves += 1;
    }
    Some(moves)
}

fn start(image: &[u8], list: &[u8]) -> Option<Machine> {
    let (links, tables) = bodies(image)?;
    let fabric = Fabric::new(links)?;
    let differs = tables.is_some_and(|kept| kept != fabric.tables);
    let strange = list.iter().any(|&v| usize::from(v) >= fabric.nodes);
    if differs || strange || !list.len().is_multiple_of(2) || list.len() > 512 {
        return None;
    }
    let message = |pair: &[u8]| Message {
        at: usize::from(pair[0]),
        target: usize::from(pair[1]),
        falling: false,
        next: INJECTION + usize::from(pair[0]),
        held: Vec::new(),
    };
    let messages = list.chunks_exact(2).map(message).collect();
    Some(Machine {
        fabric,
        messages,
        held: [false; CHANNELS],
    })
}

impl Message {
    /// Takes the next channel, and finds the one after it.
    fn take(&mut self, fabric: &Fabric) {
        let taken = self.next;
        self.held.push(taken);
        if taken >= CONSUMPTION {
            self.next = ALL_TAKEN;
            return;
        }
        if taken < INJECTION {
            let to = taken % 64;
            self.falling |= fabric.tables[to] < fabric.tables[self.at];
            self.at = to;
        }
        self.look_ahead(fabric);
    }

    /// The channel of the next hop, or that out of the network.
    fn look_ahead(&mut self, fabric: &Fabric) {
        if self.at == self.target {
            self.next = CONSUMPTION + self.target;
            return;
        }
        let nodes = fabric.nodes;
        let table = if self.falling {
            nodes + nodes * nodes
        } else {
            nodes
        };
        let entry = fabric.tables[table + self.at * nodes + self.target];
        self.next = 64 * self.at + usize::from(entry);
    }
}

impl Machine {
    /// The first undelivered, unblocked message from there on, going round.
    fn ready_from(&self, look: usize) -> Option<usize> {
        let ready = |&m: &usize| match self.messages[m].next {
            DELIVERED => false,
            ALL_TAKEN => true,
            channel => !self.held[channel],
        };
        let count = self.messages.len();
        (look..count).chain(0..look).find(ready)
    }

    /// Moves a message that is ready; answers whether it was delivered.
    fn step(&mut self, m: usize) -> bool {
        let message = &mut self.messages[m];
        if message.next == ALL_TAKEN {
            message.next = DELIVERED;
            for &channel in &message.held {
                self.held[channel] = false;
            }
            return true;
        }
        self.held[message.next] = true;
        message.take(&self.fabric);
        false
    }
}
