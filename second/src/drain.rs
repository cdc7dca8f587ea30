//! The drain machine: a record of messages with the channels of their whole
//! ways and of the channels that are held, its start, and the move of one message.

use crate::calls::accept;
use crate::network::pairs_of;
use crate::refusal::{refusal, Refusal};
use crate::rows::follow;
use std::collections::BTreeMap;

/// The longest list of messages, in bytes.
pub const LONGEST_LIST: usize = 512;

/// Where a channel of a node leads: over a link to the node named, into the
/// network or out of it.
#[derive(Clone, Copy, Debug, PartialEq, Eq, PartialOrd, Ord)]
pub enum End {
    To(usize),
    In,
    Out,
}

/// One direction of a link, or an injection or consumption channel. Channels
/// are in order by node; of one node links come first, then In, then Out.
#[derive(Clone, Copy, Debug, PartialEq, Eq, PartialOrd, Ord)]
pub struct Channel {
    pub node: usize,
    pub end: End,
}

#[derive(Clone, Debug, PartialEq, Eq)]
struct Message {
    way: Vec<Channel>,
    taken: usize,
    delivered: bool,
}

/// The record that start fills and moves change.
#[derive(Clone, Debug, Default, PartialEq, Eq)]
pub struct Record {
    messages: Vec<Message>,
    holders: BTreeMap<Channel, usize>,
    moves: usize,
}

/// What a move answers.
#[derive(Clone, Copy, Debug, PartialEq, Eq)]
pub enum Answer {
    Already,
    Moved,
    Blocked(usize),
    Delivered,
}

impl Channel {
    /// The channel of a hop.
    pub fn link(from: usize, to: usize) -> Channel {
        let end = End::To(to);
        Channel { node: from, end }
    }

    /// The injection channel of a node.
    pub fn injection(node: usize) -> Channel {
        let end = End::In;
        Channel { node, end }
    }

    /// The consumption channel of a node.
    pub fn consumption(node: usize) -> Channel {
        let end = End::Out;
        Channel { node, end }
    }
}

impl Message {
    /// A message that is to go along a route and has taken nothing.
    fn along(route: &[usize]) -> Message {
        let first = route.first().map(|&source| Channel::injection(source));
        let hops = route.windows(2).map(|two| Channel::link(two[0], two[1]));
        let last = route.last().map(|&end| Channel::consumption(end));
        Message {
            way: first.into_iter().chain(hops).chain(last).collect(),
            taken: 0,
            delivered: false,
        }
    }

    fn next_channel(&self) -> Option<Channel> {
        self.way.get(self.taken).copied()
    }
}

impl Record {
    /// Fills the record anew from an image and a list of byte pairs.
    pub fn start(&mut self, image: &[u8], list: &[u8]) -> Result<(), Refusal> {
        let (fabric, _) = accept(image)?;
        if !list.len().is_multiple_of(2) || list.len() > LONGEST_LIST {
            return Err(refusal(11, 0));
        }
        let nodes = fabric.network.nodes();
        let ends = pairs_of(list);
        if let Some(place) = ends.iter().position(|&(s, d)| s >= nodes || d >= nodes) {
            return Err(refusal(10, place));
        }
        let message = |&(source, destination): &(usize, usize)| {
            let route = follow(&fabric.tables, &fabric.labels, source, destination);
            Message::along(&route)
        };
        *self = Record {
            messages: ends.iter().map(message).collect(),
            holders: BTreeMap::new(),
            moves: 0,
        };
        Ok(())
    }

    /// Moves one message, if it can.
    pub fn step(&mut self, number: usize) -> Result<Answer, Refusal> {
        let message = self.messages.get_mut(number).ok_or(refusal(10, 0))?;
        if message.delivered {
            return Ok(Answer::Already);
        }
        let Some(channel) = message.next_channel() else {
            message.delivered = true;
            self.holders.retain(|_, holder| *holder != number);
            self.moves += 1;
            return Ok(Answer::Delivered);
        };
        if let Some(&holder) = self.holders.get(&channel) {
            return Ok(Answer::Blocked(holder));
        }
        message.taken += 1;
        self.holders.insert(channel, number);
        self.moves += 1;
        Ok(Answer::Moved)
    }

    /// The number of messages.
    pub fn messages(&self) -> usize {
        self.messages.len()
    }

    /// The successful moves since the start.
    pub fn moves(&self) -> usize {
        self.moves
    }

    /// The messages that are delivered, in rising order.
    pub fn delivered(&self) -> impl Iterator<Item = usize> + '_ {
        let all = self.messages.iter().enumerate();
        all.filter(|(_, message)| message.delivered).map(|(i, _)| i)
    }

    /// The channels that are held, in rising order, each with its message.
    pub fn held(&self) -> impl Iterator<Item = (Channel, usize)> + '_ {
        self.holders
            .iter()
            .map(|(&channel, &holder)| (channel, holder))
    }

    pub fn all_delivered(&self) -> bool {
        self.messages.iter().all(|message| message.delivered)
    }
}
