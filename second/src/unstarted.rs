//! A drain record that no start made: any labels, tables, messages and
//! classes, and the move of one message, whose hop is asked for only then.

use crate::drain::{Answer, Channel};
use crate::network::{pairs_of, MOST_NODES};
use crate::refusal::{refusal, Refusal};
use crate::rows::{hop, Lent, Next};
use std::collections::{BTreeMap, BTreeSet};

/// The most messages that a record has.
const MOST_MESSAGES: usize = 256;

/// How far a message is: it has taken nothing, or its source's injection
/// channel and any hops, or also its target's consumption channel.
#[derive(Clone, Copy, Debug, PartialEq, Eq)]
enum Stage {
    Outside,
    Inside,
    Leaving,
}

#[derive(Clone, Copy, Debug, PartialEq, Eq)]
struct Message {
    stage: Stage,
    head: usize,
    class: usize,
    target: usize,
}

/// N, labels and tables as they were given, and how far the messages are.
#[derive(Clone, Debug, PartialEq, Eq)]
pub struct Unstarted {
    nodes: usize,
    labels: Vec<u8>,
    free: Vec<u8>,
    falling: Vec<u8>,
    messages: Vec<Message>,
    delivered: BTreeSet<usize>,
    held: BTreeMap<Channel, usize>,
    moves: usize,
}

/// The first bytes, and zeros behind where there are fewer.
fn filled(bytes: &[u8], length: usize) -> Vec<u8> {
    let zeros = std::iter::repeat(0);
    bytes.iter().copied().chain(zeros).take(length).collect()
}

impl Unstarted {
    /// Nothing is checked: each message is at its source and has taken nothing,
    /// its class is the byte of its number, and one that is not given is 0.
    pub fn new(given: &Lent, list: &[u8], classes: &[u8]) -> Unstarted {
        let table = MOST_NODES * MOST_NODES;
        let message = |((source, target), class)| Message {
            stage: Stage::Outside,
            head: source,
            class: usize::from(class),
            target,
        };
        let classes = filled(classes, MOST_MESSAGES);
        let messages = pairs_of(list).into_iter().zip(classes);
        Unstarted {
            nodes: given.nodes,
            labels: filled(given.labels, MOST_NODES),
            free: filled(given.free, table),
            falling: filled(given.falling, table),
            messages: messages.map(message).collect(),
            delivered: BTreeSet::new(),
            held: BTreeMap::new(),
            moves: 0,
        }
    }

    /// Moves one message, if it can; where there is no such message, or no
    /// channel comes next for it, that is a refusal and nothing changes.
    pub fn step(&mut self, number: usize) -> Result<Answer, Refusal> {
        let message = *self.messages.get(number).ok_or(refusal(10, 0))?;
        if self.delivered.contains(&number) {
            return Ok(Answer::Already);
        }
        if message.stage == Stage::Leaving {
            self.delivered.insert(number);
            self.held.retain(|_, holder| *holder != number);
            self.moves += 1;
            return Ok(Answer::Delivered);
        }
        let (channel, after) = self.next_of(message)?;
        if let Some(&holder) = self.held.get(&channel) {
            return Ok(Answer::Blocked(holder));
        }
        self.held.insert(channel, number);
        self.messages[number] = after;
        self.moves += 1;
        Ok(Answer::Moved)
    }

    /// The channel that comes next for a message that has not taken all, and
    /// the message once it has taken it. Nodes from 64 on have no channels.
    fn next_of(&self, message: Message) -> Result<(Channel, Message), Refusal> {
        let head = message.head;
        let mut after = message;
        if message.stage == Stage::Outside {
            after.stage = Stage::Inside;
            let channel = Channel::injection(head);
            let there = head < MOST_NODES;
            return there.then_some((channel, after)).ok_or(refusal(10, 0));
        }
        if head == message.target {
            after.stage = Stage::Leaving;
            return Ok((Channel::consumption(head), after));
        }
        let next = self.hop_of(message)?.ok_or(refusal(10, 0))?;
        after.head = next.node;
        after.class = next.class;
        Ok((Channel::link(head, next.node), after))
    }

    /// What hop says over the front of the record's labels and tables.
    fn hop_of(&self, message: Message) -> Result<Option<Next>, Refusal> {
        let front = self.nodes.min(MOST_NODES);
        let lent = Lent {
            labels: &self.labels[..front],
            free: &self.free[..front * front],
            falling: &self.falling[..front * front],
            nodes: self.nodes,
        };
        hop(&lent, message.head, message.class, message.target)
    }

    pub fn messages(&self) -> usize {
        self.messages.len()
    }

    pub fn moves(&self) -> usize {
        self.moves
    }

    /// The messages that are delivered, in rising order.
    pub fn delivered(&self) -> impl Iterator<Item = usize> + '_ {
        self.delivered.iter().copied()
    }

    /// The channels that are held, in rising order, each with its message.
    pub fn held(&self) -> impl Iterator<Item = (Channel, usize)> + '_ {
        self.held
            .iter()
            .map(|(&channel, &holder)| (channel, holder))
    }
}
