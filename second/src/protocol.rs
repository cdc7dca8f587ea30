//! The program `calls`: one call out of a binary input, its answer as text.

use crate::calls::{build, read, route, write};
use crate::drain::{Answer, Channel, End, Record};
use crate::image::{entry, Entry, Walker};
use crate::programs::{drained, listed, Writing};
use crate::refusal::{refusal, Refusal};
use crate::rows::{hop, row, Lent, Next};
use crate::sheets::{cable, sheet};
use crate::unstarted::Unstarted;

/// The most that is read.
pub const MOST_CALL: usize = 131_072;

/// The output for a call; `bad call` where the input is not one.
pub fn calls(input: &[u8]) -> Vec<u8> {
    let front = &input[..input.len().min(MOST_CALL)];
    let text = call(front).unwrap_or("bad call\n".into());
    text.into_bytes()
}

fn call(input: &[u8]) -> Option<String> {
    let (selector, rest) = input.split_first()?;
    let arguments = Arguments { rest };
    match selector {
        0 => entry_call(arguments),
        1 => walk_call(arguments),
        2 => row_call(arguments),
        3 => hop_call(arguments),
        4 => route_call(arguments),
        5 => read_call(arguments),
        6 => write_call(arguments),
        7 => writing_call(arguments, "built", build),
        8 => steps_call(arguments),
        9 => trace_call(arguments),
        10 => writing_call(arguments, "cabled", cable),
        11 => writing_call(arguments, "sheet", sheet),
        12 => moves_call(arguments),
        _ => None,
    }
}

/// The arguments not yet taken.
struct Arguments<'a> {
    rest: &'a [u8],
}

impl<'a> Arguments<'a> {
    fn fixed<const K: usize>(&mut self) -> Option<[u8; K]> {
        let (taken, rest) = self.rest.split_first_chunk()?;
        self.rest = rest;
        Some(*taken)
    }

    fn number(&mut self) -> Option<usize> {
        let two = self.fixed()?;
        Some(usize::from(u16::from_le_bytes(two)))
    }

    fn long_number(&mut self) -> Option<u64> {
        self.fixed().map(u64::from_le_bytes)
    }

    /// A length of 32 bits, and then that many bytes.
    fn bytes(&mut self) -> Option<&'a [u8]> {
        let length = self.fixed().map(u32::from_le_bytes)? as usize;
        let (taken, rest) = self.rest.split_at_checked(length)?;
        self.rest = rest;
        Some(taken)
    }

    /// A lent buffer with its first content.
    fn buffer(&mut self) -> Option<Vec<u8>> {
        let length = self.number()?;
        Some((0..length).map(|i| (i * 7 + 13) as u8).collect())
    }

    /// A number k, and then k numbers: the messages that are to move.
    fn named(&mut self) -> Option<Vec<usize>> {
        let count = self.number()?;
        (0..count).map(|_| self.number()).collect()
    }

    /// Nothing may be left over.
    fn end(self) -> Option<()> {
        self.rest.is_empty().then_some(())
    }
}

fn answer_line(answer: Result<String, Refusal>) -> String {
    match answer {
        Ok(text) => text + "\n",
        Err(refused) => format!("{refused}\n"),
    }
}

fn with_buffer(answer: Result<String, Refusal>, buffer: &[u8]) -> String {
    format!("{}buffer{}\n", answer_line(answer), listed(buffer))
}

fn entry_line(found: Option<Entry>) -> String {
    match found {
        Some(e) => format!("entry {} {} {} {}\n", e.kind, e.second, e.offset, e.length),
        None => "none\n".into(),
    }
}

fn entry_call(mut arguments: Arguments) -> Option<String> {
    let image = arguments.bytes()?;
    let number = arguments.long_number()?;
    arguments.end()?;
    Some(entry_line(entry(image, number)))
}

fn walk_call(mut arguments: Arguments) -> Option<String> {
    let image = arguments.bytes()?;
    let steps = arguments.number()?;
    arguments.end()?;
    let mut walker = Walker::new(image);
    Some((0..steps).map(|_| entry_line(walker.step())).collect())
}

fn row_call(mut arguments: Arguments) -> Option<String> {
    let (free, falling) = (arguments.bytes()?, arguments.bytes()?);
    let nodes = arguments.number()?;
    let (node, class) = (arguments.number()?, arguments.number()?);
    arguments.end()?;
    let part = row(free, falling, nodes, node, class);
    let answer = match part {
        [] => Err(refusal(10, 0)),
        part => Ok(format!("row{}", listed(part))),
    };
    Some(answer_line(answer))
}

fn hop_call(mut arguments: Arguments) -> Option<String> {
    let lent = Lent {
        labels: arguments.bytes()?,
        free: arguments.bytes()?,
        falling: arguments.bytes()?,
        nodes: arguments.number()?,
    };
    let (node, class) = (arguments.number()?, arguments.number()?);
    let destination = arguments.number()?;
    arguments.end()?;
    let answer = hop(&lent, node, class, destination);
    Some(answer_line(answer.map(hop_text)))
}

fn hop_text(next: Option<Next>) -> String {
    match next {
        Some(Next { node, class }) => format!("hop {node} {class}"),
        None => "none".into(),
    }
}

fn route_call(mut arguments: Arguments) -> Option<String> {
    let image = arguments.bytes()?;
    let (source, destination) = (arguments.number()?, arguments.number()?);
    let mut buffer = arguments.buffer()?;
    arguments.end()?;
    let answer = route(image, source, destination, &mut buffer);
    let answer = answer.map(|count| format!("route {count}"));
    Some(with_buffer(answer, &buffer))
}

fn read_call(mut arguments: Arguments) -> Option<String> {
    let image = arguments.bytes()?;
    let mut buffer = arguments.buffer()?;
    arguments.end()?;
    let answer = read(image, &mut buffer);
    let answer = answer.map(|r| format!("read {} {} {}", r.nodes, r.links, u8::from(r.full)));
    Some(with_buffer(answer, &buffer))
}

fn write_call(mut arguments: Arguments) -> Option<String> {
    let nodes = arguments.number()?;
    let full = arguments.number()? != 0;
    let pairs = arguments.bytes()?;
    let mut buffer = arguments.buffer()?;
    arguments.end()?;
    let answer = write(nodes, pairs, full, &mut buffer);
    let answer = answer.map(|length| format!("wrote {length}"));
    Some(with_buffer(answer, &buffer))
}

/// Build, cable or sheet: bytes and a buffer; the word and how many are written.
fn writing_call(mut arguments: Arguments, word: &str, call: Writing) -> Option<String> {
    let bytes = arguments.bytes()?;
    let mut buffer = arguments.buffer()?;
    arguments.end()?;
    let answer = call(bytes, &mut buffer);
    let answer = answer.map(|length| format!("{word} {length}"));
    Some(with_buffer(answer, &buffer))
}

/// A start on the record, and the messages that are to move after it.
struct Round<'a> {
    image: &'a [u8],
    list: &'a [u8],
    named: Vec<usize>,
}

fn round<'a>(arguments: &mut Arguments<'a>) -> Option<Round<'a>> {
    Some(Round {
        image: arguments.bytes()?,
        list: arguments.bytes()?,
        named: arguments.named()?,
    })
}

/// One round or more on one record, which has no messages before the first.
fn steps_call(mut arguments: Arguments) -> Option<String> {
    let mut rounds = vec![round(&mut arguments)?];
    while !arguments.rest.is_empty() {
        rounds.push(round(&mut arguments)?);
    }
    let mut record = Record::default();
    let mut text = String::new();
    for round in rounds {
        let started = record.start(round.image, round.list);
        text += &answer_line(started.map(|()| "started".into()));
        text += &record_lines(&record);
        for message in round.named {
            text += &answer_line(record.step(message).map(step_text));
        }
        text += &record_lines(&record);
    }
    Some(text)
}

fn record_lines(record: &Record) -> String {
    let counts = (record.messages(), record.moves());
    lines_of(counts, record.delivered(), record.held())
}

/// How many messages and moves, which messages are delivered, and which
/// channels are held, by whom.
fn lines_of(
    (messages, moves): (usize, usize),
    delivered: impl Iterator<Item = usize>,
    held: impl Iterator<Item = (Channel, usize)>,
) -> String {
    let delivered: String = delivered.map(|message| format!(" {message}")).collect();
    let held: String = held.map(held_text).collect();
    format!("record {messages} {moves}\ndelivered{delivered}\nheld{held}\n")
}

/// A channel of the record's last line: its two nodes, or its word and its
/// node; then the message that holds it.
fn held_text((channel, message): (Channel, usize)) -> String {
    let node = channel.node;
    match channel.end {
        End::To(far) => format!(" {node} {far} {message}"),
        End::In => format!(" in {node} {message}"),
        End::Out => format!(" out {node} {message}"),
    }
}

/// Moves in a record that no start made, and its lines before and after.
fn moves_call(mut arguments: Arguments) -> Option<String> {
    let given = Lent {
        nodes: arguments.number()?,
        labels: arguments.bytes()?,
        free: arguments.bytes()?,
        falling: arguments.bytes()?,
    };
    let (list, classes) = (arguments.bytes()?, arguments.bytes()?);
    let named = arguments.named()?;
    arguments.end()?;
    let lines = |record: &Unstarted| {
        let counts = (record.messages(), record.moves());
        lines_of(counts, record.delivered(), record.held())
    };
    let mut record = Unstarted::new(&given, list, classes);
    let mut text = lines(&record);
    for message in named {
        text += &answer_line(record.step(message).map(step_text));
    }
    Some(text + &lines(&record))
}

fn step_text(answer: Answer) -> String {
    match answer {
        Answer::Already => "already".into(),
        Answer::Moved => "moved".into(),
        Answer::Blocked(by) => format!("blocked {by}"),
        Answer::Delivered => "delivered".into(),
    }
}

fn trace_call(mut arguments: Arguments) -> Option<String> {
    let input = arguments.bytes()?;
    arguments.end()?;
    let answer = drained(input).map(|run| {
        let steps = run.steps.iter();
        let lines: String = steps.map(|(look, m)| format!("{look} {m}\n")).collect();
        lines + &run.last_line()
    });
    Some(answer_line(answer))
}
