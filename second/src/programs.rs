//! The programs cable, sheet, build, show and drain, each from its input's
//! bytes to its output's bytes, and the reading and writing of the standard
//! streams.

use crate::calls::{accept, build as build_call, Fabric};
use crate::drain::{Answer, Record};
use crate::label::prohibited;
use crate::refusal::{refusal, Refusal};
use crate::sheets::{cable as cable_call, sheet as sheet_call};
use std::io::{self, Read, Write};

/// The most that each of them reads.
pub const MOST_INPUT: usize = 65_536;

/// Room for any image and any sheet.
const ROOM: usize = 65_535;

/// The output of the named program, if there is such a program.
pub fn run(name: &str, input: &[u8]) -> Option<Vec<u8>> {
    match name {
        "cable" => Some(cable(input)),
        "sheet" => Some(sheet(input)),
        "build" => Some(build(input)),
        "show" => Some(show(input)),
        "drain" => Some(drain(input)),
        "calls" => Some(crate::protocol::calls(input)),
        "worked" => Some(crate::by_hand::worked(input)),
        _ => None,
    }
}

/// Reads standard input up to a limit, and writes what the program gives.
pub fn serve(limit: usize, program: fn(&[u8]) -> Vec<u8>) -> io::Result<()> {
    let mut input = Vec::new();
    io::stdin().take(limit as u64).read_to_end(&mut input)?;
    let mut output = io::stdout();
    output.write_all(&program(&input))?;
    output.flush()
}

pub fn cable(input: &[u8]) -> Vec<u8> {
    written(cable_call, input)
}

pub fn sheet(input: &[u8]) -> Vec<u8> {
    written(sheet_call, input)
}

pub fn build(input: &[u8]) -> Vec<u8> {
    written(build_call, input)
}

/// A call that takes bytes, writes into a lent buffer and answers how many.
pub type Writing = fn(&[u8], &mut [u8]) -> Result<usize, Refusal>;

fn written(call: Writing, input: &[u8]) -> Vec<u8> {
    let mut out = vec![0; ROOM];
    match call(front(input), &mut out) {
        Ok(length) => out[..length].to_vec(),
        Err(refused) => line(refused),
    }
}

pub fn show(input: &[u8]) -> Vec<u8> {
    match accept(front(input)) {
        Ok((fabric, _)) => shown(&fabric).into_bytes(),
        Err(refused) => line(refused),
    }
}

pub fn drain(input: &[u8]) -> Vec<u8> {
    match drained(front(input)) {
        Ok(run) => line(run.last_line()),
        Err(refused) => line(refused),
    }
}

/// The part of an input that is read.
fn front(input: &[u8]) -> &[u8] {
    &input[..input.len().min(MOST_INPUT)]
}

fn line(text: impl ToString) -> Vec<u8> {
    (text.to_string() + "\n").into_bytes()
}

fn shown(fabric: &Fabric) -> String {
    let network = &fabric.network;
    let nodes = network.nodes();
    let mut text = format!(
        "fabric {nodes} {} {} {}\n",
        network.links(),
        network.turns(),
        prohibited(network, &fabric.labels)
    );
    for (node, row) in fabric.tables.free.chunks_exact(nodes).enumerate() {
        text += &format!("{node} {}{}\n", fabric.labels[node], listed(row));
    }
    text
}

/// Bytes in decimal, one space before each.
pub fn listed(bytes: &[u8]) -> String {
    bytes.iter().map(|byte| format!(" {byte}")).collect()
}

/// A whole drain: where each search began and which message moved.
#[derive(Clone, Debug, PartialEq, Eq)]
pub struct Drained {
    pub steps: Vec<(usize, usize)>,
    pub messages: usize,
    pub moves: usize,
}

impl Drained {
    pub fn last_line(&self) -> String {
        format!("drained {} {}", self.messages, self.moves)
    }
}

/// Takes a drain input apart and moves messages until all are delivered.
pub fn drained(input: &[u8]) -> Result<Drained, Refusal> {
    let (image, mut seed, list) = drain_input(input).ok_or(refusal(1, 0))?;
    let mut record = Record::default();
    record.start(image, list)?;
    let mut steps = Vec::new();
    while !record.all_delivered() {
        seed = seed.wrapping_mul(1_664_525).wrapping_add(1_013_904_223);
        let look = (seed >> 16) as usize % record.messages();
        steps.push((look, move_from(&mut record, look)));
    }
    Ok(Drained {
        steps,
        messages: record.messages(),
        moves: record.moves(),
    })
}

/// Image length, image, seed and pairs; none if the input is too short.
fn drain_input(input: &[u8]) -> Option<(&[u8], u32, &[u8])> {
    let (length, rest) = input.split_first_chunk()?;
    let length = usize::from(u16::from_le_bytes(*length));
    let (image, rest) = rest.split_at_checked(length)?;
    let (seed, list) = rest.split_first_chunk()?;
    Some((image, u32::from_le_bytes(*seed), list))
}

/// Moves the first message that can, from `look` on and going round.
fn move_from(record: &mut Record, look: usize) -> usize {
    let count = record.messages();
    (0..count)
        .map(|i| (look + i) % count)
        .find(|&m| matches!(record.step(m), Ok(Answer::Moved | Answer::Delivered)))
        .expect("some message can move")
}
