//! The input of a benchmark run, and the work it asks for. Input: the work
//! (0 builds, 1 drains) and the repeats (32 bits, low byte first); for builds
//! a links image; for drains an image's length (16 bits), the image, pairs.

use crate::lean;
use second::calls::build;
use second::drain::{Answer, Record};

pub const BUILDS: u8 = 0;
pub const DRAINS: u8 = 1;

/// The longest full image.
const ROOM: usize = 9_308;

/// The seed of the next move.
pub fn next_seed(seed: u32) -> u32 {
    seed.wrapping_mul(1_664_525).wrapping_add(1_013_904_223)
}

/// The input for so many repeats.
pub fn input(work: u8, repeats: u32, image: &[u8], list: &[u8]) -> Vec<u8> {
    let mut input = vec![work];
    input.extend(repeats.to_le_bytes());
    if work == DRAINS {
        input.extend((image.len() as u16).to_le_bytes());
    }
    input.extend_from_slice(image);
    input.extend_from_slice(list);
    input
}

/// The last answer of the work: bytes built, or moves of a drain.
pub fn answer(input: &[u8], lean: bool) -> Option<usize> {
    let (&work, rest) = input.split_first()?;
    let (repeats, rest) = rest.split_first_chunk()?;
    let repeats = u32::from_le_bytes(*repeats);
    if work == BUILDS {
        let build = if lean { lean::build } else { by_second };
        return builds(build, rest, repeats);
    }
    let (length, rest) = rest.split_first_chunk()?;
    let (image, list) = rest.split_at_checked(usize::from(u16::from_le_bytes(*length)))?;
    let drain = if lean { lean::drain } else { drained };
    repeated(repeats, |seed| drain(image, list, seed))
}

type Build = fn(&[u8], &mut [u8]) -> Option<usize>;

fn repeated(repeats: u32, mut once: impl FnMut(u32) -> Option<usize>) -> Option<usize> {
    (0..repeats).try_fold(0, |_, i| once(i))
}

/// Builds into room that differs by a byte from one repeat to the next.
fn builds(build: Build, links: &[u8], repeats: u32) -> Option<usize> {
    let mut buffer = [0; ROOM + 1];
    repeated(repeats, |i| {
        let length = build(links, &mut buffer[..ROOM + (i % 2) as usize]);
        std::hint::black_box(&buffer);
        length
    })
}

fn by_second(links: &[u8], buffer: &mut [u8]) -> Option<usize> {
    build(links, buffer).ok()
}

/// The second program's drain, without its list of steps.
fn drained(image: &[u8], list: &[u8], mut seed: u32) -> Option<usize> {
    let mut record = Record::default();
    record.start(image, list).ok()?;
    let messages = record.messages();
    while !record.all_delivered() {
        seed = next_seed(seed);
        let look = (seed >> 16) as usize % messages;
        let mut round = (0..messages).map(|i| (look + i) % messages);
        round.find(|&m| matches!(record.step(m), Ok(Answer::Moved | Answer::Delivered)))?;
    }
    Some(record.moves())
}
