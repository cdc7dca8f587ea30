//! The image's contents: one entry, the walker over entries, the split into
//! bodies (refusal 1), and the laying out of an image from its bodies.

use crate::refusal::{refusal, Refusal};

/// The longest image that is accepted, in bytes.
pub const LONGEST: usize = 65_535;

/// A contents entry as stored.
#[derive(Clone, Copy, Debug, PartialEq, Eq)]
pub struct Entry {
    pub kind: u8,
    pub second: u8,
    pub offset: u16,
    pub length: u16,
}

/// The entry with this number, or none where it or byte 1 is missing.
pub fn entry(image: &[u8], number: u64) -> Option<Entry> {
    let count = *image.get(1)?;
    if number >= u64::from(count) {
        return None;
    }
    let start = 2 + 6 * number as usize;
    let six = image.get(start..start + 6)?;
    Some(Entry {
        kind: six[0],
        second: six[1],
        offset: u16::from_le_bytes([six[2], six[3]]),
        length: u16::from_le_bytes([six[4], six[5]]),
    })
}

/// A reader that keeps the caller's image and the number of the next entry.
#[derive(Clone, Debug)]
pub struct Walker<'a> {
    image: &'a [u8],
    next: u64,
}

impl<'a> Walker<'a> {
    /// A new reader stands at entry 0.
    pub fn new(image: &'a [u8]) -> Self {
        Walker { image, next: 0 }
    }

    /// Answers the next entry and goes on by one; answers none and stays.
    pub fn step(&mut self) -> Option<Entry> {
        let found = entry(self.image, self.next)?;
        self.next += 1;
        Some(found)
    }
}

/// Which lists of kinds a call allows.
#[derive(Clone, Copy, Debug, PartialEq, Eq)]
pub enum Allowed {
    LinksOnly,
    Either,
}

/// The bodies of an image: kind 1, and kinds 2 to 4 if it is a full one.
#[derive(Clone, Debug)]
pub struct Bodies<'a> {
    pub links: &'a [u8],
    pub tables: Option<[&'a [u8]; 3]>,
}

/// Splits an image into its bodies. Every fault here is refusal 1.
pub fn bodies(image: &[u8], allowed: Allowed) -> Result<Bodies<'_>, Refusal> {
    split(image, allowed).ok_or(refusal(1, 0))
}

fn split(image: &[u8], allowed: Allowed) -> Option<Bodies<'_>> {
    if image.len() > LONGEST || *image.first()? != 1 {
        return None;
    }
    let entries = all_entries(image)?;
    let parts = cut(image, &entries)?;
    let kinds: Vec<u8> = entries.iter().map(|e| e.kind).collect();
    let tables = match (kinds.as_slice(), allowed) {
        ([1], _) => None,
        ([1, 2, 3, 4], Allowed::Either) => Some([parts[1], parts[2], parts[3]]),
        _ => return None,
    };
    let links = parts[0];
    (links.len() >= 2).then_some(Bodies { links, tables })
}

/// As many entries as byte 1 says, or none if one is missing.
fn all_entries(image: &[u8]) -> Option<Vec<Entry>> {
    let count = usize::from(*image.get(1)?);
    let mut walker = Walker::new(image);
    let entries: Vec<Entry> = std::iter::from_fn(|| walker.step()).collect();
    (entries.len() == count).then_some(entries)
}

/// The bodies in entry order, if they fill the image behind the contents
/// without a gap and each entry's second byte is zero.
fn cut<'a>(image: &'a [u8], entries: &[Entry]) -> Option<Vec<&'a [u8]>> {
    let mut end = 2 + 6 * entries.len();
    let mut parts = Vec::new();
    for e in entries {
        if e.second != 0 || usize::from(e.offset) != end {
            return None;
        }
        let start = end;
        end += usize::from(e.length);
        parts.push(image.get(start..end)?);
    }
    (end == image.len()).then_some(parts)
}

/// Lays out contents and bodies, one entry for each (kind, body).
pub fn lay_out(parts: &[(u8, &[u8])]) -> Vec<u8> {
    let mut image = vec![1, parts.len() as u8];
    let mut offset = 2 + 6 * parts.len();
    for (kind, body) in parts {
        image.extend([*kind, 0]);
        image.extend((offset as u16).to_le_bytes());
        image.extend((body.len() as u16).to_le_bytes());
        offset += body.len();
    }
    for (_, body) in parts {
        image.extend_from_slice(body);
    }
    image
}
