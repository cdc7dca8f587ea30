//! A lean version of the rule in plain Rust: node sets as words, degrees kept
//! as nodes go, searches that touch only what joins, a message's next channel
//! and held channels kept. It checks what the calls check, and says no more
//! than that an input is refused.

mod drain;
mod image;
mod labels;
mod rows;

pub use drain::{drain, drain_telling};

/// Writes the full image of a links image; answers its length.
pub fn build(image: &[u8], out: &mut [u8]) -> Option<usize> {
    let (links, tables) = image::bodies(image)?;
    if tables.is_some() {
        return None;
    }
    let fabric = image::Fabric::new(links)?;
    let length = 26 + links.len() + fabric.tables.len();
    let out = out.get_mut(..length)?;
    image::put_contents(out, links.len(), fabric.nodes);
    out[26..26 + links.len()].copy_from_slice(links);
    out[26 + links.len()..].copy_from_slice(&fabric.tables);
    Some(length)
}

/// The members of a set, lowest first.
fn members(mut set: u64) -> impl Iterator<Item = usize> {
    std::iter::from_fn(move || {
        let lowest = (set != 0).then(|| set.trailing_zeros() as usize)?;
        set &= set - 1;
        Some(lowest)
    })
}

/// The union of the rows of a set's members.
fn union(rows: &[u64; 64], set: u64) -> u64 {
    members(set).fold(0, |all, v| all | rows[v])
}
