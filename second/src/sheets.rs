//! Sheets, cablings as text: the grammar of their lines (refusal 12), and the
//! calls cable and sheet.

use crate::calls::{put, write};
use crate::image::{bodies, Allowed};
use crate::network::Network;
use crate::refusal::{refusal, Refusal};

/// Writes the links image of a sheet's cabling; answers its length.
pub fn cable(sheet: &[u8], out: &mut [u8]) -> Result<usize, Refusal> {
    let (nodes, pairs) = cabling(sheet)?;
    write(nodes, &pairs, false, out)
}

/// Writes the sheet of a links image; answers its length.
pub fn sheet(image: &[u8], out: &mut [u8]) -> Result<usize, Refusal> {
    let bodies = bodies(image, Allowed::LinksOnly)?;
    let network = Network::from_links(bodies.links)?;
    put(text(&network).as_bytes(), out)
}

fn text(network: &Network) -> String {
    let line = |(a, b): &(usize, usize)| format!("{a} {b}\n");
    let links: String = network.pairs.iter().map(line).collect();
    format!("{}\n{links}", network.nodes())
}

/// N and the bytes of the pairs, if every line is one of a sheet.
fn cabling(sheet: &[u8]) -> Result<(usize, Vec<u8>), Refusal> {
    let mut numbers = Vec::new();
    let lines = sheet.split_inclusive(|&byte| byte == b'\n');
    for (place, line) in lines.enumerate() {
        let count = if place == 0 { 1 } else { 2 };
        numbers.extend(fields(line, count).ok_or(refusal(12, place))?);
    }
    let (&nodes, pairs) = numbers.split_first().ok_or(refusal(12, 0))?;
    Ok((usize::from(nodes), pairs.to_vec()))
}

/// The numbers of a line: so many, one space apart, then a line feed.
fn fields(line: &[u8], count: usize) -> Option<Vec<u8>> {
    let fields = line.strip_suffix(b"\n")?.split(|&byte| byte == b' ');
    let numbers: Vec<u8> = fields.map(number).collect::<Option<_>>()?;
    (numbers.len() == count).then_some(numbers)
}

/// `0`, or digits of which the first is not zero; none above 255.
fn number(field: &[u8]) -> Option<u8> {
    match field {
        [b'0'] => Some(0),
        [b'1'..=b'9', ..] => field.iter().try_fold(0, with_digit),
        _ => None,
    }
}

fn with_digit(number: u8, digit: &u8) -> Option<u8> {
    match digit {
        b'0'..=b'9' => number.checked_mul(10)?.checked_add(digit - b'0'),
        _ => None,
    }
}
