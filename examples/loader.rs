//! A loader in small, written from docs/FORMAT.md alone: it takes the two tables out of full images and routes every pair of nodes by them.
//! rustc -O examples/loader.rs && ./loader hall.full ..    prints a line for each image.

use std::{env, fs, process::exit};

struct Board<'a> {
    nodes: usize,
    labels: &'a [u8],
    tables: [&'a [u8]; 2], // free, falling
}

/// The tables of a full image, or what is wrong with it.
fn load(image: &[u8]) -> Result<Board<'_>, &'static str> {
    if image.len() < 26 || image[0] != 1 || image[1] != 4 {
        return Err("not a full image");
    }
    let number = |at: usize| usize::from(u16::from_le_bytes([image[at], image[at + 1]]));
    let body = |i: usize| image.get(number(4 + 6 * i)..number(4 + 6 * i) + number(6 + 6 * i));
    let (Some(cabling), Some(labels), Some(free), Some(falling)) = (body(0), body(1), body(2), body(3)) else {
        return Err("a body outside the image");
    };
    let nodes = usize::from(*cabling.first().ok_or("no cabling")?);
    if labels.len() != nodes || free.len() != nodes * nodes || falling.len() != nodes * nodes {
        return Err("a body of another length");
    }
    Ok(Board { nodes, labels, tables: [free, falling] })
}

/// The next node from v for a message to t, and the message's class there; none where no node is stored.
fn hop(board: &Board, v: usize, class: usize, t: usize) -> Option<(usize, usize)> {
    let u = usize::from(board.tables[class][v * board.nodes + t]);
    let label = *board.labels.get(u)?; // 255 has none
    Some((u, if v != t && label < board.labels[v] { 1 } else { class }))
}

/// The number of hops from one node to another, if the message arrives in fewer than N.
fn hops(board: &Board, source: usize, destination: usize) -> Option<usize> {
    let (mut at, mut class) = (source, 0);
    for hops in 0..board.nodes {
        if at == destination {
            return Some(hops);
        }
        (at, class) = hop(board, at, class, destination)?;
    }
    None
}

fn main() {
    for name in env::args().skip(1) {
        let image = fs::read(&name).unwrap_or_else(|wrong| { eprintln!("{name}: {wrong}"); exit(1) });
        let board = load(&image).unwrap_or_else(|wrong| { eprintln!("{name}: {wrong}"); exit(1) });
        let (mut sum, mut longest) = (0, 0);
        for pair in 0..board.nodes * board.nodes {
            let (source, destination) = (pair / board.nodes, pair % board.nodes);
            let Some(length) = hops(&board, source, destination) else {
                eprintln!("{name}: no way from {source} to {destination}");
                exit(1)
            };
            sum += length;
            longest = longest.max(length);
        }
        println!("{name}: {} nodes, {sum} hops over all pairs, {longest} at the most", board.nodes);
    }
}
