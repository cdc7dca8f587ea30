//! The program worked: what is found of each network worked by hand, and of
//! the images and sheets listed beside them, as text.

use crate::calls::{accept, Fabric};
use crate::cases::cabling::{path, ring, Cabling};
use crate::cases::pack::drain_input;
use crate::cases::worked::{hops, listed, listed_sheets, message_lists, networks};
use crate::programs::{drain, drained, listed as numbers, sheet, show};
use crate::refusal::Refusal;
use crate::rows::{hop, Lent};
use crate::sheets::cable;

/// The largest network whose falling rows are worked by hand.
const ROWS_BY_HAND: usize = 4;

pub fn worked(_: &[u8]) -> Vec<u8> {
    let mut text: String = networks().iter().map(found).collect();
    for (name, image) in listed() {
        text += &format!("{name}: {}\n", verdict(accept(&image)));
    }
    let none = drain_input(&path(2).links_image(), 0, &[]);
    text += &format!("no messages: {}", shown(drain(&none)));
    for (name, sheet) in listed_sheets() {
        let mut room = [0; 1_034];
        text += &format!("{name}: {}\n", verdict(cable(&sheet, &mut room)));
    }
    text.into_bytes()
}

/// The lines of one network: those of its links image first.
fn found(cabling: &Cabling) -> String {
    let links = cabling.links_image();
    let by_hand = *cabling == path(2);
    let mut text = shown(show(&links));
    if by_hand {
        text += &format!("image{}\n", numbers(&links));
    }
    for messages in message_lists(cabling) {
        let input = drain_input(&links, 0, &messages);
        let run = drained(&input).expect("messages of the network");
        text += &format!("{}\nlooks {}\n", run.last_line(), run.steps[0].0);
    }
    if by_hand {
        text += &format!("image{}\n", numbers(&cabling.full_image()));
    }
    if cabling.nodes <= ROWS_BY_HAND {
        let (fabric, _) = accept(&links).expect("an accepted network");
        text += &format!("falling{}\n", numbers(&fabric.tables.falling));
        text += &hop_lines(&fabric, &hops(cabling));
    }
    if [path(2), ring(4)].contains(cabling) {
        text += &format!("sheet{}\n", numbers(&sheet(&links)));
    }
    text
}

/// A line for each hop: node, class and destination, and what hop answers.
fn hop_lines(fabric: &Fabric, asked: &[[usize; 3]]) -> String {
    let lent = Lent {
        labels: &fabric.label_bytes(),
        free: &fabric.tables.free,
        falling: &fabric.tables.falling,
        nodes: fabric.labels.len(),
    };
    let line = |&[node, class, destination]: &[usize; 3]| {
        let found = hop(&lent, node, class, destination).expect("a node of the network");
        let found = found.map_or("none".into(), |next| {
            format!("{} {}", next.node, next.class)
        });
        format!("hop {node} {class} {destination} {found}\n")
    };
    asked.iter().map(line).collect()
}

fn verdict<T>(answer: Result<T, Refusal>) -> String {
    match answer {
        Ok(_) => "accepted".into(),
        Err(refused) => refused.to_string(),
    }
}

fn shown(output: Vec<u8>) -> String {
    String::from_utf8(output).expect("a program's text")
}
