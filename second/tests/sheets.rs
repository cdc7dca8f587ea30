//! Sheets: the worked ones, refusal 12 and the order of the others, all short
//! texts against a definition by lists, and the way there and back.

use second::cases::cabling::*;
use second::cases::growing::*;
use second::cases::random::Random;
use second::cases::sheets::edit;
use second::programs;
use second::refusal::{refusal, Refusal};
use second::sheets::{cable, sheet};
use std::collections::HashMap;

/// Room for any links image and any sheet.
const ROOM: usize = 3_075;

fn cabled(sheet: &[u8]) -> Result<Vec<u8>, Refusal> {
    let mut out = vec![0; ROOM];
    let length = cable(sheet, &mut out)?;
    Ok(out[..length].to_vec())
}

fn sheeted(image: &[u8]) -> Result<Vec<u8>, Refusal> {
    let mut out = vec![0; ROOM];
    let length = sheet(image, &mut out)?;
    Ok(out[..length].to_vec())
}

/// The refusal of a sheet, or (0, 0) if it is accepted.
fn refused(sheet: impl AsRef<[u8]>) -> (u8, usize) {
    match cabled(sheet.as_ref()) {
        Ok(_) => (0, 0),
        Err(Refusal { number, place }) => (number, place),
    }
}

#[test]
fn sheets_worked_by_hand() {
    let link = [0x32, 0x0A, 0x30, 0x20, 0x31, 0x0A];
    assert_eq!(sheeted(&path(2).links_image()), Ok(link.to_vec()));
    assert_eq!(cabled(&link), Ok(path(2).links_image()));
    let four = b"4\n0 1\n0 3\n1 2\n2 3\n";
    assert_eq!(programs::sheet(&ring(4).links_image()), four);
    assert_eq!(programs::cable(four), ring(4).links_image());
    assert_eq!(refused("4\n0 1\n2 3\n"), (7, 2));
    assert_eq!(refused("4\n0 1\n0 1\n"), (5, 1));
    assert_eq!(refused("2\n0 1"), (12, 1));
    assert_eq!(refused("2\n0  1\n"), (12, 1));
    assert_eq!(refused("\n"), (12, 0));
    assert_eq!(refused("1\n"), (2, 0));
    assert_eq!(refused("2\n1 0\n"), (4, 0));
}

#[test]
fn lines_that_are_none() {
    let firsts = [
        "\n", " 2\n", "2 \n", "02\n", "+2\n", "2\r\n", "2 0 1\n", "256\n", "x\n",
    ];
    for line in firsts {
        assert_eq!(refused(line), (12, 0), "{line:?}");
        assert_eq!(refused([line, "0  1\n"].concat()), (12, 0), "{line:?}");
    }
    assert_eq!(refused(""), (12, 0));
    assert_eq!(refused("2"), (12, 0));
    let lines = [
        "\n",
        " \n",
        "0\n",
        "0 \n",
        " 1\n",
        "0 1 \n",
        " 0 1\n",
        "0\t1\n",
        "0 1\r\n",
        "00 1\n",
        "0 01\n",
        "-0 1\n",
        "0 +1\n",
        "0 1 2\n",
        "0 256\n",
        "256 1\n",
        "0 18446744073709551617\n",
        "0,1\n",
        "0 1\0\n",
        "0 \u{B9}\n",
    ];
    for line in lines {
        for front in [
            "2\n",
            "2\n0 1\n",
            "65\n0 1\n",
            "2\n1 0\n1 0\n",
            "0\n255 255\n",
        ] {
            let place = front.lines().count();
            assert_eq!(refused([front, line].concat()), (12, place), "{line:?}");
            let behind = [front, line, "0  1\n"].concat();
            assert_eq!(refused(behind), (12, place), "{line:?}");
        }
    }
    assert_eq!(refused("2\n0 1\n0 1"), (12, 2));
    assert_eq!(refused(b"2\n0 1\n\xFF"), (12, 2));
    assert_eq!(refused("9".repeat(1_000) + "\n"), (12, 0));
}

#[test]
fn order_of_the_refusals() {
    assert_eq!(refused("0\n"), (2, 0));
    assert_eq!(refused("255\n0 255\n"), (2, 0));
    assert_eq!(refused("65\n1 0\n"), (2, 0));
    assert_eq!(refused("4\n0 255\n"), (4, 0));
    assert_eq!(refused("4\n0 1\n0 4\n0 1\n"), (4, 1));
    assert_eq!(refused("4\n1 2\n0 4\n"), (4, 1));
    assert_eq!(refused("4\n0 2\n0 1\n3 3\n"), (5, 1));
    assert_eq!(refused(star(17).sheet()), (6, 0));
    assert_eq!(refused("2\n"), (7, 1));
    assert_eq!(refused(largest().sheet()), (0, 0));
    let many = |nodes: usize, count: usize| format!("{nodes}\n{}", "1 0\n".repeat(count));
    assert_eq!(refused(many(4, 512)), (4, 0));
    for count in [513, 514, 600, 9_000] {
        assert_eq!(refused(many(4, count)), (3, 0));
        assert_eq!(refused(many(65, count)), (2, 0));
        assert_eq!(refused(many(4, count) + "1  0\n"), (12, count + 1));
    }
}

#[test]
fn buffers() {
    let (text, image) = (ring(4).sheet(), ring(4).links_image());
    for room in 0..40 {
        let mut out = vec![7; room];
        let fits = |length: usize| (room >= length).then_some(length).ok_or(refusal(9, 0));
        let behind = |result: &[u8]| {
            let mut whole = vec![7; room];
            if room >= result.len() {
                whole[..result.len()].copy_from_slice(result);
            }
            whole
        };
        assert_eq!(cable(&text, &mut out), fits(image.len()));
        assert_eq!(out, behind(&image));
        let mut out = vec![7; room];
        assert_eq!(sheet(&image, &mut out), fits(text.len()));
        assert_eq!(out, behind(&text));
        let mut out = vec![7; room];
        assert_eq!(cable(b"4\n0 1\n2 3\n", &mut out), Err(refusal(7, 2)));
        assert_eq!(cable(b"4\n0 1\n2  3\n", &mut out), Err(refusal(12, 2)));
        let full = ring(4).full_image();
        assert_eq!(sheet(&full, &mut out), Err(refusal(1, 0)));
        assert_eq!(out, vec![7; room]);
    }
}

#[test]
fn what_the_programs_read() {
    let exact = format!("4\n{}10 11\n", "0 1\n".repeat(16_382));
    assert_eq!(exact.len(), 65_536);
    for tail in ["", "2", "x", "\n\n", "2 3\n"] {
        let long = [exact.as_str(), tail].concat();
        assert_eq!(programs::cable(long.as_bytes()), b"refused 3 0\n");
    }
    assert_eq!(refused([exact.as_str(), "x"].concat()), (12, 16_384));
    let cut = format!("4\n{}", "0 1\n".repeat(16_384));
    assert_eq!(programs::cable(cut.as_bytes()), b"refused 12 16384\n");
    assert_eq!(programs::cable(b""), b"refused 12 0\n");
    assert_eq!(programs::sheet(b""), b"refused 1 0\n");
    assert_eq!(programs::sheet(&hall().full_image()), b"refused 1 0\n");
}

/// All right lines, by the rules' words: each number from 0 to 255 as it is
/// printed.
struct Lines {
    first: HashMap<Vec<u8>, u8>,
    link: HashMap<Vec<u8>, (u8, u8)>,
}

impl Lines {
    fn new() -> Lines {
        let first = (0..=255).map(|n| (format!("{n}\n").into_bytes(), n));
        let with = |a: u8| (0..=255).map(move |b| (format!("{a} {b}\n").into_bytes(), (a, b)));
        Lines {
            first: first.collect(),
            link: (0..=255).flat_map(with).collect(),
        }
    }

    /// The links image of a text, or its refusal, line by line and rule by rule.
    fn image(&self, text: &[u8]) -> Result<Vec<u8>, (u8, usize)> {
        let mut rest = text;
        let mut take = || {
            let end = rest.iter().position(|&byte| byte == 10);
            let (line, behind) = rest.split_at(end.map_or(rest.len(), |at| at + 1));
            rest = behind;
            line.to_vec()
        };
        let nodes = *self.first.get(&take()).ok_or((12, 0))?;
        let mut pairs = Vec::new();
        loop {
            let line = take();
            if line.is_empty() {
                break;
            }
            pairs.push(*self.link.get(&line).ok_or((12, pairs.len() + 1))?);
        }
        fault(nodes, &pairs)?;
        let length = 2 + 2 * pairs.len();
        let mut image = vec![1, 1, 1, 0, 8, 0, (length % 256) as u8, (length / 256) as u8];
        image.extend([nodes, 0]);
        image.extend(pairs.iter().flat_map(|&(a, b)| [a, b]));
        Ok(image)
    }
}

/// Refusals 2 to 7 in their order.
fn fault(nodes: u8, pairs: &[(u8, u8)]) -> Result<(), (u8, usize)> {
    if !(2..=64).contains(&nodes) {
        return Err((2, 0));
    }
    if pairs.len() > 512 {
        return Err((3, 0));
    }
    for (i, &(a, b)) in pairs.iter().enumerate() {
        if a >= b || b >= nodes {
            return Err((4, i));
        }
        if i > 0 && pairs[i - 1] >= (a, b) {
            return Err((5, i));
        }
    }
    let at = |v: u8| pairs.iter().filter(|&&(a, b)| a == v || b == v).count();
    if let Some(v) = (0..nodes).find(|&v| at(v) > 16) {
        return Err((6, v.into()));
    }
    let mut reached = vec![0];
    for _ in 0..nodes {
        for &(a, b) in pairs {
            if reached.contains(&a) != reached.contains(&b) {
                reached.push(if reached.contains(&a) { b } else { a });
            }
        }
    }
    match (0..nodes).find(|v| !reached.contains(v)) {
        Some(v) => Err((7, v.into())),
        None => Ok(()),
    }
}

/// Both agree on a text, and an accepted one comes back.
fn agree(lines: &Lines, text: &[u8]) {
    let found = cabled(text);
    let expected = lines.image(text);
    let plain = found.map_err(|refused| (refused.number, refused.place));
    assert_eq!(plain, expected, "{:?}", String::from_utf8_lossy(text));
    if let Ok(image) = expected {
        assert_eq!(sheeted(&image).as_deref(), Ok(text));
    }
}

#[test]
fn all_short_texts() {
    let lines = Lines::new();
    let mut accepted = Vec::new();
    let mut texts: Vec<Vec<u8>> = vec![vec![]];
    for _ in 0..=7 {
        for text in &texts {
            agree(&lines, text);
            if cabled(text).is_ok() {
                accepted.push(text.clone());
            }
        }
        let longer = |text: &Vec<u8>| b"012 \n\r".map(|byte| [&text[..], &[byte]].concat());
        texts = texts.iter().flat_map(longer).collect();
    }
    assert_eq!(accepted, [b"2\n0 1\n"]);
}

/// Every set of links among 2 to 4 nodes, as a sheet: exactly the connected
/// ones are accepted, and no other text next to one gives its image.
#[test]
fn all_small_cablings_and_texts_next_to_them() {
    let lines = Lines::new();
    let mut connected = 0;
    for nodes in 2..=4 {
        let all = complete(nodes).pairs;
        for chosen in 0..1 << all.len() {
            let pairs = (0..all.len()).filter(|i| chosen >> i & 1 == 1);
            let text = Cabling::new(nodes, pairs.map(|i| all[i])).sheet();
            agree(&lines, &text);
            connected += usize::from(cabled(&text).is_ok());
            for near in next_to(&text) {
                agree(&lines, &near);
            }
        }
    }
    assert_eq!(connected, 1 + 4 + 38);
}

/// Every text that is one byte longer or shorter, or other in one byte.
fn next_to(text: &[u8]) -> Vec<Vec<u8>> {
    let mut texts = Vec::new();
    for place in 0..=text.len() {
        let (front, back) = text.split_at(place);
        for byte in 0..=255 {
            texts.push([front, &[byte], back].concat());
            if place < text.len() {
                texts.push([front, &[byte], &back[1..]].concat());
            }
        }
        if place < text.len() {
            texts.push([front, &back[1..]].concat());
        }
    }
    texts
}

#[test]
fn there_and_back_on_random_networks() {
    let lines = Lines::new();
    let mut random = Random::new(21);
    for _ in 0..300 {
        let nodes = random.between(2, 64);
        let cabling = match random.below(5) {
            0 => random_tree(nodes, &mut random),
            1 => random_blocks(nodes, &mut random),
            2 => random_regular(nodes.max(17), &mut random),
            3 => random_hall(&mut random),
            _ => random_connected(nodes, random.between(nodes, 4 * nodes), &mut random),
        };
        let (text, image) = (cabling.sheet(), cabling.links_image());
        assert_eq!(cabled(&text).as_ref(), Ok(&image));
        assert_eq!(sheeted(&image), Ok(text.clone()));
        let mut edited = text;
        for _ in 0..random.between(1, 5) {
            edit(&mut random, &mut edited);
            agree(&lines, &edited);
        }
    }
}

#[test]
fn images_that_have_no_sheet() {
    let refused = |cabling: Cabling| sheeted(&cabling.links_image());
    assert_eq!(refused(path(65)), Err(refusal(2, 0)));
    let many = second::cases::limits::too_many_pairs();
    assert_eq!(refused(many), Err(refusal(3, 0)));
    assert_eq!(
        refused(Cabling::raw(4, &[(0, 1), (3, 2)])),
        Err(refusal(4, 1))
    );
    assert_eq!(
        refused(Cabling::raw(4, &[(0, 2), (0, 1)])),
        Err(refusal(5, 1))
    );
    assert_eq!(refused(star(17)), Err(refusal(6, 0)));
    assert_eq!(
        refused(Cabling::raw(4, &[(0, 1), (2, 3)])),
        Err(refusal(7, 2))
    );
    assert_eq!(sheeted(&ring(4).full_image()), Err(refusal(1, 0)));
    assert_eq!(
        sheeted(&largest().links_image()).map(|text| text.len() <= ROOM),
        Ok(true)
    );
}
