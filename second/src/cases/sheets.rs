//! Sheets that are no sheets: each byte of one changed, lines of a wrong form,
//! numbers past a limit, too many links, two faults at once; and drawn edits.

use super::cabling::{complete, hall, largest, path, ring, star, Cabling};
use super::limits::too_many_pairs;
use super::pack::{cable_call, links_length, sheet_call};
use super::random::Random;
use super::{Case, Set};

pub fn cases(set: Set) -> Vec<Case> {
    let mut cases = Vec::new();
    cases.extend(through_cable("edited", edited(&ring(4).sheet(), set)));
    cases.extend(through_cable("lines", wrong_lines(set)));
    cases.extend(through_cable("lines", wrong_texts()));
    cases.extend(through_cable("numbers", wrong_numbers()));
    cases.extend(through_cable("limits", link_counts()));
    cases.extend(long_sheets());
    cases.extend(largest_rooms());
    let small_room = |sheet: &Vec<u8>| Case::new("order", "calls", cable_call(sheet, 5));
    cases.extend(two_faults().iter().map(small_room));
    cases
}

fn through_cable(family: &'static str, sheets: Vec<Vec<u8>>) -> Vec<Case> {
    let case = |sheet| Case::new(family, "cable", sheet);
    sheets.into_iter().map(case).collect()
}

/// A sheet cut short at each place, and with each byte dropped, changed, or
/// another put before it.
fn edited(sheet: &[u8], set: Set) -> Vec<Vec<u8>> {
    let (put, changed): (&[u8], Vec<u8>) = match set {
        Set::Small => (b"0 \n", b"0 \n3".to_vec()),
        Set::Large => (b"0123456789 \n\r\t+-\0\x80", (0..=255).collect()),
    };
    let mut sheets: Vec<Vec<u8>> = Vec::new();
    for place in 0..=sheet.len() {
        let (front, back) = sheet.split_at(place);
        sheets.push(front.to_vec());
        sheets.extend(put.iter().map(|&byte| [front, &[byte], back].concat()));
        let Some((&old, rest)) = back.split_first() else {
            continue;
        };
        sheets.push([front, rest].concat());
        let others = changed.iter().filter(|&&byte| byte != old);
        sheets.extend(others.map(|&byte| [front, &[byte], rest].concat()));
    }
    sheets
}

/// Forms of the first line, 4 in the right one.
const FIRST_LINES: [&[u8]; 25] = [
    b"", b" ", b"04", b"004", b"00", b"4 ", b" 4", b"4  ", b"\t4", b"4\t", b"4\r", b"+4", b"-4",
    b"4 4", b"4 0 1", b"4,", b"4.0", b"0x4", b"four", b"4/", b"4:", b":", b"\x004", b"4\0",
    b"4\x80",
];

/// Forms of a link's line, `A B` in the right one.
const LINK_LINES: [&[u8]; 46] = [
    b"", b" ", b"A", b"A ", b" B", b"AB", b"A  B", b"A   B", b" A B", b"A B ", b"\tA B", b"A\tB",
    b"A B\t", b"A \tB", b"A B\r", b"\rA B", b"A\rB", b"0A B", b"A 0B", b"00 B", b"A 00", b"A 00B",
    b"+A B", b"A +B", b"-A B", b"A -B", b"A -0", b"A-B", b"A,B", b"A, B", b"A B C", b"A B 0",
    b"A B  ", b"A B#", b"#A B", b"A B/", b"A B:", b"A /", b": B", b"x B", b"A 0x1", b"A.0 B",
    b"A\0B", b"A B\0", b"A\xA0B", b"A \xB2",
];

/// The ring's sheet with one line of another form.
fn wrong_lines(set: Set) -> Vec<Vec<u8>> {
    let ring = ring(4).sheet();
    let lines: Vec<&[u8]> = ring.split_inclusive(|&byte| byte == b'\n').collect();
    let with = |place: usize, line: Vec<u8>| {
        let mut lines = lines.clone();
        lines[place] = &line;
        lines.concat()
    };
    let closed = |line: &[u8]| [line, b"\n"].concat();
    let mut sheets: Vec<Vec<u8>> = FIRST_LINES.iter().map(|l| with(0, closed(l))).collect();
    for (i, form) in LINK_LINES.iter().enumerate() {
        let places = match set {
            Set::Small => vec![[1, 2, 4][i % 3]],
            Set::Large => vec![1, 2, 3, 4],
        };
        for place in places {
            sheets.push(with(place, closed(&filled(form, lines[place]))));
        }
    }
    sheets.sort_unstable();
    sheets.dedup();
    sheets
}

/// A form with a line's numbers, each of one digit, for A and B.
fn filled(form: &[u8], line: &[u8]) -> Vec<u8> {
    let digit = |&byte: &u8| match byte {
        b'A' => line[0],
        b'B' => line[2],
        b'C' => b'3',
        other => other,
    };
    form.iter().map(digit).collect()
}

/// Texts that are wrong as a whole.
fn wrong_texts() -> Vec<Vec<u8>> {
    let sheet = String::from_utf8(ring(4).sheet()).expect("text");
    let texts = [
        sheet.replace('\n', "\r\n"),
        sheet.replace('\n', "\r"),
        sheet.replace('\n', "\n\n"),
        sheet.replace('\n', " "),
        sheet.replace(' ', "\n"),
        sheet.replace(' ', ""),
        sheet.replace('\n', "\0"),
        format!("\n{sheet}"),
        format!("\u{FEFF}{sheet}"),
        format!("{sheet}\n"),
        format!("{sheet} "),
        format!("{sheet}\0"),
        format!("{sheet}\u{1A}"),
        format!("{sheet}3"),
        format!("{sheet}{sheet}"),
        format!("# ring\n{sheet}"),
        format!("4 4\n{}", &sheet[2..]),
        sheet[2..].into(),
    ];
    let mut texts: Vec<Vec<u8>> = texts.map(String::into_bytes).to_vec();
    texts.push(sheet.bytes().flat_map(|byte| [byte, 0]).collect());
    texts.extend([ring(4).links_image(), vec![0], vec![b' '], vec![255; 40]]);
    texts.extend([b"2\n".into(), b"2".into(), b"64\n".into(), b"\n\n".into()]);
    texts
}

/// Numbers at and past the limits, in the place of N and of both numbers of a
/// link; some have the right number in their low bits.
fn wrong_numbers() -> Vec<Vec<u8>> {
    let mut sheets = Vec::new();
    let mut at_each_place = |number: &dyn Fn(u128) -> String| {
        let links: String = (2..12).map(|v| format!("{} {v}\n", v - 1)).collect();
        sheets.push(format!("{}\n0 1\n{links}", number(12)));
        sheets.push(format!("12\n{} 1\n{links}", number(0)));
        sheets.push(format!("12\n0 {}\n{links}", number(1)));
    };
    for number in [11, 64, 65, 99, 199, 255, 256, 999, 1_000] {
        at_each_place(&|_| number.to_string());
    }
    for bits in [8, 16, 32, 64] {
        at_each_place(&|number| (number + (1 << bits)).to_string());
    }
    at_each_place(&|number| "9".repeat(400) + &number.to_string());
    at_each_place(&|number| "0".repeat(300) + &number.to_string());
    sheets.into_iter().map(String::into_bytes).collect()
}

/// So many links, all of them numbers below 64 and most in rising order.
fn many_links(count: usize) -> Cabling {
    let pairs: Vec<_> = complete(64).pairs.into_iter().cycle().take(count).collect();
    Cabling::raw(64, &pairs)
}

/// The largest cabling with one link fewer and with late bad links, and more
/// links than there may be.
fn link_counts() -> Vec<Vec<u8>> {
    let front = &largest().pairs[..511];
    let last = |pair| Cabling::raw(64, &[front, &[pair]].concat());
    let mut cablings = vec![Cabling::raw(64, front)];
    cablings.extend([(62, 62), (62, 64), (61, 62), (62, 255)].map(last));
    cablings.extend([512, 513, 514, 600, 768, 1_025, 9_000].map(many_links));
    cablings.iter().map(Cabling::sheet).collect()
}

/// Sheets of 65,536 bytes and over: a program looks at so many, a call at all.
fn long_sheets() -> Vec<Case> {
    let links = |count: usize| "0 1\n".repeat(count);
    let exact = |tail: &str| format!("4\n{}10 11\n{tail}", links(16_382));
    let sheets = [
        exact(""),
        exact("2"),
        exact("x y\n"),
        exact("2 3\n"),
        exact("\n4\n"),
        exact("")[..65_535].into(),
        format!("4\n{}", links(16_384)),
        format!("4\n{}2", links(32_765)),
        format!("4\n0 1\n0 3\n1 2\n2 3\n{}", links(16_384)),
        format!("4\n0 1\n0 3\n1 2\n2 3\n{}", "\0".repeat(65_536)),
        format!("{}4\n0 1\n", "0".repeat(65_535)),
        "1".repeat(65_537),
        "\n".repeat(65_537),
    ];
    let both = |sheet: &String| {
        [
            Case::new("limits", "cable", sheet.clone().into()),
            Case::new("limits", "calls", cable_call(sheet.as_bytes(), 20)),
        ]
    };
    sheets.iter().flat_map(both).collect()
}

/// The largest results into buffers around their length.
fn largest_rooms() -> Vec<Case> {
    let mut inputs = Vec::new();
    for cabling in [hall(), largest()] {
        let (sheet, length) = (cabling.sheet(), links_length(&cabling));
        for more in [0, 1, 2] {
            inputs.push(cable_call(&sheet, length - 1 + more));
            inputs.push(sheet_call(&cabling.links_image(), sheet.len() - 1 + more));
        }
    }
    let case = |input| Case::new("limits", "calls", input);
    inputs.into_iter().map(case).collect()
}

/// Sheets with two faults, or one beside a buffer that is too short. The first
/// fault on a sheet is not always the one to be given.
fn two_faults() -> Vec<Vec<u8>> {
    let short = [
        "65\n0  1\n",
        "1\n\n",
        "0\n0 1",
        "255\n0 256\n",
        "256\n0 x\n",
        "2\n0 1\n0 1",
        "04\n0  1\n",
        "4\n0  1\n01 2\n",
        "4\n0 256\n+1 2\n",
        "4\n1 0\n0  1\n",
        "4\n0 4\n0 256\n",
        "4\n0 0\n\n",
        "4\n0 2\n0 1\n01 2\n",
        "4\n0 1\n0 1\n1",
        "4\n0 1\n2 3",
        "4\n0 1\n2 3\n\n",
        "4\n\n1 0\n",
        "1\n0 1\n",
        "65\n1 0\n",
        "255\n0 255\n",
        "65\n0 1\n0 1\n",
        "0\n",
        "4\n0 2\n0 1\n3 3\n",
        "4\n0 1\n9 9\n0 1\n",
        "4\n1 2\n0 4\n",
        "4\n1 2\n1 1\n",
        "4\n0 1\n0 1\n",
        "4\n2 3\n0 1\n",
        "4\n0 1\n2 3\n0 2\n",
        "2\n",
        "4\n",
        "4\n0 1\n2 3\n",
        "4\n0 1\n1 2\n2 3\n",
        "4\n0 1\n2 255\n",
        "4\n0 1\n256 3\n",
        "4\n0 1\n2 300",
        "65\n",
        "64\n0 1\n",
    ];
    let mut sheets: Vec<Vec<u8>> = short.map(|text| text.into()).to_vec();
    let many = too_many_pairs().sheet();
    let reversed = Cabling::raw(64, &[&[(1, 0)], &many_links(512).pairs[..]].concat());
    let twice = Cabling::raw(64, &[&[(0, 1)], &many_links(512).pairs[..]].concat());
    let other = |nodes: usize| Cabling::raw(nodes, &too_many_pairs().pairs).sheet();
    sheets.extend([reversed.sheet(), twice.sheet(), other(1), other(255)]);
    for tail in ["0  9\n", "\n", "9", "9 256\n", "63 64\n"] {
        sheets.push([many.as_slice(), tail.as_bytes()].concat());
        let crowded = star(17).sheet();
        sheets.push([crowded.as_slice(), tail.as_bytes()].concat());
    }
    let late = [many_links(9_000).sheet().as_slice(), b"1 02\n"].concat();
    sheets.extend([late, other(256), path(65).sheet(), star(17).sheet()]);
    sheets
}

/// A drawn change of a byte, of a number or of whole lines.
pub fn edit(random: &mut Random, sheet: &mut Vec<u8>) {
    match random.below(3) {
        0 => edit_byte(random, sheet),
        1 => edit_number(random, sheet),
        _ => edit_lines(random, sheet),
    }
}

fn edit_byte(random: &mut Random, sheet: &mut Vec<u8>) {
    let place = random.below(sheet.len() + 1);
    let byte = match random.below(6) {
        0 => random.byte(),
        _ => random.pick(b"0123456789  \n\n\r\t+-,\0"),
    };
    match random.below(5) {
        0 => sheet.truncate(place),
        1 => sheet.insert(place, byte),
        _ if place == sheet.len() => sheet.push(byte),
        2 => drop(sheet.remove(place)),
        3 => sheet.insert(place, sheet[place]),
        _ => sheet[place] = byte,
    }
}

/// One of the runs of digits gets another text.
fn edit_number(random: &mut Random, sheet: &mut Vec<u8>) {
    let is_digit = |place: usize| sheet.get(place).is_some_and(u8::is_ascii_digit);
    let starts: Vec<usize> = (0..sheet.len())
        .filter(|&place| is_digit(place) && (place == 0 || !is_digit(place - 1)))
        .collect();
    if starts.is_empty() {
        return;
    }
    let start = random.pick(&starts);
    let end = (start..).find(|&place| !is_digit(place)).expect("an end");
    let old: u128 = std::str::from_utf8(&sheet[start..end])
        .ok()
        .and_then(|digits| digits.parse().ok())
        .unwrap_or(7);
    let new = match random.below(10) {
        0 => format!("0{old}"),
        1 => String::new(),
        2 => random.pick(&[255, 256, 257, 999]).to_string(),
        3 => old
            .wrapping_add(1 << random.pick(&[8, 16, 32, 64]))
            .to_string(),
        4 => random.between(0, 300).to_string(),
        5 => old.saturating_sub(1).to_string(),
        6 => old.saturating_add(1).to_string(),
        _ => random.below(starts.len().min(64)).to_string(),
    };
    sheet.splice(start..end, new.into_bytes());
}

/// Lines change places, or one is dropped, doubled, emptied or turned round.
fn edit_lines(random: &mut Random, sheet: &mut Vec<u8>) {
    let inclusive = sheet.split_inclusive(|&byte| byte == b'\n');
    let mut lines: Vec<Vec<u8>> = inclusive.map(|line| line.to_vec()).collect();
    if lines.is_empty() {
        return;
    }
    let (one, other) = (random.below(lines.len()), random.below(lines.len()));
    match random.below(6) {
        0 => lines.swap(one, other),
        1 => drop(lines.remove(one)),
        2 => lines.insert(other, lines[one].clone()),
        3 => lines.insert(one, b"\n".to_vec()),
        4 => lines.truncate(one),
        _ => turn(&mut lines[one]),
    }
    *sheet = lines.concat();
}

/// `a b` becomes `b a`.
fn turn(line: &mut Vec<u8>) {
    let text = String::from_utf8_lossy(line);
    if let Some((a, b)) = text.trim_end_matches('\n').split_once(' ') {
        *line = format!("{b} {a}\n").into_bytes();
    }
}
