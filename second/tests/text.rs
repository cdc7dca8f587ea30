//! The text of the program `calls`, and that cases come out the same again.

use second::cases::cabling::{path, ring};
use second::cases::pack::*;
use second::cases::{drawn, fixed, Set, DRAWN};
use second::image::lay_out;
use second::programs::run;
use second::protocol::calls;

fn text(input: &[u8]) -> String {
    String::from_utf8(calls(input)).expect("text")
}

#[test]
fn entries_and_rows() {
    let image = ring(4).links_image();
    assert_eq!(text(&entry_call(&image, 0)), "entry 1 0 8 10\n");
    assert_eq!(text(&entry_call(&image, 1)), "none\n");
    assert_eq!(text(&walk_call(&image, 0)), "");
    let three = "entry 1 0 8 10\nnone\nnone\n";
    assert_eq!(text(&walk_call(&image, 3)), three);
    let (free, falling) = ([1, 2, 3, 4], [5, 6, 7, 255]);
    assert_eq!(text(&row_call(&free, &falling, [2, 1, 1])), "row 7 255\n");
    assert_eq!(
        text(&row_call(&free, &falling, [2, 2, 1])),
        "refused 10 0\n"
    );
}

#[test]
fn hops() {
    let board = Board::new(&[8, 7], &[0, 1, 0, 1], &[0, 255, 0, 2]);
    let hop = |numbers| text(&hop_call(&board, numbers));
    assert_eq!(hop([2, 0, 0, 1]), "hop 1 1\n");
    assert_eq!(hop([2, 1, 0, 0]), "hop 0 0\n");
    assert_eq!(hop([2, 0, 1, 1]), "none\n");
    assert_eq!(hop([2, 1, 1, 1]), "refused 10 0\n");
    assert_eq!(hop([2, 0, 256, 1]), "refused 10 0\n");
    let mut input = hop_call(&board, [2, 0, 0, 1]);
    input.push(0);
    assert_eq!(text(&input), "bad call\n");
    input.truncate(input.len() - 2);
    assert_eq!(text(&input), "bad call\n");
    let without_labels = Pack::call(3).bytes(&board.free).bytes(&board.falling);
    let old = without_labels.numbers(&[2, 0, 0, 1]).done();
    assert_eq!(text(&old), "bad call\n");
}

#[test]
fn moves_without_a_start() {
    let board = Board::of(&ring(4));
    let messages = list(&[(0, 2), (0, 1), (9, 9), (9, 0), (64, 64)]);
    let named = [0, 1, 2, 3, 2, 2, 2, 3, 3, 4, 5, 0];
    let mut input = moves_call(4, &board, &messages, &[0], &named);
    let lines = "record 5 0\ndelivered\nheld\n\
        moved\nblocked 0\nmoved\nblocked 2\nmoved\ndelivered\nalready\n\
        moved\nrefused 10 0\nrefused 10 0\nrefused 10 0\nmoved\n\
        record 5 6\ndelivered 2\nheld 0 1 0 in 0 0 in 9 3\n";
    assert_eq!(text(&input), lines);
    let none = format!("{BLANK}{BLANK}");
    assert_eq!(text(&moves_call(65_535, &board, &[7], &[5], &[])), none);
    let classes = moves_call(4, &board, &messages, &[1, 0, 2, 1], &[0, 0, 1, 2, 2]);
    let lines = "record 5 0\ndelivered\nheld\n\
        moved\nrefused 10 0\nblocked 0\nmoved\nmoved\n\
        record 5 3\ndelivered\nheld in 0 0 in 9 2 out 9 2\n";
    assert_eq!(text(&classes), lines);
    for length in 0..input.len() {
        assert_eq!(text(&input[..length]), "bad call\n");
    }
    input.push(0);
    assert_eq!(text(&input), "bad call\n");
    let tables = Pack::call(12).number(4).bytes(&board.labels);
    let tables = tables.bytes(&board.free).bytes(&board.falling);
    let old = tables.bytes(&messages).numbers(&[1, 0]).done();
    assert_eq!(text(&old), "bad call\n");
}

#[test]
fn lengths_that_are_too_great() {
    for (selector, front, fields, behind) in [(3, 0, 3, 8), (12, 2, 5, 2)] {
        let good = [vec![selector], vec![0; front + 4 * fields + behind]].concat();
        assert_ne!(text(&good), "bad call\n");
        for field in 0..fields {
            for length in [1, 65_536, 0x8000_0000_u32, 0xFFFF_FFFF] {
                let place = 1 + front + 4 * field;
                let mut bad = good.clone();
                bad[place..place + 4].copy_from_slice(&length.to_le_bytes());
                assert_eq!(text(&bad), "bad call\n");
            }
        }
    }
}

#[test]
fn buffers() {
    let image = ring(4).full_image();
    assert_eq!(
        text(&route_call(&image, 0, 2, 5)),
        "route 3\nbuffer 0 1 2 34 41\n"
    );
    assert_eq!(
        text(&route_call(&image, 0, 2, 2)),
        "refused 9 0\nbuffer 13 20\n"
    );
    assert_eq!(
        text(&read_call(&image, 8)),
        "read 4 4 1\nbuffer 0 1 0 3 1 2 2 3\n"
    );
    assert_eq!(text(&read_call(&[], 0)), "refused 1 0\nbuffer\n");
    assert_eq!(
        text(&write_call(2, 0, &[0, 1], 13)),
        "wrote 12\nbuffer 1 1 1 0 8 0 4 0 2 0 0 1 97\n"
    );
    let built = text(&build_call(&ring(4).links_image(), 72));
    assert!(built.starts_with("built 72\nbuffer 1 4 1 0 26 0 10 0 "));
    assert_eq!(
        text(&cable_call(b"2\n0 1\n", 13)),
        "cabled 12\nbuffer 1 1 1 0 8 0 4 0 2 0 0 1 97\n"
    );
    assert_eq!(
        text(&cable_call(b"2\n0 1", 2)),
        "refused 12 1\nbuffer 13 20\n"
    );
    assert_eq!(
        text(&sheet_call(&path(2).links_image(), 7)),
        "sheet 6\nbuffer 50 10 48 32 49 10 55\n"
    );
    assert_eq!(text(&sheet_call(&image, 1)), "refused 1 0\nbuffer 13\n");
}

const BLANK: &str = "record 0 0\ndelivered\nheld\n";

#[test]
fn steps_and_traces() {
    let image = ring(4).links_image();
    let list = list(&[(0, 2), (0, 1), (3, 3)]);
    let steps = steps_call(&image, &list, &[0, 1, 2, 2, 2, 2, 3, 0]);
    let lines = "started\nrecord 3 0\ndelivered\nheld\n\
        moved\nblocked 0\nmoved\nmoved\ndelivered\nalready\nrefused 10 0\nmoved\n\
        record 3 5\ndelivered 2\nheld 0 1 0 in 0 0\n";
    assert_eq!(text(&steps), lines);
    let refused = format!("refused 11 0\n{BLANK}refused 10 0\n{BLANK}");
    assert_eq!(text(&steps_call(&image, &[1], &[0])), refused);
    let none = format!("started\n{BLANK}{BLANK}");
    assert_eq!(text(&steps_call(&image, &[], &[])), none);
    let none = trace_call(&drain_input(&image, 9, &[]));
    assert_eq!(text(&none), "drained 0 0\n");
    assert_eq!(text(&trace_call(&[1])), "refused 1 0\n");
}

#[test]
fn held_channels_by_node() {
    let messages = list(&[(0, 2), (1, 0), (2, 1)]);
    let named = [0, 0, 0, 0, 1, 1, 1, 2, 2, 2];
    let steps = steps_call(&path(3).links_image(), &messages, &named);
    let last = "record 3 10\ndelivered\n\
        held 0 1 0 in 0 0 out 0 1 1 0 1 1 2 0 in 1 1 out 1 2 2 1 2 in 2 2 out 2 0\n";
    let lines = format!(
        "started\nrecord 3 0\ndelivered\nheld\n{}{last}",
        "moved\n".repeat(10)
    );
    assert_eq!(text(&steps), lines);
}

#[test]
fn starts_on_a_used_record() {
    let image = ring(4).links_image();
    let two = list(&[(0, 2), (3, 3)]);
    let first = Round::new(&image, &two, &[0, 0, 1, 1, 1]);
    let refused = Round::new(&image, &[0, 4], &[0, 0, 0, 0]);
    let third = Round::new(&image, &list(&[(0, 1)]), &[0]);
    let last = Round::new(&image, &list(&[(0, 1)]), &[0, 0]);
    let lines = "started\nrecord 2 0\ndelivered\nheld\n\
        moved\nmoved\nmoved\nmoved\ndelivered\n\
        record 2 5\ndelivered 1\nheld 0 1 0 in 0 0\n\
        refused 10 0\nrecord 2 5\ndelivered 1\nheld 0 1 0 in 0 0\n\
        moved\nmoved\ndelivered\nalready\nrecord 2 8\ndelivered 0 1\nheld\n\
        started\nrecord 1 0\ndelivered\nheld\n\
        moved\nrecord 1 1\ndelivered\nheld in 0 0\n\
        started\nrecord 1 0\ndelivered\nheld\n\
        moved\nmoved\nrecord 1 2\ndelivered\nheld 0 1 0 in 0 0\n";
    let mut input = rounds_call(&[first, refused, third, last]);
    assert_eq!(text(&input), lines);
    input.pop();
    assert_eq!(text(&input), "bad call\n");
    assert_eq!(text(&rounds_call(&[])), "bad call\n");
}

#[test]
fn images_over_65_535_bytes() {
    let body = ring(4).links_body();
    for (total, refused) in [(65_535, 3), (65_536, 1), (65_537, 1)] {
        let mut long = body.clone();
        long.resize(total - 8, 0);
        let image = lay_out(&[(1, &long)]);
        assert_eq!(image.len(), total);
        let line = format!("refused {refused} 0\nbuffer 13\n");
        assert_eq!(text(&read_call(&image, 1)), line);
        assert_eq!(text(&build_call(&image, 1)), line);
        assert_eq!(text(&route_call(&image, 0, 1, 1)), line);
        let line = format!("refused {refused} 0\n{BLANK}{BLANK}");
        assert_eq!(text(&steps_call(&image, &[], &[])), line);
        let entry = format!("entry 1 0 8 {}\n", total - 8);
        assert_eq!(text(&entry_call(&image, 0)), entry);
    }
}

#[test]
fn bad_calls() {
    let good = entry_call(&ring(4).links_image(), 0);
    for length in 0..good.len() {
        assert_eq!(text(&good[..length]), "bad call\n");
    }
    let longer = [good.as_slice(), &[0]].concat();
    assert_eq!(text(&longer), "bad call\n");
    assert_eq!(text(&[12]), "bad call\n");
    assert_eq!(text(&[13]), "bad call\n");
    assert_eq!(text(&[255, 0, 0]), "bad call\n");
}

#[test]
fn fixed_cases_run() {
    for case in fixed(Set::Small) {
        let output = run(case.program, &case.input).expect("a known program");
        assert!(!output.is_empty());
    }
}

#[test]
fn drawn_cases_come_out_the_same_again() {
    for index in 0..40 * DRAWN.len() {
        let case = drawn(Set::Large, 3, index);
        assert_eq!(case, drawn(Set::Large, 3, index));
        assert!(run(case.program, &case.input).is_some());
    }
}
