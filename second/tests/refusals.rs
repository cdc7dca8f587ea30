//! Numbers, places and order of the refusals, and that a refused call leaves
//! buffer and record alone.

use second::calls::{accept, build, read, route, write};
use second::cases::cabling::{path, ring, star, Cabling};
use second::cases::pack::{drain_input, list};
use second::drain::{Answer, Record};
use second::image::lay_out;
use second::programs::{drain, show};
use second::refusal::{refusal, Refusal};

/// The refusal of an image, or (0, 0) if it is accepted.
fn refused(image: &[u8]) -> (u8, usize) {
    match accept(image) {
        Ok(_) => (0, 0),
        Err(Refusal { number, place }) => (number, place),
    }
}

fn links(body: &[u8]) -> Vec<u8> {
    lay_out(&[(1, body)])
}

#[test]
fn contents() {
    let full = ring(4).full_image();
    assert_eq!(refused(&full), (0, 0));
    for length in 0..full.len() {
        assert_eq!(refused(&full[..length]), (1, 0));
    }
    let longer = [full.as_slice(), &[0]].concat();
    assert_eq!(refused(&longer), (1, 0));
    let mut second_byte = full.clone();
    second_byte[3] = 1;
    assert_eq!(refused(&second_byte), (1, 0));
    assert_eq!(refused(&lay_out(&[])), (1, 0));
    assert_eq!(refused(&links(&[])), (1, 0));
    assert_eq!(refused(&links(&[2])), (1, 0));
    assert_eq!(build(&full, &mut [0; 100]), Err(refusal(1, 0)));
}

#[test]
fn images_at_the_limit() {
    let body = ring(4).links_body();
    let image = |total: usize| {
        let rest = total - 26 - body.len();
        let (half, last) = (vec![0; rest / 2], vec![0; rest - rest / 2]);
        lay_out(&[(1, &body), (2, &[]), (3, &half), (4, &last)])
    };
    assert_eq!(refused(&image(65_535)), (8, 0));
    assert_eq!(refused(&image(65_536)), (1, 0));
    assert_eq!(show(&image(65_536)), b"refused 1 0\n");
    let long = |total: usize| links(&[body.as_slice(), &vec![0; total - 18]].concat());
    assert_eq!(refused(&long(65_535)), (3, 0));
    assert_eq!(refused(&long(65_536)), (1, 0));
}

#[test]
fn wrong_tables_without_a_gap() {
    let body = ring(4).links_body();
    let image = ring(4).full_image();
    let two = &image[36..40];
    let (three, four) = (&image[40..56], &image[56..72]);
    let lay = |a: &[u8], b: &[u8], c: &[u8]| lay_out(&[(1, &body), (2, a), (3, b), (4, c)]);
    assert_eq!(lay(two, three, four), image);
    assert_eq!(refused(&lay(&two[1..], three, four)), (8, 0));
    assert_eq!(refused(&lay(two, &[], four)), (8, 0));
    assert_eq!(refused(&lay(two, three, &image[50..72])), (8, 0));
    assert_eq!(refused(&lay(two, &image[40..57], &four[1..])), (8, 0));
    for place in 36..72 {
        let mut changed = image.clone();
        changed[place] ^= 1;
        assert_eq!(refused(&changed), (8, 0));
    }
}

#[test]
fn first_bad_pair() {
    let pairs = |bytes: &[u8]| refused(&links(&[&[4, 0], bytes].concat()));
    assert_eq!(pairs(&[1, 0]), (4, 0));
    assert_eq!(pairs(&[0, 0]), (4, 0));
    assert_eq!(pairs(&[0, 4]), (4, 0));
    assert_eq!(pairs(&[0, 2, 0, 1, 9, 9]), (5, 1));
    assert_eq!(pairs(&[0, 1, 9, 9, 0, 1]), (4, 1));
    assert_eq!(pairs(&[1, 2, 0, 4]), (4, 1));
    assert_eq!(pairs(&[0, 1, 0, 1, 1, 2, 2, 3]), (5, 1));
    assert_eq!(pairs(&[]), (7, 1));
    assert_eq!(pairs(&[0]), (3, 0));
}

#[test]
fn order_in_kind_one() {
    assert_eq!(refused(&links(&[1, 1, 0])), (2, 0));
    assert_eq!(refused(&links(&[4, 1, 1, 0])), (3, 0));
    assert_eq!(refused(&links(&[2, 0])), (7, 1));
    let hub = |v: usize| (41..58).map(move |w| (v, w));
    let crowded = Cabling::new(64, hub(40).chain(hub(3)));
    assert_eq!(refused(&crowded.links_image()), (6, 3));
    assert_eq!(refused(&star(17).reversed().links_image()), (6, 17));
    let seven = lay_out(&[(1, &[4, 0, 0, 1, 2, 3]), (2, &[]), (3, &[]), (4, &[])]);
    assert_eq!(refused(&seven), (7, 2));
}

#[test]
fn refused_calls_write_nothing() {
    let image = ring(4).full_image();
    let mut out = [5; 7];
    assert_eq!(read(&image, &mut out), Err(refusal(9, 0)));
    assert_eq!(build(&path(2).links_image(), &mut out), Err(refusal(9, 0)));
    assert_eq!(write(2, &[0, 1], false, &mut out), Err(refusal(9, 0)));
    assert_eq!(write(2, &[0, 1, 0], true, &mut out), Err(refusal(3, 0)));
    assert_eq!(write(258, &[0], true, &mut out), Err(refusal(2, 0)));
    assert_eq!(write(4, &[0; 1_026], true, &mut out), Err(refusal(3, 0)));
    assert_eq!(route(&image, 4, 0, &mut []), Err(refusal(10, 0)));
    assert_eq!(route(&image, 0, 2, &mut out[..2]), Err(refusal(9, 0)));
    assert_eq!(out, [5; 7]);
    assert_eq!(route(&image, 0, 2, &mut out), Ok(3));
    assert_eq!(out, [0, 1, 2, 5, 5, 5, 5]);
    assert_eq!(route(&image, 3, 3, &mut out), Ok(1));
    assert_eq!(out, [3, 1, 2, 5, 5, 5, 5]);
}

#[test]
fn starts_and_moves() {
    let good = ring(4).full_image();
    let mut record = Record::default();
    assert_eq!(record.step(0), Err(refusal(10, 0)));
    record.start(&good, &[0, 2, 1, 3]).expect("accepted");
    assert_eq!(record.step(1), Ok(Answer::Moved));
    let before = record.clone();
    let mut bad = good.clone();
    bad[71] = 9;
    assert_eq!(record.start(&bad, &[9]), Err(refusal(8, 0)));
    assert_eq!(record.start(&good, &[9]), Err(refusal(11, 0)));
    assert_eq!(record.start(&good, &[9; 514]), Err(refusal(11, 0)));
    let late = list(&[(0, 1), (3, 3), (1, 4), (9, 9)]);
    assert_eq!(record.start(&good, &late), Err(refusal(10, 2)));
    assert_eq!(record.step(2), Err(refusal(10, 0)));
    assert_eq!(record, before);
    assert!(record.start(&good, &[1; 512]).is_ok());
    assert_eq!(record.messages(), 256);
}

#[test]
fn drain_inputs_too_short() {
    let image = ring(4).links_image();
    let whole = drain_input(&image, 0, &[]);
    for length in 0..whole.len() {
        assert_eq!(drain(&whole[..length]), b"refused 1 0\n");
    }
    assert_eq!(drain(&whole), b"drained 0 0\n");
    let odd = drain_input(&image, 0, &[0, 1, 2]);
    assert_eq!(drain(&odd), b"refused 11 0\n");
    let far = drain_input(&image, 0, &[0, 1, 2, 4]);
    assert_eq!(drain(&far), b"refused 10 1\n");
}
