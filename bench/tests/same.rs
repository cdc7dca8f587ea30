//! The lean version does the second program's work: the same images, the same
//! refusals, the same moves of the same messages.

use bench::lean;
use bench::work::{answer, input, DRAINS};
use second::calls::build;
use second::cases::{drawn, fixed, Set};
use second::programs::drained;

fn built(build: impl Fn(&[u8], &mut [u8]) -> Option<usize>, image: &[u8]) -> Option<Vec<u8>> {
    let mut room = vec![0; 9_308];
    let length = build(image, &mut room)?;
    room.truncate(length);
    Some(room)
}

/// The inputs of the comparison for one program.
fn inputs(program: &str) -> Vec<Vec<u8>> {
    let cases = fixed(Set::Small).into_iter();
    let all = cases.chain((0..4_000).map(|i| drawn(Set::Large, 11, i)));
    let of = all.filter(|case| case.program == program);
    of.map(|case| case.input).collect()
}

#[test]
fn same_images() {
    let mut accepted = 0;
    for image in inputs("build") {
        let theirs = built(|i, o| build(i, o).ok(), &image);
        assert_eq!(built(lean::build, &image), theirs);
        accepted += usize::from(theirs.is_some());
    }
    assert!(accepted > 100);
}

/// Image, seed and list of a drain input, if it is long enough.
fn parts(case: &[u8]) -> Option<(&[u8], u32, &[u8])> {
    let (length, rest) = case.split_first_chunk()?;
    let (image, rest) = rest.split_at_checked(usize::from(u16::from_le_bytes(*length)))?;
    let (seed, list) = rest.split_first_chunk()?;
    Some((image, u32::from_le_bytes(*seed), list))
}

#[test]
fn same_moves() {
    let mut accepted = 0;
    for case in inputs("drain") {
        let Some((image, seed, list)) = parts(&case) else {
            continue;
        };
        let input = input(DRAINS, 3, image, list);
        let theirs = answer(&input, false);
        assert_eq!(answer(&input, true), theirs);
        accepted += usize::from(theirs.is_some());
        let mut moved = Vec::new();
        let moves = lean::drain_telling(image, list, seed, |m| moved.push(m));
        let run = drained(&case).ok();
        assert_eq!(moves, run.as_ref().map(|run| run.moves));
        let theirs = run.map_or(vec![], |run| run.steps);
        assert!(theirs.iter().map(|step| step.1).eq(moved));
    }
    assert!(accepted > 100);
}
