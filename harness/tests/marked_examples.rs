//! The marked examples at the end of 01, with the empty list, through the C interface and through
//! the reference. 01's example of number 6 is an accepted graph (02, U4). They are restated in
//! edition 2, and stand as old files for the mover (02, U6).

use harness::answer::Answer;
use harness::call::{Implementation, LIBRARY, REFERENCE};
use harness::library::{FIRST_SEARCH, GRAPH_BYTES, NO_SUBSTITUTES};
use harness::reference::{CHECKPOINT_BYTES, MAX_VERTICES, WORKSPACE_WORDS};

/// 01's pair P.
const P: [&[u8]; 2] = [
    &[4, 2, 3, 7, 0, 3, 9, 0, 3, 7, 0, 2, 0, 1, 1, 2, 1, 2, 1, 0],
    &[4, 2, 3, 9, 0, 3, 7, 0, 2, 0, 1, 1, 0],
];
const EMPTY: [&[u8]; 2] = [&[4, 2, 0], &[4, 2, 0]];
const ONE_AGAINST_TWO: [&[u8]; 2] = [&[4, 2, 3, 7, 0, 0], &[4, 2, 3, 7, 0, 3, 7, 0, 0]];
const EDGE_AGAINST_NONE: [&[u8]; 2] = [
    &[4, 2, 3, 7, 0, 3, 9, 0, 2, 0, 1, 1, 0],
    &[4, 2, 3, 7, 0, 3, 9, 0, 0],
];

/// More visits than any of the examples makes.
const ENOUGH: u64 = 100;

#[derive(Debug, PartialEq)]
struct Found {
    finished: bool,
    steps: u64,
    ceiling: u64,
    mapping: Option<Vec<u8>>,
}

fn search(by: &Implementation, [old, new]: [&[u8]; 2], minimum: u8, budget: u64) -> Found {
    let mut fresh = [0; CHECKPOINT_BYTES];
    let started = (by.start)(old, new, NO_SUBSTITUTES, FIRST_SEARCH, minimum, &mut fresh);
    assert!(started.is_accepted());
    let fresh = &fresh[..started.value as usize];

    let mut workspace = [1; WORKSPACE_WORDS];
    let mut next = [0; CHECKPOINT_BYTES];
    let resumed = (by.resume)(
        old,
        new,
        NO_SUBSTITUTES,
        FIRST_SEARCH,
        fresh,
        budget,
        &mut workspace,
        &mut next,
    );
    assert!(resumed.is_accepted());
    let next = &next[..resumed.value as usize];

    let mut mapping = [0; MAX_VERTICES];
    let read = (by.read_out)(old, new, NO_SUBSTITUTES, FIRST_SEARCH, next, &mut mapping);
    assert!(read.is_accepted());
    assert_eq!(read.ceiling, resumed.ceiling);
    let order = (by.check_graph)(old).value as usize;
    Found {
        finished: read.value >= 2,
        steps: read.steps,
        ceiling: read.ceiling,
        mapping: (read.value % 2 == 1).then(|| mapping[..order].to_vec()),
    }
}

fn finished(steps: u64, ceiling: u64, mapping: Option<&[u8]>) -> Found {
    Found {
        finished: true,
        steps,
        ceiling,
        mapping: mapping.map(<[u8]>::to_vec),
    }
}

fn unfinished(steps: u64, ceiling: u64, mapping: Option<&[u8]>) -> Found {
    Found {
        finished: false,
        ..finished(steps, ceiling, mapping)
    }
}

fn searches_of(by: &Implementation) {
    let largest: Option<&[u8]> = Some(&[1, 0, 255]);
    let table = [
        (P, 1, ENOUGH, finished(6, 3, largest)),
        (P, 1, 3, unfinished(3, 3, None)),
        (P, 1, 4, unfinished(4, 3, largest)),
        (P, 1, 0, unfinished(0, 4, None)),
        (P, 3, ENOUGH, finished(3, 3, None)),
        (P, 255, ENOUGH, finished(1, 255, None)),
        (EMPTY, 0, ENOUGH, finished(1, 1, Some(&[]))),
        (EMPTY, 1, ENOUGH, finished(1, 1, None)),
        (ONE_AGAINST_TWO, 0, ENOUGH, finished(4, 2, Some(&[0]))),
        (
            EDGE_AGAINST_NONE,
            0,
            ENOUGH,
            finished(4, 2, Some(&[0, 255])),
        ),
    ];
    for (graphs, minimum, budget, expected) in table {
        let found = search(by, graphs, minimum, budget);
        assert_eq!(
            found, expected,
            "{} with {graphs:?}, minimum {minimum}",
            by.name
        );
    }
}

fn refused(number: u32, value: u64) -> Answer {
    Answer {
        number,
        ..Answer::accepted(value)
    }
}

fn graph_bytes_of(by: &Implementation) {
    let table: [(&[u8], Answer); 7] = [
        (&[4, 2, 0], Answer::accepted(0)),
        (&[], refused(1, 0)),
        (&[4, 2, 3, 7, 0, 2, 0, 1, 1, 0], refused(5, 5)),
        (&[4, 2, 3, 7, 0, 2, 0, 0, 1, 0], Answer::accepted(1)),
        // the old files
        (&[0], refused(27, 0)),
        (&[1, 7, 2, 0, 1, 1, 0], refused(27, 0)),
        (&[1, 7, 2, 0, 0, 1, 0], refused(27, 0)),
    ];
    for (bytes, expected) in table {
        assert_eq!(
            (by.check_graph)(bytes),
            expected,
            "{} with {bytes:?}",
            by.name
        );
    }
}

/// An old file, and what it is in edition 2, or how it is refused.
type OldFile<'a> = (&'a [u8], Result<&'a [u8], Answer>);

fn old_files_of(by: &Implementation) {
    let table: [OldFile; 11] = [
        (&[1, 7, 1, 9, 1, 7, 2, 0, 1, 1, 2, 1, 2, 1, 0], Ok(P[0])),
        (&[1, 9, 1, 7, 2, 0, 1, 1, 0], Ok(P[1])),
        (&[0], Ok(EMPTY[0])),
        (&[1, 7, 0], Ok(ONE_AGAINST_TWO[0])),
        (&[1, 7, 1, 7, 0], Ok(ONE_AGAINST_TWO[1])),
        (&[1, 7, 1, 9, 2, 0, 1, 1, 0], Ok(EDGE_AGAINST_NONE[0])),
        (&[1, 7, 1, 9, 0], Ok(EDGE_AGAINST_NONE[1])),
        (&[], Err(refused(1, 0))),
        (&[1, 7, 2, 0, 1, 1, 0], Err(refused(5, 2))),
        (&[1, 7, 2, 0, 0, 1, 0], Ok(&[4, 2, 3, 7, 0, 2, 0, 0, 1, 0])),
        // an edition 2 file is no old one
        (EMPTY[0], Err(refused(2, 0))),
    ];
    for (old, expected) in table {
        let mut out = [0x55; GRAPH_BYTES];
        let answer = (by.to_edition_2)(old, &mut out);
        let (length, due) = match expected {
            Ok(bytes) => (bytes.len(), Answer::accepted(bytes.len() as u64)),
            Err(refusal) => (0, refusal),
        };
        assert_eq!(answer, due, "{} with {old:?}", by.name);
        assert_eq!(out[..length], *expected.unwrap_or_default());
        assert!(out[length..].iter().all(|&byte| byte == 0x55));
        if let Ok(moved) = expected {
            let mut back = vec![0x55; old.len()];
            let answer = (by.to_edition_1)(moved, &mut back);
            assert_eq!(answer, Answer::accepted(old.len() as u64));
            assert_eq!(back, old, "{}", by.name);
        }
    }
}

#[test]
fn searches_of_the_library() {
    searches_of(&LIBRARY);
}

#[test]
fn searches_of_the_reference() {
    searches_of(&REFERENCE);
}

#[test]
fn graph_bytes_of_the_library() {
    graph_bytes_of(&LIBRARY);
}

#[test]
fn graph_bytes_of_the_reference() {
    graph_bytes_of(&REFERENCE);
}

#[test]
fn old_files_of_the_library() {
    old_files_of(&LIBRARY);
}

#[test]
fn old_files_of_the_reference() {
    old_files_of(&REFERENCE);
}
