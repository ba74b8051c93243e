//! The test that every call on two graphs and substitutes begins with, by both implementations: which
//! of the three is at fault, and that a call refused for it is refused alike.

use std::thread;

use harness::answer::Answer;
use harness::call::{each, Implementation, LIBRARY};
use harness::library::{CONNECTED_SEARCH, FIRST_SEARCH, NO_SUBSTITUTES, SUBSTITUTES_BYTES};
use harness::reference::{CHECKPOINT_BYTES, MAX_VERTICES, WORKSPACE_WORDS};

/// 01's pair P.
const OLD: &[u8] = &[4, 2, 3, 7, 0, 3, 9, 0, 3, 7, 0, 2, 0, 1, 1, 2, 1, 2, 1, 0];
const NEW: &[u8] = &[4, 2, 3, 9, 0, 3, 7, 0, 2, 0, 1, 1, 0];
const LIST: &[u8] = &[7, 0, 9, 0];
const FRESH: &[u8] = &[16, 0, 17, 0, 0, 0, 0, 0, 0, 0, 0, 18, 0, 0];

fn refused(number: u32, value: u64, about: u64) -> Answer {
    Answer {
        value,
        about,
        ..Answer::refused(number)
    }
}

/// What is no graph, with its number and place.
fn wrong_graphs() -> Vec<(Vec<u8>, u32, u64)> {
    let many = [&[4, 2], &[3, 7, 0].repeat(65)[..], &[0]].concat();
    let cases: [(&[u8], u32, u64); 17] = [
        (&[3, 7, 0, 0], 27, 0),
        (&[4, 1, 0], 27, 0),
        (&[0], 27, 0),
        (&[], 1, 0),
        (&[4], 1, 0),
        (&[4, 2], 1, 2),
        (&[4, 2, 3, 7], 1, 2),
        (&[4, 2, 3, 7, 0], 1, 5),
        (&[4, 2, 5, 0], 2, 2),
        (&[4, 2, 3, 7, 0, 1, 7, 0], 2, 5),
        (&[4, 2, 3, 7, 0, 3, 0, 0, 0], 3, 5),
        (&many, 4, 2 + 3 * 64),
        (&[4, 2, 3, 7, 0, 2, 0, 1, 1, 0], 5, 5),
        (&[4, 2, 3, 7, 0, 2, 0, 0, 0, 0], 7, 5),
        (&[4, 2, 3, 7, 0, 2, 0, 0, 1, 2, 0, 0, 1, 0], 8, 9),
        (&[4, 2, 0, 0], 9, 3),
        (&[4, 2, 3, 7, 0, 0, 255], 9, 6),
    ];
    let owned = cases.map(|(bytes, number, place)| (bytes.to_vec(), number, place));
    owned.to_vec()
}

/// What is no list, with its number.
fn wrong_lists() -> Vec<(Vec<u8>, u32)> {
    vec![
        (vec![7], 23),
        (vec![7, 0], 23),
        (vec![7, 0, 9], 23),
        (vec![7, 0, 9, 0, 0], 23),
        (vec![0; 6], 23),
        (vec![9; SUBSTITUTES_BYTES + 4], 23),
        (vec![0; SUBSTITUTES_BYTES + 4], 23),
        (vec![0, 0, 9, 0], 24),
        (vec![7, 0, 9, 0, 7, 0, 0, 0], 24),
        (vec![0; SUBSTITUTES_BYTES], 24),
    ]
}

#[test]
fn sound_inputs_are_accepted() {
    each(|by| {
        let full = [9; SUBSTITUTES_BYTES];
        for list in [NO_SUBSTITUTES, LIST, &full] {
            for [old, new] in [[OLD, NEW], [NEW, OLD], [&[4, 2, 0], &[4, 2, 0]]] {
                let answer = (by.check_problem)(old, new, list);
                assert_eq!(answer, Answer::accepted(0), "{}", by.name);
            }
        }
    });
}

#[test]
fn each_fault_is_told_of_the_input_that_has_it() {
    each(|by| {
        for (graph, number, place) in wrong_graphs() {
            let answer = (by.check_problem)(&graph, NEW, LIST);
            assert_eq!(answer, refused(number, place, 1), "{} {graph:?}", by.name);
            let answer = (by.check_problem)(OLD, &graph, LIST);
            assert_eq!(answer, refused(number, place, 2), "{} {graph:?}", by.name);
        }
        for (list, number) in wrong_lists() {
            let answer = (by.check_problem)(OLD, NEW, &list);
            assert_eq!(answer, refused(number, 0, 3), "{} {list:?}", by.name);
        }
    });
}

/// The old graph's fault comes first, then the new graph's, then the list's, whatever each is.
#[test]
fn the_first_input_at_fault_is_told() {
    each(|by| {
        for (graph, number, place) in wrong_graphs() {
            for (other, ..) in wrong_graphs() {
                for list in [NO_SUBSTITUTES, &[7], &[0; 4]] {
                    let answer = (by.check_problem)(&graph, &other, list);
                    assert_eq!(answer, refused(number, place, 1), "{graph:?} {other:?}");
                }
            }
            for (list, _) in wrong_lists() {
                let answer = (by.check_problem)(&graph, NEW, &list);
                assert_eq!(answer, refused(number, place, 1), "{graph:?} {list:?}");
                let answer = (by.check_problem)(OLD, &graph, &list);
                assert_eq!(answer, refused(number, place, 2), "{graph:?} {list:?}");
            }
        }
    });
}

/// One in another's place: a list is no graph, a graph mostly no list.
#[test]
fn exchanged_inputs_are_told() {
    each(|by| {
        assert_eq!((by.check_problem)(LIST, NEW, OLD), refused(27, 0, 1));
        assert_eq!((by.check_problem)(OLD, LIST, NEW), refused(27, 0, 2));
        assert_eq!((by.check_problem)(&[], NEW, OLD), refused(1, 0, 1));
        assert_eq!((by.check_problem)(OLD, NEW, NEW), refused(23, 0, 3));
        // four divides its 20 bytes, and no label in them is 0
        assert_eq!((by.check_problem)(OLD, NEW, OLD), Answer::accepted(0));
    });
}

/// What every call on two graphs and a list answers of these. With nothing else to refuse they
/// accept what is sound.
fn others(by: &Implementation, [old, new, list]: [&[u8]; 3]) -> Vec<Answer> {
    let mut words = vec![0; WORKSPACE_WORDS];
    let mut next = [0; CHECKPOINT_BYTES];
    let mut mapping = [0; MAX_VERTICES];
    let mut answers = vec![
        (by.check_mapping)(old, new, list, &[255; 3]),
        (by.clique)(old, new, list, 0, &mut mapping),
    ];
    for connected in [FIRST_SEARCH, CONNECTED_SEARCH] {
        answers.extend([
            (by.start)(old, new, list, connected, 0, &mut next),
            (by.descend_start)(old, new, list, connected, 0, &mut next),
            (by.read_out)(old, new, list, connected, FRESH, &mut mapping),
            (by.resume)(old, new, list, connected, FRESH, 9, &mut words, &mut next),
            (by.descend_resume)(
                old, new, list, connected, 0, FRESH, 9, &mut words, &mut next,
            ),
        ]);
    }
    answers
}

#[test]
fn other_calls_are_refused_alike() {
    each(|by| {
        let accepted = others(by, [OLD, NEW, LIST]);
        assert!(accepted.iter().all(Answer::is_accepted), "{accepted:?}");
        let alike = |given @ [old, new, list]: [&[u8]; 3]| {
            let first = (by.check_problem)(old, new, list);
            assert!(!first.is_accepted());
            let expected = refused(first.number, first.value, 0);
            for answer in others(by, given) {
                assert_eq!(answer, expected, "{} {given:?}", by.name);
            }
        };
        for (graph, ..) in wrong_graphs() {
            for list in [LIST, &[7], &[0; 4]] {
                alike([&graph, NEW, list]);
                alike([OLD, &graph, list]);
                alike([&graph, &[4, 2, 5], list]);
            }
        }
        for (list, _) in wrong_lists() {
            alike([OLD, NEW, &list]);
        }
    });
}

/// A thread has the promised 320 kibibytes; a call that needs more crashes the test.
#[test]
fn stack_is_as_promised() {
    let edges = (0..64).flat_map(|a| (a..64).flat_map(move |b| [2, a, b, 1]));
    let edges: Vec<u8> = edges.chain([0]).collect();
    let full = [&[4, 2], &[3, 7, 0].repeat(64)[..], &edges].concat();
    let call = move || (LIBRARY.check_problem)(&full, &full, &[9; SUBSTITUTES_BYTES]);
    let thread = thread::Builder::new().stack_size(320 << 10);
    let made = thread.spawn(call).unwrap();
    assert_eq!(made.join().unwrap(), Answer::accepted(0));
}
