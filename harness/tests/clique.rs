//! Clique branching (02, U2), by both implementations: what it holds, that the finished walk holds
//! the same, what is refused, and before what.

use harness::answer::Answer;
use harness::call::{each, Implementation};
use harness::library::{CLIQUE_VERTICES, FIRST_SEARCH, NO_SUBSTITUTES};
use harness::reference::{CHECKPOINT_BYTES, MAX_VERTICES, UNMAPPED, WORKSPACE_WORDS};

/// 01's pair P.
const P: [&[u8]; 2] = [
    &[4, 2, 3, 7, 0, 3, 9, 0, 3, 7, 0, 2, 0, 1, 1, 2, 1, 2, 1, 0],
    &[4, 2, 3, 9, 0, 3, 7, 0, 2, 0, 1, 1, 0],
];
const EMPTY: &[u8] = &[4, 2, 0];
const SEVEN: &[u8] = &[4, 2, 3, 7, 0, 0];
const TWO_SEVENS: &[u8] = &[4, 2, 3, 7, 0, 3, 7, 0, 0];
const NINE: &[u8] = &[4, 2, 3, 9, 0, 0];
/// What a buffer holds before a call.
const BEFORE: u8 = 0x55;

/// So many vertices of one label, and no edges.
fn unlinked(order: usize, label: u8) -> Vec<u8> {
    [vec![4, 2], [3, label, 0].repeat(order), vec![0]].concat()
}

/// So many vertices whose labels rise from `first` on, and no edges.
fn rising(order: u16, first: u16) -> Vec<u8> {
    let vertex = |label: u16| [&[3][..], &label.to_le_bytes()].concat();
    let vertices = (first..first + order).flat_map(vertex);
    [4, 2].into_iter().chain(vertices).chain([0]).collect()
}

/// What is held; the bytes after it must be as they were, and the size must be the mapping's.
fn held(by: &Implementation, [old, new, substitutes]: [&[u8]; 3], minimum: u8) -> Option<Vec<u8>> {
    let mut mapping = vec![BEFORE; MAX_VERTICES];
    let answer = (by.clique)(old, new, substitutes, minimum, &mut mapping);
    let count = match answer.value {
        1 => (by.check_graph)(old).value as usize,
        _ => 0,
    };
    assert!(mapping[count..].iter().all(|&byte| byte == BEFORE));
    mapping.truncate(count);
    let size = mapping.iter().filter(|&&byte| byte != UNMAPPED).count() as u64;
    let due = Answer {
        size,
        ..Answer::accepted(answer.value)
    };
    assert_eq!(answer, due, "{} {old:?} {new:?}", by.name);
    (answer.value == 1).then_some(mapping)
}

/// What the search holds at its end, by the other calls.
fn held_by_walk(
    by: &Implementation,
    [old, new, substitutes]: [&[u8]; 3],
    minimum: u8,
) -> Option<Vec<u8>> {
    let mut fresh = [0; CHECKPOINT_BYTES];
    let started = (by.start)(old, new, substitutes, FIRST_SEARCH, minimum, &mut fresh);
    let mut workspace = [0; WORKSPACE_WORDS];
    let mut last = [0; CHECKPOINT_BYTES];
    let fresh = &fresh[..started.value as usize];
    let (budget, words, room) = (u64::MAX, &mut workspace, &mut last);
    let resumed = (by.resume)(
        old,
        new,
        substitutes,
        FIRST_SEARCH,
        fresh,
        budget,
        words,
        room,
    );
    let mut mapping = vec![0; MAX_VERTICES];
    let last = &last[..resumed.value as usize];
    let read = (by.read_out)(old, new, substitutes, FIRST_SEARCH, last, &mut mapping);
    assert_eq!((started.number, resumed.number, read.number), (0, 0, 0));
    assert!(read.value >= 2, "not finished");
    mapping.truncate((by.check_graph)(old).value as usize);
    (read.value == 3).then_some(mapping)
}

/// That this is held, by clique branching and by the walk.
fn holds(by: &Implementation, given: [&[u8]; 3], minimum: u8, mapping: &[u8]) {
    let due = Some(mapping.to_vec());
    assert_eq!(held(by, given, minimum), due, "{} {given:?}", by.name);
    assert_eq!(held_by_walk(by, given, minimum), due, "{given:?}");
}

fn holds_nothing(by: &Implementation, given: [&[u8]; 3], minimum: u8) {
    assert_eq!(held(by, given, minimum), None, "{} {given:?}", by.name);
    assert_eq!(held_by_walk(by, given, minimum), None, "{given:?}");
}

#[test]
fn marked_examples() {
    each(|by| {
        let [old, new] = P;
        let p = [old, new, NO_SUBSTITUTES];
        for minimum in [0, 1, 2] {
            holds(by, p, minimum, &[1, 0, 255]);
        }
        for minimum in [3, 4, 9, 127, 128, 254, 255] {
            holds_nothing(by, p, minimum);
        }
        holds(by, [EMPTY, EMPTY, NO_SUBSTITUTES], 0, &[]);
        holds_nothing(by, [EMPTY, EMPTY, NO_SUBSTITUTES], 1);
        let edge: &[u8] = &[4, 2, 3, 7, 0, 3, 9, 0, 2, 0, 1, 1, 0];
        holds(
            by,
            [edge, &[4, 2, 3, 7, 0, 3, 9, 0, 0], NO_SUBSTITUTES],
            0,
            &[0, 255],
        );
    });
}

/// Of equally large mappings the first that is met stays.
#[test]
fn the_first_of_the_largest_is_held() {
    each(|by| {
        holds(by, [SEVEN, TWO_SEVENS, NO_SUBSTITUTES], 0, &[0]);
        holds(by, [TWO_SEVENS, SEVEN, NO_SUBSTITUTES], 0, &[0, 255]);
        holds(by, [TWO_SEVENS, TWO_SEVENS, NO_SUBSTITUTES], 2, &[0, 1]);
        let [eight, five] = [8, 5].map(|order| unlinked(order, 7));
        let first = [0, 1, 2, 3, 4, 255, 255, 255];
        holds(by, [&eight, &five, NO_SUBSTITUTES], 0, &first);
        holds(by, [&five, &eight, NO_SUBSTITUTES], 5, &[0, 1, 2, 3, 4]);
    });
}

/// A larger mapping takes the place of one that was held before it.
#[test]
fn a_larger_mapping_that_comes_later_is_held() {
    each(|by| {
        // row 0 on vertex 0 leaves nothing to rows 1 and 2, on vertex 1 it leaves both
        let old: &[u8] = &[4, 2, 3, 7, 0, 3, 8, 0, 3, 9, 0, 0];
        let new: &[u8] = &[
            4, 2, 3, 7, 0, 3, 7, 0, 3, 8, 0, 3, 9, 0, 2, 0, 2, 1, 2, 0, 3, 1, 0,
        ];
        holds(by, [old, new, NO_SUBSTITUTES], 0, &[1, 2, 3]);
        // with vertex 0 alone it is row 0 that is left out
        let alone: &[u8] = &[4, 2, 3, 7, 0, 3, 8, 0, 3, 9, 0, 2, 0, 1, 1, 2, 0, 2, 1, 0];
        holds(by, [old, alone, NO_SUBSTITUTES], 0, &[255, 1, 2]);
        holds_nothing(by, [old, alone, NO_SUBSTITUTES], 3);
    });
}

/// It is the first search's mapping, connected or not.
#[test]
fn kept_vertices_need_not_hang_together() {
    each(|by| {
        let path: &[u8] = &[4, 2, 3, 7, 0, 3, 7, 0, 3, 7, 0, 2, 0, 1, 1, 0];
        for minimum in [0, 1, 3] {
            holds(by, [path, path, NO_SUBSTITUTES], minimum, &[0, 1, 2]);
        }
        holds_nothing(by, [path, path, NO_SUBSTITUTES], 4);
    });
}

/// A pair is tried where it fits all pairs taken, not only the last one.
#[test]
fn a_pair_fits_every_pair_taken() {
    each(|by| {
        // unlinked on linked, and linked on unlinked
        let edge: &[u8] = &[4, 2, 3, 7, 0, 3, 7, 0, 2, 0, 1, 1, 0];
        holds(by, [TWO_SEVENS, edge, NO_SUBSTITUTES], 0, &[0, 255]);
        holds(by, [edge, TWO_SEVENS, NO_SUBSTITUTES], 0, &[0, 255]);
        // linked by another label
        let other: &[u8] = &[4, 2, 3, 7, 0, 3, 7, 0, 2, 0, 1, 2, 0];
        holds(by, [edge, other, NO_SUBSTITUTES], 0, &[0, 255]);
        // the one new vertex twice, with a row between
        let apart: &[u8] = &[4, 2, 3, 7, 0, 3, 9, 0, 3, 7, 0, 0];
        let once: &[u8] = &[4, 2, 3, 7, 0, 3, 9, 0, 0];
        holds(by, [apart, once, NO_SUBSTITUTES], 0, &[0, 1, 255]);
        // row 2 fits row 1, but not row 0: 0-2 is linked in the old graph only
        let rows: &[u8] = &[4, 2, 3, 7, 0, 3, 8, 0, 3, 9, 0, 2, 0, 2, 1, 0];
        let flat: &[u8] = &[4, 2, 3, 7, 0, 3, 8, 0, 3, 9, 0, 0];
        holds(by, [rows, flat, NO_SUBSTITUTES], 0, &[0, 1, 255]);
        holds(by, [flat, rows, NO_SUBSTITUTES], 0, &[0, 1, 255]);
    });
}

#[test]
fn the_list_is_read_for_vertices_only() {
    each(|by| {
        holds(by, [SEVEN, NINE, &[7, 0, 9, 0]], 0, &[0]);
        holds(by, [SEVEN, NINE, &[7, 0, 9, 0]], 1, &[0]);
        holds(by, [SEVEN, NINE, &[7, 0, 8, 0, 7, 0, 9, 0]], 1, &[0]);
        let silent: [&[u8]; 5] = [
            NO_SUBSTITUTES,
            &[7, 1, 9, 0],
            &[9, 0, 7, 0],
            &[7, 0, 8, 0, 8, 0, 9, 0],
            &[9, 0, 7, 0, 9, 0, 9, 0],
        ];
        for list in silent {
            holds(by, [SEVEN, NINE, list], 0, &[255]);
            holds_nothing(by, [SEVEN, NINE, list], 1);
        }
        let full = [&[7, 0, 8, 0].repeat(255)[..], &[7, 0, 9, 0]].concat();
        holds(by, [SEVEN, NINE, &full], 1, &[0]);
        let old: &[u8] = &[4, 2, 3, 7, 0, 3, 7, 0, 2, 0, 1, 7, 0];
        let new: &[u8] = &[4, 2, 3, 9, 0, 3, 9, 0, 2, 0, 1, 9, 0];
        holds(by, [old, new, &[7, 0, 9, 0]], 0, &[0, 255]);
        let alike: &[u8] = &[4, 2, 3, 9, 0, 3, 9, 0, 2, 0, 1, 7, 0];
        holds(by, [old, alike, &[7, 0, 9, 0]], 0, &[0, 1]);
    });
}

/// Up to eight old vertices, however many new ones, if only few of them agree with an old one.
#[test]
fn eight_old_vertices_are_accepted() {
    each(|by| {
        let eight = rising(8, 1);
        let all: Vec<u8> = (0..8).collect();
        holds(by, [&eight, &eight, NO_SUBSTITUTES], 8, &all);
        holds_nothing(by, [&eight, &eight, NO_SUBSTITUTES], 9);
        let turned: Vec<u8> = eight[2..26].rchunks(3).flatten().copied().collect();
        let turned = [&[4, 2], &turned[..], &[0]].concat();
        let down: Vec<u8> = (0..8).rev().collect();
        holds(by, [&eight, &turned, NO_SUBSTITUTES], 0, &down);
        holds(by, [&eight, EMPTY, NO_SUBSTITUTES], 0, &[255; 8]);
        // the last eight of 64
        let [wide, last] = [rising(64, 201), rising(8, 257)];
        let due: Vec<u8> = (56..64).collect();
        holds(by, [&last, &wide, NO_SUBSTITUTES], 8, &due);
        for order in 0..=8 {
            let list = [99, 0, 1, 0, 99, 0, 2, 0];
            let old = unlinked(order, 99);
            let due: Vec<u8> = [0, 1].into_iter().chain([255; 8]).take(order).collect();
            let size = order.min(2) as u8;
            holds(by, [&old, &eight, &list], size, &due);
            holds_nothing(by, [&old, &eight, &list], size + 1);
        }
    });
}

/// All labels equal and no edge: all partial mappings of eight vertices into six are nodes.
#[test]
fn every_partial_mapping_is_met() {
    each(|by| {
        let [eight, six] = [8, 6].map(|order| unlinked(order, 7));
        let first = [0, 1, 2, 3, 4, 5, 255, 255];
        holds(by, [&eight, &six, NO_SUBSTITUTES], 6, &first);
        holds_nothing(by, [&eight, &six, NO_SUBSTITUTES], 7);
        holds(by, [&six, &eight, NO_SUBSTITUTES], 0, &[0, 1, 2, 3, 4, 5]);
    });
}

/// A call with so many bytes for the mapping; refused, they must be as they were.
fn call(by: &Implementation, [old, new, substitutes]: [&[u8]; 3], room: usize) -> Answer {
    let mut mapping = vec![BEFORE; room];
    let answer = (by.clique)(old, new, substitutes, 0, &mut mapping);
    let untouched = mapping.iter().all(|&byte| byte == BEFORE);
    assert!(answer.is_accepted() || untouched, "{}", by.name);
    answer
}

#[test]
fn more_than_eight_old_vertices_are_25() {
    each(|by| {
        for order in [9, 10, 16, 17, 63, 64] {
            for new in [EMPTY, SEVEN, &unlinked(3, 7), &unlinked(64, 9)] {
                let old = unlinked(order, 7);
                let given = [&old[..], new, NO_SUBSTITUTES];
                assert_eq!(
                    call(by, given, MAX_VERTICES),
                    Answer::refused(25),
                    "{order}"
                );
            }
        }
        // it is about the old graph only
        for order in [8, 9, 64] {
            let new = unlinked(order, 9);
            let given = [SEVEN, &new[..], &[7, 0, 9, 0]];
            assert_eq!(held(by, given, 1), Some(vec![0]), "{order}");
        }
    });
}

#[test]
fn graphs_at_fault_come_before_all_else() {
    each(|by| {
        let crowd = unlinked(9, 7);
        let graphs: [([&[u8]; 2], u32, u64); 11] = [
            ([&[], EMPTY], 1, 0),
            ([&crowd[..29], &[]], 1, 29),
            ([&crowd, &[4, 2, 3, 9, 0]], 1, 5),
            ([&crowd, &[4, 2, 5]], 2, 2),
            ([&[4, 2, 3, 7, 0, 1], &[4]], 2, 5),
            ([&crowd, &[4, 2, 3, 7, 0, 2, 0, 1, 1, 0]], 5, 5),
            ([&crowd, &[4, 2, 3, 7, 0, 2, 0, 0, 0, 0]], 7, 5),
            ([&crowd, &[4, 2, 3, 7, 0, 0, 0]], 9, 6),
            ([&[crowd.clone(), vec![0]].concat(), EMPTY], 9, 30),
            ([&[1, 7, 0], &[]], 27, 0),
            ([&crowd, &[0]], 27, 0),
        ];
        let lists: [&[u8]; 4] = [NO_SUBSTITUTES, &[7], &[7, 0, 0, 0], &[0; 1028]];
        for ([old, new], number, value) in graphs {
            for list in lists {
                let due = Answer {
                    number,
                    ..Answer::accepted(value)
                };
                for room in [0, 8, MAX_VERTICES] {
                    assert_eq!(call(by, [old, new, list], room), due, "{}", by.name);
                }
            }
        }
    });
}

#[test]
fn the_list_comes_before_25_and_25_before_13() {
    each(|by| {
        let faulty: [(&[u8], u32); 7] = [
            (&[7], 23),
            (&[0], 23),
            (&[7, 9], 23),
            (&[7; 1028], 23),
            (&[0; 1025], 23),
            (&[7, 0, 0, 0], 24),
            (&[0, 0, 7, 0, 7, 0, 9, 0], 24),
        ];
        for order in [0, 1, 8, 9, 64] {
            let old = unlinked(order, 7);
            for room in [0, 7, MAX_VERTICES] {
                for (list, number) in faulty {
                    let answer = call(by, [&old, NINE, list], room);
                    assert_eq!(answer, Answer::refused(number), "{} {order}", by.name);
                }
                let good: [&[u8]; 3] = [NO_SUBSTITUTES, &[7, 0, 9, 0], &[7; 1024]];
                for list in good {
                    let answer = call(by, [&old, NINE, list], room);
                    let due = match order {
                        9.. => 25,
                        _ if order > room => 13,
                        _ => 0,
                    };
                    assert_eq!(answer.number, due, "{} {order}", by.name);
                    assert_eq!((answer.value, answer.number), (u64::from(due == 0), due));
                }
            }
        }
    });
}

/// With room for exactly the mapping, for less, for more, and with nothing held.
#[test]
fn held_mapping_fits_or_13() {
    each(|by| {
        let [old, new] = P;
        for length in 0..=MAX_VERTICES {
            let mut mapping = vec![BEFORE; length];
            let answer = (by.clique)(old, new, NO_SUBSTITUTES, 1, &mut mapping);
            if length < 3 {
                assert_eq!(answer, Answer::refused(13));
                assert_eq!(mapping, vec![BEFORE; length]);
            } else {
                let due = Answer {
                    size: 2,
                    ..Answer::accepted(1)
                };
                assert_eq!(answer, due);
                assert_eq!(mapping[..3], [1, 0, 255]);
                assert!(mapping[3..].iter().all(|&byte| byte == BEFORE));
            }
            let mut mapping = vec![BEFORE; length];
            let answer = (by.clique)(old, new, NO_SUBSTITUTES, 3, &mut mapping);
            assert_eq!(answer, Answer::accepted(0), "nothing held, {length}");
            assert_eq!(mapping, vec![BEFORE; length]);
        }
        // all left out is held too, and takes room
        let [eight, other] = [unlinked(CLIQUE_VERTICES, 7), unlinked(2, 9)];
        for length in [0, 7, 8, 9] {
            let mut mapping = vec![BEFORE; length];
            let answer = (by.clique)(&eight, &other, NO_SUBSTITUTES, 0, &mut mapping);
            if length < 8 {
                assert_eq!(answer, Answer::refused(13));
                assert_eq!(mapping, vec![BEFORE; length]);
            } else {
                assert_eq!(answer, Answer::accepted(1));
                assert_eq!(mapping[..8], [255; 8]);
                assert!(mapping[8..].iter().all(|&byte| byte == BEFORE));
            }
        }
        // a mapping of no vertex takes none
        let answer = (by.clique)(EMPTY, new, NO_SUBSTITUTES, 0, &mut []);
        assert_eq!(answer, Answer::accepted(1));
    });
}
