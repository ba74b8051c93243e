//! Substitute labels (02, U1), by both implementations: which labels agree, which lists are
//! refused, and before what.

use harness::answer::Answer;
use harness::call::{each, Implementation};
use harness::library::{FIRST_SEARCH, NO_SUBSTITUTES};
use harness::reference::{CHECKPOINT_BYTES, MAX_VERTICES, WORKSPACE_WORDS};

/// One old vertex of label 7 and one new of label 9.
const SEVEN: &[u8] = &[4, 2, 3, 7, 0, 0];
const NINE: &[u8] = &[4, 2, 3, 9, 0, 0];
/// A fresh checkpoint of minimum 0.
const FRESH: &[u8] = &[16, 0, 17, 0, 0, 0, 0, 0, 0, 0, 0, 18, 0, 0];
/// Of one old vertex, mapped to 0: held after 2 visits, with the search not finished.
const HELD: &[u8] = &[16, 0, 17, 2, 0, 0, 0, 0, 0, 0, 0, 18, 1, 19, 255, 20, 0, 0];

/// Answers with the next checkpoint. Refused, the memory must be as it was.
fn resume(
    by: &Implementation,
    [old, new, substitutes]: [&[u8]; 3],
    checkpoint: &[u8],
    budget: u64,
) -> (Answer, Vec<u8>) {
    let mut workspace = vec![9; WORKSPACE_WORDS + 1];
    let mut next = vec![0x55; CHECKPOINT_BYTES];
    let answer = (by.resume)(
        old,
        new,
        substitutes,
        FIRST_SEARCH,
        checkpoint,
        budget,
        &mut workspace,
        &mut next,
    );
    let word = if answer.is_accepted() { 0 } else { 9 };
    assert!(workspace[..WORKSPACE_WORDS].iter().all(|&w| w == word));
    assert_eq!(workspace[WORKSPACE_WORDS], 9);
    assert!(next[answer.value as usize..].iter().all(|&b| b == 0x55));
    next.truncate(answer.value as usize);
    (answer, next)
}

#[derive(Debug, PartialEq)]
struct Found {
    mapping: Vec<u8>,
    steps: u64,
    ceiling: u64,
}

/// What a whole search from minimum 0 finds.
fn found(by: &Implementation, given: [&[u8]; 3]) -> Found {
    let [old, new, substitutes] = given;
    let mut fresh = [0; CHECKPOINT_BYTES];
    let started = (by.start)(old, new, substitutes, FIRST_SEARCH, 0, &mut fresh);
    assert_eq!(started, Answer::accepted(FRESH.len() as u64));
    let (resumed, last) = resume(by, given, &fresh[..FRESH.len()], 1000);
    assert!(resumed.is_accepted());
    let mut mapping = vec![0; MAX_VERTICES];
    let read = (by.read_out)(old, new, substitutes, FIRST_SEARCH, &last, &mut mapping);
    assert_eq!((read.number, read.value), (0, 3));
    assert_eq!(read.ceiling, resumed.ceiling);
    mapping.truncate((by.check_graph)(old).value as usize);
    Found {
        mapping,
        steps: read.steps,
        ceiling: read.ceiling,
    }
}

fn check(by: &Implementation, [old, new, substitutes]: [&[u8]; 3], mapping: &[u8]) -> Answer {
    (by.check_mapping)(old, new, substitutes, mapping)
}

/// That 7 agrees with 9, or does not, to the check of a mapping and to the search.
fn judge(by: &Implementation, substitutes: &[u8], agree: bool) {
    let given = [SEVEN, NINE, substitutes];
    let (answer, mapping, steps, ceiling) = match agree {
        true => (Answer::accepted(1), 0, 3, 2),
        false => (Answer::refused(21), 255, 2, 1),
    };
    assert_eq!(check(by, given, &[0]), answer, "{} {given:?}", by.name);
    assert_eq!(check(by, given, &[255]), Answer::accepted(0));
    let expected = Found {
        mapping: vec![mapping],
        steps,
        ceiling,
    };
    assert_eq!(found(by, given), expected, "{} {given:?}", by.name);
}

#[test]
fn a_listed_pair_agrees() {
    each(|by| {
        judge(by, &[7, 0, 9, 0], true);
        judge(by, &[1, 0, 2, 0, 7, 0, 9, 0], true);
        judge(by, &[7, 0, 9, 0, 1, 0, 2, 0], true);
        judge(by, &[7, 0, 8, 0, 7, 0, 9, 0, 7, 0, 10, 0], true);
        judge(by, NO_SUBSTITUTES, false);
        judge(by, &[7, 0, 8, 0], false);
        judge(by, &[8, 0, 9, 0], false);
    });
}

#[test]
fn pairs_hold_one_way() {
    each(|by| {
        judge(by, &[9, 0, 7, 0], false);
        judge(by, &[9, 0, 7, 0, 9, 0, 7, 0], false);
        judge(by, &[9, 0, 7, 0, 7, 0, 9, 0], true);
    });
}

#[test]
fn pairs_do_not_chain() {
    each(|by| {
        judge(by, &[7, 0, 8, 0, 8, 0, 9, 0], false);
        judge(by, &[8, 0, 9, 0, 7, 0, 8, 0], false);
        judge(by, &[7, 0, 7, 0, 9, 0, 9, 0], false);
        judge(by, &[7, 0, 8, 0, 9, 0, 8, 0], false);
        judge(by, &[8, 0, 7, 0, 8, 0, 9, 0], false);
    });
}

/// The labels 9 7 9 have 7 9 in them, but no pair 7 9; nor do its four bytes at another place make
/// one.
#[test]
fn pairs_begin_at_every_fourth_place() {
    each(|by| {
        judge(by, &[9, 0, 7, 0, 9, 0, 9, 0], false);
        judge(by, &[1, 0, 7, 0, 9, 0, 1, 0], false);
        judge(by, &[1, 7, 0, 9, 0, 1, 1, 1], false);
        judge(by, &[1, 1, 1, 7, 0, 9, 0, 1], false);
        judge(by, &[7, 0, 7, 0, 9, 0, 9, 0, 7, 0, 9, 0], true);
    });
}

#[test]
fn equal_labels_agree_under_every_list() {
    each(|by| {
        let lists: [&[u8]; 5] = [
            &[],
            &[7, 0, 9, 0],
            &[9, 0, 7, 0],
            &[7, 0, 7, 0],
            &[7, 0, 8, 0, 8, 0, 9, 0],
        ];
        for list in lists {
            let given = [SEVEN, SEVEN, list];
            assert_eq!(check(by, given, &[0]), Answer::accepted(1), "{list:?}");
            assert_eq!(found(by, given).mapping, [0], "{list:?}");
        }
    });
}

#[test]
fn repeated_equal_and_unused_pairs_are_accepted() {
    each(|by| {
        judge(by, &[7, 0, 9, 0, 7, 0, 9, 0, 7, 0, 9, 0], true);
        judge(
            by,
            &[7, 0, 7, 0, 9, 0, 9, 0, 200, 0, 200, 0, 7, 0, 9, 0],
            true,
        );
        judge(
            by,
            &[255, 0, 1, 0, 1, 0, 255, 0, 7, 0, 9, 0, 254, 0, 253, 0],
            true,
        );
        judge(by, &[255, 0, 1, 0, 1, 0, 255, 0, 254, 0, 253, 0], false);
    });
}

#[test]
fn up_to_1024_bytes_are_read_to_the_end() {
    each(|by| {
        for pairs in [2, 128, 255, 256] {
            let mut list = [7, 0, 8, 0].repeat(pairs);
            judge(by, &list, false);
            let last = list.len() - 4;
            list[last..].copy_from_slice(&[7, 0, 9, 0]);
            judge(by, &list, true);
            list[last..].copy_from_slice(&[7, 0, 8, 0]);
            list[..4].copy_from_slice(&[7, 0, 9, 0]);
            judge(by, &list, true);
        }
    });
}

/// One vertex of this label.
fn single(label: u16) -> Vec<u8> {
    [&[4, 2, 3][..], &label.to_le_bytes(), &[0]].concat()
}

fn pair(from: u16, to: u16) -> Vec<u8> {
    [from.to_le_bytes(), to.to_le_bytes()].concat()
}

#[test]
fn every_two_labels_may_be_a_pair() {
    each(|by| {
        for (from, to) in [
            (1, 255),
            (255, 1),
            (127, 128),
            (128, 127),
            (255, 254),
            (255, 256),
            (1, 256),
            (256, 1),
            (7, 263),
            (263, 7),
            (65_535, 65_280),
            (65_535, 255),
            (1, 65_535),
            (32_767, 32_768),
        ] {
            let (old, new) = (single(from), single(to));
            assert_eq!(
                check(by, [&old, &new, &pair(from, to)], &[0]),
                Answer::accepted(1)
            );
            for list in [vec![], pair(to, from), pair(from, from), pair(to, to)] {
                assert_eq!(check(by, [&old, &new, &list], &[0]), Answer::refused(21));
            }
        }
    });
}

/// A pair whose labels have one byte in common with the two vertices, or their bytes turned, does
/// not tell.
#[test]
fn both_bytes_of_a_label_tell() {
    each(|by| {
        for (from, to) in [(7, 9), (263, 7), (7, 263), (0x1234, 0x5678), (1, 256)] {
            let (old, new) = (single(from), single(to));
            let others = |label: u16| {
                let bits = (0..16).map(move |bit| label ^ 1 << bit);
                let halves = [label.swap_bytes(), label & 0xFF, label & 0xFF00];
                bits.chain(halves)
                    .filter(move |&other| other != 0 && other != label)
            };
            let lists = others(from)
                .map(|other| pair(other, to))
                .chain(others(to).map(|other| pair(from, other)));
            for list in lists {
                let given = [&old[..], &new, &list];
                assert_eq!(
                    check(by, given, &[0]),
                    Answer::refused(21),
                    "{} {list:?}",
                    by.name
                );
                assert_eq!(found(by, given).mapping, [255], "{} {list:?}", by.name);
            }
            let list = pair(from, to);
            let given = [&old[..], &new, &list];
            assert_eq!(found(by, given).mapping, [0], "{} {list:?}", by.name);
        }
    });
}

/// All calls on two graphs, with nothing else at fault.
fn all_answers(by: &Implementation, substitutes: &[u8]) -> [Answer; 4] {
    let given = [SEVEN, NINE, substitutes];
    let mut checkpoint = [0x55; CHECKPOINT_BYTES];
    let mut mapping = [0x55; MAX_VERTICES];
    let answers = [
        check(by, given, &[255]),
        (by.start)(SEVEN, NINE, substitutes, FIRST_SEARCH, 0, &mut checkpoint),
        resume(by, given, FRESH, 1).0,
        (by.read_out)(SEVEN, NINE, substitutes, FIRST_SEARCH, FRESH, &mut mapping),
    ];
    if !answers[1].is_accepted() {
        assert!(checkpoint.iter().all(|&byte| byte == 0x55));
    }
    assert!(mapping.iter().all(|&byte| byte == 0x55));
    answers
}

#[test]
fn a_length_that_four_does_not_divide_or_above_1024_is_23() {
    each(|by| {
        for length in [
            1, 2, 3, 5, 6, 7, 255, 510, 514, 1022, 1023, 1025, 1026, 1027, 1028, 2048, 8193, 65536,
            65540, 66560,
        ] {
            let answers = all_answers(by, &vec![7; length]);
            assert_eq!(answers, [Answer::refused(23); 4], "{} {length}", by.name);
        }
        for length in [0, 4, 256, 512, 516, 1020, 1024] {
            let answers = all_answers(by, &vec![7; length]);
            assert!(answers.iter().all(Answer::is_accepted), "{length}");
        }
    });
}

#[test]
fn a_label_0_is_24() {
    each(|by| {
        for length in [4, 8, 1024] {
            for label in [0, 1, length / 4, length / 2 - 2, length / 2 - 1] {
                let mut list = vec![7; length];
                list[2 * label..2 * label + 2].fill(0);
                let answers = all_answers(by, &list);
                assert_eq!(
                    answers,
                    [Answer::refused(24); 4],
                    "{} {length} {label}",
                    by.name
                );
            }
        }
    });
}

/// One byte of a label may be 0, and so may two bytes side by side that are of two labels.
#[test]
fn a_byte_0_is_not_a_label_0() {
    each(|by| {
        for length in [4, 8, 1024] {
            for place in [0, 1, length / 2, length - 2, length - 1] {
                let mut list = vec![7; length];
                list[place] = 0;
                let answers = all_answers(by, &list);
                assert!(answers.iter().all(Answer::is_accepted), "{list:?}");
            }
            for place in [1, length / 2 - 1, length - 3] {
                let mut list = vec![7; length];
                list[place..place + 2].fill(0);
                let answers = all_answers(by, &list);
                assert!(answers.iter().all(Answer::is_accepted), "{list:?}");
            }
        }
    });
}

#[test]
fn the_length_comes_before_a_label_0() {
    each(|by| {
        for length in [2, 3, 6, 1023, 1026, 1028, 2048] {
            for label in [0, length / 4, length / 2 - 1] {
                let mut list = vec![7; length];
                list[2 * label..2 * label + 2].fill(0);
                let answers = all_answers(by, &list);
                assert_eq!(
                    answers,
                    [Answer::refused(23); 4],
                    "{} {length} {label}",
                    by.name
                );
            }
            let answers = all_answers(by, &vec![0; length]);
            assert_eq!(answers, [Answer::refused(23); 4], "{} {length}", by.name);
        }
    });
}

#[test]
fn a_graph_at_fault_comes_before_the_list() {
    each(|by| {
        let graphs: [([&[u8]; 2], u32, u64); 7] = [
            ([&[], NINE], 1, 0),
            ([SEVEN, &[4, 2, 3, 9, 0]], 1, 5),
            ([&[4, 2, 3, 7, 0, 2, 0, 0, 0, 0], &[]], 7, 5),
            ([SEVEN, &[4, 2, 3, 0, 0, 0]], 3, 2),
            ([SEVEN, &[4, 2, 3, 9, 0, 0, 0]], 9, 6),
            ([SEVEN, &[1, 9, 0]], 27, 0),
            ([&[4, 1], &[]], 27, 0),
        ];
        let lists: [&[u8]; 5] = [&[7], &[0], &[7, 9], &[7, 0, 0, 0], &[7; 1028]];
        for ([old, new], number, value) in graphs {
            for list in lists {
                let expected = Answer {
                    number,
                    ..Answer::accepted(value)
                };
                let mut few = [9; 3];
                let answers = [
                    check(by, [old, new, list], &[9, 9]),
                    (by.start)(old, new, list, FIRST_SEARCH, 0, &mut []),
                    (by.resume)(old, new, list, FIRST_SEARCH, &[], 1, &mut few, &mut []),
                    (by.read_out)(old, new, list, FIRST_SEARCH, &[], &mut []),
                ];
                assert_eq!(answers, [expected; 4], "{} {list:?}", by.name);
            }
        }
    });
}

#[test]
fn the_list_comes_before_all_else() {
    each(|by| {
        let out_of_shape = [&HELD[..3], &[0; 8], &HELD[11..]].concat();
        let full = [&HELD[..3], &[255; 8], &HELD[11..]].concat();
        let good: &[u8] = &[7, 0, 9, 0];
        let lists: [(&[u8], Option<u32>); 6] = [
            (&[7, 0, 9, 0, 7, 0], Some(23)),
            (&[7, 9], Some(23)),
            (&[7; 1028], Some(23)),
            (&[7, 0, 9, 0, 0, 0, 7, 0], Some(24)),
            (&[7, 0, 9, 0, 7, 0, 0, 0], Some(24)),
            (good, None),
        ];
        for (list, fault) in lists {
            // the good list shows what else is at fault
            let number = |other: u32| fault.unwrap_or(other);

            let given = [SEVEN, NINE, list];
            let mappings: [(&[u8], u32); 3] = [(&[], 18), (&[0, 0], 18), (&[1], 19)];
            for (mapping, other) in mappings {
                assert_eq!(check(by, given, mapping), Answer::refused(number(other)));
            }
            let twice = [&[4, 2, 3, 7, 0, 3, 7, 0, 0], NINE, list];
            assert_eq!(check(by, twice, &[0, 0]).number, number(20));
            let differ = [SEVEN, &[4, 2, 3, 8, 0, 0], list];
            assert_eq!(check(by, differ, &[0]).number, number(21));
            let unlike: [&[u8]; 3] = [
                &[4, 2, 3, 7, 0, 3, 7, 0, 2, 0, 1, 1, 0],
                &[4, 2, 3, 9, 0, 3, 9, 0, 0],
                list,
            ];
            assert_eq!(check(by, unlike, &[0, 1]).number, number(22));

            let start = (by.start)(SEVEN, NINE, list, FIRST_SEARCH, 0, &mut []);
            assert_eq!(start, Answer::refused(number(13)));

            let resumed = |checkpoint: &[u8], budget, words, room| {
                let mut workspace = vec![9; words];
                let mut next = vec![0x55; room];
                let (words, room) = (&mut workspace, &mut next);
                let answer = (by.resume)(
                    SEVEN,
                    NINE,
                    list,
                    FIRST_SEARCH,
                    checkpoint,
                    budget,
                    words,
                    room,
                );
                assert!(workspace.iter().all(|&word| word == 9));
                assert!(next.iter().all(|&byte| byte == 0x55));
                answer.number
            };
            assert_eq!(resumed(&[16], 1, 0, 0), number(17));
            assert_eq!(resumed(&out_of_shape, 1, 0, 0), number(14));
            assert_eq!(resumed(&full, 1, WORKSPACE_WORDS - 1, 0), number(15));
            assert_eq!(resumed(&full, 1, WORKSPACE_WORDS, 0), number(16));
            assert_eq!(resumed(HELD, 1, WORKSPACE_WORDS, 0), number(13));

            let read_out = |checkpoint: &[u8]| {
                let answer = (by.read_out)(SEVEN, NINE, list, FIRST_SEARCH, checkpoint, &mut []);
                assert_eq!((answer.steps, answer.size, answer.ceiling), (0, 0, 0));
                answer.number
            };
            assert_eq!(read_out(&[16]), number(17));
            assert_eq!(read_out(&out_of_shape), number(14));
            assert_eq!(read_out(HELD), number(13));
        }
    });
}

/// After one visit the path goes to new vertex 0: that is a candidate by the list only.
#[test]
fn the_path_is_in_shape_by_the_list() {
    each(|by| {
        let under = |list| [SEVEN, NINE, list];
        let (answer, checkpoint) = resume(by, under(&[7, 0, 9, 0]), FRESH, 1);
        assert_eq!((answer.number, answer.ceiling), (0, 2));
        let one_visit = [16, 0, 17, 1, 0, 0, 0, 0, 0, 0, 0, 18, 0, 19, 0, 0];
        assert_eq!(checkpoint, one_visit);
        let (_, same) = resume(by, under(&[7, 0, 9, 0]), &checkpoint, 0);
        assert_eq!(same, checkpoint);
        let others: [&[u8]; 5] = [
            &[],
            &[9, 0, 7, 0],
            &[7, 0, 8, 0, 8, 0, 9, 0],
            &[7, 0, 7, 0],
            &[7, 0, 9, 1],
        ];
        for other in others {
            assert_eq!(
                resume(by, under(other), &checkpoint, 1).0,
                Answer::refused(14)
            );
            let read = (by.read_out)(SEVEN, NINE, other, FIRST_SEARCH, &checkpoint, &mut []);
            assert_eq!(read, Answer::refused(14), "{} {other:?}", by.name);
        }
    });
}

#[test]
fn the_held_mapping_is_in_shape_by_the_list() {
    each(|by| {
        let mut mapping = [0x55; 1];
        let read = (by.read_out)(SEVEN, NINE, &[7, 0, 9, 0], FIRST_SEARCH, HELD, &mut mapping);
        assert_eq!((read.number, read.value, read.size), (0, 1, 1));
        assert_eq!(mapping, [0]);
        let mut mapping = [0x55; 1];
        let read = (by.read_out)(SEVEN, NINE, &[9, 0, 7, 0], FIRST_SEARCH, HELD, &mut mapping);
        assert_eq!(read, Answer::refused(14));
        assert_eq!(mapping, [0x55]);
        assert_eq!(
            resume(by, [SEVEN, NINE, &[]], HELD, 0).0,
            Answer::refused(14)
        );
    });
}

/// Nothing is noted of the list: a checkpoint that is in shape under another one goes on by that
/// one, and the ceiling is then no bound.
#[test]
fn another_list_goes_on_from_what_is_in_shape() {
    each(|by| {
        let (_, finished) = resume(by, [SEVEN, NINE, &[]], FRESH, 1000);
        let (answer, same) = resume(by, [SEVEN, NINE, &[7, 0, 9, 0]], &finished, 1000);
        assert_eq!((answer.number, answer.ceiling), (0, 1));
        assert_eq!(same, finished);
        // other bytes that say the same
        let (_, held) = resume(by, [SEVEN, NINE, &[7, 0, 9, 0]], FRESH, 2);
        assert_eq!(held, HELD);
        let (answer, last) = resume(by, [SEVEN, NINE, &[1, 1, 1, 1, 7, 0, 9, 0]], &held, 1);
        assert_eq!((answer.number, answer.ceiling), (0, 2));
        assert_eq!(last[11..13], [18, 3]);
    });
}

#[test]
fn edges_do_not_read_the_list() {
    each(|by| {
        let old: &[u8] = &[4, 2, 3, 7, 0, 3, 7, 0, 2, 0, 1, 7, 0];
        let new: &[u8] = &[4, 2, 3, 9, 0, 3, 9, 0, 2, 0, 1, 9, 0];
        let edges_differ = Answer {
            number: 22,
            value: 1,
            ..Answer::default()
        };
        assert_eq!(check(by, [old, new, &[7, 0, 9, 0]], &[0, 1]), edges_differ);
        let one = found(by, [old, new, &[7, 0, 9, 0]]);
        assert_eq!((&one.mapping[..], one.ceiling), (&[0, 255][..], 2));
        // with the old label on the new edge both stay
        let alike: &[u8] = &[4, 2, 3, 9, 0, 3, 9, 0, 2, 0, 1, 7, 0];
        assert_eq!(
            check(by, [old, alike, &[7, 0, 9, 0]], &[0, 1]),
            Answer::accepted(2)
        );
        assert_eq!(found(by, [old, alike, &[7, 0, 9, 0]]).mapping, [0, 1]);
    });
}

/// A list about labels that agree anyway, or that do not occur, leaves 01's pair P as it was.
#[test]
fn a_list_that_tells_nothing_gives_what_the_empty_one_gives() {
    each(|by| {
        let old: &[u8] = &[4, 2, 3, 7, 0, 3, 9, 0, 3, 7, 0, 2, 0, 1, 1, 2, 1, 2, 1, 0];
        let new: &[u8] = &[4, 2, 3, 9, 0, 3, 7, 0, 2, 0, 1, 1, 0];
        let plain = found(by, [old, new, NO_SUBSTITUTES]);
        assert_eq!((&plain.mapping[..], plain.ceiling), (&[1, 0, 255][..], 3));
        let lists: [&[u8]; 5] = [
            &[7, 0, 7, 0, 9, 0, 9, 0],
            &[8, 0, 7, 0, 8, 0, 9, 0],
            &[7, 0, 8, 0, 9, 0, 8, 0],
            &[1, 0, 2, 0],
            &[7, 1, 9, 0, 7, 0, 9, 1],
        ];
        for list in lists {
            assert_eq!(found(by, [old, new, list]), plain, "{} {list:?}", by.name);
        }
        let more = found(by, [old, new, &[7, 0, 9, 0]]);
        assert_ne!(more, plain);
    });
}

/// 64 labels that are all substituted: the root's candidates, the path and the held mapping.
#[test]
fn all_vertices_may_be_substituted() {
    each(|by| {
        let graph = |first: u16| -> Vec<u8> {
            let labels = (0..64).map(|vertex| (first + vertex).to_le_bytes());
            let vertices = labels.flat_map(|[low, high]| [3, low, high]);
            [4, 2].into_iter().chain(vertices).chain([0]).collect()
        };
        // from one byte to two, and up to the greatest label
        let (old, new) = (graph(201), graph(65_472));
        // each old label has four pairs, the last of which tells; vertex i serves as 63 - i
        let list: Vec<u8> = [1, 256, 9]
            .into_iter()
            .flat_map(|unused| (0..64).map(move |vertex| pair(201 + vertex, unused)))
            .chain((0..64).map(|vertex| pair(201 + vertex, 65_535 - vertex)))
            .flatten()
            .collect();
        assert_eq!(list.len(), 1024);
        let given = [&old[..], &new[..], &list[..]];
        let turned: Vec<u8> = (0..64).rev().collect();
        assert_eq!(check(by, given, &turned), Answer::accepted(64));
        let (_, held) = resume(by, given, FRESH, 65);
        assert_eq!(held.len(), CHECKPOINT_BYTES);
        let (answer, _) = resume(by, given, &held, 1);
        assert_eq!((answer.number, answer.ceiling), (0, 65));
        assert_eq!(found(by, given).mapping, turned);
        let unlisted = [&old[..], &new[..], &list[..1020]];
        assert_eq!(resume(by, unlisted, &held, 1).0, Answer::refused(14));
    });
}
