//! 13 is the last refusal, and comes only where the output does not fit (01, "Refusals by place of checking").

use harness::call::each;
use harness::library::{FIRST_SEARCH, NO_SUBSTITUTES};
use harness::reference::{MAX_VERTICES, WORKSPACE_WORDS};

const OLD: &[u8] = &[4, 2, 3, 7, 0, 3, 9, 0, 3, 7, 0, 2, 0, 1, 1, 2, 1, 2, 1, 0];
const NEW: &[u8] = &[4, 2, 3, 9, 0, 3, 7, 0, 2, 0, 1, 1, 0];
/// A fresh checkpoint of minimum 1, and the last one of its search: 6 steps, 1 0 255 held.
const FRESH: [u8; 14] = [16, 1, 17, 0, 0, 0, 0, 0, 0, 0, 0, 18, 0, 0];
const LAST: [u8; 20] = [
    16, 1, 17, 6, 0, 0, 0, 0, 0, 0, 0, 18, 3, 20, 1, 20, 0, 20, 255, 0,
];

#[test]
fn start_fits_or_13() {
    each(|by| {
        for length in 0..=20 {
            let mut checkpoint = vec![0x55; length];
            let answer = (by.start)(OLD, NEW, NO_SUBSTITUTES, FIRST_SEARCH, 1, &mut checkpoint);
            if length < FRESH.len() {
                assert_eq!((answer.number, answer.value), (13, 0));
                assert_eq!(checkpoint, vec![0x55; length]);
            } else {
                assert_eq!((answer.number, answer.value), (0, 14));
                assert_eq!(checkpoint[..14], FRESH);
                assert!(checkpoint[14..].iter().all(|&byte| byte == 0x55));
            }
        }
    });
}

#[test]
fn resume_fits_or_13() {
    each(|by| {
        for length in 0..=26 {
            let mut workspace = vec![9; WORKSPACE_WORDS + 1];
            let mut next = vec![0x55; length];
            let answer = (by.resume)(
                OLD,
                NEW,
                NO_SUBSTITUTES,
                FIRST_SEARCH,
                &FRESH,
                100,
                &mut workspace,
                &mut next,
            );
            let words = |word| [vec![word; WORKSPACE_WORDS], vec![9]].concat();
            if length < LAST.len() {
                assert_eq!((answer.number, answer.value, answer.ceiling), (13, 0, 0));
                assert_eq!(next, vec![0x55; length]);
                assert_eq!(workspace, words(9));
            } else {
                assert_eq!((answer.number, answer.value, answer.ceiling), (0, 20, 3));
                assert_eq!(next[..20], LAST);
                assert!(next[20..].iter().all(|&byte| byte == 0x55));
                assert_eq!(workspace, words(0));
            }
        }
    });
}

#[test]
fn held_mapping_fits_or_13() {
    each(|by| {
        for length in 0..=MAX_VERTICES {
            let mut mapping = vec![0x55; length];
            let answer = (by.read_out)(OLD, NEW, NO_SUBSTITUTES, FIRST_SEARCH, &LAST, &mut mapping);
            if length < 3 {
                assert_eq!(answer.number, 13);
                let rest = (answer.value, answer.steps, answer.size, answer.ceiling);
                assert_eq!(rest, (0, 0, 0, 0));
                assert_eq!(mapping, vec![0x55; length]);
            } else {
                assert_eq!((answer.number, answer.value, answer.size), (0, 3, 2));
                assert_eq!(mapping[..3], [1, 0, 255]);
                assert!(mapping[3..].iter().all(|&byte| byte == 0x55));
            }
        }
        let nothing_held = (by.read_out)(OLD, NEW, NO_SUBSTITUTES, FIRST_SEARCH, &FRESH, &mut []);
        assert_eq!((nothing_held.number, nothing_held.ceiling), (0, 4));
    });
}

#[test]
fn every_other_refusal_comes_before_13() {
    each(|by| {
        let start = (by.start)(&[], NEW, NO_SUBSTITUTES, FIRST_SEARCH, 1, &mut []);
        assert_eq!((start.number, start.value), (1, 0));

        let mut enough = vec![9; WORKSPACE_WORDS];
        let mut few = vec![9; WORKSPACE_WORDS - 1];
        let resume = |old: &[u8], checkpoint: &[u8], budget: u64, words: &mut [u64]| {
            let answer = (by.resume)(
                old,
                NEW,
                NO_SUBSTITUTES,
                FIRST_SEARCH,
                checkpoint,
                budget,
                words,
                &mut [],
            );
            assert!(words.iter().all(|&word| word == 9));
            (answer.number, answer.value)
        };
        let begun = [16, 1, 17, 1, 0, 0, 0, 0, 0, 0, 0, 18, 0, 19, 1, 0];
        assert_eq!(resume(&[4, 2, 5], &FRESH, 1, &mut few), (2, 2));
        assert_eq!(resume(&[3], &FRESH, 1, &mut few), (27, 0));
        assert_eq!(resume(OLD, &[16], 1, &mut few), (17, 1));
        assert_eq!(resume(NEW, &LAST, 1, &mut few), (17, 17));
        assert_eq!(resume(OLD, &FRESH[..13], 1, &mut few), (17, 13));
        assert_eq!(resume(OLD, &begun, u64::MAX, &mut few), (15, 0));
        assert_eq!(resume(OLD, &begun, u64::MAX, &mut enough), (16, 0));
        assert_eq!(resume(OLD, &begun, 1, &mut enough), (13, 0));

        let misshapen = [&LAST[..3], &[0; 8], &LAST[11..]].concat();
        let read_out = |new: &[u8], checkpoint: &[u8]| {
            let answer = (by.read_out)(OLD, new, NO_SUBSTITUTES, FIRST_SEARCH, checkpoint, &mut []);
            answer.number
        };
        assert_eq!(read_out(NEW, &misshapen), 14);
        assert_eq!(read_out(&[4], &LAST), 1);
        assert_eq!(read_out(&[1], &LAST), 27);
        assert_eq!(read_out(NEW, &LAST), 13);
    });
}
