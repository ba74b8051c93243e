//! The library's version and its texts of refusals, as include/golfcedar.h says.

use std::collections::HashSet;
use std::thread;

use harness::answer::Answer;
use harness::library::{reason, version, REASON_BYTES};

const HEADER: &str = include_str!("../../include/golfcedar.h");
/// Refusals have the numbers from 1 to this one, but for 6.
const LAST: u32 = 28;

/// What the header has as the number GOLFCEDAR_..
fn defined(name: &str) -> usize {
    let start = format!("#define GOLFCEDAR_{name} ");
    let mut values = HEADER.lines().filter_map(|line| line.strip_prefix(&start));
    let value = values.next().expect(name).parse().expect(name);
    assert_eq!(values.next(), None, "{name}");
    value
}

fn text(number: u32) -> String {
    let mut text = [0; REASON_BYTES];
    let answer = reason(number, &mut text);
    assert_eq!(answer, Answer::accepted(answer.value), "{number}");
    String::from_utf8(text[..answer.value as usize].to_vec()).unwrap()
}

/// Numbers of no refusal.
fn others() -> impl Iterator<Item = u32> {
    let low = [0, 6].into_iter().chain(LAST + 1..=1_000);
    // a refusal's but for one bit
    let high = (8..32).flat_map(|bit| (0..=LAST).map(move |number| (1 << bit) + number));
    low.chain(high).chain([u32::MAX - 1, u32::MAX])
}

#[test]
fn the_version_is_that_of_the_header() {
    let [major, minor, patch] = ["MAJOR", "MINOR", "PATCH"].map(|part| {
        let part = defined(&format!("VERSION_{part}"));
        assert!(part < 256);
        part as u32
    });
    assert_eq!(version(), 65_536 * major + 256 * minor + patch);
    let sum = "(65536 * GOLFCEDAR_VERSION_MAJOR + 256 * GOLFCEDAR_VERSION_MINOR + \
        GOLFCEDAR_VERSION_PATCH)";
    assert!(HEADER.contains(&format!("\n#define GOLFCEDAR_VERSION {sum}\n")));
}

#[test]
fn each_refusal_has_a_text_of_its_own() {
    assert_eq!(REASON_BYTES, defined("REASON_BYTES"));
    let numbers = (1..=LAST).filter(|&number| number != 6);
    let texts: HashSet<String> = numbers.map(text).collect();
    assert_eq!(texts.len(), 27);
    for text in texts {
        let printable = text.bytes().all(|byte| (b' '..=b'~').contains(&byte));
        assert!(printable && !text.trim().is_empty(), "{text:?}");
        assert_eq!(text.trim(), text);
    }
}

#[test]
fn other_numbers_have_the_empty_text() {
    for number in others() {
        assert_eq!(text(number), "", "{number}");
        assert_eq!(reason(number, &mut []), Answer::accepted(0), "{number}");
    }
}

/// With every length of the buffer; what lies around it shows a write out of bounds.
#[test]
fn a_text_fits_or_13() {
    const BEFORE: u8 = 0xAA;
    for number in (0..=LAST + 2).chain([u32::MAX]) {
        let text = text(number);
        for length in 0..=90 {
            let mut memory = [BEFORE; 9 + 90 + REASON_BYTES];
            let mut expected = memory;
            let answer = reason(number, &mut memory[9..9 + length]);
            if length < text.len() {
                assert_eq!(answer, Answer::refused(13), "{number}, {length}");
            } else {
                assert_eq!(answer, Answer::accepted(text.len() as u64));
                expected[9..9 + text.len()].copy_from_slice(text.as_bytes());
            }
            assert_eq!(memory, expected, "{number}, {length}");
        }
    }
}

#[test]
fn a_text_is_that_of_its_number() {
    for (number, said) in [
        (1, "a command is cut off, or the end is missing"),
        (13, "too short a buffer for the output"),
        (
            14,
            "a checkpoint that is not in shape for these graphs, substitutes and search",
        ),
        (21, "labels that do not agree"),
        (24, "a label 0 among the substitutes"),
        (28, "a label above 255, which edition 1 does not have"),
    ] {
        assert_eq!(text(number), said);
    }
}

/// A thread has the promised 320 kibibytes; a call that needs more crashes the test.
#[test]
fn stack_is_as_promised() {
    let thread = thread::Builder::new().stack_size(320 << 10);
    let made = thread.spawn(|| (version(), reason(10, &mut [0; REASON_BYTES])));
    assert!(made.unwrap().join().unwrap().1.is_accepted());
}
