//! The script `bytes`, which writes numbers as bytes.

use std::path::Path;
use std::process::{Command, Output};

fn bytes(words: &[&str]) -> Output {
    let script = Path::new(env!("CARGO_MANIFEST_DIR")).join("../bytes");
    Command::new(script).args(words).output().unwrap()
}

#[test]
fn every_byte_is_written() {
    let words: Vec<String> = (0..=255).map(|byte: u8| byte.to_string()).collect();
    let words: Vec<&str> = words.iter().map(String::as_str).collect();
    let output = bytes(&words);
    assert!(output.status.success(), "{output:?}");
    assert_eq!(output.stdout, (0..=255).collect::<Vec<u8>>());
}

#[test]
fn other_words_are_named_and_nothing_is_written() {
    let others = [
        "256", "300", "-1", "+1", "010", "00", "0x10", "1e1", "1.0", "lots", "", " 1", "1\n", "²",
    ];
    for word in others {
        let output = bytes(&["1", word, "2"]);
        assert!(!output.status.success(), "{word:?}");
        assert!(output.stdout.is_empty(), "{word:?}");
        let message = String::from_utf8(output.stderr).unwrap();
        assert!(message.contains(&format!("'{word}'")), "{message}");
    }
}
