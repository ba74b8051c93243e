//! The programs of `examples/`: what they print and refuse, the file that the two of `resume` share,
//! and the files that `move` writes.

use std::fs;
use std::path::{Path, PathBuf};
use std::process::{Command, Output};
use std::sync::LazyLock;

/// 01's pair P.
const OLD: [u8; 20] = [4, 2, 3, 7, 0, 3, 9, 0, 3, 7, 0, 2, 0, 1, 1, 2, 1, 2, 1, 0];
const NEW: [u8; 13] = [4, 2, 3, 9, 0, 3, 7, 0, 2, 0, 1, 1, 0];
/// The same two in edition 1.
const OLD_BEFORE: [u8; 15] = [1, 7, 1, 9, 1, 7, 2, 0, 1, 1, 2, 1, 2, 1, 0];
const NEW_BEFORE: [u8; 9] = [1, 9, 1, 7, 2, 0, 1, 1, 0];
/// The checkpoint of P with minimum 1 after 4 visits, as README.md has it.
const CHECKPOINT: [u8; 24] = [
    16, 1, 17, 4, 0, 0, 0, 0, 0, 0, 0, 18, 1, 19, 1, 19, 255, 20, 1, 20, 0, 20, 255, 0,
];

const NOTHING_HELD: &str = "state unfinished\nsteps 3\nsize none\nceiling 3\n";
const HELD: &str = "state unfinished\nsteps 4\nsize 2\nceiling 3\n\
    0 maps to 1\n1 maps to 0\n2 is left out\n";
const FINISHED: &str = "state finished\nsteps 6\nsize 2\nceiling 3\n\
    0 maps to 1\n1 maps to 0\n2 is left out\n";

/// As the library tells the numbers 1, 2 and 14.
const CUT_OFF: &str = "a command is cut off, or the end is missing";
const UNKNOWN: &str = "an unknown command";
const NOT_IN_SHAPE: &str = "checkpoint saved: refused 14 (0): \
    a checkpoint that is not in shape for these graphs, substitutes and search";

static C_PROGRAM: LazyLock<PathBuf> = LazyLock::new(|| built("resume", "-std=c11"));
static MOVE: LazyLock<PathBuf> = LazyLock::new(|| built("move", "-std=c99"));

fn built(name: &str, standard: &str) -> PathBuf {
    let program = Path::new(env!("CARGO_TARGET_TMPDIR")).join(name);
    let harness = Path::new(env!("CARGO_MANIFEST_DIR"));
    let status = Command::new("cc")
        .args([standard, "-Wall", "-Wextra", "-pedantic", "-Werror", "-O2"])
        .arg("-I")
        .arg(harness.join("../include"))
        .arg(harness.join(format!("../examples/{name}.c")))
        .arg(env!("GOLFCEDAR_ARCHIVE"))
        .arg("-o")
        .arg(&program)
        .status()
        .unwrap();
    assert!(status.success());
    program
}

fn c_program() -> &'static Path {
    &C_PROGRAM
}

fn rust_program() -> &'static Path {
    Path::new(env!("CARGO_BIN_EXE_resume"))
}

/// A folder with the two graphs `old` and `new`, where the file is called `saved`.
struct Folder(PathBuf);

impl Folder {
    fn new(name: &str) -> Folder {
        let folder = Path::new(env!("CARGO_TARGET_TMPDIR")).join(name);
        let _ = fs::remove_dir_all(&folder);
        fs::create_dir_all(&folder).unwrap();
        let folder = Folder(folder);
        folder.write("old", &OLD);
        folder.write("new", &NEW);
        folder
    }

    fn write(&self, name: &str, bytes: &[u8]) {
        fs::write(self.0.join(name), bytes).unwrap();
    }

    fn saved(&self) -> Option<Vec<u8>> {
        fs::read(self.0.join("saved")).ok()
    }

    fn run(&self, program: &Path, arguments: &[&str]) -> Output {
        Command::new(program)
            .args(arguments)
            .current_dir(&self.0)
            .output()
            .unwrap()
    }

    /// What an accepted run prints. `words` are the budget and, if given, the minimum.
    fn printed(&self, program: &Path, words: &[&str]) -> String {
        self.printed_with(program, &[], words)
    }

    /// With so many substitutes.
    fn printed_with(&self, program: &Path, pairs: &[&str], words: &[&str]) -> String {
        self.printed_by(program, &[], pairs, words)
    }

    /// With these options before them.
    fn printed_by(
        &self,
        program: &Path,
        options: &[&str],
        pairs: &[&str],
        words: &[&str],
    ) -> String {
        let output = self.run(program, &[options, &arguments(pairs, words)].concat());
        assert!(output.status.success(), "{words:?} {output:?}");
        assert!(output.stderr.is_empty(), "{words:?} {output:?}");
        assert!(!self.0.join("saved.saving").exists());
        String::from_utf8(output.stdout).unwrap()
    }

    /// The message of a refused run, without its line end. The file stays as it was.
    fn refused(&self, program: &Path, words: &[&str]) -> String {
        self.refused_with(program, &[], words)
    }

    fn refused_with(&self, program: &Path, pairs: &[&str], words: &[&str]) -> String {
        self.refused_by(program, &[], pairs, words)
    }

    fn refused_by(
        &self,
        program: &Path,
        options: &[&str],
        pairs: &[&str],
        words: &[&str],
    ) -> String {
        let saved = self.saved();
        let output = self.run(program, &[options, &arguments(pairs, words)].concat());
        assert!(!output.status.success(), "{words:?} {output:?}");
        assert!(output.stdout.is_empty(), "{words:?} {output:?}");
        assert_eq!(self.saved(), saved, "{words:?}");
        let message = String::from_utf8(output.stderr).unwrap();
        message.strip_suffix('\n').unwrap().to_string()
    }
}

fn arguments<'a>(pairs: &[&'a str], words: &[&'a str]) -> Vec<&'a str> {
    let options = pairs.iter().flat_map(|pair| ["--substitute", pair]);
    let files = ["old", "new", "saved"];
    options.chain(files).chain(words.iter().copied()).collect()
}

/// Has both programs checked, each in a folder of its own.
fn both(name: &str, check: fn(&Folder, &Path)) {
    check(&Folder::new(&format!("{name}-c")), c_program());
    check(&Folder::new(&format!("{name}-rust")), rust_program());
}

fn saved_file(substitutes: &[u8], checkpoint: &[u8]) -> Vec<u8> {
    parts(&[&OLD, &NEW, substitutes, checkpoint])
}

fn parts(parts: &[&[u8]]) -> Vec<u8> {
    let mut bytes = Vec::new();
    for part in parts {
        bytes.extend([(part.len() % 256) as u8, (part.len() / 256) as u8]);
        bytes.extend(*part);
    }
    bytes
}

#[test]
fn a_search_goes_on_and_what_it_holds_is_shown() {
    both("goes-on", |folder, program| {
        assert_eq!(folder.printed(program, &["3"]), NOTHING_HELD);
        assert_eq!(folder.printed(program, &["1"]), HELD);
        assert_eq!(folder.printed(program, &["0"]), HELD);
        assert_eq!(folder.printed(program, &["100"]), FINISHED);
        assert_eq!(folder.printed(program, &["18446744073709551615"]), FINISHED);
    });
}

#[test]
fn the_file_has_the_four_parts() {
    both("parts", |folder, program| {
        assert_eq!(folder.printed(program, &["4", "1"]), HELD);
        assert_eq!(folder.saved().unwrap(), saved_file(&[], &CHECKPOINT));
        fs::remove_file(folder.0.join("saved")).unwrap();
        // about labels that do not occur
        folder.printed_with(program, &["1:2", "255:1"], &["4", "1"]);
        let saved = saved_file(&[1, 0, 2, 0, 255, 0, 1, 0], &CHECKPOINT);
        assert_eq!(folder.saved().unwrap(), saved);
        fs::remove_file(folder.0.join("saved")).unwrap();
        folder.printed_with(program, &["1:256", "65535:263"], &["4", "1"]);
        let saved = saved_file(&[1, 0, 0, 1, 255, 255, 7, 1], &CHECKPOINT);
        assert_eq!(folder.saved().unwrap(), saved);
    });
}

#[test]
fn a_file_from_before_edition_2_goes_on_with_moved_graphs() {
    both("before-edition-2", |folder, program| {
        let lists: [(&[&str], &[u8], &[u8]); 3] = [
            (&[], &[], &[]),
            (
                &["1:2", "255:1"],
                &[1, 2, 255, 1],
                &[1, 0, 2, 0, 255, 0, 1, 0],
            ),
            (
                &["1:2"; 256],
                &[1, 2].repeat(256),
                &[1, 0, 2, 0].repeat(256),
            ),
        ];
        for (pairs, before, now) in lists {
            let earlier = parts(&[&OLD_BEFORE, &NEW_BEFORE, before, &CHECKPOINT]);
            folder.write("saved", &earlier);
            assert_eq!(
                folder.refused_with(program, &["7:9"], &["0"]),
                "checkpoint saved: saved for other substitutes: name another file"
            );
            assert_eq!(folder.printed_with(program, pairs, &["0"]), HELD);
            assert_eq!(folder.saved().unwrap(), saved_file(now, &CHECKPOINT));
            for length in [0, 10, 16, 17, 27, 28, earlier.len() - 25, earlier.len() - 1] {
                folder.write("saved", &earlier[..length]);
                assert_eq!(
                    folder.refused_with(program, pairs, &["0"]),
                    "checkpoint saved: damaged, or not a file of this program",
                    "{length}"
                );
            }
        }
        // neither graphs nor lists of either edition, and of both
        let damaged: [&[&[u8]]; 5] = [
            &[&OLD_BEFORE[..14], &NEW_BEFORE, &[], &CHECKPOINT],
            &[&OLD_BEFORE, &[], &[], &CHECKPOINT],
            &[&[], &NEW_BEFORE, &[], &CHECKPOINT],
            &[&OLD_BEFORE, &NEW, &[], &CHECKPOINT],
            &[&OLD_BEFORE, &NEW_BEFORE, &[7; 514], &CHECKPOINT],
        ];
        for bytes in damaged.map(parts) {
            folder.write("saved", &bytes);
            assert_eq!(
                folder.refused(program, &["0"]),
                "checkpoint saved: damaged, or not a file of this program",
                "{bytes:?}"
            );
        }
        folder.write("saved", &parts(&[&OLD, &NEW_BEFORE, &[], &CHECKPOINT]));
        assert_eq!(
            folder.refused(program, &["0"]),
            "checkpoint saved: saved for another new graph: name another file"
        );
        folder.write(
            "saved",
            &parts(&[&NEW_BEFORE, &NEW_BEFORE, &[], &CHECKPOINT]),
        );
        assert_eq!(
            folder.refused(program, &["0"]),
            "checkpoint saved: saved for another old graph: name another file"
        );
    });
}

#[test]
fn a_file_from_before_there_were_substitutes_has_the_empty_list() {
    both("three-parts", |folder, program| {
        let earlier = parts(&[&OLD_BEFORE, &NEW_BEFORE, &CHECKPOINT]);
        folder.write("saved", &earlier);
        assert_eq!(
            folder.refused_with(program, &["7:9"], &["0"]),
            "checkpoint saved: saved for other substitutes: name another file"
        );
        assert_eq!(folder.printed(program, &["0"]), HELD);
        assert_eq!(folder.saved().unwrap(), saved_file(&[], &CHECKPOINT));
        for length in 0..earlier.len() {
            folder.write("saved", &earlier[..length]);
            assert_eq!(
                folder.refused(program, &["0"]),
                "checkpoint saved: damaged, or not a file of this program",
                "{length}"
            );
        }
    });
}

#[test]
fn substitutes_let_other_labels_agree() {
    both("substitutes", |folder, program| {
        folder.write("old", &[4, 2, 3, 7, 0, 0]);
        folder.write("new", &[4, 2, 3, 9, 0, 0]);
        let none = "state finished\nsteps 2\nsize 0\nceiling 1\n0 is left out\n";
        let one = "state finished\nsteps 3\nsize 1\nceiling 2\n0 maps to 0\n";
        let lists: [(&[&str], &str); 8] = [
            (&[], none),
            (&["263:9"], none),
            (&["7:265"], none),
            (&["7:9"], one),
            (&["9:7"], none),
            (&["7:8", "8:9"], none),
            (&["7:8", "7:9", "7:9"], one),
            (&["65535:1", "1:65535", "7:9"], one),
        ];
        for (pairs, printed) in lists {
            assert_eq!(folder.printed_with(program, pairs, &["100"]), printed);
            fs::remove_file(folder.0.join("saved")).unwrap();
        }
        // cut after each visit
        for printed in ["steps 1", "steps 2", "steps 3"] {
            let now = folder.printed_with(program, &["7:9"], &["1"]);
            assert!(now.contains(printed), "{now}");
        }
        assert_eq!(folder.printed_with(program, &["7:9"], &["1", "0"]), one);
    });
}

#[test]
fn a_file_of_other_substitutes_is_refused() {
    both("other-substitutes", |folder, program| {
        let first = folder.printed_with(program, &["7:9", "1:2"], &["3"]);
        let others: [&[&str]; 6] = [
            &[],
            &["7:9"],
            &["9:7", "1:2"],
            // the same pairs, but not the same bytes
            &["1:2", "7:9"],
            &["7:9", "1:2", "1:2"],
            &["7:9", "1:3"],
        ];
        for pairs in others {
            assert_eq!(
                folder.refused_with(program, pairs, &["3"]),
                "checkpoint saved: saved for other substitutes: name another file"
            );
        }
        let again = folder.printed_with(program, &["7:9", "1:2"], &["0"]);
        assert_eq!(again, first);
    });
}

#[test]
fn each_program_goes_on_from_the_others_file_with_substitutes() {
    for (first, second, name) in [
        (c_program(), rust_program(), "c-then-rust-substitutes"),
        (rust_program(), c_program(), "rust-then-c-substitutes"),
    ] {
        let folder = Folder::new(name);
        folder.printed_with(first, &["7:9", "9:7"], &["3"]);
        assert!(folder.refused(second, &["3"]).contains("other substitutes"));
        let one = folder.printed_with(second, &["7:9", "9:7"], &["1000"]);
        assert!(one.starts_with("state finished\n"), "{one}");
        assert_eq!(folder.printed_with(first, &["7:9", "9:7"], &["0"]), one);
    }
}

/// Three vertices of label 7, of which 0 and 1 hang together.
const LOOSE: [u8; 16] = [4, 2, 3, 7, 0, 3, 7, 0, 3, 7, 0, 2, 0, 1, 1, 0];
/// Of this graph and itself: what the first search finds, and what the connected one does.
const LOOSE_FINISHED: &str = "state finished\nsteps 9\nsize 3\nceiling 4\n\
    0 maps to 0\n1 maps to 1\n2 maps to 2\n";
const CONNECTED_FINISHED: &str = "state finished\nsteps 13\nsize 2\nceiling 3\n\
    0 maps to 0\n1 maps to 1\n2 is left out\n";

impl Folder {
    /// Both graphs are the loose one.
    fn loosen(&self) {
        self.write("old", &LOOSE);
        self.write("new", &LOOSE);
    }

    /// What an accepted run with `--connected` prints.
    fn connected(&self, program: &Path, pairs: &[&str], words: &[&str]) -> String {
        self.printed_by(program, &["--connected"], pairs, words)
    }

    /// The message of a refused run with `--connected`. The file stays as it was.
    fn connected_refused(&self, program: &Path, pairs: &[&str], words: &[&str]) -> String {
        self.refused_by(program, &["--connected"], pairs, words)
    }
}

#[test]
fn a_connected_remainder_is_found() {
    both("connected", |folder, program| {
        folder.loosen();
        assert_eq!(folder.printed(program, &["100"]), LOOSE_FINISHED);
        fs::remove_file(folder.0.join("saved")).unwrap();
        assert_eq!(
            folder.connected(program, &[], &["4"]),
            "state unfinished\nsteps 4\nsize none\nceiling 4\n"
        );
        assert_eq!(folder.connected(program, &[], &["100"]), CONNECTED_FINISHED);
        assert_eq!(
            folder.connected(program, &[], &["0", "0"]),
            CONNECTED_FINISHED
        );
        fs::remove_file(folder.0.join("saved")).unwrap();
        let none = folder.connected(program, &[], &["100", "3"]);
        assert!(none.starts_with("state finished\n"), "{none}");
        assert!(none.ends_with("size none\nceiling 3\n"), "{none}");
        fs::remove_file(folder.0.join("saved")).unwrap();
        // together with substitutes
        folder.write("new", &[4, 2, 3, 9, 0, 3, 9, 0, 3, 9, 0, 2, 0, 1, 1, 0]);
        assert_eq!(
            folder.connected(program, &["7:9"], &["100"]),
            CONNECTED_FINISHED
        );
        // after these, or twice, it says the same
        let others: [&[&str]; 2] = [
            &["--substitute", "7:9", "--connected"],
            &["--connected", "--substitute", "7:9", "--connected"],
        ];
        for options in others {
            let words = [options, &["old", "new", "saved", "0"]].concat();
            let output = folder.run(program, &words);
            assert_eq!(output.stdout, CONNECTED_FINISHED.as_bytes(), "{options:?}");
        }
    });
}

#[test]
fn a_file_of_the_other_search_is_refused() {
    both("other-search", |folder, program| {
        folder.loosen();
        // also where the two walks agree so far
        for budget in ["0", "3", "4", "100"] {
            folder.printed(program, &[budget]);
            assert_eq!(
                folder.connected_refused(program, &[], &["3"]),
                "checkpoint saved: saved without --connected: name another file"
            );
            fs::remove_file(folder.0.join("saved")).unwrap();
            folder.connected(program, &[], &[budget]);
            assert_eq!(
                folder.refused(program, &["3"]),
                "checkpoint saved: saved with --connected: name another file"
            );
            assert_eq!(
                folder.connected_refused(program, &["7:9"], &["3"]),
                "checkpoint saved: saved for other substitutes: name another file"
            );
            fs::remove_file(folder.0.join("saved")).unwrap();
        }
    });
}

/// There is a part more, the byte 1, and no cut of the file is taken for another one.
#[test]
fn the_file_of_the_connected_search_has_five_parts() {
    both("five-parts", |folder, program| {
        folder.connected(program, &[], &["4", "1"]);
        let whole = parts(&[&OLD, &NEW, &[], &[1], &CHECKPOINT]);
        assert_eq!(folder.saved().unwrap(), whole);
        let list: &[u8] = &[1, 0, 2, 0];
        let damaged: [&[&[u8]]; 7] = [
            &[&OLD, &NEW, &[], &[0], &CHECKPOINT],
            &[&OLD, &NEW, &[], &[2], &CHECKPOINT],
            &[&OLD, &NEW, &[], &[], &CHECKPOINT],
            &[&OLD, &NEW, &[], &[1, 1], &CHECKPOINT],
            &[&OLD, &NEW, &[], &[1], &CHECKPOINT, &[]],
            &[&OLD, &NEW, list, &[1]],
            // no file from before edition 2 is of the connected search
            &[&OLD_BEFORE, &NEW_BEFORE, &[], &[1], &CHECKPOINT],
        ];
        let cuts = (0..whole.len()).map(|length| whole[..length].to_vec());
        for bytes in cuts.chain(damaged.map(parts)) {
            folder.write("saved", &bytes);
            for message in [
                folder.connected_refused(program, &[], &["0"]),
                folder.refused(program, &["0"]),
            ] {
                assert_eq!(
                    message, "checkpoint saved: damaged, or not a file of this program",
                    "{bytes:?}"
                );
            }
        }
        folder.write("saved", &whole);
        assert_eq!(folder.connected(program, &[], &["0"]), HELD);
        // a held mapping that is not connected is none of the connected search
        folder.loosen();
        let mut held = [16, 0, 17, 9, 0, 0, 0, 0, 0, 0, 0, 18, 3].to_vec();
        held.extend([20, 0, 20, 1, 20, 2, 0]);
        folder.write("saved", &parts(&[&LOOSE, &LOOSE, &[], &held]));
        assert_eq!(folder.printed(program, &["0"]), LOOSE_FINISHED);
        folder.write("saved", &parts(&[&LOOSE, &LOOSE, &[], &[1], &held]));
        assert_eq!(folder.connected_refused(program, &[], &["0"]), NOT_IN_SHAPE);
    });
}

#[test]
fn each_program_goes_on_from_the_others_connected_file() {
    for (first, second, name) in [
        (c_program(), rust_program(), "c-then-rust-connected"),
        (rust_program(), c_program(), "rust-then-c-connected"),
    ] {
        let folder = Folder::new(name);
        folder.loosen();
        folder.connected(first, &[], &["4"]);
        assert!(folder.refused(second, &["3"]).contains("with --connected"));
        assert_eq!(folder.connected(second, &[], &["9"]), CONNECTED_FINISHED);
        assert_eq!(folder.connected(first, &[], &["0"]), CONNECTED_FINISHED);
    }
}

/// Three vertices of label 7 without edges, and with all.
const UNLINKED: [u8; 12] = [4, 2, 3, 7, 0, 3, 7, 0, 3, 7, 0, 0];
const TRIANGLE: [u8; 24] = [
    4, 2, 3, 7, 0, 3, 7, 0, 3, 7, 0, 2, 0, 1, 1, 2, 0, 2, 1, 2, 1, 2, 1, 0,
];

impl Folder {
    /// The triangle is to lie on vertices without edges: three searches, of 5, 9 and 11 visits.
    fn unlike(&self) {
        self.write("old", &TRIANGLE);
        self.write("new", &UNLINKED);
    }

    /// What an accepted run with `--descend` prints.
    fn descended(&self, program: &Path, words: &[&str]) -> String {
        self.printed_by(program, &["--descend"], &[], words)
    }

    /// The message of a refused run with `--descend`. The file stays as it was.
    fn descend_refused(&self, program: &Path, words: &[&str]) -> String {
        self.refused_by(program, &["--descend"], &[], words)
    }
}

/// What a finished descent from the triangle prints after so many visits of its last run.
fn one_vertex(visits: u64) -> String {
    format!(
        "state finished\nvisits {visits}\nsize 1\nceiling 2\n\
        0 maps to 0\n1 is left out\n2 is left out\n"
    )
}

#[test]
fn a_descent_goes_on_from_above() {
    both("descend", |folder, program| {
        folder.unlike();
        for (budget, printed) in [
            ("0", "state unfinished\nvisits 0\nsize none\nceiling 4\n"),
            ("4", "state unfinished\nvisits 4\nsize none\nceiling 3\n"),
            ("1", "state unfinished\nvisits 1\nsize none\nceiling 3\n"),
            ("9", "state unfinished\nvisits 9\nsize none\nceiling 2\n"),
        ] {
            assert_eq!(folder.descended(program, &[budget]), printed);
        }
        assert_eq!(folder.descended(program, &["100"]), one_vertex(11));
        let most = "18446744073709551615";
        assert_eq!(folder.descended(program, &[most]), one_vertex(0));
        fs::remove_file(folder.0.join("saved")).unwrap();
        assert_eq!(folder.descended(program, &[most]), one_vertex(25));
        fs::remove_file(folder.0.join("saved")).unwrap();
        assert_eq!(
            folder.descended(program, &["100", "2"]),
            "state finished\nvisits 14\nsize none\nceiling 2\n"
        );
        fs::remove_file(folder.0.join("saved")).unwrap();
        // with substitutes, and in the connected search, in any order
        folder.write("new", &[4, 2, 3, 9, 0, 3, 9, 0, 3, 9, 0, 0]);
        let orders: [&[&str]; 3] = [
            &["--connected", "--descend", "--substitute", "7:9"],
            &["--substitute", "7:9", "--descend", "--connected"],
            &[
                "--descend",
                "--substitute",
                "7:9",
                "--connected",
                "--descend",
            ],
        ];
        for (options, visits) in orders.into_iter().zip([25, 0, 0]) {
            assert_eq!(
                folder.printed_by(program, options, &[], &["100"]),
                one_vertex(visits)
            );
        }
    });
}

#[test]
fn a_file_of_a_descent_is_none_of_a_search() {
    both("other-descent", |folder, program| {
        folder.unlike();
        for budget in ["0", "3", "100"] {
            folder.printed(program, &[budget]);
            assert_eq!(
                folder.descend_refused(program, &["3"]),
                "checkpoint saved: saved without --descend: name another file"
            );
            fs::remove_file(folder.0.join("saved")).unwrap();
            folder.descended(program, &[budget, "1"]);
            assert_eq!(
                folder.refused(program, &["3"]),
                "checkpoint saved: saved with --descend: name another file"
            );
            assert_eq!(
                folder.connected_refused(program, &[], &["3"]),
                "checkpoint saved: saved without --connected: name another file"
            );
            // the floor is that of the start, whatever the search that the descent is in
            for (word, message) in [
                ("0", "checkpoint saved: started with minimum 1, not 0"),
                ("3", "checkpoint saved: started with minimum 1, not 3"),
            ] {
                assert_eq!(folder.descend_refused(program, &["3", word]), message);
            }
            folder.descended(program, &["1", "1"]);
            assert_eq!(
                folder.descended(program, &["100"])[..15],
                *"state finished\n"
            );
            fs::remove_file(folder.0.join("saved")).unwrap();
        }
    });
}

/// There is a part more, the byte 2 and the floor, and no cut of the file is taken for another one.
#[test]
fn the_file_of_a_descent_has_its_floor() {
    both("floor-part", |folder, program| {
        let mut checkpoint = CHECKPOINT;
        // the first search of the descent has minimum 2
        checkpoint[1] = 2;
        folder.descended(program, &["4", "1"]);
        let whole = parts(&[&OLD, &NEW, &[], &[2, 1], &checkpoint]);
        assert_eq!(folder.saved().unwrap(), whole);
        let damaged: [&[&[u8]]; 9] = [
            &[&OLD, &NEW, &[], &[2], &checkpoint],
            &[&OLD, &NEW, &[], &[1, 2], &checkpoint],
            &[&OLD, &NEW, &[], &[3, 1], &checkpoint],
            &[&OLD, &NEW, &[], &[2, 1, 1], &checkpoint],
            &[&OLD, &NEW, &[], &[2, 1], &[2, 1], &checkpoint],
            &[&OLD, &NEW, &[], &[2, 1], &[1], &checkpoint],
            &[&OLD, &NEW, &[], &[2, 1], &checkpoint, &[]],
            &[&OLD, &NEW, &[], &[2, 1]],
            // no file from before edition 2 is of a descent
            &[&OLD_BEFORE, &NEW_BEFORE, &[], &[2, 1], &checkpoint],
        ];
        let cuts = (0..whole.len()).map(|length| whole[..length].to_vec());
        for bytes in cuts.chain(damaged.map(parts)) {
            folder.write("saved", &bytes);
            assert_eq!(
                folder.descend_refused(program, &["0"]),
                "checkpoint saved: damaged, or not a file of this program",
                "{bytes:?}"
            );
        }
        let connected = parts(&[&OLD, &NEW, &[], &[1], &[2, 1], &checkpoint]);
        folder.write("saved", &connected);
        assert_eq!(
            folder.descend_refused(program, &["0"]),
            "checkpoint saved: saved with --connected: name another file"
        );
        let options = &["--connected", "--descend"];
        folder.printed_by(program, options, &[], &["0", "1"]);
        assert_eq!(folder.saved().unwrap(), connected);
        // a floor above the search's minimum: that search is the last
        folder.write("saved", &parts(&[&OLD, &NEW, &[], &[2, 255], &checkpoint]));
        let last = folder.descended(program, &["100"]);
        assert!(last.starts_with("state finished\nvisits 2\nsize 2\nceiling 3\n"));
        checkpoint[14] = 0;
        folder.write("saved", &parts(&[&OLD, &NEW, &[], &[2, 1], &checkpoint]));
        for words in [&["0"][..], &["0", "1"]] {
            assert_eq!(folder.descend_refused(program, words), NOT_IN_SHAPE);
        }
    });
}

#[test]
fn each_program_goes_on_from_the_others_descent() {
    for (first, second, name) in [
        (c_program(), rust_program(), "c-then-rust-descent"),
        (rust_program(), c_program(), "rust-then-c-descent"),
    ] {
        let folder = Folder::new(name);
        folder.unlike();
        folder.descended(first, &["20", "1"]);
        assert!(folder.refused(second, &["3"]).contains("with --descend"));
        assert_eq!(folder.descended(second, &["9", "1"]), one_vertex(5));
        assert_eq!(folder.descended(first, &["0"]), one_vertex(0));
    }
}

#[test]
fn only_two_labels_are_a_substitute() {
    both("substitute-word", |folder, program| {
        for word in [
            "",
            ":",
            "7",
            "7:",
            ":9",
            "7:0",
            "0:9",
            "7:65536",
            "65536:9",
            "65543:9",
            "07:9",
            "7:09",
            "+7:9",
            "7:-9",
            " 7:9",
            "7 :9",
            "7:9 ",
            "7:9:",
            "7:9:1",
            "7,9",
            "0x7:9",
            "seven:9",
            "18446744073709551623:9",
            "7:18446744073709551625",
        ] {
            let message = format!(
                "substitute '{word}': not two numbers from 1 to 65535 in plain form, as in 7:9"
            );
            assert_eq!(folder.refused_with(program, &[word], &["3"]), message);
            assert_eq!(
                folder.refused_with(program, &["7:9", word], &["3"]),
                message
            );
        }
        assert_eq!(folder.saved(), None);
    });
}

#[test]
fn at_most_256_substitutes_are_taken() {
    both("many-substitutes", |folder, program| {
        assert_eq!(
            folder.refused_with(program, &["1:2"; 257], &["3"]),
            "substitute '1:2': at most 256 may be given"
        );
        assert_eq!(folder.saved(), None);
        assert_eq!(
            folder.printed_with(program, &["1:2"; 256], &["3"]),
            NOTHING_HELD
        );
        let list = folder.saved().unwrap()[2 + OLD.len() + 2 + NEW.len()..][..1026].to_vec();
        assert_eq!(list, parts(&[&[1, 0, 2, 0].repeat(256)]));
        assert_eq!(folder.printed_with(program, &["1:2"; 256], &["1"]), HELD);
    });
}

#[test]
fn the_longest_file_is_saved_and_loaded() {
    both("longest", |folder, program| {
        let vertices = [3, 7, 0].repeat(64);
        let edges = (0..64).flat_map(|a| (a..64).flat_map(move |b| [2, a, b, 1]));
        let commands = vertices.into_iter().chain(edges).chain([0]);
        let graph: Vec<u8> = [4, 2].into_iter().chain(commands).collect();
        assert_eq!(graph.len(), 8515);
        folder.write("old", &graph);
        folder.write("new", &graph);
        let pairs = ["65535:1"; 256];
        // 64 vertices are mapped, and the next node too decides all of them
        let held = folder.printed_with(program, &pairs, &["65"]);
        assert!(held.starts_with("state unfinished\nsteps 65\nsize 64\nceiling 65\n"));
        let longest = 2 + 8515 + 2 + 8515 + 2 + 1024 + 2 + 270;
        assert_eq!(folder.saved().unwrap().len(), longest);
        fs::rename(folder.0.join("saved"), folder.0.join("first")).unwrap();
        assert_eq!(folder.connected(program, &pairs, &["65"]), held);
        assert_eq!(folder.saved().unwrap().len(), longest + 3);
        assert_eq!(folder.connected(program, &pairs, &["0"]), held);
        fs::remove_file(folder.0.join("saved")).unwrap();
        let options = ["--connected", "--descend"];
        let visits = held.replace("steps", "visits");
        assert_eq!(
            folder.printed_by(program, &options, &pairs, &["65"]),
            visits
        );
        assert_eq!(folder.saved().unwrap().len(), longest + 3 + 4);
        let visits = visits.replace("visits 65", "visits 0");
        assert_eq!(folder.printed_by(program, &options, &pairs, &["0"]), visits);
        fs::rename(folder.0.join("first"), folder.0.join("saved")).unwrap();
        let finished = folder.printed_with(program, &pairs, &["100000"]);
        assert!(finished.starts_with("state finished\n") && finished.ends_with("63 maps to 63\n"));
        folder.write("new", &[&graph[..], &[0]].concat());
        assert_eq!(
            folder.refused(program, &["1"]),
            "new graph new: refused 9 (8515): bytes after the end"
        );
    });
}

#[test]
fn each_program_goes_on_from_the_others_file() {
    for (first, second, name) in [
        (c_program(), rust_program(), "c-then-rust"),
        (rust_program(), c_program(), "rust-then-c"),
    ] {
        let folder = Folder::new(name);
        assert_eq!(folder.printed(first, &["3"]), NOTHING_HELD);
        assert_eq!(folder.printed(second, &["1"]), HELD);
        assert_eq!(folder.printed(first, &["2"]), FINISHED);
        assert_eq!(folder.printed(second, &["0"]), FINISHED);
    }
}

#[test]
fn only_a_number_is_a_budget() {
    both("budget", |folder, program| {
        for word in [
            "lots",
            "1e9",
            "-1",
            "+1",
            "18446744073709551616",
            "99999999999999999999999",
            "",
            " 1",
            "1 ",
            "007",
            "0x10",
            "1.5",
        ] {
            assert_eq!(
                folder.refused(program, &[word]),
                format!(
                    "budget '{word}': not a number from 0 to 18446744073709551615 in plain form"
                )
            );
        }
        assert_eq!(folder.saved(), None);
    });
}

#[test]
fn steps_and_budget_must_not_sum_up_too_high() {
    both("sum", |folder, program| {
        folder.printed(program, &["1"]);
        assert_eq!(
            folder.refused(program, &["18446744073709551615"]),
            "checkpoint saved: refused 16 (0): steps and budget together above 2^64 - 1"
        );
        assert_eq!(folder.printed(program, &["18446744073709551614"]), FINISHED);
    });
}

#[test]
fn only_a_number_to_255_is_a_minimum() {
    both("minimum-word", |folder, program| {
        for word in ["256", "-1", "+1", "two", "", "01", "18446744073709551617"] {
            assert_eq!(
                folder.refused(program, &["3", word]),
                format!("minimum '{word}': not a number from 0 to 255 in plain form")
            );
        }
        assert_eq!(folder.saved(), None);
    });
}

#[test]
fn the_minimum_is_that_of_the_start() {
    both("minimum", |folder, program| {
        let none = "state finished\nsteps 3\nsize none\nceiling 3\n";
        assert_eq!(folder.printed(program, &["100", "3"]), none);
        for (word, message) in [
            ("0", "checkpoint saved: started with minimum 3, not 0"),
            ("255", "checkpoint saved: started with minimum 3, not 255"),
        ] {
            assert_eq!(folder.refused(program, &["100", word]), message);
        }
        assert_eq!(folder.printed(program, &["100", "3"]), none);
        assert_eq!(folder.printed(program, &["100"]), none);
    });
}

#[test]
fn the_minimum_is_0_where_none_is_given() {
    both("minimum-0", |folder, program| {
        assert_eq!(folder.printed(program, &["3"]), NOTHING_HELD);
        assert_eq!(
            folder.refused(program, &["1", "1"]),
            "checkpoint saved: started with minimum 0, not 1"
        );
        assert_eq!(folder.printed(program, &["1", "0"]), HELD);
    });
}

#[test]
fn a_refused_graph_is_named() {
    both("graph", |folder, program| {
        folder.write("new", &[]);
        assert_eq!(
            folder.refused(program, &["3"]),
            format!("new graph new: refused 1 (0): {CUT_OFF}")
        );
        // of two it is the old one that is named
        folder.write("old", &[4, 2, 3, 7, 0, 2, 0, 1, 1, 0]);
        assert_eq!(
            folder.refused(program, &["3"]),
            "old graph old: refused 5 (5): an edge of a vertex that is not given before it"
        );
        // it is not moved silently
        folder.write("old", &OLD_BEFORE);
        assert_eq!(
            folder.refused(program, &["3"]),
            "old graph old: refused 27 (0): a graph that does not begin with 4, 2"
        );
        fs::remove_file(folder.0.join("old")).unwrap();
        assert_eq!(
            folder.refused(program, &["3"]),
            "old graph old: cannot be read"
        );
        folder.write("old", &OLD);
        fs::remove_file(folder.0.join("new")).unwrap();
        assert_eq!(
            folder.refused(program, &["3"]),
            "new graph new: cannot be read"
        );
        assert_eq!(folder.saved(), None);
    });
}

#[test]
fn a_file_of_other_graphs_is_refused() {
    both("other-graphs", |folder, program| {
        assert_eq!(folder.printed(program, &["100"]), FINISHED);
        // the edge of 0 and 1 has another label
        folder.write("new", &[4, 2, 3, 9, 0, 3, 7, 0, 2, 0, 1, 2, 0]);
        assert_eq!(
            folder.refused(program, &["100"]),
            "checkpoint saved: saved for another new graph: name another file"
        );
        folder.write("new", &NEW);
        // the edge of 1 and 2 is missing
        folder.write("old", &[4, 2, 3, 7, 0, 3, 9, 0, 3, 7, 0, 2, 0, 1, 1, 0]);
        assert_eq!(
            folder.refused(program, &["100"]),
            "checkpoint saved: saved for another old graph: name another file"
        );
        folder.write("old", &OLD);
        assert_eq!(folder.printed(program, &["100"]), FINISHED);
    });
}

/// Two panels and the substitutes.
type Inputs<'a> = (&'a [u8], &'a [u8], &'a [&'a str]);

impl Folder {
    fn put(&self, (old, new, _): Inputs) {
        self.write("old", old);
        self.write("new", new);
    }

    /// A run that goes on to the end holds so many vertices.
    fn finds(&self, program: &Path, options: &[&str], inputs: Inputs, size: usize) {
        self.put(inputs);
        let printed = self.printed_by(program, options, inputs.2, &["1000"]);
        assert!(printed.starts_with("state finished\n"), "{printed}");
        let found = format!("\nsize {size}\nceiling {}\n", size + 1);
        assert!(printed.contains(&found), "{printed}");
    }
}

/// What stands before the checkpoint, which is the last part of a file, and the checkpoint.
fn split(saved: &[u8]) -> (&[u8], &[u8]) {
    let mut place = 0;
    loop {
        let length = usize::from(saved[place]) + 256 * usize::from(saved[place + 1]);
        if place + 2 + length == saved.len() {
            return saved.split_at(place);
        }
        place += 2 + length;
    }
}

/// A search is finished with something wrong in a panel or in the list, and then that is corrected:
/// the file is refused, though its checkpoint is in shape for what is right too, and so would be
/// answered.
#[test]
fn a_finished_file_is_refused_after_a_correction() {
    both("corrected", |folder, program| {
        // the same, but for the wire of 1 and 2; without it; and with another vertex 2
        let mut miswired = OLD;
        miswired[18] = 2;
        let unwired = [&OLD[..15], &[0]].concat();
        let mut renewed = OLD;
        renewed[9] = 8;
        let right: Inputs = (&OLD, &OLD, &[]);
        let listed: Inputs = (&OLD, &renewed, &["7:8"]);
        let cases: [(&str, Inputs, Inputs); 6] = [
            ("another old graph", (&miswired, &OLD, &[]), right),
            ("another old graph", (&unwired, &OLD, &[]), right),
            ("another new graph", (&OLD, &miswired, &[]), right),
            ("another new graph", (&OLD, &unwired, &[]), right),
            ("other substitutes", (&OLD, &renewed, &[]), listed),
            ("other substitutes", (&OLD, &renewed, &["8:7"]), listed),
        ];
        let searches: [&[&str]; 4] = [
            &[],
            &["--descend"],
            &["--connected"],
            &["--connected", "--descend"],
        ];
        for (what, wrong, right) in cases {
            for options in searches {
                folder.finds(program, options, wrong, 2);
                let first = folder.saved().unwrap();
                folder.put(right);
                for budget in ["0", "1000"] {
                    assert_eq!(
                        folder.refused_by(program, options, right.2, &[budget]),
                        format!("checkpoint saved: saved for {what}: name another file")
                    );
                }
                folder.finds(program, options, wrong, 2);
                fs::remove_file(folder.0.join("saved")).unwrap();
                folder.finds(program, options, right, 3);
                // the first checkpoint, as if it were of the right panels
                let second = folder.saved().unwrap();
                folder.write("saved", &[split(&second).0, split(&first).1].concat());
                folder.finds(program, options, right, 2);
                fs::remove_file(folder.0.join("saved")).unwrap();
            }
        }
    });
}

#[test]
fn a_damaged_file_is_refused() {
    both("damaged", |folder, program| {
        for pairs in [&[][..], &["1:2", "255:1"]] {
            let list: &[u8] = if pairs.is_empty() {
                &[]
            } else {
                &[1, 0, 2, 0, 255, 0, 1, 0]
            };
            let whole = saved_file(list, &CHECKPOINT);
            let cuts = (0..whole.len()).map(|length| whole[..length].to_vec());
            let longer = [&whole[..], &[0]].concat();
            let bare_checkpoint = CHECKPOINT.to_vec();
            for bytes in cuts.chain([longer, bare_checkpoint, vec![255; 20_000]]) {
                folder.write("saved", &bytes);
                assert_eq!(
                    folder.refused_with(program, pairs, &["3"]),
                    "checkpoint saved: damaged, or not a file of this program",
                    "{bytes:?}"
                );
            }
            folder.write("saved", &whole);
            assert_eq!(folder.printed_with(program, pairs, &["0"]), HELD);
        }
    });
}

#[test]
fn a_damaged_checkpoint_is_refused() {
    both("damaged-checkpoint", |folder, program| {
        let mut out_of_shape = CHECKPOINT;
        // old vertex 0 does not fit on new vertex 0
        out_of_shape[14] = 0;
        let not_in_form =
            "checkpoint saved: refused 17 (3): bytes that are not in the form of a checkpoint";
        for (checkpoint, message) in [
            (&CHECKPOINT[..3], not_in_form),
            (&out_of_shape[..], NOT_IN_SHAPE),
        ] {
            folder.write("saved", &saved_file(&[], checkpoint));
            assert_eq!(folder.refused(program, &["3"]), message);
            assert_eq!(folder.refused(program, &["3", "0"]), message);
        }
    });
}

#[test]
fn a_file_that_cannot_be_read_does_not_count_as_missing() {
    both("folder", |folder, program| {
        fs::create_dir(folder.0.join("saved")).unwrap();
        assert_eq!(
            folder.refused(program, &["3"]),
            "checkpoint saved: cannot be read"
        );
    });
}

#[test]
fn a_file_that_cannot_be_saved_is_refused() {
    both("unsaved", |folder, program| {
        let output = folder.run(program, &["old", "new", "nowhere/saved", "3"]);
        assert!(!output.status.success() && output.stdout.is_empty());
        assert_eq!(
            String::from_utf8(output.stderr).unwrap(),
            "checkpoint nowhere/saved: cannot be saved\n"
        );
    });
}

#[test]
fn too_few_or_too_many_arguments_are_refused() {
    both("arguments", |folder, program| {
        let needs = "resume needs: [--connected] [--descend] [--substitute LABEL:LABEL]... \
            OLD NEW CHECKPOINT BUDGET [MINIMUM]";
        for words in [
            &[][..],
            &["3", "0", "0"],
            &["3", "--substitute", "7:9"],
            &["3", "0", "--connected"],
            &["3", "0", "--descend"],
        ] {
            assert_eq!(folder.refused(program, words), needs);
            assert_eq!(folder.refused_with(program, &["7:9"], words), needs);
        }
        let wrong: [&[&str]; 6] = [
            &["--substitute"],
            &["--connected"],
            &["--descend"],
            &["--descend", "old", "new", "saved"],
            &["--connected", "--substitute"],
            &["--connected", "old", "new", "saved"],
        ];
        for arguments in wrong {
            let output = folder.run(program, arguments);
            assert!(!output.status.success() && output.stdout.is_empty());
            assert_eq!(output.stderr, format!("{needs}\n").into_bytes());
        }
        assert_eq!(folder.saved(), None);
    });
}

/// In a folder of `move`: `from` is read, and `to` is to be written.
impl Folder {
    fn to(&self) -> Option<Vec<u8>> {
        fs::read(self.0.join("to")).ok()
    }

    /// What is written if these bytes are moved.
    fn moved(&self, options: &[&str], bytes: &[u8]) -> Vec<u8> {
        self.write("from", bytes);
        let output = self.run(&MOVE, &[options, &["from", "to"]].concat());
        assert_eq!(output.status.code(), Some(0), "{bytes:?} {output:?}");
        assert!(output.stdout.is_empty() && output.stderr.is_empty());
        assert_eq!(fs::read(self.0.join("from")).unwrap(), bytes);
        let moved = self.to().unwrap();
        fs::remove_file(self.0.join("to")).unwrap();
        moved
    }

    /// The message of a run with this status, without its line end. `to` stays as it was.
    fn not_moved(&self, arguments: &[&str], status: i32) -> String {
        let to = self.to();
        let output = self.run(&MOVE, arguments);
        assert_eq!(output.status.code(), Some(status), "{output:?}");
        assert!(output.stdout.is_empty(), "{output:?}");
        assert_eq!(self.to(), to);
        let message = String::from_utf8(output.stderr).unwrap();
        message.strip_suffix('\n').unwrap().to_string()
    }
}

/// 64 vertices and all edges, in edition 1 and in edition 2.
fn longest_files() -> (Vec<u8>, Vec<u8>) {
    let edges = (0..64).flat_map(|a| (a..64).flat_map(move |b| [2, a, b, 1]));
    let rest: Vec<u8> = edges.chain([0]).collect();
    let before = [&[1, 255].repeat(64)[..], &rest].concat();
    let now = [&[4, 2], &[3, 255, 0].repeat(64)[..], &rest].concat();
    assert_eq!((before.len(), now.len()), (8449, 8515));
    (before, now)
}

#[test]
fn a_file_moves_to_edition_2_and_back() {
    let folder = Folder::new("move-and-back");
    let (longest_before, longest) = longest_files();
    let pairs: [(&[u8], &[u8]); 4] = [
        (&OLD_BEFORE, &OLD),
        (&NEW_BEFORE, &NEW),
        (&[0], &[4, 2, 0]),
        (&longest_before, &longest),
    ];
    for (before, now) in pairs {
        assert_eq!(folder.moved(&[], before), now);
        assert_eq!(folder.moved(&["--back"], now), before);
    }
}

#[test]
fn a_refused_file_is_not_moved() {
    let folder = Folder::new("move-refused");
    let many = "a 65th vertex: a graph has at most 64";
    let not_given = "an edge of a vertex that is not given before it";
    let given = "an edge that is given already";
    let wide = "a label above 255, which edition 1 does not have";
    let not_edition_2 = "a graph that does not begin with 4, 2";
    let many_before = [1, 7].repeat(65);
    let many_now = [&[4, 2], &[3, 7, 0].repeat(65)[..]].concat();
    let up: [(&[u8], u32, u64, &str); 13] = [
        (&[], 1, 0, CUT_OFF),
        (&[1, 7, 1], 1, 2, CUT_OFF),
        (&OLD_BEFORE[..14], 1, 14, CUT_OFF),
        (&OLD, 2, 0, UNKNOWN),
        (&[1, 7, 3, 7, 0, 0], 2, 2, UNKNOWN),
        (&[1, 0, 0], 3, 0, "a vertex with label 0"),
        (&many_before, 4, 128, many),
        (&[1, 7, 2, 0, 1, 1, 0], 5, 2, not_given),
        (&[1, 7, 2, 1, 0, 1, 0], 5, 2, not_given),
        (&[1, 7, 2, 0, 0, 0, 0], 7, 2, "an edge with label 0"),
        (&[1, 7, 2, 0, 0, 1, 2, 0, 0, 1, 0], 8, 6, given),
        (&[1, 7, 0, 0], 9, 3, "bytes after the end"),
        (&[0, 13, 10], 9, 1, "bytes after the end"),
    ];
    let back: [(&[u8], u32, u64, &str); 14] = [
        (&OLD_BEFORE, 27, 0, not_edition_2),
        (&[4, 1, 0], 27, 0, not_edition_2),
        (&[], 1, 0, CUT_OFF),
        (&[4], 1, 0, CUT_OFF),
        (&[4, 2], 1, 2, CUT_OFF),
        (&[4, 2, 1, 7, 0], 2, 2, UNKNOWN),
        (&[4, 2, 3, 0, 0, 0], 3, 2, "a vertex with label 0"),
        (&many_now, 4, 194, many),
        (&[4, 2, 3, 0, 1, 9], 28, 2, wide),
        (&[4, 2, 3, 255, 0, 3, 255, 255, 0], 28, 5, wide),
        (&[4, 2, 2, 0, 0, 1, 0], 5, 2, not_given),
        (&[4, 2, 3, 7, 0, 2, 0, 0, 0], 7, 5, "an edge with label 0"),
        (&[4, 2, 3, 7, 0, 2, 0, 0, 1, 2, 0, 0, 2], 8, 9, given),
        (&[4, 2, 0, 0], 9, 3, "bytes after the end"),
    ];
    let up = up.map(|case| (&["from", "to"][..], case));
    let back = back.map(|case| (&["--back", "from", "to"][..], case));
    for (arguments, (bytes, number, place, text)) in up.into_iter().chain(back) {
        folder.write("from", bytes);
        assert_eq!(
            folder.not_moved(arguments, 1),
            format!("move: from: refused {number} at byte {place}: {text}"),
            "{bytes:?}"
        );
        assert_eq!(folder.to(), None);
    }
}

#[test]
fn a_file_too_long_to_move_is_refused() {
    let folder = Folder::new("move-long");
    let (before, now) = longest_files();
    let refused = |arguments: &[&str], start: &str| {
        let message = folder.not_moved(arguments, 1);
        assert!(message.starts_with(start), "{message}");
        assert_eq!(folder.to(), None);
    };
    for more in [0, 1, 100_000] {
        let old = [&before[..], &vec![0; more]].concat();
        let new = [&now[..], &vec![0; more]].concat();
        folder.write("from", &old);
        if more > 0 {
            refused(&["from", "to"], "move: from: refused 9 at byte 8449: ");
        }
        // of the other edition, however long it is
        refused(
            &["--back", "from", "to"],
            "move: from: refused 27 at byte 0: ",
        );
        folder.write("from", &new);
        if more > 0 {
            refused(
                &["--back", "from", "to"],
                "move: from: refused 9 at byte 8515: ",
            );
        }
        refused(&["from", "to"], "move: from: refused 2 at byte 0: ");
    }
}

#[test]
fn a_file_that_is_there_is_not_overwritten_by_a_move() {
    let folder = Folder::new("move-over");
    let message = "move: to: is there already: name a new file";
    for bytes in [&b"kept"[..], b""] {
        folder.write("to", bytes);
        folder.write("from", &OLD_BEFORE);
        assert_eq!(folder.not_moved(&["from", "to"], 2), message);
        folder.write("from", &OLD);
        assert_eq!(folder.not_moved(&["--back", "from", "to"], 2), message);
        assert_eq!(folder.to().unwrap(), bytes);
    }
    folder.write("to", &OLD_BEFORE);
    assert_eq!(folder.not_moved(&["to", "to"], 2), message);
    fs::remove_file(folder.0.join("to")).unwrap();
    fs::create_dir(folder.0.join("to")).unwrap();
    assert_eq!(folder.not_moved(&["--back", "old", "to"], 2), message);
}

#[test]
fn files_that_cannot_be_read_or_written_are_not_moved() {
    let folder = Folder::new("move-files");
    fs::create_dir(folder.0.join("folder")).unwrap();
    folder.write("from", &OLD_BEFORE);
    for from in ["missing", "folder", "nowhere/from", ""] {
        let message = format!("move: {from}: cannot be read");
        assert_eq!(folder.not_moved(&[from, "to"], 2), message);
        assert_eq!(folder.not_moved(&["--back", from, "to"], 2), message);
    }
    assert_eq!(
        folder.not_moved(&["from", "nowhere/to"], 2),
        "move: nowhere/to: cannot be written"
    );
    assert_eq!(folder.to(), None);
}

#[test]
fn a_move_that_cannot_be_written_whole_leaves_no_file() {
    let folder = Folder::new("move-full");
    folder.write("from", &OLD_BEFORE);
    let no_room = "trap '' XFSZ; ulimit -f 0; exec \"$0\" from to";
    let output = Command::new("sh")
        .args(["-c", no_room])
        .arg(&*MOVE)
        .current_dir(&folder.0)
        .output()
        .unwrap();
    assert_eq!(output.status.code(), Some(2), "{output:?}");
    assert_eq!(
        String::from_utf8(output.stderr).unwrap(),
        "move: to: cannot be written\n"
    );
    assert!(!folder.0.join("to").exists());
}

#[test]
fn a_move_takes_two_files() {
    let folder = Folder::new("move-arguments");
    folder.write("from", &OLD_BEFORE);
    folder.write("--back", &OLD_BEFORE);
    let wrong: [&[&str]; 8] = [
        &[],
        &["from"],
        &["from", "to", "more"],
        &["--back"],
        &["--back", "to"],
        &["--back", "from", "to", "more"],
        &["from", "to", "--back"],
        &["--help"],
    ];
    for arguments in wrong {
        assert_eq!(
            folder.not_moved(arguments, 2),
            "move needs: OLD MOVED, or --back MOVED OLD",
            "{arguments:?}"
        );
    }
    assert_eq!(folder.to(), None);
}
