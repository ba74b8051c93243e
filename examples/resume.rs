//! A search that goes on from run to run, through a file.
//!
//!     resume [--connected] [--descend] [--substitute LABEL:LABEL]... OLD NEW CHECKPOINT BUDGET
//!            [MINIMUM]
//!
//! OLD and NEW are graph files of edition 2. Without a file CHECKPOINT the search starts, for
//! mappings of at least MINIMUM vertices (0 to 255; 0 if not given), else it goes on from there;
//! either way for BUDGET visits. The file is saved, and what the search says so far is printed.
//! Build it in `harness/` with `cargo build --bin resume`.
//!
//! With `--connected` only mappings are looked for whose old vertices hang together by edges among
//! themselves. Either every run gives it, or none does.
//!
//! With `--descend` the search is a descent, from the largest minimum that anything can reach down
//! to MINIMUM. It finds the same, for graphs that resemble each other mostly in far fewer visits.
//! What is printed then is the visits of this run instead of the steps of the search, and the
//! descent's ceiling. Either every run gives it, or none does.
//!
//! `--substitute 7:9` lets old vertices of label 7 be mapped to new ones of label 9 too; labels are
//! 1 to 65535, and at most 256 pairs may be given. Each run has to give the same ones, in the same
//! order.
//!
//! BUDGET, MINIMUM and each LABEL are decimal numbers without sign or leading zero. A MINIMUM is
//! refused if the search in the file started with another one, and a file is refused if it was
//! saved for other graphs or substitutes, or for the other search, or as a descent if this is none:
//! a checkpoint alone does not tell of which it is, and a finished one would give the answer for
//! those. `refused NUMBER (VALUE): TEXT` is a refusal of include/golfcedar.h, with the library's own
//! text, after the file that it is about. A run that is refused leaves the file CHECKPOINT as it was.
//!
//! The file has four parts: the bytes of the old graph, of the new graph, of the substitutes and of
//! the checkpoint, each after its length, which takes two bytes, the lower first. The first three
//! stand there whole, so that nothing rests on a digest; they count as the same if their bytes are.
//! With `--connected` there is a part more before the checkpoint, which is the byte 1, and with
//! `--descend` one after that, which is the byte 2 and MINIMUM: no checkpoint is either, so a file
//! of four parts is one without both. examples/resume.c reads and writes the same file.
//!
//! A file from before edition 2 has graphs of edition 1 and substitutes of one byte a label. It is
//! read as if it were saved for the moved graphs, and for the same labels in two bytes each: so it
//! goes on with OLD and NEW as golfcedar_to_edition_2 gives them. One of three parts, from before
//! there were substitutes, is read as one whose list is empty: that is what it was saved for.

use std::env;
use std::fmt::Display;
use std::fs;
use std::io::ErrorKind;
use std::process::ExitCode;
use std::str::FromStr;

use harness::answer::Answer;
use harness::library::{self, CHECKPOINT_BYTES, CONNECTED_SEARCH, FIRST_SEARCH, GRAPH_BYTES};
use harness::library::{MAX_VERTICES, NO_SUBSTITUTES, REASON_BYTES, SUBSTITUTES_BYTES};
use harness::library::{UNMAPPED, WORKSPACE_WORDS};

const USAGE: &str = "resume needs: [--connected] [--descend] [--substitute LABEL:LABEL]... \
    OLD NEW CHECKPOINT BUDGET [MINIMUM]";

/// The part of a file of the connected search that stands before the checkpoint.
const CONNECTED_PART: &[u8] = &[1];
/// The part of a file of a descent that stands before the checkpoint is this byte and the floor.
const DESCENT: u8 = 2;

fn main() -> ExitCode {
    let arguments: Vec<String> = env::args().skip(1).collect();
    match run(&arguments) {
        Ok(()) => ExitCode::SUCCESS,
        Err(message) => {
            eprintln!("{message}");
            ExitCode::FAILURE
        }
    }
}

fn run(mut arguments: &[String]) -> Result<(), String> {
    let mut connected = FIRST_SEARCH;
    let mut descending = false;
    let mut substitutes = Vec::new();
    loop {
        arguments = match arguments {
            [option, rest @ ..] if option == "--connected" => {
                connected = CONNECTED_SEARCH;
                rest
            }
            [option, rest @ ..] if option == "--descend" => {
                descending = true;
                rest
            }
            [option, word, rest @ ..] if option == "--substitute" => {
                add_substitute(&mut substitutes, word)?;
                rest
            }
            _ => break,
        };
    }
    let (old, new, file, budget, minimum) = match arguments {
        [old, new, file, budget] => (old, new, file, budget, None),
        [old, new, file, budget, minimum] => (old, new, file, budget, Some(minimum)),
        _ => return Err(USAGE.into()),
    };
    let budget = number("budget", budget, u64::MAX)?;
    let minimum = match minimum {
        Some(word) => Some(number("minimum", word, u8::MAX)?),
        None => None,
    };
    let mut search = Search {
        old: load_graph("old graph", old)?,
        new: load_graph("new graph", new)?,
        substitutes,
        connected,
        floor: descending.then_some(minimum.unwrap_or(0)),
        checkpoint: Vec::new(),
        file,
    };
    if !search.load()? {
        search.start(minimum.unwrap_or(0))?;
    }
    if let Some(minimum) = minimum {
        search.check_minimum(minimum)?;
    }
    // A file that cannot be saved is better known before a long search than after it.
    search.save()?;
    let answer = search.resume(budget)?;
    search.save()?;
    search.print(answer)
}

/// A number is the word that it is printed as: so nothing else is taken for one.
fn number<N: FromStr + Display>(what: &str, word: &str, largest: N) -> Result<N, String> {
    match word.parse::<N>() {
        Ok(number) if number.to_string() == word => Ok(number),
        _ => Err(format!(
            "{what} '{word}': not a number from 0 to {largest} in plain form"
        )),
    }
}

/// Two labels with a colon between, in the form in which they are printed.
fn add_substitute(substitutes: &mut Vec<u8>, word: &str) -> Result<(), String> {
    let label = |word: &str| {
        number("label", word, u16::MAX)
            .ok()
            .filter(|&label| label > 0)
    };
    let pair = word.split_once(':');
    let Some((from, to)) = pair.and_then(|(from, to)| label(from).zip(label(to))) else {
        return Err(format!(
            "substitute '{word}': not two numbers from 1 to 65535 in plain form, as in 7:9"
        ));
    };
    if substitutes.len() == SUBSTITUTES_BYTES {
        return Err(format!(
            "substitute '{word}': at most {} may be given",
            SUBSTITUTES_BYTES / 4
        ));
    }
    substitutes.extend([from, to].map(u16::to_le_bytes).as_flattened());
    Ok(())
}

fn load_graph(what: &str, name: &str) -> Result<Vec<u8>, String> {
    let graph = fs::read(name).map_err(|_| format!("{what} {name}: cannot be read"))?;
    accepted(what, name, library::check_graph(&graph))?;
    Ok(graph)
}

fn accepted(what: &str, name: &str, answer: Answer) -> Result<Answer, String> {
    let Answer { number, value, .. } = answer;
    if answer.is_accepted() {
        Ok(answer)
    } else {
        let text = reason(number);
        Err(format!("{what} {name}: refused {number} ({value}): {text}"))
    }
}

fn reason(number: u32) -> String {
    let mut text = [0; REASON_BYTES];
    let length = library::reason(number, &mut text).value as usize;
    String::from_utf8_lossy(&text[..length]).into_owned()
}

/// What a saved file has.
struct Saved {
    old: Vec<u8>,
    new: Vec<u8>,
    substitutes: Vec<u8>,
    connected: u32,
    floor: Option<u8>,
    checkpoint: Vec<u8>,
}

/// The parts of a saved file, if it is in the form. They are from before edition 2 if the graphs
/// are. No list of that time ends as a checkpoint does, with a 0: so a file that is cut off after the
/// list is not taken for one of three parts.
fn parts(mut saved: &[u8]) -> Option<Saved> {
    let [old, new] = [take_part(&mut saved)?, take_part(&mut saved)?];
    let third = take_part(&mut saved)?;
    let earlier = !old.starts_with(&[4]);
    let (substitutes, mut checkpoint) = if earlier && saved.is_empty() && third.ends_with(&[0]) {
        (NO_SUBSTITUTES, third)
    } else {
        (third, take_part(&mut saved)?)
    };
    let mut connected = FIRST_SEARCH;
    if !earlier && checkpoint == CONNECTED_PART {
        connected = CONNECTED_SEARCH;
        checkpoint = take_part(&mut saved)?;
    }
    let mut floor = None;
    if let (false, &[DESCENT, least]) = (earlier, checkpoint) {
        floor = Some(least);
        checkpoint = take_part(&mut saved)?;
    }
    if !saved.is_empty() {
        return None;
    }
    let [old, new, substitutes] = if earlier {
        [moved_up(old)?, moved_up(new)?, widened(substitutes)?]
    } else {
        [old, new, substitutes].map(<[u8]>::to_vec)
    };
    Some(Saved {
        old,
        new,
        substitutes,
        connected,
        floor,
        checkpoint: checkpoint.to_vec(),
    })
}

/// None if it is no graph of edition 1.
fn moved_up(graph: &[u8]) -> Option<Vec<u8>> {
    let mut moved = vec![0; GRAPH_BYTES];
    let answer = library::to_edition_2(graph, &mut moved);
    moved.truncate(answer.value as usize);
    answer.is_accepted().then_some(moved)
}

/// None if there are too many.
fn widened(substitutes: &[u8]) -> Option<Vec<u8>> {
    let labels = substitutes.iter().flat_map(|&label| [label, 0]);
    (substitutes.len() <= SUBSTITUTES_BYTES / 2).then(|| labels.collect())
}

fn take_part<'a>(saved: &mut &'a [u8]) -> Option<&'a [u8]> {
    let (&length, rest) = saved.split_first_chunk()?;
    let (part, rest) = rest.split_at_checked(u16::from_le_bytes(length).into())?;
    *saved = rest;
    Some(part)
}

fn put_part(saved: &mut Vec<u8>, part: &[u8]) {
    saved.extend((part.len() as u16).to_le_bytes());
    saved.extend(part);
}

/// The bytes of two graphs, of substitutes and of a checkpoint, and the file where these are kept.
struct Search<'a> {
    old: Vec<u8>,
    new: Vec<u8>,
    substitutes: Vec<u8>,
    connected: u32,
    /// Of a descent; none for a search alone.
    floor: Option<u8>,
    checkpoint: Vec<u8>,
    file: &'a str,
}

impl Search<'_> {
    fn failure(&self, why: impl Display) -> String {
        format!("checkpoint {}: {why}", self.file)
    }

    fn accepted(&self, answer: Answer) -> Result<Answer, String> {
        accepted("checkpoint", self.file, answer)
    }

    /// Answers false if there is no such file.
    fn load(&mut self) -> Result<bool, String> {
        let saved = match fs::read(self.file) {
            Ok(saved) => saved,
            Err(error) if error.kind() == ErrorKind::NotFound => return Ok(false),
            Err(_) => return Err(self.failure("cannot be read")),
        };
        let Some(saved) = parts(&saved) else {
            return Err(self.failure("damaged, or not a file of this program"));
        };
        if saved.old != self.old {
            return Err(self.failure("saved for another old graph: name another file"));
        }
        if saved.new != self.new {
            return Err(self.failure("saved for another new graph: name another file"));
        }
        if saved.substitutes != self.substitutes {
            return Err(self.failure("saved for other substitutes: name another file"));
        }
        if saved.connected != self.connected {
            return Err(self.failure(match saved.connected {
                FIRST_SEARCH => "saved without --connected: name another file",
                _ => "saved with --connected: name another file",
            }));
        }
        if saved.floor.is_some() != self.floor.is_some() {
            return Err(self.failure(match saved.floor {
                None => "saved without --descend: name another file",
                Some(_) => "saved with --descend: name another file",
            }));
        }
        self.floor = saved.floor;
        self.checkpoint = saved.checkpoint;
        Ok(true)
    }

    /// Through a second file, so that a run that is cut short leaves the old one.
    fn save(&self) -> Result<(), String> {
        let mut saved = Vec::new();
        put_part(&mut saved, &self.old);
        put_part(&mut saved, &self.new);
        put_part(&mut saved, &self.substitutes);
        if self.connected != FIRST_SEARCH {
            put_part(&mut saved, CONNECTED_PART);
        }
        if let Some(floor) = self.floor {
            put_part(&mut saved, &[DESCENT, floor]);
        }
        put_part(&mut saved, &self.checkpoint);
        let second = format!("{}.saving", self.file);
        fs::write(&second, saved)
            .and_then(|()| fs::rename(second, self.file))
            .map_err(|_| self.failure("cannot be saved"))
    }

    fn start(&mut self, minimum: u8) -> Result<(), String> {
        let mut checkpoint = vec![0; CHECKPOINT_BYTES];
        let start = match self.floor {
            None => library::start,
            Some(_) => library::descend_start,
        };
        let answer = start(
            &self.old,
            &self.new,
            &self.substitutes,
            self.connected,
            minimum,
            &mut checkpoint,
        );
        checkpoint.truncate(self.accepted(answer)?.value as usize);
        self.checkpoint = checkpoint;
        Ok(())
    }

    fn resume(&mut self, budget: u64) -> Result<Answer, String> {
        let mut workspace = vec![0; WORKSPACE_WORDS];
        let mut next = vec![0; CHECKPOINT_BYTES];
        let answer = match self.floor {
            None => library::resume(
                &self.old,
                &self.new,
                &self.substitutes,
                self.connected,
                &self.checkpoint,
                budget,
                &mut workspace,
                &mut next,
            ),
            Some(floor) => library::descend_resume(
                &self.old,
                &self.new,
                &self.substitutes,
                self.connected,
                floor,
                &self.checkpoint,
                budget,
                &mut workspace,
                &mut next,
            ),
        };
        next.truncate(self.accepted(answer)?.value as usize);
        self.checkpoint = next;
        Ok(answer)
    }

    fn read_out(&self, mapping: &mut [u8]) -> Result<Answer, String> {
        self.accepted(library::read_out(
            &self.old,
            &self.new,
            &self.substitutes,
            self.connected,
            &self.checkpoint,
            mapping,
        ))
    }

    /// The second byte of checkpoint bytes that are accepted is the search's minimum.
    fn check_minimum(&self, minimum: u8) -> Result<(), String> {
        self.read_out(&mut [0; MAX_VERTICES])?;
        let started = self.floor.unwrap_or(self.checkpoint[1]);
        if started == minimum {
            Ok(())
        } else {
            Err(self.failure(format!("started with minimum {started}, not {minimum}")))
        }
    }

    /// `resumed` is what the last call answered.
    fn print(&self, resumed: Answer) -> Result<(), String> {
        let mut mapping = [0; MAX_VERTICES];
        let answer = self.read_out(&mut mapping)?;
        let (finished, held) = (answer.value >= 2, answer.value % 2 == 1);
        println!("state {}", if finished { "finished" } else { "unfinished" });
        match self.floor {
            None => println!("steps {}", answer.steps),
            Some(_) => println!("visits {}", resumed.visits),
        }
        if held {
            println!("size {}", answer.size)
        } else {
            println!("size none")
        }
        println!("ceiling {}", resumed.ceiling);
        if held {
            let order = library::check_graph(&self.old).value as usize;
            print_mapping(&mapping[..order]);
        }
        Ok(())
    }
}

fn print_mapping(mapping: &[u8]) {
    for (vertex, &entry) in mapping.iter().enumerate() {
        match entry {
            UNMAPPED => println!("{vertex} is left out"),
            new => println!("{vertex} maps to {new}"),
        }
    }
}
