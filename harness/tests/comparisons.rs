//! A few comparisons of each kind, which the program `compare` makes many of; and the stack.

use std::thread;

use harness::call::{Buffer, Call, Clique, Given, Move, Resume, LIBRARY};
use harness::cases::{graph, Style};
use harness::library::{
    CLIQUE_VERTICES, CONNECTED_SEARCH, FIRST_SEARCH, GRAPH_BYTES, SUBSTITUTES_BYTES,
};
use harness::random::Random;
use harness::reference::{Checkpoint, Edition, Graph};
use harness::reference::{CHECKPOINT_BYTES, MAX_VERTICES, WORKSPACE_WORDS};
use harness::scenarios::{Judge, KINDS};

#[test]
fn each_kind_agrees() {
    for kind in KINDS {
        let mut judge = Judge::default();
        for seed in 0..kind.share.min(40) as u64 {
            if let Err(disagreement) = kind.run(&mut judge, seed) {
                panic!("{} {seed}: {disagreement}", kind.name);
            }
        }
    }
}

/// Each function on two graphs of 64 vertices and all edges, and on a full list, for this search if it
/// takes one; clique branching on as many old vertices as it takes.
fn heavy_calls(connected: u32) -> [Call; 12] {
    let style = Style {
        vertex_labels: vec![7],
        edge_labels: vec![1, 2],
        density: 100,
        own: 100,
    };
    let full = |seed| graph(&mut Random::new(seed), &style, MAX_VERTICES);
    let given = Given {
        old: full(1).save(),
        new: full(2).save(),
        substitutes: vec![9; SUBSTITUTES_BYTES],
    };
    let checkpoint = Checkpoint::fresh(0).save();
    let resume = Resume {
        given: given.clone(),
        connected,
        floor: None,
        checkpoint: checkpoint.clone(),
        budget: 1_000,
        workspace: Buffer::filled(1, WORKSPACE_WORDS, WORKSPACE_WORDS),
        next: Buffer::filled(0, CHECKPOINT_BYTES, CHECKPOINT_BYTES),
    };
    [
        Call::CheckGraph {
            graph: given.old.clone(),
        },
        Call::CheckProblem {
            given: given.clone(),
        },
        Call::CheckMapping {
            given: given.clone(),
            mapping: vec![255; MAX_VERTICES],
        },
        Call::Start {
            given: given.clone(),
            connected,
            minimum: 0,
            checkpoint: Buffer::filled(0, CHECKPOINT_BYTES, CHECKPOINT_BYTES),
        },
        Call::DescendStart {
            given: given.clone(),
            connected,
            floor: 0,
            checkpoint: Buffer::filled(0, CHECKPOINT_BYTES, CHECKPOINT_BYTES),
        },
        Call::ReadOut {
            given: given.clone(),
            connected,
            checkpoint: checkpoint.clone(),
            mapping: Buffer::filled(0, MAX_VERTICES, MAX_VERTICES),
        },
        Call::Clique(deep_clique()),
        Call::StepLimit {
            new_order: MAX_VERTICES as u64,
            old_order: MAX_VERTICES as u64,
        },
        Call::Move(full_move(Edition::One, &full(1))),
        Call::Move(full_move(Edition::Two, &full(1))),
        // begins anew
        Call::Resume(Resume {
            floor: Some(0),
            checkpoint: Checkpoint::fresh(65).save(),
            ..resume.clone()
        }),
        Call::Resume(resume),
    ]
}

fn full_move(to: Edition, graph: &Graph) -> Move {
    let from = match to {
        Edition::One => Edition::Two,
        Edition::Two => Edition::One,
    };
    Move {
        to,
        graph: from.save(graph),
        out: Buffer::filled(0, GRAPH_BYTES, GRAPH_BYTES),
    }
}

/// Eight rows, and 64 new vertices for each as long as none before it has one: all choices of all
/// rows may be open at a time. A pair leaves nothing to the other rows, so the call ends soon.
fn deep_clique() -> Clique {
    let graph_of = |edge_label, order| {
        let style = Style {
            vertex_labels: vec![7],
            edge_labels: vec![edge_label],
            density: 100,
            own: 0,
        };
        graph(&mut Random::new(0), &style, order).save()
    };
    Clique {
        given: Given {
            old: graph_of(1, CLIQUE_VERTICES),
            new: graph_of(2, MAX_VERTICES),
            substitutes: vec![9; SUBSTITUTES_BYTES],
        },
        minimum: 0,
        mapping: Buffer::filled(0, CLIQUE_VERTICES, CLIQUE_VERTICES),
    }
}

/// A thread has the promised 320 kibibytes; a call that needs more crashes the test.
#[test]
fn stack_is_as_promised() {
    let calls = [FIRST_SEARCH, CONNECTED_SEARCH].map(heavy_calls);
    for call in calls.into_iter().flatten() {
        let thread = thread::Builder::new().stack_size(320 << 10);
        let made = thread.spawn(move || call.made_by(&LIBRARY)).unwrap();
        assert!(made.join().unwrap().answer.is_accepted());
    }
}
