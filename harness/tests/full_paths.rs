//! Graphs that map onto themselves whole: paths of as many pairs as there are vertices, up to 64,
//! where the words of a node's level end.

use harness::answer::Answer;
use harness::cases::{graph, Style};
use harness::library::{CONNECTED_SEARCH, FIRST_SEARCH, NO_SUBSTITUTES};
use harness::random::Random;
use harness::reference::{Checkpoint, CHECKPOINT_BYTES, WORKSPACE_WORDS};
use harness::{library, reference};

type Resume = fn(&[u8], &[u8], &[u8], u32, &[u8], u64, &mut [u64], &mut [u8]) -> Answer;

/// The answers of calls with these budgets, one after the other, and each call's checkpoint.
fn calls(
    resume: Resume,
    graph: &[u8],
    connected: u32,
    budgets: [u64; 4],
) -> Vec<(Answer, Vec<u8>)> {
    let mut checkpoint = Checkpoint::fresh(0).save();
    let mut made = Vec::new();
    for budget in budgets {
        let mut workspace = vec![9; WORKSPACE_WORDS];
        let mut next = vec![0; CHECKPOINT_BYTES];
        let answer = resume(
            graph,
            graph,
            NO_SUBSTITUTES,
            connected,
            &checkpoint,
            budget,
            &mut workspace,
            &mut next,
        );
        assert!(answer.is_accepted());
        assert!(workspace.iter().all(|&word| word == 0));
        next.truncate(answer.value as usize);
        made.push((answer, next.clone()));
        checkpoint = next;
    }
    made
}

#[test]
fn every_vertex_is_paired() {
    let orders = [0, 1, 2, 62, 63, 64];
    for (order, own) in orders
        .into_iter()
        .flat_map(|order| [(order, 0), (order, 100)])
    {
        let style = Style {
            vertex_labels: vec![1],
            edge_labels: vec![1],
            density: 100,
            own,
        };
        let graph = graph(&mut Random::new(0), &style, order).save();
        // up to the first full path, over it, and back down the other choices
        let budgets = [order as u64, 1, 1, 200];
        for search in [FIRST_SEARCH, CONNECTED_SEARCH] {
            assert_eq!(
                calls(library::resume, &graph, search, budgets),
                calls(reference::resume, &graph, search, budgets),
                "{order} vertices, own edges {own} %, search {search}"
            );
        }
    }
}
