//! The second search (02, U7), by both implementations: what it holds and what it does not, its
//! visits, and which checkpoints are in shape for it.

use harness::answer::Answer;
use harness::call::{each, Implementation};
use harness::cases;
use harness::library::{CONNECTED_SEARCH, FIRST_SEARCH, NO_SUBSTITUTES};
use harness::random::Random;
use harness::reference::{CHECKPOINT_BYTES, MAX_VERTICES, WORKSPACE_WORDS};

/// More visits than any of the searches by hand makes.
const ENOUGH: u64 = 1_000;
/// What a buffer holds before a call.
const BEFORE: u8 = 0x55;
/// The first search is 0 only.
const SECOND: [u32; 10] = [
    1,
    2,
    3,
    128,
    255,
    256,
    0x0001_0000,
    0x7FFF_FFFF,
    0x8000_0000,
    0xFFFF_FFFF,
];

/// 0 and 1 hang together, 2 is alone.
fn c() -> Vec<u8> {
    cases::graph_of(&[7, 7, 7], &[[0, 1, 1]])
}

/// Checkpoint bytes: minimum 0, so many steps, and this state, path and held mapping.
fn checkpoint(steps: u64, state: u8, path: &[u8], held: &[u8]) -> Vec<u8> {
    let path = path.iter().flat_map(|&byte| [19, byte]);
    let held = held.iter().flat_map(|&byte| [20, byte]);
    let head = [16, 0, 17].into_iter().chain(steps.to_le_bytes());
    let entries = path.chain(held).chain([0]);
    head.chain([18, state]).chain(entries).collect()
}

/// The two graphs, the list, and the search that a call is of.
#[derive(Clone, Copy, Debug)]
struct Given<'a> {
    old: &'a [u8],
    new: &'a [u8],
    list: &'a [u8],
    connected: u32,
}

impl<'a> Given<'a> {
    fn of(graphs: [&'a [u8]; 2], connected: u32) -> Given<'a> {
        let [old, new] = graphs;
        Given {
            old,
            new,
            list: NO_SUBSTITUTES,
            connected,
        }
    }

    /// A graph against itself.
    fn alone(graph: &'a [u8], connected: u32) -> Given<'a> {
        Given::of([graph, graph], connected)
    }

    fn start(self, by: &Implementation, minimum: u8) -> Vec<u8> {
        let mut fresh = vec![BEFORE; CHECKPOINT_BYTES];
        let Given { old, new, list, .. } = self;
        let answer = (by.start)(old, new, list, self.connected, minimum, &mut fresh);
        assert!(answer.is_accepted(), "{} {self:?}", by.name);
        fresh.truncate(answer.value as usize);
        fresh
    }

    /// Answers with the next checkpoint. Refused, the memory must be as it was.
    fn resume(self, by: &Implementation, checkpoint: &[u8], budget: u64) -> (Answer, Vec<u8>) {
        let mut words = vec![9; WORKSPACE_WORDS + 1];
        let mut next = vec![BEFORE; CHECKPOINT_BYTES];
        let answer = (by.resume)(
            self.old,
            self.new,
            self.list,
            self.connected,
            checkpoint,
            budget,
            &mut words,
            &mut next,
        );
        let word = if answer.is_accepted() { 0 } else { 9 };
        assert!(words[..WORKSPACE_WORDS].iter().all(|&w| w == word));
        assert_eq!(words[WORKSPACE_WORDS], 9);
        let written = answer.value as usize;
        assert!(next[written..].iter().all(|&byte| byte == BEFORE));
        next.truncate(written);
        (answer, next)
    }

    /// Answers with the held mapping, empty if none is held.
    fn read_out(self, by: &Implementation, checkpoint: &[u8]) -> (Answer, Vec<u8>) {
        let mut mapping = vec![BEFORE; MAX_VERTICES];
        let Given { old, new, list, .. } = self;
        let answer = (by.read_out)(old, new, list, self.connected, checkpoint, &mut mapping);
        let count = match answer.is_accepted() && answer.value % 2 == 1 {
            true => (by.check_graph)(old).value as usize,
            false => 0,
        };
        assert!(mapping[count..].iter().all(|&byte| byte == BEFORE));
        mapping.truncate(count);
        (answer, mapping)
    }

    /// What is found within so many visits.
    fn search(self, by: &Implementation, minimum: u8, budget: u64) -> Found {
        let (resumed, next) = self.resume(by, &self.start(by, minimum), budget);
        let (read, mapping) = self.read_out(by, &next);
        assert_eq!((resumed.number, read.number), (0, 0), "{self:?}");
        assert_eq!(read.ceiling, resumed.ceiling, "{} {self:?}", by.name);
        Found {
            finished: read.value >= 2,
            steps: read.steps,
            ceiling: read.ceiling,
            mapping: (read.value % 2 == 1).then_some(mapping),
        }
    }

    /// A whole search, and only what it holds.
    fn held(self, by: &Implementation, minimum: u8) -> Option<Vec<u8>> {
        let found = self.search(by, minimum, ENOUGH);
        assert!(found.finished, "{} {self:?}", by.name);
        found.mapping
    }

    /// That a checkpoint is in shape, or is refused with 14, to both calls.
    fn in_shape(self, by: &Implementation, checkpoint: &[u8], fits: bool) {
        let (resumed, _) = self.resume(by, checkpoint, 0);
        let (read, _) = self.read_out(by, checkpoint);
        if fits {
            assert_eq!((resumed.number, read.number), (0, 0), "{self:?}");
        } else {
            assert_eq!(
                (resumed, read),
                (Answer::refused(14), Answer::refused(14)),
                "{self:?}"
            );
        }
    }
}

#[derive(Debug, PartialEq)]
struct Found {
    finished: bool,
    steps: u64,
    ceiling: u64,
    mapping: Option<Vec<u8>>,
}

fn finished(mapping: Option<&[u8]>, steps: u64, ceiling: u64) -> Found {
    Found {
        finished: true,
        steps,
        ceiling,
        mapping: mapping.map(<[u8]>::to_vec),
    }
}

/// A mapping that the first search holds, and the first of the largest that are connected.
fn hold(by: &Implementation, graphs: [&[u8]; 2], any: &[u8], connected: &[u8]) {
    let first = Given::of(graphs, FIRST_SEARCH).held(by, 0);
    assert_eq!(first.as_deref(), Some(any), "{} {graphs:?}", by.name);
    let second = Given::of(graphs, CONNECTED_SEARCH).held(by, 0);
    assert_eq!(second.as_deref(), Some(connected), "{} {graphs:?}", by.name);
}

/// U7.3.
#[test]
fn a_mapping_that_is_not_connected_is_not_held() {
    each(|by| {
        let c = c();
        let first = Given::alone(&c, FIRST_SEARCH);
        let second = Given::alone(&c, CONNECTED_SEARCH);
        let due = finished(Some(&[0, 1, 2]), 9, 4);
        assert_eq!(first.search(by, 0, ENOUGH), due, "{}", by.name);
        let due = finished(Some(&[0, 1, 255]), 13, 3);
        assert_eq!(second.search(by, 0, ENOUGH), due, "{}", by.name);
        assert_eq!(first.held(by, 3), Some(vec![0, 1, 2]));
        let none = second.search(by, 3, ENOUGH);
        assert_eq!((none.mapping, none.ceiling), (None, 3), "{}", by.name);
        assert_eq!(second.held(by, 2), Some(vec![0, 1, 255]));
    });
}

/// U7.3: the same tree, one visit at a time. A last node that is not connected costs its visit, and
/// leaves what is held and the cutoff as they were.
#[test]
fn the_visits_are_those_of_the_same_tree() {
    each(|by| {
        let visits: [&[u8]; 13] = [
            &[],
            &[0],
            &[0, 1],
            &[0, 1, 2],
            &[0, 1, 255],
            &[0, 255],
            &[1],
            &[1, 0],
            &[1, 0, 2],
            &[1, 0, 255],
            &[1, 255],
            &[2],
            &[255],
        ];
        let c = c();
        let second = Given::alone(&c, CONNECTED_SEARCH);
        let mut next = second.start(by, 0);
        for (steps, path) in visits.iter().enumerate() {
            // the fifth visit is the first to a connected last node
            let (state, held): (u8, &[u8]) = match steps {
                0..5 => (0, &[]),
                _ => (1, &[0, 1, 255]),
            };
            let due = checkpoint(steps as u64, state, path, held);
            assert_eq!(next, due, "{} after {steps} visits", by.name);
            let unbroken = second.resume(by, &second.start(by, 0), steps as u64).1;
            assert_eq!(unbroken, due, "{} after {steps} visits", by.name);
            next = second.resume(by, &next, 1).1;
        }
        assert_eq!(next, checkpoint(13, 3, &[], &[0, 1, 255]), "{}", by.name);
        let after_four = second.search(by, 0, 4);
        assert_eq!(after_four.mapping, None);
        assert_eq!((after_four.steps, after_four.ceiling), (4, 4));
        let after_five = second.search(by, 0, 5);
        assert_eq!(after_five.mapping, Some(vec![0, 1, 255]));
    });
}

/// U7.4: checkpoint bytes do not tell the search. What the first one holds may be out of shape for
/// the second.
#[test]
fn a_held_mapping_that_is_not_connected_is_14_for_the_second_search() {
    each(|by| {
        let c = c();
        let first = Given::alone(&c, FIRST_SEARCH);
        let second = Given::alone(&c, CONNECTED_SEARCH);
        let (_, held) = first.resume(by, &first.start(by, 0), 4);
        assert_eq!(held, checkpoint(4, 1, &[0, 1, 255], &[0, 1, 2]));
        first.in_shape(by, &held, true);
        second.in_shape(by, &held, false);
        for budget in [1, ENOUGH] {
            assert_eq!(second.resume(by, &held, budget).0, Answer::refused(14));
        }
        let (_, last) = first.resume(by, &held, ENOUGH);
        assert_eq!(last, checkpoint(9, 3, &[], &[0, 1, 2]));
        first.in_shape(by, &last, true);
        second.in_shape(by, &last, false);
    });
}

/// U7.4: the second search's checkpoint is walked by the first one's rule, and that is not the
/// first one's answer.
#[test]
fn the_first_search_walks_what_the_second_left() {
    each(|by| {
        let c = c();
        let first = Given::alone(&c, FIRST_SEARCH);
        let second = Given::alone(&c, CONNECTED_SEARCH);
        let (_, held) = second.resume(by, &second.start(by, 0), 5);
        assert_eq!(held, checkpoint(5, 1, &[0, 255], &[0, 1, 255]));
        let (answer, last) = first.resume(by, &held, ENOUGH);
        assert_eq!((answer.number, answer.ceiling), (0, 4), "{}", by.name);
        assert_eq!(last, checkpoint(13, 3, &[], &[1, 0, 2]), "{}", by.name);
        // the second search goes on from its own
        let (answer, last) = second.resume(by, &held, ENOUGH);
        assert_eq!((answer.number, answer.ceiling), (0, 3), "{}", by.name);
        assert_eq!(last, checkpoint(13, 3, &[], &[0, 1, 255]), "{}", by.name);
    });
}

/// U7.5: as long as both walks agree their checkpoints are the same bytes, and either search goes on
/// from them to its own end.
#[test]
fn both_searches_go_on_where_the_walks_agree() {
    each(|by| {
        let c = c();
        let searches = [FIRST_SEARCH, CONNECTED_SEARCH].map(|search| Given::alone(&c, search));
        let [first, second] = searches;
        assert_eq!(first.start(by, 5), second.start(by, 5));
        for visits in 0..=3 {
            let [one, other] = searches.map(|search| {
                let fresh = search.start(by, 0);
                search.resume(by, &fresh, visits)
            });
            assert_eq!(one, other, "{} after {visits} visits", by.name);
            let (_, last) = first.resume(by, &other.1, ENOUGH);
            assert_eq!(last, checkpoint(9, 3, &[], &[0, 1, 2]));
            let (_, last) = second.resume(by, &one.1, ENOUGH);
            assert_eq!(last, checkpoint(13, 3, &[], &[0, 1, 255]));
        }
        let [one, other] = searches.map(|search| search.resume(by, &search.start(by, 0), 4).1);
        assert_ne!(one, other);
    });
}

/// U7.6: a mapping of size 0 or 1 is connected.
#[test]
fn sizes_0_and_1_are_connected() {
    each(|by| {
        let empty = cases::graph_of(&[], &[]);
        hold(by, [&empty, &empty], &[], &[]);
        let (seven, nine) = (cases::graph_of(&[7], &[]), cases::graph_of(&[9], &[]));
        hold(by, [&seven, &nine], &[255], &[255]);
        hold(by, [&seven, &seven], &[0], &[0]);
        let three = cases::graph_of(&[7, 7, 7], &[]);
        hold(by, [&three, &nine], &[255; 3], &[255; 3]);
        hold(by, [&three, &three], &[0, 1, 2], &[0, 255, 255]);
        // its only pair is the last row's
        let late = cases::graph_of(&[9, 9, 7], &[[0, 1, 1]]);
        hold(by, [&late, &seven], &[255, 255, 0], &[255, 255, 0]);
        let second = Given::alone(&three, CONNECTED_SEARCH);
        assert_eq!(second.held(by, 1), Some(vec![0, 255, 255]));
        assert_eq!(second.held(by, 2), None);
        for held in [[255; 3], [0, 255, 255], [255, 1, 255], [255, 255, 2]] {
            second.in_shape(by, &checkpoint(9, 3, &[], &held), true);
        }
        for held in [[0, 1, 255], [255, 0, 1], [0, 1, 2]] {
            second.in_shape(by, &checkpoint(9, 3, &[], &held), false);
        }
    });
}

/// U7.7: the ceiling is above every connected common subgraph, and not above every one.
#[test]
fn the_ceiling_is_about_connected_mappings() {
    each(|by| {
        let c = c();
        let found = Given::alone(&c, CONNECTED_SEARCH).search(by, 0, ENOUGH);
        assert_eq!(found.ceiling, 3);
        let larger = (by.check_mapping)(&c, &c, NO_SUBSTITUTES, &[0, 1, 2]);
        assert_eq!(larger, Answer::accepted(3));
        // with a minimum that no connected one reaches
        for minimum in [3, 4, 255] {
            let found = Given::alone(&c, CONNECTED_SEARCH).search(by, minimum, ENOUGH);
            assert_eq!(found.ceiling, minimum.into());
        }
    });
}

/// U7.2.
#[test]
fn own_edges_join_nothing() {
    each(|by| {
        let own = cases::graph_of(&[7, 7], &[[0, 0, 1], [1, 1, 1]]);
        hold(by, [&own, &own], &[0, 1], &[0, 255]);
        let linked = cases::graph_of(&[7, 7], &[[0, 0, 1], [0, 1, 1], [1, 1, 1]]);
        hold(by, [&linked, &linked], &[0, 1], &[0, 1]);
        let held = checkpoint(9, 3, &[], &[0, 1]);
        Given::alone(&own, CONNECTED_SEARCH).in_shape(by, &held, false);
        Given::alone(&linked, CONNECTED_SEARCH).in_shape(by, &held, true);
        // of the one that is alone
        let last = cases::graph_of(&[7, 7, 7], &[[0, 1, 1], [2, 2, 1]]);
        hold(by, [&last, &last], &[0, 1, 2], &[0, 1, 255]);
    });
}

/// U7.2.
#[test]
fn a_way_through_a_vertex_left_out_does_not_count() {
    each(|by| {
        let path = cases::graph_of(&[7, 9, 7], &[[0, 1, 1], [1, 2, 1]]);
        let ends = cases::graph_of(&[7, 7], &[]);
        hold(by, [&path, &ends], &[0, 255, 1], &[0, 255, 255]);
        let held = checkpoint(9, 3, &[], &[0, 255, 1]);
        Given::of([&path, &ends], FIRST_SEARCH).in_shape(by, &held, true);
        Given::of([&path, &ends], CONNECTED_SEARCH).in_shape(by, &held, false);
        // on the other hand the ends may be joined at any distance
        hold(by, [&path, &path], &[0, 1, 2], &[0, 1, 2]);
        let ring = cases::graph_of(&[7, 9, 7], &[[0, 1, 1], [1, 2, 1], [0, 2, 1]]);
        let linked = cases::graph_of(&[7, 7], &[[0, 1, 1]]);
        hold(by, [&ring, &linked], &[0, 255, 1], &[0, 255, 1]);
    });
}

/// U7.2: edges join whatever their labels, and vertices whatever theirs.
#[test]
fn edges_of_any_label_join() {
    each(|by| {
        for labels in [[1, 1], [1, 2], [255, 1], [128, 64]] {
            let [one, other] = labels;
            let path = cases::graph_of(&[7, 9, 7], &[[0, 1, one], [1, 2, other]]);
            hold(by, [&path, &path], &[0, 1, 2], &[0, 1, 2]);
            // the last vertex is joined to the first only
            let fork = cases::graph_of(&[7, 9, 8], &[[0, 1, one], [0, 2, other]]);
            hold(by, [&fork, &fork], &[0, 1, 2], &[0, 1, 2]);
            let late = cases::graph_of(&[7, 8, 9], &[[0, 2, one], [1, 2, other]]);
            hold(by, [&late, &late], &[0, 1, 2], &[0, 1, 2]);
        }
        // by the list
        let (sevens, nines) = (
            cases::graph_of(&[7, 7], &[[0, 1, 5]]),
            cases::graph_of(&[9, 9], &[[0, 1, 5]]),
        );
        let mut given = Given::of([&sevens, &nines], CONNECTED_SEARCH);
        assert_eq!(given.held(by, 0), Some(vec![255, 255]));
        given.list = &[7, 0, 9, 0];
        assert_eq!(given.held(by, 0), Some(vec![0, 1]));
    });
}

/// Of the largest connected ones the first in the order, though a larger one comes before it.
#[test]
fn the_first_of_the_largest_connected_is_held() {
    each(|by| {
        // two islands: 0-1 and 2-3-4
        let islands = cases::graph_of(&[7; 5], &[[0, 1, 1], [2, 3, 1], [3, 4, 1]]);
        let largest = [255, 255, 2, 3, 4];
        hold(by, [&islands, &islands], &[0, 1, 2, 3, 4], &largest);
        let equal = cases::graph_of(&[7; 4], &[[0, 1, 1], [2, 3, 1]]);
        hold(by, [&equal, &equal], &[0, 1, 2, 3], &[0, 1, 255, 255]);
    });
}

/// README.md's six parts in a row, of which the third has another kind in the new panel.
#[test]
fn the_example_of_the_readme() {
    each(|by| {
        let row = [[0, 1, 1], [1, 2, 1], [2, 3, 1], [3, 4, 1], [4, 5, 1]];
        let old = cases::graph_of(&[7, 9, 5, 7, 9, 8], &row);
        let new = cases::graph_of(&[7, 9, 6, 7, 9, 8], &row);
        let first = Given::of([&old, &new], FIRST_SEARCH).search(by, 0, ENOUGH);
        assert_eq!(first, finished(Some(&[0, 1, 255, 3, 4, 5]), 13, 6));
        let second = Given::of([&old, &new], CONNECTED_SEARCH).search(by, 0, ENOUGH);
        assert_eq!(second, finished(Some(&[255, 255, 255, 3, 4, 5]), 88, 4));
    });
}

#[test]
fn every_number_but_0_is_the_second_search() {
    each(|by| {
        let c = c();
        let held = checkpoint(4, 1, &[0, 1, 255], &[0, 1, 2]);
        let second = Given::alone(&c, CONNECTED_SEARCH);
        for connected in SECOND {
            let given = Given::alone(&c, connected);
            let due = finished(Some(&[0, 1, 255]), 13, 3);
            let found = given.search(by, 0, ENOUGH);
            assert_eq!(found, due, "{} {connected}", by.name);
            given.in_shape(by, &held, false);
            // calls with other such numbers are of the same search
            let (_, begun) = second.resume(by, &given.start(by, 0), 6);
            let (_, last) = given.resume(by, &begun, ENOUGH);
            assert_eq!(last, checkpoint(13, 3, &[], &[0, 1, 255]));
            assert_eq!(second.read_out(by, &last), given.read_out(by, &last));
        }
        Given::alone(&c, FIRST_SEARCH).in_shape(by, &held, true);
    });
}

/// 14 for a mapping that is not connected stands where 14 stands: after the graphs, the list and the
/// form, before the workspace, the steps and the output.
#[test]
fn the_refusal_stands_at_its_place() {
    each(|by| {
        let c = c();
        let full = checkpoint(u64::MAX, 1, &[0, 1, 255], &[0, 1, 2]);
        let longer = [&full[..], &[0]].concat();
        let resume = |connected, list: &[u8], checkpoint: &[u8], words: usize| {
            let mut words = vec![9; words];
            let answer = (by.resume)(&c, &c, list, connected, checkpoint, 1, &mut words, &mut []);
            assert!(words.iter().all(|&word| word == 9));
            answer.number
        };
        let read_out = |connected, list: &[u8], checkpoint: &[u8]| {
            let answer = (by.read_out)(&c, &c, list, connected, checkpoint, &mut []);
            answer.number
        };
        let few = WORKSPACE_WORDS - 1;
        // what else is at fault shows in the first search
        assert_eq!(resume(FIRST_SEARCH, &[], &full, few), 15);
        assert_eq!(resume(FIRST_SEARCH, &[], &full, WORKSPACE_WORDS), 16);
        assert_eq!(read_out(FIRST_SEARCH, &[], &full), 13);
        let held = checkpoint(4, 1, &[0, 1, 255], &[0, 1, 2]);
        assert_eq!(resume(FIRST_SEARCH, &[], &held, WORKSPACE_WORDS), 13);
        for connected in SECOND {
            for checkpoint in [&full, &held] {
                for words in [0, few, WORKSPACE_WORDS] {
                    assert_eq!(resume(connected, &[], checkpoint, words), 14);
                }
                assert_eq!(read_out(connected, &[], checkpoint), 14);
            }
            for (list, checkpoint, number) in [
                (&[7][..], &full, 23),
                (&[0, 0, 7, 0], &full, 24),
                (&[], &longer, 17),
            ] {
                assert_eq!(resume(connected, list, checkpoint, 0), number);
                assert_eq!(read_out(connected, list, checkpoint), number);
            }
            let mut room = [BEFORE; 13];
            let started = (by.start)(&c, &c, &[], connected, 0, &mut room);
            assert_eq!(started, Answer::refused(13));
        }
    });
}

/// U2.4: clique branching stays with the first search.
#[test]
fn clique_branching_holds_what_the_first_search_holds() {
    each(|by| {
        let c = c();
        for minimum in [0, 3] {
            let mut mapping = [BEFORE; 3];
            let answer = (by.clique)(&c, &c, NO_SUBSTITUTES, minimum, &mut mapping);
            assert_eq!((answer.number, answer.value, answer.size), (0, 1, 3));
            assert_eq!(mapping, [0, 1, 2], "{}", by.name);
        }
    });
}

/// 64 vertices of one label, and these edges.
fn wide(edges: &[(usize, usize)]) -> Vec<u8> {
    let edges: Vec<_> = edges
        .iter()
        .map(|&(a, b)| [a.min(b) as u8, a.max(b) as u8, 1])
        .collect();
    cases::graph_of(&[7; MAX_VERTICES], &edges)
}

/// A checkpoint that holds each vertex on itself, but for these.
fn all_but(left_out: &[usize]) -> Vec<u8> {
    let entry = |vertex: usize| match left_out.contains(&vertex) {
        true => 255,
        false => vertex as u8,
    };
    let held: Vec<u8> = (0..MAX_VERTICES).map(entry).collect();
    checkpoint(9, 3, &[], &held)
}

/// Chains of 64 vertices in several orders: each edge is needed, and each vertex but the ends.
#[test]
fn each_link_of_a_long_chain_is_needed() {
    each(|by| {
        let rising: Vec<usize> = (0..MAX_VERTICES).collect();
        let inwards = (0..32).flat_map(|place| [place, 63 - place]).collect();
        let apart = (0..64).map(|place| place * 37 % 64).collect();
        let mut shuffled = rising.clone();
        Random::new(7).shuffle(&mut shuffled);
        for order in [rising, inwards, apart, shuffled] {
            let edges: Vec<_> = order.windows(2).map(|ends| (ends[0], ends[1])).collect();
            let chain = wide(&edges);
            let given = Given::alone(&chain, CONNECTED_SEARCH);
            given.in_shape(by, &all_but(&[]), true);
            for place in 0..MAX_VERTICES {
                let inner = 0 < place && place < MAX_VERTICES - 1;
                given.in_shape(by, &all_but(&order[place..=place]), !inner);
                given.in_shape(by, &all_but(&order[place..]), true);
                given.in_shape(by, &all_but(&order[..place]), true);
            }
            for missing in 0..edges.len() {
                let mut edges = edges.clone();
                edges.remove(missing);
                let broken = wide(&edges);
                let given = Given::alone(&broken, CONNECTED_SEARCH);
                given.in_shape(by, &all_but(&[]), false);
                given.in_shape(by, &all_but(&order[..=missing]), true);
                given.in_shape(by, &all_but(&order[missing + 1..]), true);
            }
        }
    });
}

/// Random trees on 64 vertices: without a leaf they hang together, without an inner vertex they do
/// not, and with edges more they do in any case.
#[test]
fn trees_hang_together_until_an_inner_vertex_goes() {
    each(|by| {
        for seed in 0..20 {
            let mut random = Random::new(seed);
            let mut numbers: Vec<usize> = (0..MAX_VERTICES).collect();
            random.shuffle(&mut numbers);
            let edges: Vec<_> = (1..MAX_VERTICES)
                .map(|place| (numbers[random.within(0..place)], numbers[place]))
                .collect();
            let tree = wide(&edges);
            let given = Given::alone(&tree, CONNECTED_SEARCH);
            given.in_shape(by, &all_but(&[]), true);
            for vertex in 0..MAX_VERTICES {
                let ends = edges.iter().filter(|(a, b)| *a == vertex || *b == vertex);
                given.in_shape(by, &all_but(&[vertex]), ends.count() == 1);
            }
        }
        let star: Vec<_> = (0..MAX_VERTICES)
            .filter(|&vertex| vertex != 40)
            .map(|vertex| (vertex, 40))
            .collect();
        let star = wide(&star);
        let given = Given::alone(&star, CONNECTED_SEARCH);
        given.in_shape(by, &all_but(&[0, 1, 63]), true);
        given.in_shape(by, &all_but(&[40]), false);
    });
}

/// The first full path of 64 pairs is held where it hangs together, else the first of 63.
#[test]
fn a_walk_of_64_vertices_holds_what_hangs_together() {
    each(|by| {
        let chain: Vec<_> = (1..MAX_VERTICES).map(|end| (end - 1, end)).collect();
        let whole = wide(&chain);
        let identity: Vec<u8> = (0..64).collect();
        for connected in [FIRST_SEARCH, CONNECTED_SEARCH] {
            let found = Given::alone(&whole, connected).search(by, 0, 65);
            assert_eq!(found.mapping.as_ref(), Some(&identity), "{}", by.name);
        }
        let broken = wide(&chain[..62]);
        let found = Given::alone(&broken, FIRST_SEARCH).search(by, 0, 65);
        assert_eq!(found.mapping, Some(identity), "{}", by.name);
        let second = Given::alone(&broken, CONNECTED_SEARCH);
        let found = second.search(by, 0, 65);
        assert_eq!((found.mapping, found.ceiling), (None, 65), "{}", by.name);
        let all_but_last: Vec<u8> = (0..63).chain([255]).collect();
        let found = second.search(by, 0, 66);
        assert_eq!(found.mapping, Some(all_but_last), "{}", by.name);
    });
}
