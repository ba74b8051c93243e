//! A vertex's edge with itself (02, U4), by both implementations: graph bytes, the check of a
//! mapping, the search, clique branching and checkpoints.

use harness::answer::Answer;
use harness::call::{each, Implementation};
use harness::cases;
use harness::library::{FIRST_SEARCH, GRAPH_BYTES, NO_SUBSTITUTES};
use harness::random::Random;
use harness::reference::{Checkpoint, Graph, Problem, Substitutes};
use harness::reference::{CHECKPOINT_BYTES, MAX_VERTICES, WORKSPACE_WORDS};

/// More visits than any of the searches by hand makes.
const ENOUGH: u64 = 100;

fn refused(number: u32, value: u64, earlier: u64) -> Answer {
    Answer {
        number,
        earlier,
        ..Answer::accepted(value)
    }
}

/// 64 vertices with all edges, own edges too.
fn complete() -> Graph {
    let mut graph = Graph::default();
    for vertex in 0..MAX_VERTICES {
        graph.add_vertex(7).unwrap();
        for end in 0..=vertex {
            graph.add_edge(end, vertex, 1).unwrap();
        }
    }
    graph
}

#[test]
fn own_edges_are_read_and_refused_as_any_other() {
    each(|by| {
        let table: [(&[u8], Answer); 12] = [
            // 01's example of number 6
            (&[4, 2, 3, 7, 0, 2, 0, 0, 1, 0], Answer::accepted(1)),
            (&[4, 2, 3, 7, 0, 2, 0, 0, 255, 0], Answer::accepted(1)),
            (&[4, 2, 3, 7, 0, 2, 0, 0, 0, 0], refused(7, 5, 0)),
            (
                &[4, 2, 3, 7, 0, 2, 0, 0, 1, 2, 0, 0, 1, 0],
                refused(8, 9, 0),
            ),
            (
                &[4, 2, 3, 7, 0, 2, 0, 0, 1, 2, 0, 0, 2, 0],
                refused(8, 9, 0),
            ),
            (
                &[4, 2, 3, 7, 0, 2, 0, 0, 1, 2, 0, 0, 0, 0],
                refused(7, 9, 0),
            ),
            (&[4, 2, 3, 7, 0, 2, 1, 1, 1, 0], refused(5, 5, 0)),
            (&[4, 2, 3, 7, 0, 2, 1, 1, 0, 0], refused(5, 5, 0)),
            (&[4, 2, 2, 0, 0, 1, 0], refused(5, 2, 0)),
            (&[4, 2, 3, 7, 0, 2, 255, 255, 1, 0], refused(5, 5, 0)),
            (&[4, 2, 3, 7, 0, 2, 0, 0], refused(1, 5, 0)),
            (&[4, 2, 3, 7, 0, 2, 0, 0, 1], refused(1, 9, 0)),
        ];
        for (bytes, expected) in table {
            assert_eq!((by.check_graph)(bytes), expected, "{} {bytes:?}", by.name);
        }
        // own edges do not stand in the way of each other, nor of an edge between
        let both = cases::graph_of(&[7, 9], &[[1, 1, 3], [1, 0, 4], [0, 0, 5]]);
        assert_eq!((by.check_graph)(&both), Answer::accepted(2));
    });
}

/// Each command for an edge among two vertices, alone and given again.
#[test]
fn an_edge_is_judged_by_5_then_7_then_8() {
    each(|by| {
        let ends = [0, 1, 2, 63, 64, 255];
        for (a, b) in ends.into_iter().flat_map(|a| ends.map(|b| (a, b))) {
            for label in [0, 1, 255] {
                let due = |again: bool| match (a.max(b), label) {
                    (2.., _) => refused(5, 8, 0),
                    (_, 0) => refused(7, 8, 0),
                    _ if again => refused(8, 12, 0),
                    _ => Answer::accepted(2),
                };
                let once = cases::graph_of(&[7, 7], &[[a, b, label]]);
                assert_eq!((by.check_graph)(&once), due(false), "{} {once:?}", by.name);
                let twice = cases::graph_of(&[7, 7], &[[a, b, label], [b, a, label]]);
                assert_eq!((by.check_graph)(&twice), due(true), "{} {twice:?}", by.name);
            }
        }
    });
}

#[test]
fn number_6_never_occurs() {
    each(|by| {
        for seed in 0..20_000 {
            let bytes = cases::any_graph_bytes(&mut Random::new(seed));
            assert_ne!((by.check_graph)(&bytes).number, 6, "{} {bytes:?}", by.name);
        }
    });
}

#[test]
fn the_longest_graph_is_accepted() {
    each(|by| {
        let mut bytes = complete().save();
        assert_eq!(bytes.len(), GRAPH_BYTES);
        assert_eq!((by.check_graph)(&bytes), Answer::accepted(64));
        bytes.push(0);
        let due = refused(9, GRAPH_BYTES as u64, 0);
        assert_eq!((by.check_graph)(&bytes), due);
        // the last place of a fault in a graph that is not longer: any edge would be one too many
        bytes.truncate(GRAPH_BYTES - 1);
        bytes.extend([2, 63, 63, 1, 0]);
        let due = refused(8, GRAPH_BYTES as u64 - 1, 0);
        assert_eq!((by.check_graph)(&bytes), due);
    });
}

#[test]
fn the_reference_writes_by_rising_a_then_rising_b() {
    let bytes = cases::graph_of(
        &[7, 8, 9],
        &[
            [2, 2, 6],
            [2, 1, 5],
            [1, 1, 4],
            [2, 0, 3],
            [1, 0, 2],
            [0, 0, 1],
        ],
    );
    let written = Graph::parse(&bytes).unwrap().save();
    let rising = [
        [0, 0, 1],
        [0, 1, 2],
        [0, 2, 3],
        [1, 1, 4],
        [1, 2, 5],
        [2, 2, 6],
    ];
    assert_eq!(written, cases::graph_of(&[7, 8, 9], &rising));
    for seed in 0..2_000 {
        let mut random = Random::new(seed);
        let Problem { old, new, .. } = cases::problem(&mut random, 0..20);
        for graph in [old, new] {
            let edges = graph.edges().count();
            assert_eq!(graph.save().len(), 2 + 3 * graph.order() + 4 * edges + 1);
            assert_eq!(Graph::parse(&graph.save()), Ok(graph));
        }
    }
}

fn check(by: &Implementation, [old, new]: [&[u8]; 2], mapping: &[u8]) -> Answer {
    (by.check_mapping)(old, new, NO_SUBSTITUTES, mapping)
}

#[test]
fn paired_vertices_need_equal_own_edges() {
    each(|by| {
        let with = |label| cases::graph_of(&[7], &[[0, 0, label]]);
        let without = cases::graph_of(&[7], &[]);
        let differ = refused(22, 0, 0);
        let one = Answer::accepted(1);
        assert_eq!(check(by, [&with(1), &without], &[0]), differ);
        assert_eq!(check(by, [&without, &with(1)], &[0]), differ);
        assert_eq!(check(by, [&with(1), &with(2)], &[0]), differ);
        assert_eq!(check(by, [&with(1), &with(255)], &[0]), differ);
        assert_eq!(check(by, [&with(255), &with(255)], &[0]), one);
        assert_eq!(check(by, [&with(1), &with(1)], &[0]), one);
        assert_eq!(check(by, [&without, &without], &[0]), one);
        // left out, it is not asked
        assert_eq!(check(by, [&with(1), &without], &[255]), Answer::accepted(0));
    });
}

/// Two graphs, a mapping and what its check answers.
type Checked<'a> = ([&'a [u8]; 2], &'a [u8], Answer);

/// 19, 21, 22 of the row with itself, then 20 and 22 against earlier rows.
#[test]
fn a_row_is_tested_with_itself_before_earlier_rows() {
    each(|by| {
        let seven = cases::graph_of(&[7], &[]);
        let sevens = cases::graph_of(&[7, 7], &[]);
        let last_holds = cases::graph_of(&[7, 7], &[[1, 1, 1]]);
        let both_hold = cases::graph_of(&[7, 7], &[[0, 0, 1], [1, 1, 1]]);
        let linked = cases::graph_of(&[7, 7], &[[0, 1, 1]]);
        let linked_last_holds = cases::graph_of(&[7, 7], &[[0, 1, 1], [1, 1, 1]]);
        let holding = cases::graph_of(&[7], &[[0, 0, 1]]);
        let nine = cases::graph_of(&[9], &[]);
        let table: [Checked; 15] = [
            ([&last_holds, &seven], &[0, 0], refused(22, 1, 1)),
            ([&both_hold, &holding], &[0, 0], refused(20, 1, 0)),
            ([&sevens, &seven], &[0, 0], refused(20, 1, 0)),
            ([&linked_last_holds, &sevens], &[0, 1], refused(22, 1, 1)),
            ([&linked, &sevens], &[0, 1], refused(22, 1, 0)),
            ([&linked, &last_holds], &[0, 1], refused(22, 1, 1)),
            (
                [&linked_last_holds, &last_holds],
                &[0, 1],
                refused(22, 1, 0),
            ),
            ([&last_holds, &last_holds], &[0, 1], Answer::accepted(2)),
            // on the vertex that does not hold itself, and the other way round
            ([&last_holds, &last_holds], &[1, 0], refused(22, 0, 0)),
            ([&last_holds, &last_holds], &[255, 0], refused(22, 1, 1)),
            // the first row at fault comes first
            ([&both_hold, &sevens], &[0, 1], refused(22, 0, 0)),
            ([&both_hold, &sevens], &[255, 1], refused(22, 1, 1)),
            ([&both_hold, &seven], &[255, 1], refused(19, 1, 0)),
            ([&holding, &nine], &[0], refused(21, 0, 0)),
            ([&holding, &seven], &[1], refused(19, 0, 0)),
        ];
        for (graphs, mapping, expected) in table {
            let answer = check(by, graphs, mapping);
            assert_eq!(answer, expected, "{} {graphs:?} {mapping:?}", by.name);
        }
    });
}

#[test]
fn each_row_of_64_is_tested_with_itself() {
    each(|by| {
        let whole = complete().save();
        let identity: Vec<u8> = (0..64).collect();
        assert_eq!(check(by, [&whole, &whole], &identity), Answer::accepted(64));
        for row in [0, 1, 7, 8, 31, 32, 62, 63] {
            let other = complete().with_own_edges(|vertex, label| match vertex == row {
                true => 0,
                false => label,
            });
            let due = refused(22, row as u64, row as u64);
            assert_eq!(check(by, [&whole, &other.save()], &identity), due);
            assert_eq!(check(by, [&other.save(), &whole], &identity), due);
        }
    });
}

#[derive(Debug, PartialEq)]
struct Found {
    finished: bool,
    steps: u64,
    ceiling: u64,
    mapping: Option<Vec<u8>>,
}

/// A checkpoint and the ceiling after so many visits more.
fn resume(
    by: &Implementation,
    [old, new, substitutes]: [&[u8]; 3],
    checkpoint: &[u8],
    budget: u64,
) -> (Answer, Vec<u8>) {
    let mut workspace = [1; WORKSPACE_WORDS];
    let mut next = vec![0; CHECKPOINT_BYTES];
    let (words, room) = (&mut workspace, &mut next);
    let answer = (by.resume)(
        old,
        new,
        substitutes,
        FIRST_SEARCH,
        checkpoint,
        budget,
        words,
        room,
    );
    next.truncate(answer.value as usize);
    (answer, next)
}

fn search(by: &Implementation, graphs: [&[u8]; 2], minimum: u8, budget: u64) -> Found {
    let [old, new] = graphs;
    let mut fresh = vec![0; CHECKPOINT_BYTES];
    let started = (by.start)(old, new, NO_SUBSTITUTES, FIRST_SEARCH, minimum, &mut fresh);
    fresh.truncate(started.value as usize);
    let (resumed, next) = resume(by, [old, new, NO_SUBSTITUTES], &fresh, budget);
    let mut mapping = vec![0; MAX_VERTICES];
    let read = (by.read_out)(old, new, NO_SUBSTITUTES, FIRST_SEARCH, &next, &mut mapping);
    assert_eq!((started.number, resumed.number, read.number), (0, 0, 0));
    assert_eq!(read.ceiling, resumed.ceiling);
    mapping.truncate((by.check_graph)(old).value as usize);
    Found {
        finished: read.value >= 2,
        steps: read.steps,
        ceiling: read.ceiling,
        mapping: (read.value % 2 == 1).then_some(mapping),
    }
}

/// What clique branching holds.
fn branched(by: &Implementation, [old, new]: [&[u8]; 2], minimum: u8) -> Option<Vec<u8>> {
    let mut mapping = vec![0; MAX_VERTICES];
    let answer = (by.clique)(old, new, NO_SUBSTITUTES, minimum, &mut mapping);
    assert!(answer.is_accepted());
    mapping.truncate((by.check_graph)(old).value as usize);
    (answer.value == 1).then_some(mapping)
}

/// A whole search, and clique branching, which holds the same.
fn finds(
    by: &Implementation,
    graphs: [&[u8]; 2],
    minimum: u8,
    (mapping, steps, ceiling): (Option<&[u8]>, u64, u64),
) {
    let expected = Found {
        finished: true,
        steps,
        ceiling,
        mapping: mapping.map(<[u8]>::to_vec),
    };
    let found = search(by, graphs, minimum, ENOUGH);
    assert_eq!(found, expected, "{} {graphs:?} {minimum}", by.name);
    let held = branched(by, graphs, minimum);
    assert_eq!(held, expected.mapping, "{} {graphs:?} {minimum}", by.name);
}

/// The edges to new vertex 0 that have label 5 lead to itself too, where it is used.
#[test]
fn a_used_vertex_is_no_candidate_by_its_own_edge() {
    each(|by| {
        let old = cases::graph_of(&[7, 7], &[[0, 0, 5], [1, 1, 5], [0, 1, 5]]);
        let new = cases::graph_of(&[7], &[[0, 0, 5]]);
        finds(by, [&old, &new], 0, (Some(&[0, 255]), 4, 2));
        finds(by, [&old, &new], 1, (Some(&[0, 255]), 4, 2));
        finds(by, [&old, &new], 2, (None, 3, 2));
        finds(by, [&new, &old], 0, (Some(&[0]), 4, 2));
        // three rows, of which each new vertex serves only one
        let sides = [[0, 1, 5], [0, 2, 5], [1, 2, 5]];
        let own = [[0, 0, 5], [1, 1, 5], [2, 2, 5]];
        let three = cases::graph_of(&[7, 7, 7], &[&sides[..], &own[..]].concat());
        // the empty path; 0, 0 1, 0 255; 1, 1 0, 1 255; 255
        finds(by, [&three, &old], 3, (None, 8, 3));
        let found = search(by, [&three, &old], 0, ENOUGH);
        assert_eq!(found.mapping.as_deref(), Some(&[0, 1, 255][..]));
    });
}

/// Own edges are in the first candidate sets, so hope, steps and ceilings see them.
#[test]
fn own_edges_enter_the_first_candidates() {
    each(|by| {
        let with = |label| cases::graph_of(&[7], &[[0, 0, label]]);
        let without = cases::graph_of(&[7], &[]);
        for [old, new] in [
            [with(1), without.clone()],
            [without.clone(), with(1)],
            [with(1), with(2)],
        ] {
            let graphs = [&old[..], &new[..]];
            finds(by, graphs, 1, (None, 1, 1));
            finds(by, graphs, 0, (Some(&[255]), 2, 1));
            finds(by, graphs, 255, (None, 1, 255));
            // already of a search that has not begun
            for budget in [0, 1] {
                let found = search(by, graphs, 0, budget);
                assert_eq!((found.steps, found.ceiling), (budget, 1), "{}", by.name);
            }
        }
        finds(by, [&with(3), &with(3)], 1, (Some(&[0]), 3, 2));
        // among vertices of one label each finds its own
        let first = cases::graph_of(&[7, 7], &[[0, 0, 5]]);
        let last = cases::graph_of(&[7, 7], &[[1, 1, 5]]);
        finds(by, [&first, &last], 0, (Some(&[1, 0]), 5, 3));
        finds(by, [&first, &first], 0, (Some(&[0, 1]), 5, 3));
        finds(by, [&with(5), &last], 0, (Some(&[1]), 3, 2));
        finds(by, [&without, &last], 0, (Some(&[0]), 3, 2));
        // one of two rows has no candidate
        finds(by, [&first, &without], 0, (Some(&[255, 0]), 4, 2));
        finds(by, [&first, &without], 2, (None, 1, 2));
    });
}

/// A list says which vertex labels agree, and nothing of edges, own ones too.
#[test]
fn own_edges_do_not_read_the_list() {
    each(|by| {
        let graphs = |from, to| {
            [
                cases::graph_of(&[7], &[[0, 0, from]]),
                cases::graph_of(&[9], &[[0, 0, to]]),
            ]
        };
        let list = &[7, 0, 9, 0];
        for (from, to, answer) in [
            (1, 1, Answer::accepted(1)),
            (9, 9, Answer::accepted(1)),
            (7, 9, refused(22, 0, 0)),
            (9, 7, refused(22, 0, 0)),
        ] {
            let [old, new] = graphs(from, to);
            assert_eq!((by.check_mapping)(&old, &new, list, &[0]), answer);
            let mut mapping = [0; 1];
            let branched = (by.clique)(&old, &new, list, 0, &mut mapping);
            assert_eq!(branched.size, u64::from(answer.is_accepted()));
        }
        let [old, new] = graphs(1, 1);
        assert_eq!(
            (by.check_mapping)(&old, &new, NO_SUBSTITUTES, &[0]),
            refused(21, 0, 0)
        );
    });
}

/// A path and a held mapping are in shape by own edges too.
#[test]
fn a_checkpoint_is_in_shape_by_own_edges() {
    each(|by| {
        let with = cases::graph_of(&[7], &[[0, 0, 1]]);
        let without = cases::graph_of(&[7], &[]);
        let begun = [16, 0, 17, 1, 0, 0, 0, 0, 0, 0, 0, 18, 0, 19, 0, 0];
        let held = [16, 0, 17, 2, 0, 0, 0, 0, 0, 0, 0, 18, 1, 19, 255, 20, 0, 0];
        for (graphs, fits) in [
            ([&with, &with], true),
            ([&without, &without], true),
            ([&with, &without], false),
            ([&without, &with], false),
        ] {
            let given = [&graphs[0][..], &graphs[1][..], NO_SUBSTITUTES];
            let number = if fits { 0 } else { 14 };
            for checkpoint in [&begun[..], &held] {
                let (resumed, _) = resume(by, given, checkpoint, 1);
                assert_eq!(resumed.number, number, "{} {given:?}", by.name);
                let mut mapping = [0x55; 1];
                let [old, new, list] = given;
                let read = (by.read_out)(old, new, list, FIRST_SEARCH, checkpoint, &mut mapping);
                assert_eq!(read.number, number, "{} {given:?}", by.name);
            }
        }
    });
}

/// The same problem without own edges, in which a label stands for a label and an own edge. None
/// where the list would be too long.
fn with_own_edges_as_labels(problem: &Problem) -> Option<Problem> {
    let Problem {
        old,
        new,
        substitutes,
    } = problem;
    let both = |graph: &Graph, vertex| (graph.label(vertex), graph.own_edge(vertex));
    let all = |graph: &Graph| -> Vec<(u16, u8)> {
        (0..graph.order())
            .map(|vertex| both(graph, vertex))
            .collect()
    };
    let mut codes = [all(old), all(new)].concat();
    codes.sort();
    codes.dedup();
    let code = |of: (u16, u8)| codes.binary_search(&of).ok().map(|place| place as u16 + 1);
    let coded = |graph: &Graph| {
        let mut coded = Graph::default();
        for vertex in 0..graph.order() {
            coded.add_vertex(code(both(graph, vertex))?).ok()?;
        }
        for (a, b, label) in graph.edges().filter(|(a, b, _)| a != b) {
            coded.add_edge(a, b, label).ok()?;
        }
        Some(coded)
    };
    let mut pairs = Vec::new();
    for &[from, to] in &substitutes.pairs {
        for own in 0..=255 {
            pairs.extend(code((from, own)).zip(code((to, own))).map(<[u16; 2]>::from));
        }
    }
    pairs.sort();
    pairs.dedup();
    (pairs.len() <= 256).then_some(Problem {
        old: coded(old)?,
        new: coded(new)?,
        substitutes: Substitutes { pairs },
    })
}

/// Own edges tell what labels would tell: the search, its checkpoints and ceilings, and clique
/// branching are those of a problem without own edges; of a mapping 22 with the row twice is 21.
#[test]
fn own_edges_act_as_a_part_of_the_label() {
    each(|by| {
        let mut compared = 0;
        for seed in 0..1_500 {
            let mut random = Random::new(seed);
            let problem = cases::clique_problem(&mut random);
            let Some(coded) = with_own_edges_as_labels(&problem) else {
                continue;
            };
            compared += 1;
            let bytes = [&problem, &coded].map(|problem| {
                let [old, new] = [&problem.old, &problem.new].map(Graph::save);
                [old, new, problem.substitutes.save()]
            });
            let both = bytes
                .each_ref()
                .map(|given| given.each_ref().map(|bytes| &bytes[..]));
            let minimum = random.pick(&[0, 0, 1, 2, 3]);
            let mut checkpoint = Checkpoint::fresh(minimum).save();
            for _ in 0..4 {
                let budget = random.within(0..50) as u64;
                let [own, label] = both.map(|given| resume(by, given, &checkpoint, budget));
                assert_eq!(own, label, "{} seed {seed}", by.name);
                checkpoint = own.1;
            }
            let [own, label] = both.map(|[old, new, list]| {
                let mut mapping = [0x55; MAX_VERTICES];
                let answer = (by.clique)(old, new, list, minimum, &mut mapping);
                (answer, mapping)
            });
            assert_eq!(own, label, "{} seed {seed}", by.name);

            let mut crafted = cases::crafted_checkpoint(&mut random, &problem);
            cases::misshape(&mut random, &problem, &mut crafted);
            let [own, label] = both.map(|[old, new, list]| {
                let mut mapping = [0x55; MAX_VERTICES];
                let answer =
                    (by.read_out)(old, new, list, FIRST_SEARCH, &crafted.save(), &mut mapping);
                (answer, mapping)
            });
            assert_eq!(own, label, "{} seed {seed}", by.name);

            let mapping = cases::any_mapping(&mut random, &problem);
            let [own, label] =
                both.map(|[old, new, list]| (by.check_mapping)(old, new, list, &mapping));
            let own = match own {
                Answer {
                    number: 22,
                    value,
                    earlier,
                    ..
                } if value == earlier => refused(21, value, 0),
                other => other,
            };
            assert_eq!(own, label, "{} seed {seed}", by.name);
        }
        assert!(compared > 1_300, "{compared}");
    });
}

/// Of random problems many have no own edges, many have them in both graphs, and some in one; most
/// vertices find one to agree with; and own edges tell.
#[test]
fn random_problems_have_own_edges_of_each_kind() {
    let [mut neither, mut one, mut both, mut alike, mut telling] = [0; 5];
    let problems = 2_000;
    for seed in 0..problems {
        let problem = cases::problem(&mut Random::new(seed), 3..12);
        let Problem { old, new, .. } = &problem;
        let count = |graph: &Graph| graph.edges().filter(|(a, b, _)| a == b).count();
        match (count(old), count(new)) {
            (0, 0) => neither += 1,
            (0, _) | (_, 0) => one += 1,
            _ => both += 1,
        }
        let pairs = (0..old.order()).flat_map(|a| (0..new.order()).map(move |b| (a, b)));
        let (agree, differ): (Vec<_>, Vec<_>) = pairs
            .filter(|&(a, b)| problem.labels_agree(a, b))
            .partition(|&(a, b)| problem.own_edges_agree(a, b));
        alike += usize::from(agree.len() > differ.len());
        telling += usize::from(!differ.is_empty() && !agree.is_empty());
    }
    let counts = [neither, one, both, alike, telling];
    let due = [800, 150, 600, 1_200, 400];
    assert!(
        counts.iter().zip(due).all(|(&count, due)| count > due),
        "{counts:?}"
    );
}
