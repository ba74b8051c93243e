//! The descent, by both implementations: where it starts, its searches one after the other, where it
//! is done, and what it makes of checkpoints that are none of its own.

use harness::answer::Answer;
use harness::call::{each, Implementation};
use harness::cases;
use harness::library::{CONNECTED_SEARCH, FIRST_SEARCH, NO_SUBSTITUTES};
use harness::random::Random;
use harness::reference::{CHECKPOINT_BYTES, MAX_VERTICES, WORKSPACE_WORDS};

/// 01's pair P.
const OLD: &[u8] = &[4, 2, 3, 7, 0, 3, 9, 0, 3, 7, 0, 2, 0, 1, 1, 2, 1, 2, 1, 0];
const NEW: &[u8] = &[4, 2, 3, 9, 0, 3, 7, 0, 2, 0, 1, 1, 0];
const EMPTY: &[u8] = &[4, 2, 0];
/// More visits than any of the descents by hand makes.
const ENOUGH: u64 = 1_000;
/// What a buffer holds before a call.
const BEFORE: u8 = 0x55;

/// Checkpoint bytes: this minimum, so many steps, and this state, path and held mapping.
fn checkpoint(minimum: u8, steps: u64, state: u8, path: &[u8], held: &[u8]) -> Vec<u8> {
    let path = path.iter().flat_map(|&byte| [19, byte]);
    let held = held.iter().flat_map(|&byte| [20, byte]);
    let head = [16, minimum, 17].into_iter().chain(steps.to_le_bytes());
    let entries = path.chain(held).chain([0]);
    head.chain([18, state]).chain(entries).collect()
}

fn fresh(minimum: u8) -> Vec<u8> {
    checkpoint(minimum, 0, 0, &[], &[])
}

fn accepted(next: &[u8], ceiling: u64, visits: u64) -> Answer {
    Answer {
        ceiling,
        visits,
        ..Answer::accepted(next.len() as u64)
    }
}

/// What all calls of a descent take.
#[derive(Clone, Copy, Debug)]
struct Descent<'a> {
    old: &'a [u8],
    new: &'a [u8],
    list: &'a [u8],
    connected: u32,
    floor: u8,
}

/// Of the pair P.
fn p(floor: u8) -> Descent<'static> {
    Descent::of([OLD, NEW], floor)
}

impl<'a> Descent<'a> {
    fn of(graphs: [&'a [u8]; 2], floor: u8) -> Descent<'a> {
        let [old, new] = graphs;
        Descent {
            old,
            new,
            list: NO_SUBSTITUTES,
            connected: FIRST_SEARCH,
            floor,
        }
    }

    fn start(self, by: &Implementation) -> Vec<u8> {
        let mut fresh = vec![BEFORE; CHECKPOINT_BYTES];
        let Descent { old, new, list, .. } = self;
        let answer = (by.descend_start)(old, new, list, self.connected, self.floor, &mut fresh);
        assert_eq!(answer, Answer::accepted(14), "{} {self:?}", by.name);
        assert!(fresh[14..].iter().all(|&byte| byte == BEFORE));
        fresh.truncate(14);
        fresh
    }

    /// Answers with the next checkpoint. Refused, the memory must be as it was.
    fn resume(self, by: &Implementation, checkpoint: &[u8], budget: u64) -> (Answer, Vec<u8>) {
        let lent = [WORKSPACE_WORDS + 1, CHECKPOINT_BYTES];
        self.resume_within(by, checkpoint, budget, lent)
    }

    /// With so many words of workspace, and so many bytes for the next checkpoint.
    fn resume_within(
        self,
        by: &Implementation,
        checkpoint: &[u8],
        budget: u64,
        [words, room]: [usize; 2],
    ) -> (Answer, Vec<u8>) {
        let mut workspace = vec![9; words];
        let mut next = vec![BEFORE; room];
        let answer = (by.descend_resume)(
            self.old,
            self.new,
            self.list,
            self.connected,
            self.floor,
            checkpoint,
            budget,
            &mut workspace,
            &mut next,
        );
        let (used, written) = match answer.is_accepted() {
            true => (WORKSPACE_WORDS, answer.value as usize),
            false => {
                assert_eq!((answer.ceiling, answer.visits), (0, 0));
                (0, 0)
            }
        };
        assert!(workspace[..used].iter().all(|&word| word == 0));
        assert!(workspace[used..].iter().all(|&word| word == 9));
        assert!(next[written..].iter().all(|&byte| byte == BEFORE));
        next.truncate(written);
        (answer, next)
    }

    /// The whole descent in one call: it leaves this checkpoint, with this ceiling and after so many
    /// visits, and then stays there.
    fn ends(self, by: &Implementation, last: &[u8], ceiling: u64, visits: u64) {
        let whole = self.resume(by, &self.start(by), ENOUGH);
        let due = (accepted(last, ceiling, visits), last.to_vec());
        assert_eq!(whole, due, "{} {self:?}", by.name);
        self.stays(by, last, ceiling);
    }

    /// Done, a descent takes any budget, and makes no visit.
    fn stays(self, by: &Implementation, last: &[u8], ceiling: u64) {
        let due = (accepted(last, ceiling, 0), last.to_vec());
        for budget in [0, 1, ENOUGH, u64::MAX] {
            let again = self.resume(by, last, budget);
            assert_eq!(again, due, "{} {self:?}", by.name);
        }
    }

    /// What `golfcedar_resume` leaves of a search with this minimum after so many visits.
    fn search(self, by: &Implementation, minimum: u8, budget: u64) -> Vec<u8> {
        let mut next = vec![BEFORE; CHECKPOINT_BYTES];
        let answer = (by.resume)(
            self.old,
            self.new,
            self.list,
            self.connected,
            &fresh(minimum),
            budget,
            &mut [0; WORKSPACE_WORDS],
            &mut next,
        );
        assert!(answer.is_accepted(), "{} {self:?}", by.name);
        next.truncate(answer.value as usize);
        next
    }

    /// The state, the size and the held mapping of a checkpoint, and its search's own ceiling.
    fn read_out(self, by: &Implementation, checkpoint: &[u8]) -> (Answer, Vec<u8>) {
        let mut mapping = vec![BEFORE; MAX_VERTICES];
        let Descent { old, new, list, .. } = self;
        let answer = (by.read_out)(old, new, list, self.connected, checkpoint, &mut mapping);
        assert!(answer.is_accepted(), "{} {self:?}", by.name);
        (answer, mapping)
    }

    /// One visit at a time: each is made, none is refused, the ceiling does not rise, and what is
    /// held is held to the end. Answers the last checkpoint and the visits.
    fn by_single_visits(self, by: &Implementation) -> (Vec<u8>, u64) {
        let mut last = self.start(by);
        let (mut ceiling, mut visits) = (u64::MAX, 0);
        loop {
            let (before, held) = self.read_out(by, &last);
            let (answer, next) = self.resume(by, &last, 1);
            let done = before.value >= 2;
            assert_eq!(answer.number, 0, "{} {self:?}", by.name);
            assert_eq!(answer.visits, u64::from(!done), "{} {self:?}", by.name);
            assert!(answer.ceiling <= ceiling, "{} {self:?}", by.name);
            let (after, still_held) = self.read_out(by, &next);
            if before.value % 2 == 1 {
                assert_eq!((after.size, still_held), (before.size, held), "{self:?}");
            }
            if done {
                assert_eq!(next, last, "{} {self:?}", by.name);
                return (last, visits);
            }
            (last, ceiling, visits) = (next, answer.ceiling, visits + 1);
        }
    }
}

/// Never below the floor, and never above either order or the number of old vertices that may lie on
/// a new one.
#[test]
fn a_descent_starts_at_the_largest_minimum_that_can_be_reached() {
    each(|by| {
        for floor in [0, 1, 2, 3, 64, 255] {
            assert_eq!(p(floor).start(by), fresh(floor.max(2)), "{}", by.name);
        }
        let starts = |old: &[u8], new: &[u8], list: &[u8], minimum| {
            for connected in [FIRST_SEARCH, CONNECTED_SEARCH, u32::MAX] {
                let descent = Descent {
                    list,
                    connected,
                    ..Descent::of([old, new], 0)
                };
                assert_eq!(descent.start(by), fresh(minimum), "{descent:?}");
            }
        };
        let graph = |labels: &[u8]| cases::graph_of(labels, &[]);
        let joined = |labels: &[u8]| cases::graph_of(labels, &[[0, 1, 1]]);
        let own = |labels: &[u8]| cases::graph_of(labels, &[[0, 0, 1]]);
        starts(EMPTY, EMPTY, &[], 0);
        starts(OLD, EMPTY, &[], 0);
        starts(EMPTY, NEW, &[], 0);
        starts(&graph(&[7, 7, 7]), &graph(&[7]), &[], 1);
        starts(&graph(&[7]), &graph(&[7, 7, 7]), &[], 1);
        // two old vertices may lie on the same new one
        starts(&graph(&[7, 7, 8]), &graph(&[7, 9, 9]), &[], 2);
        starts(&graph(&[7, 8]), &graph(&[7, 9]), &[], 1);
        starts(&graph(&[7, 8]), &graph(&[7, 9]), &[8, 0, 9, 0], 2);
        starts(&graph(&[7, 8]), &graph(&[7, 9]), &[9, 0, 8, 0], 1);
        starts(&own(&[7, 8]), &graph(&[7, 8]), &[], 1);
        starts(&graph(&[7, 8]), &own(&[7, 8]), &[], 1);
        starts(&own(&[7, 8]), &own(&[7, 8]), &[], 2);
        // edges of two vertices do not count
        starts(&joined(&[7, 7]), &graph(&[7, 7]), &[], 2);
    });
}

#[test]
fn a_start_is_refused_as_that_of_a_search() {
    each(|by| {
        let both = |old: &[u8], new: &[u8], list: &[u8], length: usize| {
            let mut checkpoint = vec![BEFORE; length];
            let answer = (by.descend_start)(old, new, list, FIRST_SEARCH, 2, &mut checkpoint);
            let mut plain = vec![BEFORE; length];
            let due = (by.start)(old, new, list, FIRST_SEARCH, 2, &mut plain);
            assert_eq!((answer, checkpoint), (due, plain), "{}", by.name);
            answer.number
        };
        assert_eq!(both(&[3], &[], &[0], 0), 27);
        assert_eq!(both(OLD, &[], &[0], 0), 1);
        assert_eq!(both(OLD, NEW, &[0], 0), 23);
        assert_eq!(both(OLD, NEW, &[0, 0, 1, 0], 0), 24);
        for length in 0..20 {
            let due = if length < 14 { 13 } else { 0 };
            assert_eq!(both(OLD, NEW, &[], length), due, "{length}");
        }
    });
}

/// The only search that P needs has minimum 2: the nodes of the search with minimum 1.
#[test]
fn a_first_search_that_holds_something_is_the_last() {
    each(|by| {
        let last = checkpoint(2, 6, 3, &[], &[1, 0, 255]);
        for floor in [0, 1, 2] {
            p(floor).ends(by, &last, 3, 6);
        }
        let (answer, next) = p(0).resume(by, &p(0).start(by), 3);
        assert_eq!(next, checkpoint(2, 3, 0, &[1, 0, 255], &[]));
        assert_eq!(answer, accepted(&next, 3, 3));
        let (answer, next) = p(0).resume(by, &next, 1);
        assert_eq!(next, checkpoint(2, 4, 1, &[1, 255], &[1, 0, 255]));
        assert_eq!(answer, accepted(&next, 3, 1));
    });
}

#[test]
fn empty_graphs_have_the_empty_mapping() {
    each(|by| {
        Descent::of([EMPTY, EMPTY], 0).ends(by, &checkpoint(0, 1, 3, &[], &[]), 1, 1);
        Descent::of([EMPTY, NEW], 0).ends(by, &checkpoint(0, 1, 3, &[], &[]), 1, 1);
        Descent::of([EMPTY, EMPTY], 1).ends(by, &checkpoint(1, 1, 2, &[], &[]), 1, 1);
        // each row is left out
        let last = checkpoint(0, 4, 3, &[], &[255, 255, 255]);
        Descent::of([OLD, EMPTY], 0).ends(by, &last, 1, 4);
    });
}

/// It is seen at the root, unless the floor is the number of old vertices.
#[test]
fn nothing_is_found_from_a_floor_above_every_size() {
    each(|by| {
        for floor in [4, 5, 64, 65, 254, 255] {
            p(floor).ends(by, &checkpoint(floor, 1, 2, &[], &[]), floor.into(), 1);
        }
        p(3).ends(by, &checkpoint(3, 3, 2, &[], &[]), 3, 3);
    });
}

/// A triangle on three vertices without edges: three searches, visit by visit.
#[test]
fn searches_follow_each_other_from_above() {
    each(|by| {
        let triangle = cases::graph_of(&[7, 7, 7], &[[0, 1, 1], [0, 2, 1], [1, 2, 1]]);
        let loose = cases::graph_of(&[7, 7, 7], &[]);
        let visits: [(u8, &[&[u8]]); 3] = [
            (3, &[&[], &[0], &[1], &[2], &[255]]),
            (
                2,
                &[
                    &[],
                    &[0],
                    &[1],
                    &[2],
                    &[255],
                    &[255, 0],
                    &[255, 1],
                    &[255, 2],
                    &[255, 255],
                ],
            ),
            (
                1,
                &[
                    &[],
                    &[0],
                    &[0, 255],
                    &[0, 255, 255],
                    &[1],
                    &[2],
                    &[255],
                    &[255, 0],
                    &[255, 1],
                    &[255, 2],
                    &[255, 255],
                ],
            ),
        ];
        // one above the minimum, or above the greatest upper bound that is left
        let ceilings = |minimum: u8, steps: usize| match (minimum, steps) {
            (3, 0) => 4,
            (3, _) | (2, ..5) => 3,
            _ => 2,
        };
        let descent = Descent::of([&triangle, &loose], 0);
        let start = descent.start(by);
        let mut next = start.clone();
        let mut made = 0;
        for (minimum, paths) in visits {
            for (steps, path) in paths.iter().enumerate() {
                let (state, held): (u8, &[u8]) = match (minimum, steps) {
                    (1, 4..) => (1, &[0, 255, 255]),
                    _ => (0, &[]),
                };
                let due = checkpoint(minimum, steps as u64, state, path, held);
                assert_eq!(next, due, "{} after {made} visits", by.name);
                let ceiling = ceilings(minimum, steps);
                let (answer, same) = descent.resume(by, &next, 0);
                assert_eq!(same, due, "{} after {made} visits", by.name);
                assert_eq!(answer, accepted(&due, ceiling, 0), "{}", by.name);
                let (answer, unbroken) = descent.resume(by, &start, made);
                assert_eq!(unbroken, due, "{} after {made} visits", by.name);
                assert_eq!(answer, accepted(&due, ceiling, made), "{}", by.name);
                next = descent.resume(by, &next, 1).1;
                made += 1;
            }
        }
        assert_eq!(made, 25);
        descent.ends(by, &next, 2, made);
        assert_eq!(next, checkpoint(1, 11, 3, &[], &[0, 255, 255]));
        let floors = [(1, 3, 2, 25), (2, 2, 2, 14), (3, 2, 3, 5)];
        for (floor, state, ceiling, visits) in floors {
            let descent = Descent { floor, ..descent };
            let (answer, next) = descent.resume(by, &start, ENOUGH);
            assert_eq!((next[1], next[12]), (floor, state), "{}", by.name);
            assert_eq!(answer, accepted(&next, ceiling, visits), "{}", by.name);
        }
        // the search's own ceiling may be higher
        let (read, _) = descent.read_out(by, &fresh(2));
        assert_eq!((read.value, read.ceiling), (0, 4), "{}", by.name);
    });
}

/// However the visits are split, with too many granted too.
#[test]
fn two_calls_lead_where_one_leads() {
    each(|by| {
        let triangle = cases::graph_of(&[7, 7, 7, 8], &[[0, 1, 1], [0, 2, 1], [1, 2, 1]]);
        let chain = cases::graph_of(&[7, 8, 7, 7], &[[0, 2, 1], [2, 3, 1]]);
        let graphs: [[&[u8]; 2]; 4] = [
            [OLD, NEW],
            [&triangle, &chain],
            [&chain, &triangle],
            [&chain, OLD],
        ];
        for (graphs, connected) in graphs
            .into_iter()
            .flat_map(|graphs| [FIRST_SEARCH, CONNECTED_SEARCH].map(|search| (graphs, search)))
        {
            for floor in 0..6 {
                let descent = Descent {
                    connected,
                    ..Descent::of(graphs, floor)
                };
                let start = descent.start(by);
                let (whole, last) = descent.resume(by, &start, ENOUGH);
                let total = whole.visits;
                assert!(total < ENOUGH && descent.read_out(by, &last).0.value >= 2);
                for first in 0..=total {
                    let (one, between) = descent.resume(by, &start, first);
                    assert_eq!(one.visits, first, "{} {descent:?}", by.name);
                    let done = descent.read_out(by, &between).0.value >= 2;
                    assert_eq!(done, first == total, "{} {descent:?}", by.name);
                    for second in [total - first, total, ENOUGH] {
                        let (two, next) = descent.resume(by, &between, second);
                        assert_eq!(next, last, "{} {descent:?}", by.name);
                        assert_eq!(two.visits, total - first, "{} {descent:?}", by.name);
                        assert_eq!(two.ceiling, whole.ceiling, "{} {descent:?}", by.name);
                    }
                }
                descent.stays(by, &last, whole.ceiling);
            }
        }
    });
}

/// Done, it holds what the search from the floor holds; the ceiling is one above, or the floor.
#[test]
fn a_descent_ends_as_the_search_from_its_floor() {
    each(|by| {
        for seed in 0..300 {
            let mut random = Random::new(seed);
            let problem = cases::problem(&mut random, 0..6);
            let [old, new] = [&problem.old, &problem.new].map(|graph| graph.save());
            let descent = Descent {
                list: &problem.substitutes.save(),
                connected: random.pick(&[FIRST_SEARCH, CONNECTED_SEARCH]),
                ..Descent::of([&old, &new], random.pick(&[0, 0, 1, 2, 3, 6]))
            };
            let (last, visits) = descent.by_single_visits(by);
            let (whole, next) = descent.resume(by, &descent.start(by), visits);
            assert_eq!((&next, whole.visits), (&last, visits), "seed {seed}");
            let (read, held) = descent.read_out(by, &last);
            let plain = descent.search(by, descent.floor, 1 << 40);
            let (due, due_held) = descent.read_out(by, &plain);
            assert_eq!((read.value, held), (due.value, due_held), "seed {seed}");
            assert_eq!(whole.ceiling, due.ceiling, "seed {seed}");
        }
    });
}

/// 0 and 1 hang together, 2 is alone. The first search of minimum 3 holds all three; the second holds
/// nothing, after 13 visits, and needs as many again with minimum 2.
#[test]
fn a_descent_of_the_second_search_holds_what_hangs_together() {
    each(|by| {
        let loose = cases::graph_of(&[7, 7, 7], &[[0, 1, 1]]);
        let first = Descent::of([&loose, &loose], 0);
        first.ends(by, &checkpoint(3, 9, 3, &[], &[0, 1, 2]), 4, 9);
        for connected in [CONNECTED_SEARCH, 256, u32::MAX] {
            let second = Descent { connected, ..first };
            second.ends(by, &checkpoint(2, 13, 3, &[], &[0, 1, 255]), 3, 26);
            let (answer, next) = second.resume(by, &second.start(by), 13);
            assert_eq!((answer.visits, answer.ceiling), (13, 3), "{}", by.name);
            assert_eq!(next, fresh(2), "{}", by.name);
            let second = Descent { floor: 3, ..second };
            second.ends(by, &checkpoint(3, 13, 2, &[], &[]), 3, 13);
        }
        // what the first search holds is out of shape for the second
        let held = first.resume(by, &first.start(by), 4).1;
        let second = Descent {
            connected: CONNECTED_SEARCH,
            ..first
        };
        assert_eq!(second.resume(by, &held, 0).0, Answer::refused(14));
    });
}

/// It is walked to its end, and then not begun anew. Its ceiling is none before that, since P has a
/// mapping of two pairs.
#[test]
fn a_search_below_the_floor_is_walked_to_its_end() {
    each(|by| {
        let descent = p(3);
        let held = checkpoint(1, 4, 1, &[1, 255], &[1, 0, 255]);
        let last = checkpoint(1, 6, 3, &[], &[1, 0, 255]);
        for (budget, next, ceiling, visits) in [
            (0, &fresh(1), 2, 0),
            (3, &checkpoint(1, 3, 0, &[1, 0, 255], &[]), 2, 3),
            (4, &held, 3, 4),
            (6, &last, 3, 6),
            (ENOUGH, &last, 3, 6),
        ] {
            let due = (accepted(next, ceiling, visits), next.clone());
            assert_eq!(descent.resume(by, &fresh(1), budget), due, "{}", by.name);
            // the search's own walk
            assert_eq!(*next, descent.search(by, 1, budget), "{}", by.name);
        }
        descent.stays(by, &last, 3);
        // with nothing held
        let none = checkpoint(3, 3, 2, &[], &[]);
        for floor in [3, 4, 255] {
            p(floor).stays(by, &none, 3);
        }
    });
}

/// One visit for each minimum above the root's upper bound, three for minimum 3, six for minimum 2.
#[test]
fn a_search_above_the_start_is_begun_anew_down_to_it() {
    each(|by| {
        let last = checkpoint(2, 6, 3, &[], &[1, 0, 255]);
        for minimum in [3, 4, 200, 255] {
            let visits = u64::from(minimum - 3) + 3 + 6;
            let due = (accepted(&last, 3, visits), last.clone());
            assert_eq!(p(0).resume(by, &fresh(minimum), ENOUGH), due, "{minimum}");
            let none = checkpoint(minimum, 0, 0, &[], &[]);
            let (answer, next) = p(minimum).resume(by, &none, 0);
            assert_eq!(next, none, "{}", by.name);
            assert_eq!(answer.visits, 0, "{}", by.name);
        }
        let (answer, next) = p(1).resume(by, &fresh(200), 2);
        assert_eq!(next, fresh(198), "{}", by.name);
        assert_eq!(answer, accepted(&next, 198, 2), "{}", by.name);
    });
}

/// A finished search that holds nothing is begun anew before the first visit, if it is above the floor.
/// Its steps do not count then, though they may be many.
#[test]
fn a_call_without_visits_may_begin_anew() {
    each(|by| {
        for steps in [3, u64::MAX] {
            let none = checkpoint(3, steps, 2, &[], &[]);
            for floor in [0, 1, 2] {
                let (answer, next) = p(floor).resume(by, &none, 0);
                assert_eq!(next, fresh(2), "{}", by.name);
                assert_eq!(answer, accepted(&next, 3, 0), "{}", by.name);
                let (answer, next) = p(floor).resume(by, &none, u64::MAX);
                assert_eq!(next, checkpoint(2, 6, 3, &[], &[1, 0, 255]));
                assert_eq!(answer, accepted(&next, 3, 6), "{}", by.name);
            }
            p(3).stays(by, &none, 3);
        }
        // one that holds something is done, whatever its minimum
        p(0).stays(by, &checkpoint(1, 6, 3, &[], &[1, 0, 255]), 3);
    });
}

/// A descent's checkpoint is that of a search with its minimum, and goes on as one.
#[test]
fn a_search_goes_on_from_a_descent() {
    each(|by| {
        let loose = cases::graph_of(&[7, 7], &[]);
        let edge = cases::graph_of(&[7, 7], &[[0, 1, 1]]);
        let descent = Descent::of([&edge, &loose], 0);
        // four visits with minimum 2, five with minimum 1
        descent.ends(by, &checkpoint(1, 5, 3, &[], &[0, 255]), 2, 9);
        let start = descent.start(by);
        for visits in 0..9 {
            let due = match visits {
                ..4 => descent.search(by, 2, visits),
                _ => descent.search(by, 1, visits - 4),
            };
            let next = descent.resume(by, &start, visits).1;
            assert_eq!(next, due, "{} after {visits} visits", by.name);
        }
    });
}

#[test]
fn the_next_checkpoint_fits_or_13() {
    each(|by| {
        let last = checkpoint(2, 6, 3, &[], &[1, 0, 255]);
        for length in 0..=26 {
            let room = |budget| {
                let lent = [WORKSPACE_WORDS, length];
                let (answer, next) = p(0).resume_within(by, &fresh(3), budget, lent);
                (answer.number, answer.visits, next)
            };
            let due = match length {
                ..20 => (13, 0, Vec::new()),
                _ => (0, 9, last.clone()),
            };
            assert_eq!(room(ENOUGH), due, "{} {length}", by.name);
            // what is begun anew is short again
            let due = match length {
                ..14 => (13, 0, Vec::new()),
                _ => (0, 3, fresh(2)),
            };
            assert_eq!(room(3), due, "{} {length}", by.name);
        }
    });
}

/// In the order of `golfcedar_resume`, each with all that come after it.
#[test]
fn a_call_is_refused_as_that_of_a_search() {
    each(|by| {
        let begun = checkpoint(2, 1, 0, &[1], &[]);
        let misshapen = checkpoint(2, 0, 2, &[], &[]);
        let both = |old, new, list, checkpoint: &[u8], [words, room]: [usize; 2]| {
            let descent = Descent {
                list,
                ..Descent::of([old, new], 0)
            };
            let (answer, _) = descent.resume_within(by, checkpoint, u64::MAX, [words, room]);
            let due = (by.resume)(
                old,
                new,
                list,
                FIRST_SEARCH,
                checkpoint,
                u64::MAX,
                &mut vec![9; words],
                &mut vec![BEFORE; room],
            );
            assert_eq!(answer, due, "{}", by.name);
            (answer.number, answer.value)
        };
        assert_eq!(both(&[3], &[4], &[0], &[], [0, 0]), (27, 0));
        assert_eq!(both(OLD, &[4], &[0], &[], [0, 0]), (1, 0));
        assert_eq!(both(OLD, NEW, &[0], &[], [0, 0]), (23, 0));
        assert_eq!(both(OLD, NEW, &[0, 0, 1, 0], &[], [0, 0]), (24, 0));
        let of_p = |checkpoint: &[u8], lent| both(OLD, NEW, &[], checkpoint, lent);
        assert_eq!(of_p(&[16, 2, 18], [0, 0]), (17, 2));
        assert_eq!(of_p(&misshapen, [0, 0]), (14, 0));
        assert_eq!(of_p(&begun, [WORKSPACE_WORDS - 1, 0]), (15, 0));
        assert_eq!(of_p(&begun, [WORKSPACE_WORDS, 0]), (16, 0));
        assert_eq!(of_p(&fresh(2), [WORKSPACE_WORDS, 13]), (13, 0));
        let (answer, next) = p(0).resume(by, &begun, u64::MAX - 1);
        assert_eq!(next, checkpoint(2, 6, 3, &[], &[1, 0, 255]));
        assert_eq!(answer, accepted(&next, 3, 5), "{}", by.name);
    });
}
