//! 01's figures P1 to P11 and its limits, with the numbers that 01 gives: of the library, and of the plain Rust that it is compared with elsewhere.

use crankforest_tests::library::{self, lent_list, Answer, Graph, HardAnswer, Rules, Templates, Unfolded, Written};
use crankforest_tests::plain;

type Schedule = fn(usize, Rules, usize, usize, &mut [i64], &mut [i64]) -> Answer;

/// The four forms of one implementation.
struct Forms {
    exact: fn(usize, Rules, usize, usize) -> Answer,
    schedule: Schedule,
    coarse: fn(usize, Rules, usize, usize, usize) -> Answer,
    unfold: fn(usize, usize, Templates, &mut Written) -> Unfolded,
}

const BOTH: [Forms; 2] = [
    Forms { exact: library::exact, schedule: library::schedule, coarse: library::coarse, unfold: library::unfold },
    Forms { exact: plain::exact, schedule: plain::schedule, coarse: plain::coarse, unfold: plain::unfold },
];

fn row() -> Graph {
    Graph::new(4, &[(0, 1, 0, 100), (1, 2, 1, 2), (1, 3, 3, 7)])
}

fn fork() -> Graph {
    Graph::new(4, &[(0, 1, 2, 5), (0, 2, 1, 3), (1, 3, 0, 0), (2, 3, 0, 0)])
}

fn chain(n: usize, least: i64, most: i64) -> Graph {
    let mut graph = Graph::new(n, &[]);
    for v in 1..n {
        graph.add(v - 1, v, least, most);
    }
    graph
}

#[test]
fn p1_one_event() {
    for forms in BOTH {
        let graph = Graph::new(1, &[]);
        assert_eq!((forms.exact)(1, graph.rules(), 0, 0), Answer::found(0, 0, 0));
        let (mut times, mut delays) = (lent_list(2), lent_list(1));
        assert_eq!((forms.schedule)(1, graph.rules(), 0, 0, &mut times, &mut delays), Answer::found(0, 0, 0));
        assert_eq!(times, [0, lent_list(2)[1]]);
        assert_eq!(delays, lent_list(1));
    }
}

#[test]
fn p2_row_with_its_schedule() {
    for forms in BOTH {
        let (graph, mut times, mut delays) = (row(), lent_list(6), lent_list(4));
        let answer = (forms.schedule)(4, graph.rules(), 2, 3, &mut times, &mut delays);
        assert_eq!(answer, Answer::found(6, 2, 2));
        assert_eq!(times[..4], [0, 0, 1, 7]);
        assert_eq!(delays[..3], [0, 1, 7]);
        assert_eq!(times[4..], lent_list(6)[4..]);
        assert_eq!(delays[3..], lent_list(4)[3..]);
        assert_eq!((forms.exact)(4, graph.rules(), 2, 3), Answer::found(6, 2, 2));
        assert_eq!((forms.exact)(4, graph.rules(), 2, 2), Answer::found(0, 2, 2));
    }
}

#[test]
fn p3_p4_p5_fork() {
    for forms in BOTH {
        let graph = fork();
        assert_eq!((forms.exact)(4, graph.rules(), 1, 3), Answer::found(1, 1, 2));
        assert_eq!((forms.exact)(4, graph.rules(), 2, 3), Answer::found(4, 1, 2));
        assert_eq!((forms.exact)(4, graph.rules(), 3, 1), Answer::found(0, 2, 1));
    }
}

#[test]
fn p6_p7_parallel_rules() {
    for forms in BOTH {
        let graph = Graph::new(2, &[(0, 1, 1, 2), (0, 1, 0, 5)]);
        assert_eq!((forms.exact)(2, graph.rules(), 0, 1), Answer::found(5, 0, 1));
        assert_eq!((forms.exact)(2, graph.rules(), 1, 0), Answer::found(-1, 1, 0));
    }
}

#[test]
fn p8_p9_p10_coarse() {
    for forms in BOTH {
        let graph = Graph::new(2, &[(0, 1, -3, -1)]);
        assert_eq!((forms.exact)(2, graph.rules(), 0, 1), Answer::found(-1, 0, 1));
        assert_eq!((forms.coarse)(2, graph.rules(), 0, 1, 2), Answer::found(0, 0, 1));
        assert_eq!((forms.exact)(2, graph.rules(), 1, 0), Answer::found(3, 1, 0));
        assert_eq!((forms.coarse)(2, graph.rules(), 1, 0, 2), Answer::found(4, 1, 0));
        assert_eq!((forms.coarse)(4, row().rules(), 2, 3, 4), Answer::found(8, 2, 2));
    }
}

type Hard = fn(usize, Rules, usize, usize) -> HardAnswer;
type HardSchedule = fn(usize, Rules, usize, usize, &mut [i64], &mut [i64]) -> HardAnswer;

const BOTH_HARD: [(Hard, HardSchedule); 2] =
    [(library::hard, library::hard_schedule), (plain::hard, plain::hard_schedule)];

#[test]
fn the_fork_under_hard_deadlines() {
    for (hard, hard_schedule) in BOTH_HARD {
        let (graph, mut times, mut delays) = (fork(), lent_list(6), lent_list(5));
        assert_eq!(hard(4, graph.rules(), 0, 3), HardAnswer::found(2, 3, 0, 2));
        assert_eq!(hard_schedule(4, graph.rules(), 0, 3, &mut times, &mut delays), HardAnswer::found(2, 3, 0, 2));
        assert_eq!(times[..4], [0, 3, 3, 3]);
        assert_eq!(delays[..4], [3, 3, 0, 0]);
        assert_eq!((&times[4..], &delays[4..]), (&lent_list(6)[4..], &lent_list(5)[4..]));
    }
}

#[test]
fn no_times_is_no_times() {
    for (hard, hard_schedule) in BOTH_HARD {
        let graph = Graph::new(4, &[(0, 1, 5, 5), (0, 2, 1, 1), (1, 3, 0, 0), (2, 3, 3, 3)]);
        for (s, t) in [(0, 0), (0, 3), (3, 1), (2, 2)] {
            assert_eq!(hard(4, graph.rules(), s, t), HardAnswer::refused(10, 0));
            let (mut times, mut delays) = (lent_list(4), lent_list(4));
            let answer = hard_schedule(4, graph.rules(), s, t, &mut times, &mut delays);
            assert_eq!(answer, HardAnswer::refused(10, 0));
            assert_eq!((times, delays), (lent_list(4), lent_list(4)));
        }
        // 6 before 10, and 10 where only the rules' order differs
        let unreached = Graph::new(4, &[(0, 1, 5, 5), (0, 1, 1, 1), (2, 1, 0, 0)]);
        assert_eq!(hard(4, unreached.rules(), 0, 1), HardAnswer::refused(6, 2));
        assert_eq!(hard(2, Graph::new(2, &[(0, 1, 5, 5), (0, 1, 1, 1)]).rules(), 0, 1), HardAnswer::refused(10, 0));
        let mut short = lent_list(3);
        let answer = hard_schedule(4, graph.rules(), 0, 9, &mut short, &mut lent_list(4));
        assert_eq!(answer.refusal, 23);
    }
}

#[test]
fn the_longest_chain_under_hard_deadlines() {
    for (hard, _) in BOTH_HARD {
        let graph = chain(1_024, -1_000_000, 1_000_000);
        let far = 1_023_000_000;
        assert_eq!(hard(1_024, graph.rules(), 0, 1_023), HardAnswer::found(-far, far, 0, 1_023));
        // one rule across the chain that no times meet: the numbers fall round by round
        let mut unmeetable = chain(1_024, 1, 1_000_000);
        unmeetable.add(0, 1_023, 0, 1_022);
        assert_eq!(hard(1_024, unmeetable.rules(), 0, 1_023), HardAnswer::refused(10, 0));
    }
}

/// Figure 1 with these start intervals, one number for least and most.
fn figure_1<'a>(process: &'a Graph, starts: &'a [i64]) -> Templates<'a> {
    Templates { rules: process.rules(), marks: &[1, 0, 1, 1], start_leasts: starts, start_mosts: starts }
}

#[test]
fn p11_figure_1_of_the_report() {
    for forms in BOTH {
        let process = Graph::new(2, &[(0, 0, 4, 10), (0, 1, 1, 1), (1, 0, 1, 1), (1, 1, 5, 20)]);
        for (starts, separations) in [([0, 0, 0, 0], [1, 17, 19]), ([0, 0, 0, 21], [21, 19, 19]), ([0, 99, 0, 21], [21, 19, 19])] {
            for (k, separation) in separations.into_iter().enumerate() {
                let mut out = Written::lent([12; 4]);
                assert_eq!((forms.unfold)(2, 3, figure_1(&process, &starts), &mut out), Unfolded::found(7, 12));
                let answer = (forms.exact)(7, out.as_rules(12), 1 + 2 * k, 2 + 2 * k);
                assert_eq!((answer.refusal, answer.separation), (0, separation), "occurrence {}", k);
            }
        }
    }
}

#[test]
fn start_intervals() {
    let two = Graph::new(2, &[(0, 1, 1, 2), (1, 0, 1, 2)]);
    let crossed = Graph::new(2, &[(0, 1, 1, 2), (1, 0, 1, 0)]);
    for forms in BOTH {
        let unfold = |graph: &Graph, marks: &[usize], start_leasts: &[i64], start_mosts: &[i64]| {
            let mut out = Written::lent([2; 4]);
            let answer = (forms.unfold)(2, 1, Templates { rules: graph.rules(), marks, start_leasts, start_mosts }, &mut out);
            (answer, [out.leasts[0], out.mosts[0], out.leasts[1], out.mosts[1]])
        };
        let held = Written::lent([2; 4]);
        let kept = [held.leasts[0], held.mosts[0], held.leasts[1], held.mosts[1]];
        let refused = |number, place| (Unfolded::refused(number, place), kept);
        let found = |delays| (Unfolded::found(3, 2), delays);
        assert_eq!(unfold(&two, &[1, 1], &[-5, 3], &[-5, 4]), found([-5, -5, 3, 4]));
        assert_eq!(unfold(&two, &[1, 0], &[-5, 5_000_000], &[7, 0]), found([-5, 7, 1, 2]));
        assert_eq!(unfold(&two, &[1, 1], &[0, 1], &[0, 0]), refused(3, 1));
        assert_eq!(unfold(&two, &[1, 2], &[0, 1], &[0, 0]), refused(7, 1));
        assert_eq!(unfold(&two, &[1, 1], &[0, 0], &[0, 1_000_001]), refused(3, 1));
        assert_eq!(unfold(&two, &[1, 1], &[-1_000_000, 0], &[1_000_000, 0]), found([-1_000_000, 1_000_000, 0, 0]));
        assert_eq!(unfold(&crossed, &[1, 0], &[1, 0], &[0, 0]), refused(3, 0));
        assert_eq!(unfold(&crossed, &[0, 1], &[1, 0], &[0, 0]), refused(3, 1));
        assert_eq!(unfold(&crossed, &[2, 1], &[1, 0], &[0, 0]), refused(3, 1));
        assert_eq!(unfold(&two, &[1, 1], &[0], &[0, 0]), refused(22, 0));
        assert_eq!(unfold(&two, &[0, 0], &[0, 0], &[0, 0, 0]), refused(22, 0));
    }
}

#[test]
fn figure_1_unfolded_twice_is_this() {
    for forms in BOTH {
        let process = Graph::new(2, &[(0, 0, 4, 10), (0, 1, 1, 1), (1, 0, 1, 1), (1, 1, 5, 20)]);
        let mut out = Written::lent([9, 8, 10, 8]);
        assert_eq!((forms.unfold)(2, 2, figure_1(&process, &[0; 4]), &mut out), Unfolded::found(5, 8));
        let held = Written::lent([9, 8, 10, 8]);
        assert_eq!(out.sources[..8], [0, 1, 0, 0, 1, 3, 2, 2]);
        assert_eq!(out.targets[..8], [1, 2, 1, 2, 3, 4, 3, 4]);
        assert_eq!(out.leasts[..8], [0, 1, 0, 0, 4, 1, 1, 5]);
        assert_eq!(out.mosts[..8], [0, 1, 0, 0, 10, 1, 1, 20]);
        assert_eq!((&out.sources[8..], &out.targets[8..]), (&held.sources[8..], &held.targets[8..]));
        assert_eq!((&out.leasts[8..], &out.mosts[8..]), (&held.leasts[8..], &held.mosts[8..]));
    }
}

#[test]
fn limits_of_the_analysis() {
    for forms in BOTH {
        let exact = |graph: &Graph, s, t| (forms.exact)(graph.events, graph.rules(), s, t);
        assert_eq!(exact(&chain(1_024, 1, 2), 0, 1_023), Answer::found(2_046, 0, 1_023));
        assert_eq!(exact(&chain(1_025, 1, 2), 0, 1), Answer::refused(21, 0));
        assert_eq!(exact(&Graph::new(0, &[]), 0, 0), Answer::refused(21, 0));
        assert_eq!(exact(&Graph::new(usize::MAX, &[]), 0, 0), Answer::refused(21, 0));
        assert_eq!(exact(&Graph::new(2, &[(0, 1, 0, 3); 4_096]), 0, 1), Answer::found(3, 0, 1));
        assert_eq!(exact(&Graph::new(2, &[(0, 1, 0, 3); 4_097]), 0, 1), Answer::refused(22, 0));
        assert_eq!(exact(&Graph::new(2, &[(0, 1, -1_000_000, 1_000_000)]), 0, 1), Answer::found(1_000_000, 0, 1));
        assert_eq!(exact(&Graph::new(2, &[(0, 1, 0, 1_000_001)]), 0, 1), Answer::refused(3, 0));
        assert_eq!(exact(&Graph::new(2, &[(0, 1, -1_000_001, 0)]), 0, 1), Answer::refused(3, 0));
        assert_eq!(exact(&Graph::new(2, &[(0, 1, 0, 1), (0, 1, 2, 1)]), 0, 1), Answer::refused(3, 1));
        assert_eq!(exact(&Graph::new(2, &[(0, 1, i64::MIN, i64::MAX)]), 0, 1), Answer::refused(3, 0));
        assert_eq!(exact(&Graph::new(2, &[(0, 1, 1 << 32, 1 << 32)]), 0, 1), Answer::refused(3, 0));
    }
}

#[test]
fn two_long_chains_reach_the_greatest_answer() {
    let mut graph = Graph::new(1_024, &[]);
    for v in 1..512 {
        graph.add(v - 1, v, -1_000_000, -1_000_000);
    }
    for v in 512..1_024 {
        graph.add(if v == 512 { 0 } else { v - 1 }, v, 1_000_000, 1_000_000);
    }
    for forms in BOTH {
        let answer = (forms.exact)(1_024, graph.rules(), 511, 1_023);
        assert_eq!(answer, Answer::found(1_023_000_000, 511, 512));
        let answer = (forms.exact)(1_024, graph.rules(), 1_023, 511);
        assert_eq!(answer, Answer::found(-1_023_000_000, 512, 511));
    }
}

#[test]
fn limits_of_q() {
    for forms in BOTH {
        let graph = Graph::new(2, &[(0, 1, 1_000_000, 1_000_000)]);
        let coarse = |q| (forms.coarse)(2, graph.rules(), 0, 1, q);
        assert_eq!(coarse(1), Answer::found(1_000_000, 0, 1));
        assert_eq!(coarse(999), Answer::found(1_000_998, 0, 1));
        assert_eq!(coarse(1_000), Answer::found(1_000_000, 0, 1));
        for q in [0, 1_001, (1 << 32) + 1, usize::MAX] {
            assert_eq!(coarse(q), Answer::refused(9, q));
        }
    }
}

#[test]
fn order_of_the_refusals() {
    for forms in BOTH {
        let exact = |graph: &Graph, s, t| (forms.exact)(graph.events, graph.rules(), s, t);
        let coarse = |graph: &Graph, s, t, q| (forms.coarse)(graph.events, graph.rules(), s, t, q);
        // numbers before rules: 2 in rule 1 comes before 3 in rule 0
        assert_eq!(exact(&Graph::new(2, &[(0, 1, 2, 1), (0, 2, 0, 0)]), 9, 9), Answer::refused(2, 1));
        assert_eq!(exact(&Graph::new(2, &[(0, 1, 0, 0), (1 << 32, 1, 0, 0)]), 0, 0), Answer::refused(2, 1));
        assert_eq!(exact(&Graph::new(2, &[(1, 1, 2, 1)]), 9, 9), Answer::refused(3, 0));
        assert_eq!(exact(&Graph::new(2, &[(1, 1, 1, 1)]), 2, 9), Answer::refused(4, 0));
        assert_eq!(exact(&Graph::new(2, &[(1, 1, 1, 1)]), 0, 2), Answer::refused(4, 1));
        assert_eq!(coarse(&Graph::new(2, &[(1, 1, 1, 1)]), 0, 2, 0), Answer::refused(4, 1));
        assert_eq!(coarse(&Graph::new(2, &[(1, 1, 1, 1)]), 0, 1, 0), Answer::refused(9, 0));
        assert_eq!(coarse(&Graph::new(2, &[(1, 1, 1, 1)]), 0, 1, 5), Answer::refused(5, 1));
        // a cycle and an unreached event
        assert_eq!(exact(&Graph::new(3, &[(1, 1, 0, 0)]), 0, 0), Answer::refused(5, 1));
        // event 2 stands behind the cycle of 3 and 4
        let behind = [(0, 1, 0, 0), (3, 4, 0, 0), (4, 3, 0, 0), (3, 2, 0, 0), (0, 3, 0, 0)];
        assert_eq!(exact(&Graph::new(5, &behind), 0, 0), Answer::refused(5, 3));
        assert_eq!(exact(&Graph::new(2, &[(1, 0, 0, 0)]), 0, 0), Answer::refused(6, 1));
        assert_eq!(exact(&Graph::new(3, &[(0, 1, 0, 0), (2, 1, 0, 0)]), 0, 0), Answer::refused(6, 2));
        assert_eq!(exact(&Graph::new(1_024, &[]), 0, 0), Answer::refused(6, 1));
    }
}

#[test]
fn lent_lists_are_held_to_their_needs() {
    for forms in BOTH {
        let graph = row();
        for (times_length, delays_length) in [(3, 3), (4, 2), (0, 0)] {
            let (mut times, mut delays) = (lent_list(times_length), lent_list(delays_length));
            let answer = (forms.schedule)(4, graph.rules(), 2, 3, &mut times, &mut delays);
            assert_eq!(answer, Answer::refused(23, 0));
            assert_eq!((times, delays), (lent_list(times_length), lent_list(delays_length)));
        }
        // a short list comes before an unknown event
        let unknown = Graph::new(1, &[(0, 7, 0, 0)]);
        let answer = (forms.schedule)(1, unknown.rules(), 0, 0, &mut lent_list(1), &mut []);
        assert_eq!(answer, Answer::refused(23, 0));
        // and after the counts
        let many = Graph::new(2, &[(0, 1, 0, 0); 4_097]);
        let answer = (forms.schedule)(2, many.rules(), 0, 0, &mut [], &mut []);
        assert_eq!(answer, Answer::refused(22, 0));
        // every event is scheduled, also one with no path to s
        let star = Graph::new(3, &[(0, 1, 0, 5), (0, 2, 0, 5)]);
        let (mut times, mut delays) = (lent_list(3), lent_list(2));
        (forms.schedule)(3, star.rules(), 1, 1, &mut times, &mut delays);
        assert_eq!((times, delays), (vec![0, 0, 5], vec![0, 5]));
    }
}

#[test]
fn limits_of_the_unfolding() {
    let one = Graph::new(31, &[(0, 30, 1, 2)]);
    let crossed = Graph::new(2, &[(0, 1, 2, 1), (0, 2, 0, 0)]);
    let four = Graph::new(1, &[(0, 0, 0, 0); 4]);
    for forms in BOTH {
        let unfold = |p, copies, graph: &Graph, marks: &[usize], room: usize| {
            let mut out = Written::lent([room; 4]);
            let starts = vec![0; graph.rules().sources.len()];
            let templates = Templates { rules: graph.rules(), marks, start_leasts: &starts, start_mosts: &starts };
            let answer = (forms.unfold)(p, copies, templates, &mut out);
            (answer, out == Written::lent([room; 4]))
        };
        let refused = |number, place| (Unfolded::refused(number, place), true);
        assert_eq!(unfold(31, 33, &one, &[1], 33), (Unfolded::found(1_024, 33), false));
        assert_eq!(unfold(31, 34, &one, &[1], 34), refused(24, 0));
        assert_eq!(unfold(31, 33, &one, &[1], 32), refused(23, 0));
        assert_eq!(unfold(31, 33, &one, &[], 33), refused(22, 0));
        assert_eq!(unfold(0, 1, &one, &[1], 33), refused(21, 0));
        assert_eq!(unfold(31, 0, &one, &[1], 33), refused(24, 0));
        assert_eq!(unfold(0, 0, &one, &[], 0), refused(21, 0));
        assert_eq!(unfold(1_024, 1, &one, &[1], 33), refused(21, 0));
        assert_eq!(unfold(1_023, 2, &one, &[1], 0), refused(24, 0));
        assert_eq!(unfold(31, 0, &one, &[], 0), refused(22, 0));
        assert_eq!(unfold(1 << 63, 2, &one, &[1], 33), refused(21, 0));
        assert_eq!(unfold(2, 1 << 63, &one, &[1], 33), refused(24, 0));
        assert_eq!(unfold(1, 1 << 62, &four, &[0; 4], 33), refused(24, 0));
        assert_eq!(unfold(1, 1_023, &four, &[0; 4], 5_000), (Unfolded::found(1_024, 4_092), false));
        assert_eq!(unfold(30, 33, &one, &[2], 33), refused(2, 0));
        assert_eq!(unfold(2, 1, &crossed, &[5, 5], 2), refused(2, 1));
        assert_eq!(unfold(3, 1, &crossed, &[5, 5], 2), refused(3, 0));
        assert_eq!(unfold(31, 33, &one, &[2], 33), refused(7, 0));
        assert_eq!(unfold(31, 33, &one, &[(1 << 32) + 1], 33), refused(7, 0));
        assert_eq!(unfold(3, 2, &Graph::new(3, &[]), &[], 0), (Unfolded::found(7, 0), true));
        let many = Graph::new(2, &vec![(0, 1, 0, 0); 1_366]);
        assert_eq!(unfold(2, 3, &many, &[0; 1_366], 5_000), refused(24, 0));
        let fewer = Graph::new(2, &vec![(0, 1, 0, 0); 1_365]);
        assert_eq!(unfold(2, 3, &fewer, &[0; 1_365], 5_000), (Unfolded::found(7, 4_095), false));
    }
}
