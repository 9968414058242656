//! The library against plain Rust on random graphs, small and large, right and wrong; and demand 3's limits.

use crankforest_tests::programs::cases;
use crankforest_tests::graphs::{
    accepted, any, any_process, careless, draw_event, draw_interval, draw_length, draw_step, some_delays,
};
use crankforest_tests::library::{self, lent_list, Answer, Graph, HardAnswer, Rules, Written, BEHIND};
use crankforest_tests::plain;
use crankforest_tests::random::Random;

/// Asks all three forms of both; the exact answer.
fn compare(random: &mut Random, graph: &Graph) -> Answer {
    let (n, rules) = (graph.events, graph.rules());
    let (s, t) = (draw_event(random, n), draw_event(random, n));
    let exact = library::exact(n, rules, s, t);
    assert_eq!(exact, plain::exact(n, rules, s, t), "exact, s = {}, t = {}: {:?}", s, t, graph);
    let q = draw_step(random);
    let coarse = library::coarse(n, rules, s, t, q);
    assert_eq!(coarse, plain::coarse(n, rules, s, t, q), "coarse, s = {}, t = {}, q = {}: {:?}", s, t, q, graph);
    let lengths = (draw_length(random, n), draw_length(random, rules.sources.len()));
    compare_schedule(graph, s, t, lengths);
    if exact.refusal == 0 && coarse.refusal == 0 {
        check_cost(q, exact, coarse);
    }
    exact
}

fn compare_schedule(graph: &Graph, s: usize, t: usize, lengths: (usize, usize)) {
    let (mut times, mut delays) = (lent_list(lengths.0 + BEHIND), lent_list(lengths.1 + BEHIND));
    let (mut due_times, mut due_delays) = (times.clone(), delays.clone());
    let lent = (&mut times[..lengths.0], &mut delays[..lengths.1]);
    let answer = library::schedule(graph.events, graph.rules(), s, t, lent.0, lent.1);
    let due_lent = (&mut due_times[..lengths.0], &mut due_delays[..lengths.1]);
    let due = plain::schedule(graph.events, graph.rules(), s, t, due_lent.0, due_lent.1);
    assert_eq!(answer, due, "schedule, s = {}, t = {}, lent {:?}: {:?}", s, t, lengths, graph);
    assert_eq!((times, delays), (due_times, due_delays), "s = {}, t = {}, lent {:?}: {:?}", s, t, lengths, graph);
}

/// Demand 3: coarse is never below exact, and at most (q - 1) x (sum of the depths) above it.
fn check_cost(q: usize, exact: Answer, coarse: Answer) {
    let depths = (exact.source_depth + exact.target_depth) as i64;
    let cost = coarse.separation - exact.separation;
    assert!(0 <= cost && cost <= (q as i64 - 1) * depths, "q = {}, {:?}, {:?}", q, exact, coarse);
}

#[test]
fn small_graphs() {
    let mut random = Random::new(11);
    let count = (0..cases(40_000))
        .filter(|_| {
            let graph = any(&mut random, 12);
            compare(&mut random, &graph).refusal == 0
        })
        .count();
    assert!(count > cases(15_000), "too few graphs were accepted: {}", count);
}

#[test]
fn middle_graphs() {
    let mut random = Random::new(12);
    for _ in 0..cases(3_000) {
        let graph = any(&mut random, 200);
        compare(&mut random, &graph);
    }
}

#[test]
fn large_graphs() {
    let mut random = Random::new(13);
    for i in 0..300 {
        let n = if i % 3 == 0 { 1_024 } else { 512 + random.below(513) };
        let r = if i % 4 == 0 { 4_096 } else { n + random.below(3_000) };
        let graph = accepted(&mut random, n, r);
        compare(&mut random, &graph);
    }
}

#[test]
fn large_graphs_that_are_refused() {
    let mut random = Random::new(14);
    for _ in 0..100 {
        let graph = careless(&mut random, 1_024, 4_096);
        compare(&mut random, &graph);
        let mut late = accepted(&mut random, 1_023, 4_000);
        late.events = 1_024;
        compare(&mut random, &late);
        let many = accepted(&mut random, 1_024, 4_097);
        compare(&mut random, &many);
    }
}

#[test]
fn every_pair_of_one_graph() {
    let mut random = Random::new(15);
    for _ in 0..40 {
        let graph = accepted(&mut random, 24, 60);
        for s in 0..24 {
            for t in 0..24 {
                let (n, rules) = (graph.events, graph.rules());
                assert_eq!(library::exact(n, rules, s, t), plain::exact(n, rules, s, t), "{} {} {:?}", s, t, graph);
            }
        }
    }
}

/// The schedule of a large graph is an execution and reaches the answer: by 01's words, with no other analysis.
#[test]
fn large_schedules_are_executions() {
    let mut random = Random::new(16);
    for _ in 0..100 {
        let n = 2 + random.below(1_023);
        let graph = accepted(&mut random, n, (2 * n).min(4_096));
        let r = graph.sources.len();
        let (s, t) = (random.below(n), random.below(n));
        let (mut times, mut delays) = (lent_list(n), lent_list(r));
        let answer = library::schedule(n, graph.rules(), s, t, &mut times, &mut delays);
        assert_eq!(answer.refusal, 0);
        assert_eq!(answer.separation, times[t] - times[s]);
        check_execution(graph.rules(), &times, &delays);
    }
}

fn check_execution(rules: Rules, times: &[i64], delays: &[i64]) {
    let mut latest: Vec<Option<i64>> = vec![None; times.len()];
    latest[0] = Some(0);
    for i in 0..delays.len() {
        assert!(rules.leasts[i] <= delays[i] && delays[i] <= rules.mosts[i], "rule {}", i);
        let arrival = times[rules.sources[i]] + delays[i];
        let target = rules.targets[i];
        latest[target] = latest[target].max(Some(arrival));
    }
    for (v, time) in times.iter().enumerate() {
        assert_eq!(latest[v], Some(*time), "event {}", v);
    }
}

/// Demand 3: graphs whose delays differ by at most e have answers that differ by at most e x (sum of the depths).
#[test]
fn near_graphs_have_near_answers() {
    let mut random = Random::new(17);
    for i in 0..cases(4_000) {
        let n = if i % 20 == 0 { 1_024 } else { 1 + random.below(40) };
        let graph = accepted(&mut random, n, 2 * n);
        let e = random.pick(&[0, 1, 2, 10, 1_000, 500_000]);
        let near = moved(&mut random, &graph, e);
        let (s, t) = (random.below(n), random.below(n));
        let a = library::exact(n, graph.rules(), s, t);
        let b = library::exact(n, near.rules(), s, t);
        assert_eq!((a.refusal, b.refusal), (0, 0));
        let limit = e * (a.source_depth + a.target_depth) as i64;
        assert!((a.separation - b.separation).abs() <= limit, "e = {}, {:?}, {:?}", e, a, b);
        assert_eq!((a.source_depth, a.target_depth), (b.source_depth, b.target_depth));
    }
}

/// The graph with every delay moved by at most e.
fn moved(random: &mut Random, graph: &Graph, e: i64) -> Graph {
    let mut near = graph.clone();
    for i in 0..near.leasts.len() {
        let (least, most) = (near.leasts[i], near.mosts[i]);
        near.leasts[i] = random.between((least - e).max(-1_000_000), (least + e).min(most));
        near.mosts[i] = random.between((most - e).max(near.leasts[i]).min(most), (most + e).min(1_000_000));
    }
    near
}

/// Asks both forms under hard deadlines of both; the answer.
fn compare_hard(random: &mut Random, graph: &Graph) -> HardAnswer {
    let (n, rules) = (graph.events, graph.rules());
    let (s, t) = (draw_event(random, n), draw_event(random, n));
    let hard = library::hard(n, rules, s, t);
    assert_eq!(hard, plain::hard(n, rules, s, t), "hard, s = {}, t = {}: {:?}", s, t, graph);
    let lengths = (draw_length(random, n), draw_length(random, rules.sources.len()));
    let (mut times, mut delays) = (lent_list(lengths.0 + BEHIND), lent_list(lengths.1 + BEHIND));
    let (mut due_times, mut due_delays) = (times.clone(), delays.clone());
    let lent = (&mut times[..lengths.0], &mut delays[..lengths.1]);
    let answer = library::hard_schedule(n, rules, s, t, lent.0, lent.1);
    let due_lent = (&mut due_times[..lengths.0], &mut due_delays[..lengths.1]);
    let due = plain::hard_schedule(n, rules, s, t, due_lent.0, due_lent.1);
    assert_eq!(answer, due, "hard schedule, s = {}, t = {}, lent {:?}: {:?}", s, t, lengths, graph);
    assert_eq!((times, delays), (due_times, due_delays), "s = {}, t = {}, lent {:?}: {:?}", s, t, lengths, graph);
    hard
}

/// The graph with delays that hold the differences of some times, so that these times meet every rule.
fn meetable(random: &mut Random, graph: &Graph) -> Graph {
    let times: Vec<i64> = (0..graph.events).map(|_| random.below(200_000) as i64 - 100_000).collect();
    let mut met = Graph::new(graph.events, &[]);
    for (&source, &target) in graph.sources.iter().zip(&graph.targets) {
        let between = times[target] - times[source];
        met.add(source, target, between - random.below(1_000) as i64, between + random.below(1_000) as i64);
    }
    met
}

#[test]
fn hard_deadlines() {
    let mut random = Random::new(29);
    let mut seen = [0; 25];
    for _ in 0..cases(20_000) {
        let graph = any(&mut random, 12);
        seen[compare_hard(&mut random, &graph).refusal] += 1;
    }
    assert!(seen[0] > 0 && seen[10] > 0, "{:?}", seen);
    for i in 0..cases(400) {
        let n = if i % 20 == 0 { 1_024 } else { 1 + random.below(100) };
        let graph = accepted(&mut random, n, 4 * n);
        let met = meetable(&mut random, &graph);
        let (s, t) = (random.below(n), random.below(n));
        let hard = library::hard(n, met.rules(), s, t);
        assert_eq!(hard, plain::hard(n, met.rules(), s, t), "{:?}", met);
        assert_eq!(hard.refusal, 0);
        let ordinary = library::exact(n, met.rules(), s, t);
        assert!(hard.least <= hard.most && hard.most <= ordinary.separation, "{:?}, {:?}", hard, ordinary);
    }
}

#[test]
fn near_graphs_have_near_answers_under_hard_deadlines() {
    let mut random = Random::new(31);
    let mut both = 0;
    for _ in 0..cases(4_000) {
        let n = 1 + random.below(12);
        let r = n + random.below(n);
        let graph = accepted(&mut random, n, r);
        let graph = meetable(&mut random, &graph);
        let e = random.pick(&[0, 1, 2, 10, 1_000]);
        let near = moved(&mut random, &graph, e);
        let (s, t) = (random.below(n), random.below(n));
        let (a, b) = (library::hard(n, graph.rules(), s, t), library::hard(n, near.rules(), s, t));
        if (a.refusal, b.refusal) == (0, 0) {
            let limit = e * (n as i64 - 1);
            let far = (a.most - b.most).abs().max((a.least - b.least).abs());
            assert!(far <= limit, "e = {}, {:?}, {:?}", e, a, b);
            both += 1;
        }
    }
    assert!(both > 0);
    // a chain of n events meets the limit
    let chain = |most| Graph::new(4, &[(0, 1, 0, most), (1, 2, 0, most), (2, 3, 0, most)]);
    let [a, b] = [10, 13].map(|most| library::hard(4, chain(most).rules(), 0, 3).most);
    assert_eq!(b - a, 3 * 3);
}

/// A chain of rules [0, 0] moved to [e, e] or [-e, -e] meets the limit exactly.
#[test]
fn the_limit_of_near_graphs_is_met() {
    let chain = |delay: i64| {
        let mut graph = Graph::new(5, &[]);
        for (source, target) in [(0, 1), (1, 2), (0, 3), (3, 4)] {
            let delay = if target > 2 { delay } else { -delay };
            graph.add(source, target, delay, delay);
        }
        graph
    };
    let answer = |delay: i64| library::exact(5, chain(delay).rules(), 2, 4);
    assert_eq!(answer(0), Answer::found(0, 2, 2));
    assert_eq!(answer(7), Answer::found(7 * 4, 2, 2));
}

/// Chains with delays of 1 tick: rounding to q costs (q - 1) x (sum of the depths), which meets the limit exactly.
#[test]
fn the_limit_of_rounding_is_met() {
    for q in [2, 3, 10, 1_000] {
        let delay = q as i64 - 1;
        let graph = Graph::new(5, &[(0, 1, delay, delay), (1, 2, delay, delay), (0, 3, 1, 1), (3, 4, 1, 1)]);
        let exact = library::exact(5, graph.rules(), 2, 4);
        let coarse = library::coarse(5, graph.rules(), 2, 4, q);
        assert_eq!(coarse.separation - exact.separation, (q as i64 - 1) * 4, "q = {}", q);
    }
}

#[test]
fn coarse_with_step_1_is_exact() {
    let mut random = Random::new(18);
    for _ in 0..cases(2_000) {
        let graph = accepted(&mut random, 20, 40);
        let (s, t) = (random.below(20), random.below(20));
        assert_eq!(library::coarse(20, graph.rules(), s, t, 1), library::exact(20, graph.rules(), s, t));
    }
}

#[test]
fn rounding_of_one_rule() {
    let mut random = Random::new(19);
    for _ in 0..cases(20_000) {
        let delays = some_delays(&mut random);
        let (least, most) = draw_interval(&mut random, delays);
        let q = 1 + random.below(1_000);
        let graph = Graph::new(2, &[(0, 1, least, most)]);
        let up = library::coarse(2, graph.rules(), 0, 1, q).separation;
        let down = -library::coarse(2, graph.rules(), 1, 0, q).separation;
        let step = q as i64;
        assert!(up % step == 0 && most <= up && up < most + step, "{} up to {} gave {}", most, q, up);
        assert!(down % step == 0 && down <= least && least < down + step, "{} down to {} gave {}", least, q, down);
    }
}

#[test]
fn unfoldings() {
    let mut random = Random::new(20);
    let mut found = 0;
    for _ in 0..cases(20_000) {
        let process = any_process(&mut random);
        let needed = process.graph.sources.len().saturating_mul(process.copies);
        let lengths = [0; 4].map(|_| if random.once_in(2) { 4_100 } else { draw_length(&mut random, needed) });
        let (mut got, mut due) = (Written::lent(lengths), Written::lent(lengths));
        let answer = library::unfold(process.graph.events, process.copies, process.templates(), &mut got);
        let due_answer = plain::unfold(process.graph.events, process.copies, process.templates(), &mut due);
        assert_eq!(answer, due_answer, "lent {:?}: {:?}", lengths, process);
        assert!(got == due, "the lists differ, lent {:?}: {:?}", lengths, process);
        found += usize::from(answer.refusal == 0);
    }
    assert!(found > cases(7_000), "too few were accepted: {}", found);
}

/// An unfolding is handed on to the analysis, which refuses it only with 5 or 6.
#[test]
fn unfoldings_handed_on() {
    let mut random = Random::new(21);
    for _ in 0..cases(5_000) {
        let process = any_process(&mut random);
        let mut out = Written::lent([4_096; 4]);
        let unfolded = library::unfold(process.graph.events, process.copies, process.templates(), &mut out);
        if unfolded.refusal == 0 {
            let rules = out.as_rules(unfolded.rules);
            let (s, t) = (random.below(unfolded.events), random.below(unfolded.events));
            let answer = library::exact(unfolded.events, rules, s, t);
            assert!([0, 5, 6].contains(&answer.refusal), "{:?}: {:?}", answer, process);
            assert_eq!(answer, plain::exact(unfolded.events, rules, s, t), "{:?}", process);
        }
    }
}
