//! Claims: 02's cases, the library against plain Rust on random claims, and every schedule that the library writes.

use crankforest_tests::claims::{judge, plain_judgement, Claim, Judged, BELOW, DIFFERS, MAXIMUM};
use crankforest_tests::graphs::{accepted, any, draw_event, draw_length};
use crankforest_tests::library::{self, Graph};
use crankforest_tests::programs::cases;
use crankforest_tests::random::Random;

fn claim(s: usize, t: usize, gap: i64, times: &[i64], delays: &[i64]) -> Claim {
    Claim { s, t, gap, times: times.to_vec(), delays: delays.to_vec() }
}

fn fork() -> Graph {
    Graph::new(4, &[(0, 1, 2, 5), (0, 2, 1, 3), (1, 3, 0, 0), (2, 3, 0, 0)])
}

fn said(graph: &Graph, claim: &Claim) -> Judged {
    let judged = judge(graph.events, graph.rules(), claim);
    assert_eq!(judged, plain_judgement(graph.events, graph.rules(), claim), "{:?} {:?}", graph, claim);
    judged
}

#[test]
fn a_claim_of_the_fork() {
    let fork = fork();
    let (times, delays) = ([0, 5, 1, 5], [5, 1, 0, 0]);
    assert_eq!(said(&fork, &claim(2, 3, 4, &times, &delays)), Judged::said(MAXIMUM));
    assert_eq!(said(&fork, &claim(0, 3, 5, &times, &delays)), Judged::said(MAXIMUM));
    assert_eq!(said(&fork, &claim(3, 2, -4, &times, &delays)), Judged::said(BELOW));
    assert_eq!(said(&fork, &claim(2, 3, 3, &times, &delays)), Judged::said(DIFFERS));
    assert_eq!(said(&fork, &claim(2, 3, i64::MIN, &times, &delays)), Judged::said(DIFFERS));
    assert_eq!(said(&fork, &claim(1, 1, 0, &times, &delays)), Judged::said(MAXIMUM));
    assert_eq!(said(&fork, &claim(1, 1, 1, &times, &delays)), Judged::said(DIFFERS));
}

#[test]
fn the_lowest_broken_event() {
    let fork = fork();
    // the delay into 3 is outside, and the time of 2 is wrong
    assert_eq!(said(&fork, &claim(2, 3, 4, &[0, 5, 2, 5], &[5, 1, 0, 1])), Judged::broken(2));
    // a delay outside whose sum still is its target's time
    assert_eq!(said(&fork, &claim(2, 3, 4, &[0, 6, 1, 6], &[6, 1, 0, 0])), Judged::broken(1));
    // a rule meets 3, and another passes it
    assert_eq!(said(&fork, &claim(2, 3, 0, &[0, 5, 1, 1], &[5, 1, 0, 0])), Judged::broken(3));
    // no rule reaches 3
    assert_eq!(said(&fork, &claim(2, 3, 5, &[0, 5, 1, 6], &[5, 1, 0, 0])), Judged::broken(3));
    // the root wins over all, the number comes last
    assert_eq!(said(&fork, &claim(2, 3, 9, &[1, 9, 9, 9], &[9, 9, 9, 9])), Judged::broken(0));
}

#[test]
fn no_sum_wraps() {
    let graph = Graph::new(3, &[(0, 2, 0, 0), (2, 1, 0, 1)]);
    assert_eq!(said(&graph, &claim(0, 1, 0, &[0, i64::MIN, i64::MAX], &[0, 1])), Judged::broken(1));
    let far = 1 << 62;
    assert_eq!(said(&graph, &claim(0, 1, far, &[0, far, far], &[0, 0])), Judged::broken(2));
    let back = Graph::new(3, &[(0, 2, 0, 0), (2, 1, -1, 0)]);
    assert_eq!(said(&back, &claim(0, 1, 0, &[0, i64::MAX, i64::MIN], &[0, -1])), Judged::broken(1));
}

#[test]
fn the_refusals_of_a_claim() {
    let fork = fork();
    let (times, delays) = ([0i64, 5, 1, 5, 5], [5i64, 1, 0, 0, 0]);
    for (n, r) in [(3, 4), (5, 4), (4, 3), (4, 5), (0, 0)] {
        assert_eq!(said(&fork, &claim(2, 3, 4, &times[..n], &delays[..r])), Judged::refused(22, 0));
    }
    // wrong lists before a missing event, and an event count before wrong lists
    assert_eq!(said(&fork, &claim(9, 3, 4, &times, &delays[..4])), Judged::refused(22, 0));
    assert_eq!(said(&fork, &claim(9, 3, 4, &times[..4], &delays[..4])), Judged::refused(4, 0));
    assert_eq!(judge(1_025, fork.rules(), &claim(2, 3, 4, &times, &delays)), Judged::refused(21, 0));
    assert_eq!(judge(0, fork.rules(), &claim(2, 3, 4, &[], &delays[..4])), Judged::refused(21, 0));
}

/// The schedule that the library writes against s, as a claim of the gap to t.
fn schedule(graph: &Graph, s: usize, t: usize) -> Claim {
    let (mut times, mut delays) = (vec![0; graph.events], vec![0; graph.sources.len()]);
    let answer = library::schedule(graph.events, graph.rules(), s, t, &mut times, &mut delays);
    assert_eq!(answer.refusal, 0, "{:?}", graph);
    Claim { s, t, gap: answer.separation, times, delays }
}

/// Every schedule that we write is accepted as the maximum. With one time moved by a tick, one delay raised by a tick, or another number it never is; with one delay
/// lowered it is an execution with the same times, or broken.
#[test]
fn our_own_schedules() {
    let mut random = Random::new(51);
    for _ in 0..cases(1_500) {
        let n = 1 + random.below(12);
        let r = n - 1 + if n > 1 { random.below(14) } else { 0 };
        let graph = accepted(&mut random, n, r);
        let own = schedule(&graph, random.below(n), random.below(n));
        assert_eq!(said(&graph, &own), Judged::said(MAXIMUM), "{:?} {:?}", graph, own);
        for tick in [-1, 1] {
            let mut other = own.clone();
            other.gap += tick;
            assert_eq!(said(&graph, &other), Judged::said(DIFFERS));
            for v in 0..n {
                let mut moved = own.clone();
                moved.times[v] += tick;
                assert_eq!(said(&graph, &moved).verdict, 3, "{:?} {:?}", graph, moved);
            }
            for i in 0..graph.sources.len() {
                let mut moved = own.clone();
                moved.delays[i] += tick;
                let judged = said(&graph, &moved);
                assert!(judged == Judged::broken(graph.targets[i]) || (tick < 0 && judged == Judged::said(MAXIMUM)));
            }
        }
    }
}

/// Claims of any kind: schedules with places changed, lists of other lengths, numbers near both ends of 64 bits.
#[test]
fn any_claims() {
    let mut random = Random::new(52);
    for _ in 0..cases(30_000) {
        let graph = any(&mut random, 10);
        let (n, r) = (graph.events, graph.sources.len());
        let (s, t) = (draw_event(&mut random, n), draw_event(&mut random, n));
        let exact = library::exact(n, graph.rules(), s, t);
        let mut claim = match exact.refusal {
            0 if !random.once_in(8) => schedule(&graph, s, t),
            _ => {
                let lengths = (draw_length(&mut random, n), draw_length(&mut random, r));
                Claim { s, t, gap: 0, times: vec![0; lengths.0], delays: vec![0; lengths.1] }
            }
        };
        change(&mut random, &mut claim);
        said(&graph, &claim);
    }
}

fn change(random: &mut Random, claim: &mut Claim) {
    let ends = [
        i64::MIN,
        i64::MIN + 1,
        -1_000_001,
        -1,
        0,
        1,
        1_000_000,
        1 << 62,
        i64::MAX - 1_000_000,
        i64::MAX - 1,
        i64::MAX,
    ];
    for _ in 0..random.below(4) {
        let list = if random.once_in(2) { &mut claim.times } else { &mut claim.delays };
        if !list.is_empty() {
            let at = random.below(list.len());
            list[at] =
                if random.once_in(3) { random.pick(&ends) } else { list[at].saturating_add(random.between(-3, 3)) };
        }
    }
    if random.once_in(4) {
        claim.gap = if random.once_in(2) { random.pick(&ends) } else { claim.gap + random.between(-2, 2) };
    }
}
