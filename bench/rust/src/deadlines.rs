//! Hard deadlines: the library beside plain Rust, on graphs whose deadlines can be met and on graphs whose can't.
use crate::graphs::{self, Lists, Numbers};
use crate::plain::{self, Graph, EVENTS};
use crate::timing::{best_of, Effort};

const SIZES: [(usize, usize); 3] = [(64, 256), (256, 1024), (1024, 4096)];
const QUESTIONS: usize = 16;

/// What is answered: the refusal's number (0 for none) and place, both ends and both depths.
#[derive(Clone, Copy, Debug, Default, PartialEq, Eq)]
struct Answer {
    refusal: usize,
    place: usize,
    least: i64,
    most: i64,
    source_depth: usize,
    target_depth: usize,
}

#[rustfmt::skip]
extern "C" {
    fn crankforest_hard(
        n: usize, sources: *const usize, sources_length: usize, targets: *const usize, targets_length: usize,
        leasts: *const i64, leasts_length: usize, mosts: *const i64, mosts_length: usize, s: usize, t: usize,
        place: *mut usize, least: *mut i64, most: *mut i64, source_depth: *mut usize, target_depth: *mut usize,
    ) -> usize;
}

type Engine = fn(&Graph, usize, usize) -> Answer;

const ENGINES: [Engine; 2] = [library, rust];

fn library(g: &Graph, s: usize, t: usize) -> Answer {
    let mut answer = Answer::default();
    // SAFETY: each list is handed over with its own length, and the five places are the answer's own.
    answer.refusal = unsafe {
        crankforest_hard(
            g.n,
            g.sources.as_ptr(),
            g.sources.len(),
            g.targets.as_ptr(),
            g.targets.len(),
            g.leasts.as_ptr(),
            g.leasts.len(),
            g.mosts.as_ptr(),
            g.mosts.len(),
            s,
            t,
            &mut answer.place,
            &mut answer.least,
            &mut answer.most,
            &mut answer.source_depth,
            &mut answer.target_depth,
        )
    };
    answer
}

/// Rounds over the rules until nothing changes, n at most. False where the n-th still changes something.
fn settle(graph: &Graph, gaps: &mut [i64]) -> bool {
    let Graph { n, sources, targets, leasts, mosts } = *graph;
    for _ in 0..n {
        let mut changed = false;
        for i in 0..sources.len() {
            let (source, target) = (sources[i], targets[i]);
            if gaps[source] + mosts[i] < gaps[target] {
                gaps[target] = gaps[source] + mosts[i];
                changed = true;
            }
            if gaps[target] - leasts[i] < gaps[source] {
                gaps[source] = gaps[target] - leasts[i];
                changed = true;
            }
        }
        if !changed {
            return true;
        }
    }
    false
}

/// The same as a Rust programmer would write it, from the ordinary latest times on.
fn rust(graph: &Graph, s: usize, t: usize) -> Answer {
    let (mut against_s, mut against_t) = ([0; EVENTS], [0; EVENTS]);
    let found = match plain::analyse(graph, s, t, &mut against_s) {
        Ok(found) => found,
        Err(refusal) => return Answer { refusal: refusal.number, place: refusal.place, ..Answer::default() },
    };
    if !settle(graph, &mut against_s) {
        return Answer { refusal: 10, ..Answer::default() };
    }
    let again = plain::analyse(graph, t, s, &mut against_t);
    assert!(again.is_ok() && settle(graph, &mut against_t));
    Answer { least: -against_t[s], most: against_s[t], source_depth: found.source_depth, target_depth: found.target_depth, ..Answer::default() }
}

/// A graph whose deadlines can be met: each event has a time, and a rule's interval holds the difference of its two times.
fn meetable(numbers: &mut Numbers, n: usize, r: usize) -> Lists {
    let mut lists = graphs::forward(numbers, n, r);
    let times: Vec<i64> = (0..n).map(|_| numbers.between(0, 99_999)).collect();
    for i in 0..r {
        let between = times[lists.targets[i]] - times[lists.sources[i]];
        lists.leasts[i] = between - numbers.between(0, 999);
        lists.mosts[i] = between + numbers.between(0, 999);
    }
    lists
}

/// The table of hard deadlines.
pub fn table(effort: &Effort) {
    println!("\n### Hard deadlines\n");
    println!("| n | r | deadlines | Rattle, µs | Rust, µs | Rattle / Rust |");
    println!("|---|---|---|---|---|---|");
    for (n, r) in SIZES {
        for (name, can_be_met) in [("met", true), ("not met", false)] {
            let mut numbers = Numbers::from(7);
            let lists = if can_be_met { meetable(&mut numbers, n, r) } else { graphs::forward(&mut numbers, n, r) };
            let questions: Vec<(usize, usize)> = (0..QUESTIONS).map(|_| (numbers.below(n), numbers.below(n))).collect();
            let answer = |&(s, t): &(usize, usize)| {
                let [a, b] = ENGINES.map(|engine| engine(&lists.graph(), s, t));
                assert_eq!(a, b, "library and rust");
                assert_eq!(a.refusal, if can_be_met { 0 } else { 10 });
                a
            };
            let due: Vec<Answer> = questions.iter().map(answer).collect();
            let mut cycle = |which: usize| {
                for (&(s, t), &answer) in questions.iter().zip(&due) {
                    assert_eq!(ENGINES[which](&lists.graph(), s, t), answer);
                }
            };
            let [a, b] = best_of(effort, &mut cycle).map(|time| time / QUESTIONS as f64 / 1000.0);
            println!("| {} | {} | {} | {:.1} | {:.1} | {:.2} |", n, r, name, a, b, a / b);
        }
    }
}
