//! Timing, in turns, by the monotonic clock.
use std::env;
use std::time::Instant;

/// How often each is timed, and how long each time at least.
pub struct Effort {
    rounds: usize,
    nanoseconds: f64,
}

impl Effort {
    pub fn of_environment() -> Effort {
        let number = |name: &str, other: usize| env::var(name).map_or(other, |text| text.parse().expect(name));
        Effort { rounds: number("ROUNDS", 15), nanoseconds: number("MILLISECONDS", 50) as f64 * 1e6 }
    }
}

/// The nanoseconds that so many runs take.
fn nanoseconds(runs: usize, run: &mut impl FnMut()) -> f64 {
    let start = Instant::now();
    for _ in 0..runs {
        run();
    }
    start.elapsed().as_nanos() as f64
}

/// The least nanoseconds of one run of each of K, over all rounds. Each round times the K in turn, each with runs enough to take the time asked.
pub fn best_of<const K: usize>(effort: &Effort, run: &mut impl FnMut(usize)) -> [f64; K] {
    let mut runs = [1; K];
    for (which, runs) in runs.iter_mut().enumerate() {
        while nanoseconds(*runs, &mut || run(which)) < effort.nanoseconds {
            *runs *= 2;
        }
    }
    let mut best = [f64::INFINITY; K];
    for _ in 0..effort.rounds {
        for which in 0..K {
            best[which] = best[which].min(nanoseconds(runs[which], &mut || run(which)) / runs[which] as f64);
        }
    }
    best
}
