//! The table of claims: the library judging its own schedules, beside plain Rust and beside the library's analysis alone, which is a part of it.
use crate::engines::{Answer, ENGINES};
use crate::graphs::{self, Lists, Numbers};
use crate::plain::{self, Graph};
use crate::timing::{best_of, Effort};

const SIZES: [(usize, usize); 3] = [(64, 256), (1024, 2048), (1024, 4096)];

/// The verdict on a claim that equals the maximum.
const MAXIMUM: usize = 1;

#[rustfmt::skip]
extern "C" {
    fn crankforest_schedule(
        n: usize, sources: *const usize, sources_length: usize, targets: *const usize, targets_length: usize,
        leasts: *const i64, leasts_length: usize, mosts: *const i64, mosts_length: usize, s: usize, t: usize,
        times: *mut i64, times_length: usize, delays: *mut i64, delays_length: usize,
        place: *mut usize, separation: *mut i64, source_depth: *mut usize, target_depth: *mut usize,
    ) -> usize;
    fn crankforest_judge(
        n: usize, sources: *const usize, sources_length: usize, targets: *const usize, targets_length: usize,
        leasts: *const i64, leasts_length: usize, mosts: *const i64, mosts_length: usize, s: usize, t: usize, claimed: i64,
        times: *const i64, times_length: usize, delays: *const i64, delays_length: usize,
        place: *mut usize, verdict: *mut usize, event: *mut usize,
    ) -> usize;
}

/// A graph and a claim about the gap from s to t.
struct Case {
    lists: Lists,
    s: usize,
    t: usize,
    gap: i64,
    times: Vec<i64>,
    delays: Vec<i64>,
}

impl Case {
    /// The library's schedule against an event in the middle.
    fn new(n: usize, r: usize) -> Case {
        let lists = graphs::forward(&mut Numbers::from(9), n, r);
        let mut case = Case { lists, s: n / 2, t: n - 1, gap: 0, times: vec![0; n], delays: vec![0; r] };
        let (g, mut answer) = (case.lists.graph(), Answer::default());
        // SAFETY: each list is handed over with its own length, and the places are ours.
        let refusal = unsafe {
            crankforest_schedule(
                g.n,
                g.sources.as_ptr(),
                r,
                g.targets.as_ptr(),
                r,
                g.leasts.as_ptr(),
                r,
                g.mosts.as_ptr(),
                r,
                case.s,
                case.t,
                case.times.as_mut_ptr(),
                n,
                case.delays.as_mut_ptr(),
                r,
                &mut answer.place,
                &mut answer.separation,
                &mut answer.source_depth,
                &mut answer.target_depth,
            )
        };
        assert_eq!(refusal, 0);
        case.gap = answer.separation;
        case
    }

    /// The library's verdict.
    fn library(&self) -> usize {
        let (g, r) = (self.lists.graph(), self.delays.len());
        let (mut place, mut verdict, mut event) = (0, 0, 0);
        // SAFETY: as above.
        let refusal = unsafe {
            crankforest_judge(
                g.n,
                g.sources.as_ptr(),
                r,
                g.targets.as_ptr(),
                r,
                g.leasts.as_ptr(),
                r,
                g.mosts.as_ptr(),
                r,
                self.s,
                self.t,
                self.gap,
                self.times.as_ptr(),
                g.n,
                self.delays.as_ptr(),
                r,
                &mut place,
                &mut verdict,
                &mut event,
            )
        };
        assert_eq!(refusal, 0);
        verdict
    }

    /// Plain Rust's verdict: the analysis, then one pass over the rules and one over the events.
    fn rust(&self) -> usize {
        let g = self.lists.graph();
        let found = plain::separation(&g, self.s, self.t).expect("the graph is accepted");
        let broken = broken_event(&g, &self.times, &self.delays);
        let gap = self.times[self.t] - self.times[self.s];
        match broken {
            Some(_) => 3,
            None if gap != self.gap => 4,
            None if gap < found.separation => 2,
            None => MAXIMUM,
        }
    }
}

fn broken_event(g: &Graph, times: &[i64], delays: &[i64]) -> Option<usize> {
    let mut right = vec![true; g.n];
    let mut latest = vec![i128::MIN; g.n];
    latest[0] = 0;
    for i in 0..delays.len() {
        let target = g.targets[i];
        right[target] &= g.leasts[i] <= delays[i] && delays[i] <= g.mosts[i];
        latest[target] = latest[target].max(times[g.sources[i]] as i128 + delays[i] as i128);
    }
    (0..g.n).find(|&v| !right[v] || latest[v] != times[v] as i128)
}

pub fn table(effort: &Effort) {
    println!("\n### Claims\n");
    println!("| n | r | Rattle, ns | Rust, ns | Rattle / Rust | Rattle's analysis alone, ns |");
    println!("|---|---|---|---|---|---|");
    for (n, r) in SIZES {
        let case = Case::new(n, r);
        let mut run = |which: usize| match which {
            0 => assert_eq!(case.library(), MAXIMUM, "library"),
            1 => assert_eq!(case.rust(), MAXIMUM, "rust"),
            _ => assert_eq!(ENGINES[0].1(&case.lists.graph(), case.s, case.t).separation, case.gap),
        };
        let [a, b, alone] = best_of(effort, &mut run);
        println!("| {} | {} | {:.0} | {:.0} | {:.2} | {:.0} |", n, r, a, b, a / b, alone);
    }
}
