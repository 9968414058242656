//! Claims: the entry that judges them, and the same judgement in plain Rust.

use crate::library::Rules;
use crate::plain;

/// The verdicts of a claim that isn't refused.
pub const MAXIMUM: usize = 1;
pub const BELOW: usize = 2;
pub const BROKEN: usize = 3;
pub const DIFFERS: usize = 4;

/// A claimed gap between two events, with its two lists.
#[derive(Clone, Debug)]
pub struct Claim {
    pub s: usize,
    pub t: usize,
    pub gap: i64,
    pub times: Vec<i64>,
    pub delays: Vec<i64>,
}

/// The numbers of a judgement.
#[derive(Clone, Copy, Debug, PartialEq, Eq)]
pub struct Judged {
    pub refusal: usize,
    pub place: usize,
    pub verdict: usize,
    pub event: usize,
}

impl Judged {
    pub fn refused(number: usize, place: usize) -> Judged {
        Judged { refusal: number, place, verdict: 0, event: 0 }
    }

    pub fn said(verdict: usize) -> Judged {
        Judged { refusal: 0, place: 0, verdict, event: 0 }
    }

    pub fn broken(event: usize) -> Judged {
        Judged { refusal: 0, place: 0, verdict: BROKEN, event }
    }
}

extern "C" {
    fn crankforest_judge(
        n: usize,
        sources: *const usize,
        sources_length: usize,
        targets: *const usize,
        targets_length: usize,
        leasts: *const i64,
        leasts_length: usize,
        mosts: *const i64,
        mosts_length: usize,
        s: usize,
        t: usize,
        claimed: i64,
        times: *const i64,
        times_length: usize,
        delays: *const i64,
        delays_length: usize,
        place: *mut usize,
        verdict: *mut usize,
        event: *mut usize,
    ) -> usize;
}

/// The library's judgement.
pub fn judge(n: usize, rules: Rules, claim: &Claim) -> Judged {
    const HELD: usize = 55_555;
    let mut judged = Judged { refusal: HELD, place: HELD, verdict: HELD, event: HELD };
    judged.refusal = unsafe {
        crankforest_judge(
            n,
            rules.sources.as_ptr(),
            rules.sources.len(),
            rules.targets.as_ptr(),
            rules.targets.len(),
            rules.leasts.as_ptr(),
            rules.leasts.len(),
            rules.mosts.as_ptr(),
            rules.mosts.len(),
            claim.s,
            claim.t,
            claim.gap,
            claim.times.as_ptr(),
            claim.times.len(),
            claim.delays.as_ptr(),
            claim.delays.len(),
            &mut judged.place,
            &mut judged.verdict,
            &mut judged.event,
        )
    };
    judged
}

// ---- in plain Rust

/// The refusal of a claim: the analysis's, with 22 for lists that are not exactly n and r long.
fn refusal(n: usize, rules: Rules, claim: &Claim) -> Judged {
    let answer = plain::exact(n, rules, claim.s, claim.t);
    let wrong = claim.times.len() != n || claim.delays.len() != rules.sources.len();
    match answer.refusal {
        21 => Judged::refused(21, 0),
        _ if wrong => Judged::refused(22, 0),
        number => Judged::refused(number, answer.place),
    }
}

/// Whether an execution's rules hold at an event; sums in 128 bits.
fn right(event: usize, rules: Rules, claim: &Claim) -> bool {
    let time = |v: usize| claim.times[v] as i128;
    let into = || (0..rules.sources.len()).filter(|&i| rules.targets[i] == event);
    let inside = into().all(|i| rules.leasts[i] <= claim.delays[i] && claim.delays[i] <= rules.mosts[i]);
    let due = if event == 0 { Some(0) } else { into().map(|i| time(rules.sources[i]) + claim.delays[i] as i128).max() };
    inside && due == Some(time(event))
}

/// The judgement that is due, by plain Rust's analysis.
pub fn plain_judgement(n: usize, rules: Rules, claim: &Claim) -> Judged {
    let refused = refusal(n, rules, claim);
    if refused.refusal != 0 {
        return refused;
    }
    if let Some(event) = (0..n).find(|&event| !right(event, rules, claim)) {
        return Judged::broken(event);
    }
    let maximum = plain::exact(n, rules, claim.s, claim.t).separation;
    let gap = claim.times[claim.t] - claim.times[claim.s];
    Judged::said(if gap != claim.gap {
        DIFFERS
    } else if gap == maximum {
        MAXIMUM
    } else {
        BELOW
    })
}
