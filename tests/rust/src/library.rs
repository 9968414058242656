//! The C entries of the static library, as include/crankforest.h declares them, and safe functions over them on slices.

/// The four lists of a graph's rules. They may differ in length: that is refusal 22.
#[derive(Clone, Copy, Debug)]
pub struct Rules<'a> {
    pub sources: &'a [usize],
    pub targets: &'a [usize],
    pub leasts: &'a [i64],
    pub mosts: &'a [i64],
}

/// A graph that owns its lists.
#[derive(Clone, Debug, PartialEq, Eq)]
pub struct Graph {
    pub events: usize,
    pub sources: Vec<usize>,
    pub targets: Vec<usize>,
    pub leasts: Vec<i64>,
    pub mosts: Vec<i64>,
}

impl Graph {
    pub fn new(events: usize, rules: &[(usize, usize, i64, i64)]) -> Graph {
        let mut graph = Graph { events, sources: vec![], targets: vec![], leasts: vec![], mosts: vec![] };
        for &(source, target, least, most) in rules {
            graph.add(source, target, least, most);
        }
        graph
    }

    pub fn add(&mut self, source: usize, target: usize, least: i64, most: i64) {
        self.sources.push(source);
        self.targets.push(target);
        self.leasts.push(least);
        self.mosts.push(most);
    }

    pub fn rules(&self) -> Rules<'_> {
        Rules { sources: &self.sources, targets: &self.targets, leasts: &self.leasts, mosts: &self.mosts }
    }
}

/// The answer of the exact, the schedule and the coarse form. `refusal` is 0 where nothing is refused.
#[derive(Clone, Copy, Debug, PartialEq, Eq)]
pub struct Answer {
    pub refusal: usize,
    pub place: usize,
    pub separation: i64,
    pub source_depth: usize,
    pub target_depth: usize,
}

impl Answer {
    pub fn refused(number: usize, place: usize) -> Answer {
        Answer { refusal: number, place, separation: 0, source_depth: 0, target_depth: 0 }
    }

    pub fn found(separation: i64, source_depth: usize, target_depth: usize) -> Answer {
        Answer { refusal: 0, place: 0, separation, source_depth, target_depth }
    }
}

/// The answer under hard deadlines. `refusal` is 0 where nothing is refused.
#[derive(Clone, Copy, Debug, PartialEq, Eq)]
pub struct HardAnswer {
    pub refusal: usize,
    pub place: usize,
    pub least: i64,
    pub most: i64,
    pub source_depth: usize,
    pub target_depth: usize,
}

impl HardAnswer {
    pub fn refused(number: usize, place: usize) -> HardAnswer {
        HardAnswer { refusal: number, place, least: 0, most: 0, source_depth: 0, target_depth: 0 }
    }

    pub fn found(least: i64, most: i64, source_depth: usize, target_depth: usize) -> HardAnswer {
        HardAnswer { refusal: 0, place: 0, least, most, source_depth, target_depth }
    }
}

/// The answer of the unfolding.
#[derive(Clone, Copy, Debug, PartialEq, Eq)]
pub struct Unfolded {
    pub refusal: usize,
    pub place: usize,
    pub events: usize,
    pub rules: usize,
}

impl Unfolded {
    pub fn refused(number: usize, place: usize) -> Unfolded {
        Unfolded { refusal: number, place, events: 0, rules: 0 }
    }

    pub fn found(events: usize, rules: usize) -> Unfolded {
        Unfolded { refusal: 0, place: 0, events, rules }
    }
}

/// The seven lists of a process graph's templates.
#[derive(Clone, Copy, Debug)]
pub struct Templates<'a> {
    pub rules: Rules<'a>,
    pub marks: &'a [usize],
    pub start_leasts: &'a [i64],
    pub start_mosts: &'a [i64],
}

/// How many places stand behind each lent list that are not lent, so that a write past its end shows.
pub const BEHIND: usize = 2;

/// The four lists that the unfolding writes to. Of each, the first `lent` places are lent.
#[derive(Clone, Debug, PartialEq, Eq)]
pub struct Written {
    pub lent: [usize; 4],
    pub sources: Vec<usize>,
    pub targets: Vec<usize>,
    pub leasts: Vec<i64>,
    pub mosts: Vec<i64>,
}

impl Written {
    /// Four lists of which so many places are lent; each place holds a number of its own, so that a change shows.
    pub fn lent(lent: [usize; 4]) -> Written {
        Written {
            lent,
            sources: (0..lent[0] + BEHIND).map(|i| 900_000 + i).collect(),
            targets: (0..lent[1] + BEHIND).map(|i| 800_000 + i).collect(),
            leasts: lent_list(lent[2] + BEHIND),
            mosts: lent_list(lent[3] + BEHIND),
        }
    }

    pub fn as_rules(&self, count: usize) -> Rules<'_> {
        Rules {
            sources: &self.sources[..count],
            targets: &self.targets[..count],
            leasts: &self.leasts[..count],
            mosts: &self.mosts[..count],
        }
    }
}

/// A lent list of times or delays; each place holds a number of its own that no schedule has.
pub fn lent_list(length: usize) -> Vec<i64> {
    (0..length).map(|i| 7_000_000_000 + i as i64).collect()
}

/// What the places for single numbers hold before a call, so that one left unwritten shows.
const HELD: usize = 55_555;

extern "C" {
    fn crankforest_exact(
        n: usize,
        sources: *const usize,
        sources_length: usize,
        targets: *const usize,
        targets_length: usize,
        leasts: *const i64,
        leasts_length: usize,
        mosts: *const i64,
        mosts_length: usize,
        s: usize,
        t: usize,
        place: *mut usize,
        separation: *mut i64,
        source_depth: *mut usize,
        target_depth: *mut usize,
    ) -> usize;

    fn crankforest_schedule(
        n: usize,
        sources: *const usize,
        sources_length: usize,
        targets: *const usize,
        targets_length: usize,
        leasts: *const i64,
        leasts_length: usize,
        mosts: *const i64,
        mosts_length: usize,
        s: usize,
        t: usize,
        times: *mut i64,
        times_length: usize,
        delays: *mut i64,
        delays_length: usize,
        place: *mut usize,
        separation: *mut i64,
        source_depth: *mut usize,
        target_depth: *mut usize,
    ) -> usize;

    fn crankforest_coarse(
        n: usize,
        sources: *const usize,
        sources_length: usize,
        targets: *const usize,
        targets_length: usize,
        leasts: *const i64,
        leasts_length: usize,
        mosts: *const i64,
        mosts_length: usize,
        s: usize,
        t: usize,
        q: usize,
        place: *mut usize,
        separation: *mut i64,
        source_depth: *mut usize,
        target_depth: *mut usize,
    ) -> usize;

    fn crankforest_hard(
        n: usize,
        sources: *const usize,
        sources_length: usize,
        targets: *const usize,
        targets_length: usize,
        leasts: *const i64,
        leasts_length: usize,
        mosts: *const i64,
        mosts_length: usize,
        s: usize,
        t: usize,
        place: *mut usize,
        least: *mut i64,
        most: *mut i64,
        source_depth: *mut usize,
        target_depth: *mut usize,
    ) -> usize;

    fn crankforest_hard_schedule(
        n: usize,
        sources: *const usize,
        sources_length: usize,
        targets: *const usize,
        targets_length: usize,
        leasts: *const i64,
        leasts_length: usize,
        mosts: *const i64,
        mosts_length: usize,
        s: usize,
        t: usize,
        times: *mut i64,
        times_length: usize,
        delays: *mut i64,
        delays_length: usize,
        place: *mut usize,
        least: *mut i64,
        most: *mut i64,
        source_depth: *mut usize,
        target_depth: *mut usize,
    ) -> usize;

    fn crankforest_unfold(
        p: usize,
        copies: usize,
        sources: *const usize,
        sources_length: usize,
        targets: *const usize,
        targets_length: usize,
        leasts: *const i64,
        leasts_length: usize,
        mosts: *const i64,
        mosts_length: usize,
        marks: *const usize,
        marks_length: usize,
        start_leasts: *const i64,
        start_leasts_length: usize,
        start_mosts: *const i64,
        start_mosts_length: usize,
        out_sources: *mut usize,
        out_sources_length: usize,
        out_targets: *mut usize,
        out_targets_length: usize,
        out_leasts: *mut i64,
        out_leasts_length: usize,
        out_mosts: *mut i64,
        out_mosts_length: usize,
        place: *mut usize,
        events: *mut usize,
        rules: *mut usize,
    ) -> usize;
}

fn unwritten() -> Answer {
    Answer { refusal: HELD, place: HELD, separation: HELD as i64, source_depth: HELD, target_depth: HELD }
}

/// The greatest t(t) - t(s) over all executions, and both depths.
pub fn exact(n: usize, rules: Rules, s: usize, t: usize) -> Answer {
    let mut answer = unwritten();
    answer.refusal = unsafe {
        crankforest_exact(
            n,
            rules.sources.as_ptr(),
            rules.sources.len(),
            rules.targets.as_ptr(),
            rules.targets.len(),
            rules.leasts.as_ptr(),
            rules.leasts.len(),
            rules.mosts.as_ptr(),
            rules.mosts.len(),
            s,
            t,
            &mut answer.place,
            &mut answer.separation,
            &mut answer.source_depth,
            &mut answer.target_depth,
        )
    };
    answer
}

/// The same, and the whole latest schedule against s in the two lent lists.
pub fn schedule(n: usize, rules: Rules, s: usize, t: usize, times: &mut [i64], delays: &mut [i64]) -> Answer {
    let mut answer = unwritten();
    answer.refusal = unsafe {
        crankforest_schedule(
            n,
            rules.sources.as_ptr(),
            rules.sources.len(),
            rules.targets.as_ptr(),
            rules.targets.len(),
            rules.leasts.as_ptr(),
            rules.leasts.len(),
            rules.mosts.as_ptr(),
            rules.mosts.len(),
            s,
            t,
            times.as_mut_ptr(),
            times.len(),
            delays.as_mut_ptr(),
            delays.len(),
            &mut answer.place,
            &mut answer.separation,
            &mut answer.source_depth,
            &mut answer.target_depth,
        )
    };
    answer
}

/// The separation of the graph rounded outward to steps of q, and both depths.
pub fn coarse(n: usize, rules: Rules, s: usize, t: usize, q: usize) -> Answer {
    let mut answer = unwritten();
    answer.refusal = unsafe {
        crankforest_coarse(
            n,
            rules.sources.as_ptr(),
            rules.sources.len(),
            rules.targets.as_ptr(),
            rules.targets.len(),
            rules.leasts.as_ptr(),
            rules.leasts.len(),
            rules.mosts.as_ptr(),
            rules.mosts.len(),
            s,
            t,
            q,
            &mut answer.place,
            &mut answer.separation,
            &mut answer.source_depth,
            &mut answer.target_depth,
        )
    };
    answer
}

fn unwritten_ends() -> HardAnswer {
    let held = HELD as i64;
    HardAnswer { refusal: HELD, place: HELD, least: held, most: held, source_depth: HELD, target_depth: HELD }
}

/// The least and the greatest t(t) - t(s) over all times that meet every rule on its own, and both depths.
pub fn hard(n: usize, rules: Rules, s: usize, t: usize) -> HardAnswer {
    let mut answer = unwritten_ends();
    answer.refusal = unsafe {
        crankforest_hard(
            n,
            rules.sources.as_ptr(),
            rules.sources.len(),
            rules.targets.as_ptr(),
            rules.targets.len(),
            rules.leasts.as_ptr(),
            rules.leasts.len(),
            rules.mosts.as_ptr(),
            rules.mosts.len(),
            s,
            t,
            &mut answer.place,
            &mut answer.least,
            &mut answer.most,
            &mut answer.source_depth,
            &mut answer.target_depth,
        )
    };
    answer
}

/// The same, and the latest such schedule against s in the two lent lists.
pub fn hard_schedule(n: usize, rules: Rules, s: usize, t: usize, times: &mut [i64], delays: &mut [i64]) -> HardAnswer {
    let mut answer = unwritten_ends();
    answer.refusal = unsafe {
        crankforest_hard_schedule(
            n,
            rules.sources.as_ptr(),
            rules.sources.len(),
            rules.targets.as_ptr(),
            rules.targets.len(),
            rules.leasts.as_ptr(),
            rules.leasts.len(),
            rules.mosts.as_ptr(),
            rules.mosts.len(),
            s,
            t,
            times.as_mut_ptr(),
            times.len(),
            delays.as_mut_ptr(),
            delays.len(),
            &mut answer.place,
            &mut answer.least,
            &mut answer.most,
            &mut answer.source_depth,
            &mut answer.target_depth,
        )
    };
    answer
}

/// The event graph of a process graph with p events, unfolded `copies` times, in the four lent lists.
pub fn unfold(p: usize, copies: usize, templates: Templates, out: &mut Written) -> Unfolded {
    let rules = templates.rules;
    let mut unfolded = Unfolded { refusal: HELD, place: HELD, events: HELD, rules: HELD };
    unfolded.refusal = unsafe {
        crankforest_unfold(
            p,
            copies,
            rules.sources.as_ptr(),
            rules.sources.len(),
            rules.targets.as_ptr(),
            rules.targets.len(),
            rules.leasts.as_ptr(),
            rules.leasts.len(),
            rules.mosts.as_ptr(),
            rules.mosts.len(),
            templates.marks.as_ptr(),
            templates.marks.len(),
            templates.start_leasts.as_ptr(),
            templates.start_leasts.len(),
            templates.start_mosts.as_ptr(),
            templates.start_mosts.len(),
            out.sources.as_mut_ptr(),
            out.lent[0],
            out.targets.as_mut_ptr(),
            out.lent[1],
            out.leasts.as_mut_ptr(),
            out.lent[2],
            out.mosts.as_mut_ptr(),
            out.lent[3],
            &mut unfolded.place,
            &mut unfolded.events,
            &mut unfolded.rules,
        )
    };
    unfolded
}

#[cfg(feature = "text")]
mod on_text {
    use super::HELD;

    extern "C" {
        fn crankforest_separation(text: *const u8, length: usize, s: usize, t: usize) -> i64;
        fn crankforest_pairs(
            text: *const u8,
            length: usize,
            out: *mut u8,
            out_length: usize,
            place: *mut usize,
            bytes: *mut usize,
        ) -> usize;
    }

    /// The answer to a writing of the pairs. `refusal` is 0 where the lent list is long enough, whatever the text.
    #[derive(Clone, Copy, Debug, PartialEq, Eq)]
    pub struct PairsAnswer {
        pub refusal: usize,
        pub place: usize,
        pub bytes: usize,
    }

    /// The separation that the text's graph has, or -4,000,000,000 minus the refusal's number.
    pub fn separation(text: &[u8], s: usize, t: usize) -> i64 {
        unsafe { crankforest_separation(text.as_ptr(), text.len(), s, t) }
    }

    /// What the pair program writes, into `out`, and the number of bytes.
    pub fn pairs(text: &[u8], out: &mut [u8]) -> PairsAnswer {
        let mut answer = PairsAnswer { refusal: HELD, place: HELD, bytes: HELD };
        answer.refusal = unsafe {
            crankforest_pairs(
                text.as_ptr(),
                text.len(),
                out.as_mut_ptr(),
                out.len(),
                &mut answer.place,
                &mut answer.bytes,
            )
        };
        answer
    }
}

#[cfg(feature = "text")]
pub use on_text::{pairs, separation, PairsAnswer};
