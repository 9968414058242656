//! The three that are compared, under one type.
use crate::plain::{self, Graph};
use std::os::raw::c_int;

/// What an engine says: the refusal's number (0 for none) and place, the separation and both depths.
#[derive(Clone, Copy, Debug, Default, PartialEq, Eq)]
pub struct Answer {
    pub refusal: usize,
    pub place: usize,
    pub separation: i64,
    pub source_depth: usize,
    pub target_depth: usize,
}

pub type Engine = fn(&Graph, usize, usize) -> Answer;

/// The engines and their names, the library first.
pub const ENGINES: [(&str, Engine); 3] = [("library", library), ("rust", rust), ("c", c)];

// Two functions with the same arguments: the library's entry and that of bench/plain.c.
#[rustfmt::skip]
extern "C" {
    fn crankforest_exact(
        n: usize, sources: *const usize, sources_length: usize, targets: *const usize, targets_length: usize,
        leasts: *const i64, leasts_length: usize, mosts: *const i64, mosts_length: usize, s: usize, t: usize,
        place: *mut usize, separation: *mut i64, source_depth: *mut usize, target_depth: *mut usize,
    ) -> usize;
    fn plain_c_separation(
        n: usize, sources: *const usize, sources_length: usize, targets: *const usize, targets_length: usize,
        leasts: *const i64, leasts_length: usize, mosts: *const i64, mosts_length: usize, s: usize, t: usize,
        place: *mut usize, separation: *mut i64, source_depth: *mut usize, target_depth: *mut usize,
    ) -> c_int;
}

/// Calls one of these two.
macro_rules! called {
    ($function:ident, $graph:expr, $s:expr, $t:expr) => {{
        let g: &Graph = $graph;
        let mut answer = Answer::default();
        // SAFETY: each list is handed over with its own length, and the four places are the answer's own.
        let refusal = unsafe {
            $function(
                g.n,
                g.sources.as_ptr(),
                g.sources.len(),
                g.targets.as_ptr(),
                g.targets.len(),
                g.leasts.as_ptr(),
                g.leasts.len(),
                g.mosts.as_ptr(),
                g.mosts.len(),
                $s,
                $t,
                &mut answer.place,
                &mut answer.separation,
                &mut answer.source_depth,
                &mut answer.target_depth,
            )
        };
        answer.refusal = refusal as usize;
        answer
    }};
}

fn library(graph: &Graph, s: usize, t: usize) -> Answer {
    called!(crankforest_exact, graph, s, t)
}

fn c(graph: &Graph, s: usize, t: usize) -> Answer {
    called!(plain_c_separation, graph, s, t)
}

fn rust(graph: &Graph, s: usize, t: usize) -> Answer {
    match plain::separation(graph, s, t) {
        Ok(found) => Answer { separation: found.separation, source_depth: found.source_depth, target_depth: found.target_depth, ..Answer::default() },
        Err(refusal) => Answer { refusal: refusal.number, place: refusal.place, ..Answer::default() },
    }
}
