//! Graphs and questions, from pseudo-random numbers, so that they are the same on every run.
use crate::plain::Graph;

/// Pseudo-random numbers.
pub struct Numbers(u64);

impl Numbers {
    pub fn from(seed: u64) -> Numbers {
        Numbers(seed)
    }

    /// A number below `limit`.
    pub fn below(&mut self, limit: usize) -> usize {
        self.0 = self.0 * 48271 % 2147483647;
        self.0 as usize % limit
    }

    /// A number from `low` to `high`.
    pub fn between(&mut self, low: i64, high: i64) -> i64 {
        low + self.below((high - low + 1) as usize) as i64
    }
}

/// The lists of a graph.
#[derive(Clone)]
pub struct Lists {
    pub n: usize,
    pub sources: Vec<usize>,
    pub targets: Vec<usize>,
    pub leasts: Vec<i64>,
    pub mosts: Vec<i64>,
}

impl Lists {
    pub fn graph(&self) -> Graph<'_> {
        Graph { n: self.n, sources: &self.sources, targets: &self.targets, leasts: &self.leasts, mosts: &self.mosts }
    }
}

/// A graph that is accepted, of n ≥ 2 events and r ≥ n − 1 rules: rule i goes into event i + 1 as long as there is one, and then into any event but the
/// root, from any event before it. The events are renumbered, so that their numbers are not an order: the factor is a prime above n, so no two get one
/// number, and the root stays 0.
pub fn forward(numbers: &mut Numbers, n: usize, r: usize) -> Lists {
    let renamed = |v: usize| v * 1000003 % n;
    let mut lists = Lists { n, sources: vec![], targets: vec![], leasts: vec![], mosts: vec![] };
    for i in 0..r {
        let target = if i + 1 < n { i + 1 } else { 1 + numbers.below(n - 1) };
        lists.sources.push(renamed(numbers.below(target)));
        lists.targets.push(renamed(target));
        lists.leasts.push(numbers.between(0, 999));
        lists.mosts.push(numbers.between(1000, 1999));
    }
    lists
}

/// A small graph with up to two faults, so that many are refused.
pub fn faulty(numbers: &mut Numbers) -> Lists {
    let n = 2 + numbers.below(7);
    let r = n + numbers.below(7);
    let mut lists = forward(numbers, n, r);
    for _ in 0..numbers.below(3) {
        let i = numbers.below(lists.mosts.len());
        match numbers.below(8) {
            0 => lists.n = [0, 1024, 1025][numbers.below(3)],
            1 | 2 => lists.sources[i] = numbers.below(n + 1),
            3 | 4 => lists.targets[i] = numbers.below(n + 1),
            5 => lists.leasts[i] = numbers.between(-1_000_002, -999_998),
            6 => lists.mosts[i] = [-1, 1_000_000, 1_000_001][numbers.below(3)],
            _ => drop(lists.mosts.pop()),
        }
    }
    lists
}

/// What is changed before a call, and what is asked.
#[derive(Clone, Copy)]
pub struct Question {
    pub s: usize,
    pub t: usize,
    pub rule: usize,
    pub least: i64,
}

/// A cycle of 256 questions about a graph of `forward`. Each finds the graph that those before it made; after one cycle they are the same graphs again.
pub fn questions(numbers: &mut Numbers, n: usize, r: usize) -> Vec<Question> {
    let question = |_| Question { s: numbers.below(n), t: numbers.below(n), rule: numbers.below(r), least: numbers.between(0, 999) };
    (0..256).map(question).collect()
}
