//! Inputs of the tests on numbers: graphs and process graphs of every size, right and wrong.

use crate::library::{Graph, Rules, Templates};
use crate::random::Random;

/// How the delays of a graph are drawn.
#[derive(Clone, Copy)]
pub enum Delays {
    /// From -20 to 20.
    Small,
    /// Over the whole range.
    Wide,
    /// At or next to the ends of the range.
    Ends,
}

pub fn some_delays(random: &mut Random) -> Delays {
    random.pick(&[Delays::Small, Delays::Wide, Delays::Wide, Delays::Ends])
}

/// A least and a most delay.
pub fn draw_interval(random: &mut Random, delays: Delays) -> (i64, i64) {
    let mut draw = || match delays {
        Delays::Small => random.between(-20, 20),
        Delays::Wide => random.between(-1_000_000, 1_000_000),
        Delays::Ends => random.pick(&[-1_000_000, -999_999, 0, 999_999, 1_000_000]),
    };
    let (a, b) = (draw(), draw());
    (a.min(b), a.max(b))
}

/// A graph with n events and r rules (at least n - 1) that is accepted; its events are numbered in any order.
pub fn accepted(random: &mut Random, n: usize, r: usize) -> Graph {
    let delays = some_delays(random);
    let near = 1 + random.below(n);
    let mut order: Vec<usize> = (0..n).collect();
    random.shuffle(&mut order[1..]);
    let mut ends: Vec<(usize, usize)> = Vec::new();
    for i in 1..n {
        ends.push((order[i - 1 - random.below(near.min(i))], order[i]));
    }
    while n > 1 && ends.len() < r {
        let i = 1 + random.below(n - 1);
        ends.push((order[i - 1 - random.below(near.min(i))], order[i]));
    }
    random.shuffle(&mut ends);
    let mut graph = Graph::new(n, &[]);
    for (source, target) in ends {
        let (least, most) = draw_interval(random, delays);
        graph.add(source, target, least, most);
    }
    graph
}

/// A graph with rules between any events.
pub fn careless(random: &mut Random, n: usize, r: usize) -> Graph {
    let delays = some_delays(random);
    let mut graph = Graph::new(n, &[]);
    for _ in 0..r {
        let (source, target) = (random.below(n), random.below(n));
        let (least, most) = draw_interval(random, delays);
        graph.add(source, target, least, most);
    }
    graph
}

/// A graph of up to `most` events, right or wrong.
pub fn any(random: &mut Random, most: usize) -> Graph {
    let n = 1 + random.below(most);
    let r = n - 1 + random.below(2 * n + 1);
    let mut graph = if random.once_in(6) { careless(random, n, r) } else { accepted(random, n, r) };
    if random.once_in(4) {
        for _ in 0..1 + random.below(3) {
            put_fault(random, &mut graph);
        }
    }
    graph
}

fn put_fault(random: &mut Random, graph: &mut Graph) {
    let wild = [graph.events, graph.events.wrapping_add(1), 1 << 32, usize::MAX];
    let event = random.pick(&wild);
    let delay = random.pick(&[-1_000_001, 1_000_001, 1 << 32, i64::MIN, i64::MAX]);
    match random.below(9) {
        0 => replace(random, &mut graph.sources, event),
        1 => replace(random, &mut graph.targets, event),
        2 => replace(random, &mut graph.leasts, delay),
        3 => replace(random, &mut graph.mosts, delay),
        4 => graph.leasts.push(0),
        5 => drop(graph.targets.pop()),
        6 => graph.events = random.pick(&[0, 1_024, 1_025, usize::MAX]),
        7 => graph.events = graph.events.saturating_add(1),
        _ => add_a_way_back(random, graph),
    }
}

fn replace<T>(random: &mut Random, list: &mut [T], value: T) {
    if !list.is_empty() {
        let i = random.below(list.len());
        list[i] = value;
    }
}

fn add_a_way_back(random: &mut Random, graph: &mut Graph) {
    let count = graph.sources.len().min(graph.targets.len());
    if count > 0 {
        let i = random.below(count);
        graph.add(graph.targets[i], graph.sources[i], 0, 0);
    }
}

/// s or t: an event, or now and then none.
pub fn draw_event(random: &mut Random, n: usize) -> usize {
    if random.once_in(20) {
        return random.pick(&[n, n.wrapping_add(1), 1 << 32, usize::MAX]);
    }
    random.below(n.clamp(1, 1_024))
}

/// q: mostly within its limits.
pub fn draw_step(random: &mut Random) -> usize {
    match random.below(20) {
        0 => random.pick(&[0, 1_001, 1 << 32, usize::MAX]),
        1..=4 => random.pick(&[1, 2, 999, 1_000]),
        _ => 1 + random.below(1_000),
    }
}

/// The length of a lent list: enough, more, or now and then too few.
pub fn draw_length(random: &mut Random, needed: usize) -> usize {
    let needed = needed.min(5_000);
    match random.below(20) {
        0 => needed.saturating_sub(1),
        1 => 0,
        2..=6 => needed + random.below(4),
        _ => needed,
    }
}

/// A process graph.
#[derive(Clone, Debug)]
pub struct Process {
    pub graph: Graph,
    pub marks: Vec<usize>,
    pub start_leasts: Vec<i64>,
    pub start_mosts: Vec<i64>,
    pub copies: usize,
}

impl Process {
    pub fn templates(&self) -> Templates<'_> {
        let rules: Rules = self.graph.rules();
        Templates { rules, marks: &self.marks, start_leasts: &self.start_leasts, start_mosts: &self.start_mosts }
    }
}

/// A process graph, right or wrong, near the limits now and then.
pub fn any_process(random: &mut Random) -> Process {
    let p = if random.once_in(4) { 1 + random.below(1_030) } else { 1 + random.below(12) };
    let count = if random.once_in(4) { random.below(200) } else { random.below(10) };
    let around = 1 + 1_023 / p;
    let copies = if random.once_in(3) { random.below(around + 3) } else { 1 + random.below(6) };
    let mut graph = careless(random, p, count);
    let mut marks: Vec<usize> = (0..count).map(|_| random.below(2)).collect();
    let delays = some_delays(random);
    let (mut start_leasts, mut start_mosts): (Vec<i64>, Vec<i64>) = (0..count).map(|_| draw_interval(random, delays)).unzip();
    if random.once_in(5) {
        put_fault(random, &mut graph);
    }
    if random.once_in(8) {
        let mark = random.pick(&[2, 3, 1 << 32, (1 << 32) + 1, usize::MAX]);
        replace(random, &mut marks, mark);
    }
    if random.once_in(4) {
        let start = random.pick(&[-1_000_001, 1_000_001, 1 << 32, i64::MIN, i64::MAX]);
        let list = if random.once_in(2) { &mut start_leasts } else { &mut start_mosts };
        replace(random, list, start);
    }
    if random.once_in(20) {
        start_mosts.push(0);
    }
    Process { graph, marks, start_leasts, start_mosts, copies }
}
