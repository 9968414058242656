//! The second program of 01: it tries all whole-tick delays on small graphs and compares what the library answers.
//!
//!     second [COMPARISONS] [SEED]
//!
//! One comparison is one call's whole answer: the refusal and its place, the separation and both depths, and what every lent list holds after. It prints
//! how many were compared of each kind and how many differ, the first ten in full. Exit status 1: some differ; 2: it was called wrongly.

use crankforest_tests::all_delays::{
    choices, claim_refusal, depths, greatest, hard_greatest, hard_schedule_fault, outward, refusal, schedule_fault,
    unfolding, verdict, Form, Given, GivenProcess, Rule, Verdict,
};
use crankforest_tests::claims::{self, Claim, Judged};
use crankforest_tests::library::{self, lent_list, Answer, HardAnswer, Rules, Templates, Unfolded, Written, BEHIND};
use crankforest_tests::random::Random;
use crankforest_tests::small_graphs::{
    as_graph, draw_event, draw_graph, draw_length, draw_process, draw_step, Drawn, MOST_ROUNDED,
};
use std::collections::BTreeMap;
use std::process::exit;

const COMPARISONS: u64 = 200_000;
const SEED: u64 = 1;
const SHOWN: u64 = 10;

// ---- counting

/// How many were compared, by form and refusal, and how many differ.
struct Tally {
    compared: BTreeMap<(&'static str, usize), u64>,
    total: u64,
    graphs: u64,
    accepted_graphs: u64,
    process_graphs: u64,
    executions: u128,
    differ: u64,
}

impl Tally {
    fn new() -> Tally {
        Tally {
            compared: BTreeMap::new(),
            total: 0,
            graphs: 0,
            accepted_graphs: 0,
            process_graphs: 0,
            executions: 0,
            differ: 0,
        }
    }

    /// Counts one comparison; `number` is the refusal that is due, 0 for none.
    fn count(&mut self, form: &'static str, number: usize, difference: Option<String>) {
        *self.compared.entry((form, number)).or_insert(0) += 1;
        self.total += 1;
        if let Some(text) = difference {
            self.differ += 1;
            if self.differ <= SHOWN {
                println!("difference {}: {}: {}", self.differ, form, text);
            }
        }
    }

    fn of_form(&self, form: &str) -> Vec<(usize, u64)> {
        self.compared.iter().filter(|(key, _)| key.0 == form).map(|(key, &count)| (key.1, count)).collect()
    }

    fn print(&self) {
        for form in ["exact", "schedule", "coarse", "hard", "hard schedule", "claim", "unfolding"] {
            let counts = self.of_form(form);
            let sum: u64 = counts.iter().map(|count| count.1).sum();
            let named = counts.iter().map(|&(number, count)| match number {
                0 => format!("accepted {}", count),
                _ => format!("refusal {} {}", number, count),
            });
            println!("{:<14}{:>9} compared: {}", form, sum, named.collect::<Vec<_>>().join(", "));
        }
        println!(
            "{} event graphs, {} of them accepted; {} process graphs; {} executions tried",
            self.graphs, self.accepted_graphs, self.process_graphs, self.executions
        );
        println!("{} compared, {} differ", self.total, self.differ);
    }
}

// ---- one graph

/// A graph with what trying all delays has shown of it so far.
struct Known {
    given: Given,
    rules: Vec<Rule>,
    depths: Vec<usize>,
    exact: Option<Vec<Vec<i64>>>,
    rounded: Option<Vec<Vec<i64>>>,
    hard: Option<Option<Vec<Vec<i64>>>>,
}

impl Known {
    fn new(given: Given) -> Known {
        Known { given, rules: Vec::new(), depths: Vec::new(), exact: None, rounded: None, hard: None }
    }

    fn lists(&self) -> Rules<'_> {
        let given = &self.given;
        Rules { sources: &given.sources, targets: &given.targets, leasts: &given.leasts, mosts: &given.mosts }
    }

    /// The answer that is due where nothing is refused.
    fn found(&self, separation: i64, s: usize, t: usize) -> Answer {
        Answer::found(separation, self.depths[s], self.depths[t])
    }

    /// Tries all delays and walks all paths, once. Only for a graph that is accepted.
    fn exact(&mut self, tally: &mut Tally) -> &[Vec<i64>] {
        if self.exact.is_none() {
            self.rules = self.given.rules();
            self.depths = depths(self.given.events, &self.rules);
            tally.accepted_graphs += 1;
            tally.executions += choices(&self.rules);
            self.exact = Some(greatest(self.given.events, &self.rules));
        }
        self.exact.as_ref().unwrap()
    }

    /// Tries all delays of the graph rounded outward, once. Every question on this graph that is accepted has the same q.
    fn rounded(&mut self, q: usize, tally: &mut Tally) -> &[Vec<i64>] {
        if self.rounded.is_none() {
            let rounded = outward(&self.given.rules(), q);
            tally.executions += choices(&rounded);
            self.rounded = Some(greatest(self.given.events, &rounded));
        }
        self.rounded.as_ref().unwrap()
    }

    /// Tries all delays for times that meet every rule, once; none where there are no such times.
    fn hard(&mut self, tally: &mut Tally) -> Option<&[Vec<i64>]> {
        self.exact(tally);
        if self.hard.is_none() {
            self.hard = Some(hard_greatest(self.given.events, &self.rules));
        }
        self.hard.as_ref().unwrap().as_deref()
    }

    /// The answer that is due under hard deadlines where the analysis refuses nothing, and the row of s.
    fn hard_due(&mut self, s: usize, t: usize, tally: &mut Tally) -> (HardAnswer, Vec<i64>) {
        match self.hard(tally) {
            None => (HardAnswer::refused(10, 0), Vec::new()),
            Some(greatest) => {
                let (least, most, row) = (-greatest[t][s], greatest[s][t], greatest[s].to_vec());
                (HardAnswer::found(least, most, self.depths[s], self.depths[t]), row)
            }
        }
    }

    fn describe(&self, s: usize, t: usize) -> String {
        let given = &self.given;
        let shown = |list: &dyn std::fmt::Debug, length: usize| match length {
            0..=20 => format!("{:?}", list),
            _ => format!("{} entries", length),
        };
        format!(
            "n = {}, sources {}, targets {}, leasts {}, mosts {}, s = {}, t = {}",
            given.events,
            shown(&given.sources, given.sources.len()),
            shown(&given.targets, given.targets.len()),
            shown(&given.leasts, given.leasts.len()),
            shown(&given.mosts, given.mosts.len()),
            s,
            t
        )
    }
}

fn compare_exact(known: &mut Known, s: usize, t: usize, tally: &mut Tally) {
    let refused = refusal(&known.given, Form::Exact, s, t);
    let due = match refused {
        Some((number, place)) => Answer::refused(number, place),
        None => {
            let separation = known.exact(tally)[s][t];
            known.found(separation, s, t)
        }
    };
    let answer = library::exact(known.given.events, known.lists(), s, t);
    let difference = || format!("{}\n    due {:?}\n    got {:?}", known.describe(s, t), due, answer);
    tally.count("exact", due.refusal, if answer == due { None } else { Some(difference()) });
}

fn compare_coarse(known: &mut Known, s: usize, t: usize, q: usize, tally: &mut Tally) {
    let refused = refusal(&known.given, Form::Coarse(q), s, t);
    let due = match refused {
        Some((number, place)) => Answer::refused(number, place),
        None => {
            known.exact(tally);
            let separation = known.rounded(q, tally)[s][t];
            known.found(separation, s, t)
        }
    };
    let answer = library::coarse(known.given.events, known.lists(), s, t, q);
    let difference = || format!("{}, q = {}\n    due {:?}\n    got {:?}", known.describe(s, t), q, due, answer);
    tally.count("coarse", due.refusal, if answer == due { None } else { Some(difference()) });
}

fn compare_schedule(known: &mut Known, s: usize, t: usize, lengths: (usize, usize), tally: &mut Tally) {
    let refused = refusal(&known.given, Form::Schedule(lengths.0, lengths.1), s, t);
    let (mut times, mut delays) = (lent_list(lengths.0 + BEHIND), lent_list(lengths.1 + BEHIND));
    let lent = (&mut times[..lengths.0], &mut delays[..lengths.1]);
    let answer = library::schedule(known.given.events, known.lists(), s, t, lent.0, lent.1);
    let (due, fault) = match refused {
        Some((number, place)) => (Answer::refused(number, place), kept_fault(&times, &delays, 0, 0)),
        None => {
            let row = known.exact(tally)[s].to_vec();
            let fault = schedule_fault(&known.rules, s, &row, &times, &delays);
            (known.found(row[t], s, t), fault.or_else(|| kept_fault(&times, &delays, row.len(), known.rules.len())))
        }
    };
    let text = match fault {
        Some(fault) => fault,
        None if answer != due => "the answer".to_string(),
        None => return tally.count("schedule", due.refusal, None),
    };
    let difference = format!(
        "{}, lent {:?}: {}\n    due {:?}\n    got {:?}, times {:?}, delays {:?}",
        known.describe(s, t),
        lengths,
        text,
        due,
        answer,
        &times[..times.len().min(20)],
        &delays[..delays.len().min(20)]
    );
    tally.count("schedule", due.refusal, Some(difference));
}

fn compare_hard(known: &mut Known, s: usize, t: usize, tally: &mut Tally) {
    let due = match refusal(&known.given, Form::Exact, s, t) {
        Some((number, place)) => HardAnswer::refused(number, place),
        None => known.hard_due(s, t, tally).0,
    };
    let answer = library::hard(known.given.events, known.lists(), s, t);
    let difference = || format!("{}\n    due {:?}\n    got {:?}", known.describe(s, t), due, answer);
    tally.count("hard", due.refusal, if answer == due { None } else { Some(difference()) });
}

fn compare_hard_schedule(known: &mut Known, s: usize, t: usize, lengths: (usize, usize), tally: &mut Tally) {
    let refused = refusal(&known.given, Form::Schedule(lengths.0, lengths.1), s, t);
    let (mut times, mut delays) = (lent_list(lengths.0 + BEHIND), lent_list(lengths.1 + BEHIND));
    let lent = (&mut times[..lengths.0], &mut delays[..lengths.1]);
    let answer = library::hard_schedule(known.given.events, known.lists(), s, t, lent.0, lent.1);
    let (due, row) = match refused {
        Some((number, place)) => (HardAnswer::refused(number, place), Vec::new()),
        None => known.hard_due(s, t, tally),
    };
    let fault = if due.refusal == 0 {
        let fault = hard_schedule_fault(&known.rules, s, &row, &times, &delays);
        fault.or_else(|| kept_fault(&times, &delays, row.len(), known.rules.len()))
    } else {
        kept_fault(&times, &delays, 0, 0)
    };
    let text = match fault {
        Some(fault) => fault,
        None if answer != due => "the answer".to_string(),
        None => return tally.count("hard schedule", due.refusal, None),
    };
    let difference = format!(
        "{}, lent {:?}: {}\n    due {:?}\n    got {:?}, times {:?}, delays {:?}",
        known.describe(s, t),
        lengths,
        text,
        due,
        answer,
        &times[..times.len().min(20)],
        &delays[..delays.len().min(20)]
    );
    tally.count("hard schedule", due.refusal, Some(difference));
}

/// What is wrong with the places from `n` and `r` on, which keep what they held, if anything.
fn kept_fault(times: &[i64], delays: &[i64], n: usize, r: usize) -> Option<String> {
    let kept = times[n..] == lent_list(times.len())[n..] && delays[r..] == lent_list(delays.len())[r..];
    if kept {
        None
    } else {
        Some("a place that keeps what it held was written to".to_string())
    }
}

/// A claim about s and t: the schedule that the library writes, or zeros, with some places changed.
fn draw_claim(known: &Known, s: usize, t: usize, random: &mut Random) -> Claim {
    let (n, r) = (known.given.events, known.given.sources.len());
    let right = n <= 16 && !random.once_in(6);
    let (times, delays) = if right { (n, r) } else { (draw_length(random, n.min(16)), draw_length(random, r)) };
    let mut claim = Claim { s, t, gap: 0, times: vec![0; times], delays: vec![0; delays] };
    let answer = library::schedule(n, known.lists(), s, t, &mut claim.times, &mut claim.delays);
    claim.gap = answer.separation;
    for _ in 0..random.below(3) {
        let list = if random.once_in(2) { &mut claim.times } else { &mut claim.delays };
        if !list.is_empty() {
            let at = random.below(list.len());
            list[at] = if random.once_in(5) {
                random.pick(&[i64::MIN, i64::MAX])
            } else {
                list[at].saturating_add(random.between(-2, 2))
            };
        }
    }
    if random.once_in(4) {
        claim.gap += random.between(-1, 1);
    }
    claim
}

fn compare_claim(known: &mut Known, s: usize, t: usize, random: &mut Random, tally: &mut Tally) {
    let claim = draw_claim(known, s, t, random);
    let due = match claim_refusal(&known.given, s, t, claim.times.len(), claim.delays.len()) {
        Some((number, place)) => Judged::refused(number, place),
        None => {
            let maximum = known.exact(tally)[s][t];
            match verdict(&known.rules, s, t, claim.gap, maximum, &claim.times, &claim.delays) {
                Verdict::Maximum => Judged::said(claims::MAXIMUM),
                Verdict::Below => Judged::said(claims::BELOW),
                Verdict::Broken(event) => Judged::broken(event),
                Verdict::Differs => Judged::said(claims::DIFFERS),
            }
        }
    };
    let judged = claims::judge(known.given.events, known.lists(), &claim);
    let difference = || format!("{}, {:?}\n    due {:?}\n    got {:?}", known.describe(s, t), claim, due, judged);
    tally.count("claim", due.refusal, if judged == due { None } else { Some(difference()) });
}

/// Asks several questions of one graph.
fn compare_graph(drawn: Drawn, random: &mut Random, tally: &mut Tally) {
    tally.graphs += 1;
    let own = drawn.q;
    let events = drawn.given.events;
    let rules = drawn.given.sources.len();
    let mut known = Known::new(drawn.given);
    for _ in 0..5 {
        let (s, t) = (draw_event(random, events), draw_event(random, events));
        compare_exact(&mut known, s, t, tally);
    }
    for _ in 0..3 {
        let (s, t) = (draw_event(random, events), draw_event(random, events));
        let lengths = (draw_length(random, events), draw_length(random, rules));
        compare_schedule(&mut known, s, t, lengths, tally);
    }
    for _ in 0..3 {
        let (s, t) = (draw_event(random, events), draw_event(random, events));
        compare_hard(&mut known, s, t, tally);
    }
    for _ in 0..2 {
        let (s, t) = (draw_event(random, events), draw_event(random, events));
        let lengths = (draw_length(random, events), draw_length(random, rules));
        compare_hard_schedule(&mut known, s, t, lengths, tally);
    }
    for _ in 0..4 {
        let (s, t) = (draw_event(random, events), draw_event(random, events));
        compare_claim(&mut known, s, t, random, tally);
    }
    let own = if rounds_small(&known.given, own) { own } else { 1 };
    for _ in 0..3 {
        let (s, t) = (draw_event(random, events), draw_event(random, events));
        let q = draw_step(random, own);
        compare_coarse(&mut known, s, t, q, tally);
    }
}

/// Whether the graph rounded outward has few choices of delays. One that is refused anyway counts as small.
fn rounds_small(given: &Given, q: usize) -> bool {
    match refusal(given, Form::Exact, 0, 0) {
        Some(_) => true,
        None => choices(&outward(&given.rules(), q)) <= MOST_ROUNDED,
    }
}

// ---- one process graph

fn compare_unfolding(process: &GivenProcess, tally: &mut Tally) -> Option<(usize, Vec<Rule>)> {
    tally.process_graphs += 1;
    let mut due = Written::lent(process.lent);
    let mut made = None;
    let due_answer = match process.refusal() {
        Some((number, place)) => Unfolded::refused(number, place),
        None => {
            let (events, rules) = unfolding(process);
            write_rules(&rules, &mut due);
            let answer = Unfolded::found(events, rules.len());
            made = Some((events, rules));
            answer
        }
    };
    let mut got = Written::lent(process.lent);
    let answer = library::unfold(process.templates.events, process.copies, templates_of(process), &mut got);
    let differs = answer != due_answer || got != due;
    let difference = || format!("{:?}\n    due {:?} {:?}\n    got {:?} {:?}", process, due_answer, due, answer, got);
    tally.count("unfolding", due_answer.refusal, if differs { Some(difference()) } else { None });
    made
}

fn templates_of(process: &GivenProcess) -> Templates<'_> {
    let given = &process.templates;
    Templates {
        rules: Rules { sources: &given.sources, targets: &given.targets, leasts: &given.leasts, mosts: &given.mosts },
        marks: &process.marks,
        start_leasts: &process.start_leasts,
        start_mosts: &process.start_mosts,
    }
}

fn write_rules(rules: &[Rule], lists: &mut Written) {
    for (i, rule) in rules.iter().enumerate() {
        lists.sources[i] = rule.source;
        lists.targets[i] = rule.target;
        lists.leasts[i] = rule.least;
        lists.mosts[i] = rule.most;
    }
}

fn compare_process(random: &mut Random, tally: &mut Tally) {
    let process = draw_process(random);
    if let Some((events, rules)) = compare_unfolding(&process, tally) {
        if random.once_in(4) {
            if let Some(drawn) = as_graph(random, events, rules) {
                compare_graph(drawn, random, tally);
            }
        }
    }
}

// ---- the program

fn argument(at: usize, usual: u64) -> u64 {
    match std::env::args().nth(at) {
        None => usual,
        Some(word) => word.parse().unwrap_or_else(|_| {
            eprintln!("usage: second [COMPARISONS] [SEED]");
            exit(2)
        }),
    }
}

fn main() {
    let comparisons = argument(1, COMPARISONS);
    let seed = argument(2, SEED);
    let mut random = Random::new(seed);
    let mut tally = Tally::new();
    while tally.total < comparisons {
        if random.once_in(2) {
            compare_process(&mut random, &mut tally);
        } else {
            let drawn = draw_graph(&mut random);
            compare_graph(drawn, &mut random, &mut tally);
        }
    }
    tally.print();
    if tally.differ > 0 {
        exit(1);
    }
}
