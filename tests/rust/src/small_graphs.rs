//! Inputs of the second program: small graphs and process graphs, right and wrong, with few choices of delays.

use crate::all_delays::{choices, outward, Given, GivenProcess, Rule};
use crate::random::Random;

/// How many choices of delays a graph has at most, and the graph rounded outward.
pub const MOST_CHOICES: u128 = 5_000;
pub const MOST_ROUNDED: u128 = 5_000;

/// Numbers of events that no small graph has.
const FAR_EVENTS: [usize; 5] = [1_023, 1_024, 1_025, 1 << 32, usize::MAX];

/// A graph and the step that it is rounded to.
pub struct Drawn {
    pub given: Given,
    pub q: usize,
}

pub fn draw_graph(random: &mut Random) -> Drawn {
    let q = random.pick(&[1, 2, 2, 3, 4, 5, 7, 10, 64, 100, 999, 1_000]);
    let mut rules = if random.once_in(8) { careless(random) } else { ordered(random) };
    if random.once_in(2) {
        fit_to_step(random, &mut rules.1, q);
    } else {
        narrow(random, &mut rules.1);
    }
    let mut given = as_given(rules.0, &rules.1);
    if random.once_in(6) {
        for _ in 0..1 + random.below(2) {
            put_fault(random, &mut given);
        }
    }
    Drawn { given, q }
}

fn as_given(events: usize, rules: &[Rule]) -> Given {
    Given {
        events,
        sources: rules.iter().map(|rule| rule.source).collect(),
        targets: rules.iter().map(|rule| rule.target).collect(),
        leasts: rules.iter().map(|rule| rule.least).collect(),
        mosts: rules.iter().map(|rule| rule.most).collect(),
    }
}

// ---- rules

/// A graph that is accepted: every event has a rule from an event before it in some order, and there are a few rules more.
fn ordered(random: &mut Random) -> (usize, Vec<Rule>) {
    let events = random.pick(&[1, 2, 3, 3, 4, 4, 4, 5, 5, 5, 6, 6, 6, 6]);
    let mut order: Vec<usize> = (0..events).collect();
    random.shuffle(&mut order[1..]);
    let mut rules = Vec::new();
    for i in 1..events {
        let source = order[random.below(i)];
        rules.push(draw_rule(random, source, order[i]));
    }
    let more = if events > 1 { random.below(6) } else { 0 };
    for _ in 0..more {
        let i = 1 + random.below(events - 1);
        let source = order[random.below(i)];
        rules.push(draw_rule(random, source, order[i]));
    }
    random.shuffle(&mut rules);
    (events, rules)
}

/// Rules between any events: cycles, self rules, rules into the root and unreached events come about.
fn careless(random: &mut Random) -> (usize, Vec<Rule>) {
    let events = 1 + random.below(6);
    let count = random.below(8);
    let mut rules = Vec::new();
    for _ in 0..count {
        let (source, target) = (random.below(events), random.below(events));
        rules.push(draw_rule(random, source, target));
    }
    (events, rules)
}

/// A rule with a short interval: around zero, or at either end of the range.
fn draw_rule(random: &mut Random, source: usize, target: usize) -> Rule {
    let width = random.pick(&[0, 0, 1, 1, 2, 3, 4]);
    let least = match random.below(12) {
        0 => -1_000_000,
        1 => 1_000_000 - width,
        2 => random.between(-999_990, 999_990),
        _ => random.between(-5, 5),
    };
    Rule { source, target, least, most: least + width }
}

/// Shortens intervals until there are few choices.
fn narrow(random: &mut Random, rules: &mut [Rule]) {
    while choices(rules) > MOST_CHOICES {
        let i = random.below(rules.len());
        if rules[i].least < rules[i].most {
            rules[i].most -= 1;
        }
    }
}

/// Makes delays fixed multiples of q until there are few choices after rounding.
fn fit_to_step(random: &mut Random, rules: &mut [Rule], q: usize) {
    while choices(&outward(rules, q)) > MOST_ROUNDED {
        let i = random.below(rules.len());
        let delay = q as i64 * random.between(-3, 3);
        rules[i].least = delay;
        rules[i].most = delay;
    }
}

// ---- faults

fn put_fault(random: &mut Random, given: &mut Given) {
    match random.below(18) {
        0 | 1 => name_unknown_event(random, given),
        2 | 3 => put_bad_delay(random, given),
        4 => change_a_length(random, given),
        5 => given.events = random.pick(&[0, 1_025, 1 << 32, usize::MAX]),
        6 | 7 => given.events = given.events.saturating_add(1 + random.below(2)),
        8 | 9 => add_rule(random, given, |source, _| (source, source)),
        10..=12 => add_rule(random, given, |source, target| (target, source)),
        13..=15 => add_unled_event(random, given),
        16 => given.events = random.pick(&[1_023, 1_024]),
        _ => add_many_rules(random, given),
    }
}

/// A number of a rule that all lists have.
fn some_rule(random: &mut Random, given: &Given) -> Option<usize> {
    let lengths = [given.sources.len(), given.targets.len(), given.leasts.len(), given.mosts.len()];
    match lengths.iter().min() {
        Some(&count) if count > 0 => Some(random.below(count)),
        _ => None,
    }
}

fn name_unknown_event(random: &mut Random, given: &mut Given) {
    if let Some(i) = some_rule(random, given) {
        let near = [given.events, given.events.wrapping_add(1)];
        let event = if random.once_in(2) { random.pick(&near) } else { random.pick(&FAR_EVENTS) };
        if random.once_in(2) {
            given.sources[i] = event;
        } else {
            given.targets[i] = event;
        }
    }
}

fn put_bad_delay(random: &mut Random, given: &mut Given) {
    if let Some(i) = some_rule(random, given) {
        match random.below(4) {
            0 => given.leasts[i] = random.pick(&[-1_000_001, -5_000_000_000, i64::MIN]),
            1 => given.mosts[i] = random.pick(&[1_000_001, 5_000_000_000, i64::MAX]),
            2 => given.mosts[i] = random.pick(&[given.leasts[i].saturating_sub(1), -1_000_001, i64::MIN]),
            _ => given.leasts[i] = random.pick(&[given.mosts[i].saturating_add(1), 1_000_001, i64::MAX]),
        }
    }
}

fn change_a_length(random: &mut Random, given: &mut Given) {
    let longer = random.once_in(2);
    match random.below(4) {
        0 => change_length(&mut given.sources, longer),
        1 => change_length(&mut given.targets, longer),
        2 => change_length(&mut given.leasts, longer),
        _ => change_length(&mut given.mosts, longer),
    }
}

fn change_length<T: Default>(list: &mut Vec<T>, longer: bool) {
    if longer {
        list.push(T::default());
    } else {
        list.pop();
    }
}

/// One rule more, with the ends made from those of a rule that is there.
fn add_rule(random: &mut Random, given: &mut Given, ends: fn(usize, usize) -> (usize, usize)) {
    if let Some(i) = some_rule(random, given) {
        let (source, target) = ends(given.sources[i], given.targets[i]);
        push_rule(given, source, target, 0);
    }
}

/// An event that no rule leads to, with a rule from it to any event, perhaps the root.
fn add_unled_event(random: &mut Random, given: &mut Given) {
    if given.events > 0 && given.events < 7 {
        let target = random.below(given.events);
        push_rule(given, given.events, target, 1);
        given.events += 1;
    }
}

fn push_rule(given: &mut Given, source: usize, target: usize, delay: i64) {
    given.sources.push(source);
    given.targets.push(target);
    given.leasts.push(delay);
    given.mosts.push(delay);
}

/// As many rules as the limit has or one more, now and then.
fn add_many_rules(random: &mut Random, given: &mut Given) {
    let count = random.pick(&[4_096, 4_097]);
    if random.once_in(4) && given.events > 1 {
        while given.sources.len() < count {
            push_rule(given, 0, 1, 0);
        }
    }
}

// ---- questions

/// An event of the graph, or now and then none.
pub fn draw_event(random: &mut Random, events: usize) -> usize {
    if random.once_in(25) {
        return random.pick(&[events, events.wrapping_add(1), 1_024, 1 << 32, usize::MAX]);
    }
    random.below(events.clamp(1, 8))
}

/// The length of a lent list that needs so many places: enough, more, or now and then too few.
pub fn draw_length(random: &mut Random, needed: usize) -> usize {
    let needed = needed.min(5_000);
    if random.once_in(30) {
        return needed - random.pick(&[1, 1, 2, needed]).min(needed);
    }
    needed + random.pick(&[0, 0, 0, 1, 3])
}

/// The step to ask for: that of the graph, or now and then one outside the limits.
pub fn draw_step(random: &mut Random, q: usize) -> usize {
    if random.once_in(15) {
        return random.pick(&[0, 1_001, 1_002, 1 << 32, (1 << 32) + 1, usize::MAX]);
    }
    q
}

// ---- process graphs

pub fn draw_process(random: &mut Random) -> GivenProcess {
    let p = 1 + random.below(3);
    let mut copies = 1 + random.below(4);
    let mut rules = Vec::new();
    let mut marks = Vec::new();
    for target in 0..p {
        let mark = random.below(2);
        let source = if mark == 0 && target > 0 { random.below(target) } else { random.below(p) };
        rules.push(draw_rule(random, source, target));
        marks.push(if target == 0 { 1 } else { mark });
    }
    for _ in 0..random.below(3) {
        let (source, target) = (random.below(p), random.below(p));
        rules.push(draw_rule(random, source, target));
        marks.push(if source < target { random.below(2) } else { 1 });
    }
    let mut templates = as_given(p, &rules);
    let starts: Vec<Rule> = rules.iter().map(|rule| draw_rule(random, 0, rule.target)).collect();
    let mut starts = as_given(p, &starts);
    if random.once_in(4) {
        put_process_fault(random, &mut templates, &mut starts, &mut marks, &mut copies);
    }
    let needed = templates.sources.len().saturating_mul(copies);
    let lent = [0; 4].map(|_| draw_length(random, needed));
    GivenProcess { templates, marks, start_leasts: starts.leasts, start_mosts: starts.mosts, copies, lent }
}

/// A fault of a process graph. The start intervals are those of `starts`, as if each were a rule.
fn put_process_fault(random: &mut Random, templates: &mut Given, starts: &mut Given, marks: &mut Vec<usize>, copies: &mut usize) {
    match random.below(13) {
        0 => name_unknown_event(random, templates),
        1 => put_bad_delay(random, templates),
        2 => change_a_length(random, templates),
        3 => change_length(marks, random.once_in(2)),
        4 => templates.events = random.pick(&[0, 1_024, 1 << 32, 1 << 63, usize::MAX]),
        5 => *copies = random.pick(&[0, 1_023, 1_024, 1_025, 1 << 62, usize::MAX]),
        6 | 7 => put_bad_mark(random, marks),
        8 => {
            put_bad_delay(random, starts);
            put_bad_delay(random, templates);
        }
        9 | 10 => put_bad_delay(random, starts),
        11 => change_length(if random.once_in(2) { &mut starts.leasts } else { &mut starts.mosts }, random.once_in(2)),
        _ => *templates = as_given(31, &[Rule { source: 30, target: 30, least: -1, most: 1 }]),
    }
    if templates.events == 31 {
        *marks = vec![random.below(2)];
        *starts = as_given(31, &[Rule { source: 0, target: 30, least: -2, most: 3 }]);
        *copies = random.pick(&[32, 33, 34]);
    }
}

fn put_bad_mark(random: &mut Random, marks: &mut [usize]) {
    let i = random.below(marks.len());
    marks[i] = random.pick(&[2, 3, 1 << 32, (1 << 32) + 1, usize::MAX]);
}

/// The event graph of a process graph, as a graph to ask about, if it is small.
pub fn as_graph(random: &mut Random, events: usize, mut rules: Vec<Rule>) -> Option<Drawn> {
    if events > 9 || rules.len() > 14 {
        return None;
    }
    narrow(random, &mut rules);
    let steps = [2, 3, 5, 1_000, 1];
    let q = *steps.iter().find(|&&q| choices(&outward(&rules, q)) <= MOST_ROUNDED)?;
    Some(Drawn { given: as_given(events, &rules), q })
}
