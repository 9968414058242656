//! The analysis in plain Rust, written from 01: the checks in 01's order, Kahn's order, depths, m back from s, U on from the root, the schedule, the
//! rounding, the rounds with hard deadlines and the unfolding. It is what the library is compared with.

use crate::library::{Answer, HardAnswer, Rules, Templates, Unfolded, Written};

pub const MOST_EVENTS: usize = 1_024;
pub const MOST_RULES: usize = 4_096;
pub const MOST_DELAY: i64 = 1_000_000;
pub const MOST_STEP: usize = 1_000;

/// A refusal's number and place.
#[derive(Clone, Copy, Debug, PartialEq, Eq)]
pub struct Refusal {
    pub number: usize,
    pub place: usize,
}

fn refuse<T>(number: usize, place: usize) -> Result<T, Refusal> {
    Err(Refusal { number, place })
}

// ---- the checks

fn check_counts(n: usize, rules: Rules) -> Result<(), Refusal> {
    let r = rules.sources.len();
    let alike = rules.targets.len() == r && rules.leasts.len() == r && rules.mosts.len() == r;
    if !(1..=MOST_EVENTS).contains(&n) {
        refuse(21, 0)
    } else if !alike || r > MOST_RULES {
        refuse(22, 0)
    } else {
        Ok(())
    }
}

fn check_events(n: usize, rules: Rules) -> Result<(), Refusal> {
    let mut ends = rules.sources.iter().zip(rules.targets);
    match ends.position(|(&source, &target)| source >= n || target >= n) {
        Some(rule) => refuse(2, rule),
        None => Ok(()),
    }
}

fn check_delays(rules: Rules) -> Result<(), Refusal> {
    let mut bounds = rules.leasts.iter().zip(rules.mosts);
    match bounds.position(|(&least, &most)| !(-MOST_DELAY <= least && least <= most && most <= MOST_DELAY)) {
        Some(rule) => refuse(3, rule),
        None => Ok(()),
    }
}

fn check_question(n: usize, s: usize, t: usize) -> Result<(), Refusal> {
    if s >= n {
        refuse(4, 0)
    } else if t >= n {
        refuse(4, 1)
    } else {
        Ok(())
    }
}

fn check_step(q: usize) -> Result<(), Refusal> {
    if (1..=MOST_STEP).contains(&q) {
        Ok(())
    } else {
        refuse(9, q)
    }
}

// ---- the analysis

/// The rules by target and by source, and the events with sources first.
struct Arranged {
    into: Vec<Vec<usize>>,
    out_of: Vec<Vec<usize>>,
    order: Vec<usize>,
}

/// The lowest event that lies on a cycle: the first from which rules lead back to it.
fn lowest_on_cycle(n: usize, rules: Rules, out_of: &[Vec<usize>]) -> usize {
    let leads_back = |v: usize| {
        let mut seen = vec![false; n];
        let mut next = vec![v];
        while let Some(u) = next.pop() {
            for &i in &out_of[u] {
                let w = rules.targets[i];
                if !seen[w] {
                    seen[w] = true;
                    next.push(w);
                }
            }
        }
        seen[v]
    };
    (0..n).find(|&v| leads_back(v)).expect("there is a cycle")
}

/// Kahn's order, or refusal 5.
fn arrange(n: usize, rules: Rules) -> Result<Arranged, Refusal> {
    let mut into = vec![Vec::new(); n];
    let mut out_of = vec![Vec::new(); n];
    for i in 0..rules.sources.len() {
        into[rules.targets[i]].push(i);
        out_of[rules.sources[i]].push(i);
    }
    let mut waiting: Vec<usize> = into.iter().map(Vec::len).collect();
    let mut order: Vec<usize> = (0..n).filter(|&v| waiting[v] == 0).collect();
    let mut next = 0;
    while next < order.len() {
        for &i in &out_of[order[next]] {
            let target = rules.targets[i];
            waiting[target] -= 1;
            if waiting[target] == 0 {
                order.push(target);
            }
        }
        next += 1;
    }
    if order.len() < n {
        return refuse(5, lowest_on_cycle(n, rules, &out_of));
    }
    Ok(Arranged { into, out_of, order })
}

/// The depth of every event, or refusal 6.
fn depths(n: usize, rules: Rules, arranged: &Arranged) -> Result<Vec<usize>, Refusal> {
    let mut depth: Vec<Option<usize>> = vec![None; n];
    depth[0] = Some(0);
    for &v in &arranged.order {
        for &i in &arranged.into[v] {
            let by_this = depth[rules.sources[i]].map(|d| d + 1);
            depth[v] = depth[v].max(by_this);
        }
    }
    match depth.iter().position(Option::is_none) {
        Some(event) => refuse(6, event),
        None => Ok(depth.into_iter().flatten().collect()),
    }
}

/// m(v): the least of -(sum of d) over paths from v to s; none where there is no path.
fn find_m(n: usize, rules: Rules, arranged: &Arranged, s: usize) -> Vec<Option<i64>> {
    let mut m: Vec<Option<i64>> = vec![None; n];
    m[s] = Some(0);
    for &v in arranged.order.iter().rev() {
        for &i in &arranged.out_of[v] {
            if let Some(beyond) = m[rules.targets[i]] {
                let by_this = beyond - rules.leasts[i];
                m[v] = Some(m[v].map_or(by_this, |best| best.min(by_this)));
            }
        }
    }
    m
}

/// U(v): the lesser of m(v) and the greatest U(source) + D. Every event is reached.
fn find_u(n: usize, rules: Rules, arranged: &Arranged, m: &[Option<i64>]) -> Vec<i64> {
    let mut u = vec![0; n];
    for &v in &arranged.order {
        let arrivals = arranged.into[v].iter().map(|&i| u[rules.sources[i]] + rules.mosts[i]);
        u[v] = match (arrivals.max(), m[v]) {
            (Some(arrival), Some(path)) => arrival.min(path),
            (Some(arrival), None) => arrival,
            (None, Some(path)) => path,
            (None, None) => unreachable!("the root has a path to every event"),
        };
    }
    u
}

/// What is found of an accepted graph against one s.
pub struct Latest {
    pub u: Vec<i64>,
    pub m_of_root: i64,
    pub depths: Vec<usize>,
}

/// Refusals 5 and 6, then U and the depths. The lists are known to be in order.
pub fn latest(n: usize, rules: Rules, s: usize) -> Result<Latest, Refusal> {
    let arranged = arrange(n, rules)?;
    let depths = depths(n, rules, &arranged)?;
    let m = find_m(n, rules, &arranged, s);
    let u = find_u(n, rules, &arranged, &m);
    Ok(Latest { u, m_of_root: m[0].expect("the root has a path to s"), depths })
}

/// Refusals 1, 2 and 3 of a graph.
pub fn check_graph(n: usize, rules: Rules) -> Result<(), Refusal> {
    check_counts(n, rules)?;
    check_events(n, rules)?;
    check_delays(rules)
}

/// All refusals of the exact form, in order, then the answer.
pub fn try_exact(n: usize, rules: Rules, s: usize, t: usize) -> Result<Latest, Refusal> {
    check_graph(n, rules)?;
    check_question(n, s, t)?;
    latest(n, rules, s)
}

fn answer(found: &Result<Latest, Refusal>, s: usize, t: usize) -> Answer {
    match found {
        Ok(latest) => Answer::found(latest.u[t], latest.depths[s], latest.depths[t]),
        Err(refusal) => Answer::refused(refusal.number, refusal.place),
    }
}

pub fn exact(n: usize, rules: Rules, s: usize, t: usize) -> Answer {
    answer(&try_exact(n, rules, s, t), s, t)
}

// ---- the schedule

pub fn schedule(n: usize, rules: Rules, s: usize, t: usize, times: &mut [i64], delays: &mut [i64]) -> Answer {
    if let Err(refusal) = check_counts(n, rules) {
        return Answer::refused(refusal.number, refusal.place);
    }
    if times.len() < n || delays.len() < rules.sources.len() {
        return Answer::refused(23, 0);
    }
    let found = try_exact(n, rules, s, t);
    if let Ok(latest) = &found {
        for (time, u) in times.iter_mut().zip(&latest.u) {
            *time = u - latest.m_of_root;
        }
        for i in 0..rules.sources.len() {
            delays[i] = rules.mosts[i].min(times[rules.targets[i]] - times[rules.sources[i]]);
        }
    }
    answer(&found, s, t)
}

// ---- the coarse form

pub fn round_down(x: i64, q: i64) -> i64 {
    x.div_euclid(q) * q
}

pub fn round_up(x: i64, q: i64) -> i64 {
    -round_down(-x, q)
}

pub fn coarse(n: usize, rules: Rules, s: usize, t: usize, q: usize) -> Answer {
    answer(&try_coarse(n, rules, s, t, q), s, t)
}

fn try_coarse(n: usize, rules: Rules, s: usize, t: usize, q: usize) -> Result<Latest, Refusal> {
    check_graph(n, rules)?;
    check_question(n, s, t)?;
    check_step(q)?;
    let leasts: Vec<i64> = rules.leasts.iter().map(|&d| round_down(d, q as i64)).collect();
    let mosts: Vec<i64> = rules.mosts.iter().map(|&d| round_up(d, q as i64)).collect();
    latest(n, Rules { leasts: &leasts, mosts: &mosts, ..rules }, s)
}

// ---- hard deadlines

/// The greatest t(v) - t(s) of every event over all times that meet every rule: shortest ways from s, where a rule leads on at its most delay and back
/// at minus its least; none where a way back to its start is shorter than nothing.
pub fn hard_gaps(n: usize, rules: Rules, s: usize) -> Option<Vec<i64>> {
    const FAR: i64 = i64::MAX / 4;
    let mut gaps = vec![FAR; n];
    gaps[s] = 0;
    for _ in 0..=n {
        let mut changed = false;
        for i in 0..rules.sources.len() {
            let (source, target) = (rules.sources[i], rules.targets[i]);
            for (from, to, weight) in [(source, target, rules.mosts[i]), (target, source, -rules.leasts[i])] {
                if gaps[from] < FAR && gaps[from] + weight < gaps[to] {
                    gaps[to] = gaps[from] + weight;
                    changed = true;
                }
            }
        }
        if !changed {
            return Some(gaps);
        }
    }
    None
}

pub fn try_hard(n: usize, rules: Rules, s: usize, t: usize) -> Result<(HardAnswer, Vec<i64>), Refusal> {
    let ordinary = try_exact(n, rules, s, t)?;
    match (hard_gaps(n, rules, s), hard_gaps(n, rules, t)) {
        (Some(against_s), Some(against_t)) => {
            let (least, most) = (-against_t[s], against_s[t]);
            Ok((HardAnswer::found(least, most, ordinary.depths[s], ordinary.depths[t]), against_s))
        }
        _ => refuse(10, 0),
    }
}

pub fn hard(n: usize, rules: Rules, s: usize, t: usize) -> HardAnswer {
    match try_hard(n, rules, s, t) {
        Ok((answer, _)) => answer,
        Err(refusal) => HardAnswer::refused(refusal.number, refusal.place),
    }
}

pub fn hard_schedule(n: usize, rules: Rules, s: usize, t: usize, times: &mut [i64], delays: &mut [i64]) -> HardAnswer {
    if let Err(refusal) = check_counts(n, rules) {
        return HardAnswer::refused(refusal.number, refusal.place);
    }
    if times.len() < n || delays.len() < rules.sources.len() {
        return HardAnswer::refused(23, 0);
    }
    match try_hard(n, rules, s, t) {
        Ok((answer, gaps)) => {
            for (time, gap) in times.iter_mut().zip(&gaps) {
                *time = gap - gaps[0];
            }
            for i in 0..rules.sources.len() {
                delays[i] = times[rules.targets[i]] - times[rules.sources[i]];
            }
            answer
        }
        Err(refusal) => HardAnswer::refused(refusal.number, refusal.place),
    }
}

// ---- the unfolding

/// Whether template i's delays are outside, or its start interval, which only mark 1 has looked at.
fn intervals_outside(templates: Templates, i: usize) -> bool {
    let rules = templates.rules;
    let start = |bounds: &[i64]| if templates.marks[i] == 1 { bounds[i] } else { 0 };
    let outside = |least: i64, most: i64| least < -MOST_DELAY || most > MOST_DELAY || least > most;
    outside(rules.leasts[i], rules.mosts[i]) || outside(start(templates.start_leasts), start(templates.start_mosts))
}

/// The counts of events and rules, or a refusal.
fn check_process(p: usize, copies: usize, templates: Templates, places: usize) -> Result<(usize, usize), Refusal> {
    let rules = templates.rules;
    let count = rules.sources.len();
    let starts = [templates.start_leasts.len(), templates.start_mosts.len()];
    let lengths = [rules.targets.len(), rules.leasts.len(), rules.mosts.len(), templates.marks.len(), starts[0], starts[1]];
    if !(1..MOST_EVENTS).contains(&p) {
        return refuse(21, 0);
    }
    if count > MOST_RULES || lengths.iter().any(|&length| length != count) {
        return refuse(22, 0);
    }
    let occurrences = p.checked_mul(copies).filter(|&o| (1..MOST_EVENTS).contains(&o));
    let written = count.checked_mul(copies).filter(|&w| w <= MOST_RULES);
    let (events, written) = match (occurrences, written) {
        (Some(o), Some(w)) => (1 + o, w),
        _ => return refuse(24, 0),
    };
    if places < written {
        return refuse(23, 0);
    }
    check_events(p, rules)?;
    if let Some(template) = (0..count).find(|&i| intervals_outside(templates, i)) {
        return refuse(3, template);
    }
    match templates.marks.iter().position(|&mark| mark > 1) {
        Some(template) => refuse(7, template),
        None => Ok((events, written)),
    }
}

pub fn unfold(p: usize, copies: usize, templates: Templates, out: &mut Written) -> Unfolded {
    let fewest = out.lent.iter().copied().min().unwrap_or(0);
    match check_process(p, copies, templates, fewest) {
        Ok((events, rules)) => {
            write_unfolding(p, copies, templates, out);
            Unfolded::found(events, rules)
        }
        Err(refusal) => Unfolded::refused(refusal.number, refusal.place),
    }
}

fn write_unfolding(p: usize, copies: usize, templates: Templates, out: &mut Written) {
    let rules = templates.rules;
    let mut at = 0;
    for k in 0..copies {
        for i in 0..rules.sources.len() {
            let starts = templates.marks[i] == 1 && k == 0;
            out.sources[at] = if starts { 0 } else { 1 + (k - templates.marks[i]) * p + rules.sources[i] };
            out.targets[at] = 1 + k * p + rules.targets[i];
            out.leasts[at] = if starts { templates.start_leasts[i] } else { rules.leasts[i] };
            out.mosts[at] = if starts { templates.start_mosts[i] } else { rules.mosts[i] };
            at += 1;
        }
    }
}
