//! The analysis as a Rust programmer would write it, for comparison: the same checks and refusals as the library's, the rules of an event side by side (a
//! counting sort), Kahn's order, depths, m back from s, U from the root on. Safe code; arrays on the stack, which Rust has set before they are used.

pub const EVENTS: usize = 1024;
pub const RULES: usize = 4096;
pub const DELAY: i64 = 1_000_000;

/// An event graph: rule i goes from `sources[i]` to `targets[i]` and takes from `leasts[i]` to `mosts[i]` ticks.
#[derive(Clone, Copy)]
pub struct Graph<'a> {
    pub n: usize,
    pub sources: &'a [usize],
    pub targets: &'a [usize],
    pub leasts: &'a [i64],
    pub mosts: &'a [i64],
}

#[derive(Clone, Copy, Debug, PartialEq, Eq)]
pub struct Refusal {
    pub number: usize,
    pub place: usize,
}

#[derive(Clone, Copy, Debug, PartialEq, Eq)]
pub struct Found {
    pub separation: i64,
    pub source_depth: usize,
    pub target_depth: usize,
}

fn refuse<T>(number: usize, place: usize) -> Result<T, Refusal> {
    Err(Refusal { number, place })
}

/// Refusals 21, 22 and 2 to 4.
fn check(graph: &Graph, s: usize, t: usize) -> Result<(), Refusal> {
    let Graph { n, sources, targets, leasts, mosts } = *graph;
    let rules = sources.len();
    let equal = targets.len() == rules && leasts.len() == rules && mosts.len() == rules;
    if !(1..=EVENTS).contains(&n) {
        return refuse(21, 0);
    }
    if rules > RULES || !equal {
        return refuse(22, 0);
    }
    if let Some(i) = sources.iter().zip(targets).position(|(&u, &w)| u >= n || w >= n) {
        return refuse(2, i);
    }
    let range = -DELAY..=DELAY;
    let outside = |(least, most): (&i64, &i64)| !range.contains(least) || !range.contains(most) || most < least;
    if let Some(i) = leasts.iter().zip(mosts).position(outside) {
        return refuse(3, i);
    }
    if s >= n {
        return refuse(4, 0);
    }
    if t >= n {
        return refuse(4, 1);
    }
    Ok(())
}

/// `rules[starts[v]..starts[v + 1]]` are the rules whose key is v.
fn group(keys: &[usize], starts: &mut [usize], rules: &mut [usize]) {
    for &key in keys {
        starts[key] += 1;
    }
    for v in 1..starts.len() {
        starts[v] += starts[v - 1];
    }
    for (i, &key) in keys.iter().enumerate().rev() {
        starts[key] -= 1;
        rules[starts[key]] = i;
    }
}

/// Whether rules lead from v back to v. `into` has the rules into an event.
fn on_cycle<'a>(v: usize, sources: &[usize], into: impl Fn(usize) -> &'a [usize]) -> bool {
    let mut seen = [false; EVENTS];
    let mut list = [0; EVENTS];
    let mut end = 0;
    let mut at = 0;
    let mut here = v;
    loop {
        for &i in into(here) {
            let u = sources[i];
            if !seen[u] {
                seen[u] = true;
                list[end] = u;
                end += 1;
            }
        }
        if at == end {
            return seen[v];
        }
        here = list[at];
        at += 1;
    }
}

/// The greatest t(t) − t(s) over all executions, and the depths of s and t. `latest` gets U of the n events.
pub fn analyse(graph: &Graph, s: usize, t: usize, latest: &mut [i64]) -> Result<Found, Refusal> {
    check(graph, s, t)?;
    let Graph { n, sources, targets, leasts, mosts } = *graph;

    let mut out_starts = [0; EVENTS + 1];
    let mut in_starts = [0; EVENTS + 1];
    let mut out_rules = [0; RULES];
    let mut in_rules = [0; RULES];
    group(sources, &mut out_starts[..=n], &mut out_rules);
    group(targets, &mut in_starts[..=n], &mut in_rules);
    let out_of = |v: usize| &out_rules[out_starts[v]..out_starts[v + 1]];
    let into = |v: usize| &in_rules[in_starts[v]..in_starts[v + 1]];

    let mut waiting = [0; EVENTS];
    let mut order = [0; EVENTS];
    let mut placed = 0;
    for (v, left) in waiting[..n].iter_mut().enumerate() {
        *left = into(v).len();
        if *left == 0 {
            order[placed] = v;
            placed += 1;
        }
    }
    let mut next = 0;
    while next < placed {
        for &i in out_of(order[next]) {
            let w = targets[i];
            waiting[w] -= 1;
            if waiting[w] == 0 {
                order[placed] = w;
                placed += 1;
            }
        }
        next += 1;
    }
    if placed < n {
        let lowest = (0..n).find(|&v| on_cycle(v, sources, into)).expect("there is a cycle");
        return refuse(5, lowest);
    }
    let order = &order[..n];

    let mut reached = [false; EVENTS];
    let mut depths = [0; EVENTS];
    for &v in order {
        let mut any = v == 0;
        let mut depth = 0;
        for &i in into(v) {
            let u = sources[i];
            if reached[u] {
                any = true;
                depth = depth.max(depths[u] + 1);
            }
        }
        reached[v] = any;
        depths[v] = depth;
    }
    if let Some(v) = reached[..n].iter().position(|reached| !reached) {
        return refuse(6, v);
    }

    let mut found = [false; EVENTS];
    let mut m = [0; EVENTS];
    for &v in order.iter().rev() {
        let mut any = v == s;
        let mut best = 0;
        if !any {
            for &i in out_of(v) {
                let w = targets[i];
                if found[w] {
                    let x = m[w] - leasts[i];
                    if !any || x < best {
                        best = x;
                    }
                    any = true;
                }
            }
        }
        found[v] = any;
        m[v] = best;
    }

    latest[0] = m[0];
    for &v in &order[1..] {
        let mut best = i64::MIN;
        for &i in into(v) {
            best = best.max(latest[sources[i]] + mosts[i]);
        }
        latest[v] = if found[v] { best.min(m[v]) } else { best };
    }
    Ok(Found { separation: latest[t], source_depth: depths[s], target_depth: depths[t] })
}

/// The greatest t(t) − t(s) over all executions, and the depths of s and t.
pub fn separation(graph: &Graph, s: usize, t: usize) -> Result<Found, Refusal> {
    analyse(graph, s, t, &mut [0; EVENTS])
}
