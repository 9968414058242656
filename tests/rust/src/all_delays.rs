//! The means of the second program of 01, which tries all whole-tick delays on small graphs. Nothing here is taken from the analysis: no order of the
//! events, no m, no U.
//!
//! | Notion | How it is found |
//! |---|---|
//! | separation | the greatest t(t) - t(s) over every choice of a delay for every rule |
//! | event times | the greatest over the incoming rules of source time + delay; the root at 0 |
//! | cycles, unreached events | by following rules from an event |
//! | depths | the longest of all paths from the root, each of which is walked |
//! | coarse form | every bound moved outward tick by tick to a multiple of q, then as above |
//! | hard deadlines | of all these executions, those in which every rule's two times differ by least to most |
//! | schedule | what was written is tested against 01's sentence |
//! | claim | an execution where some choice of delays is its list and gives its times; the broken event by 01's sentences, in 128 bits |
//! | unfolding | the report's set R, cut off at K, its events listed by number |

#[derive(Clone, Copy, Debug, PartialEq, Eq)]
pub struct Rule {
    pub source: usize,
    pub target: usize,
    pub least: i64,
    pub most: i64,
}

/// A graph as it is handed in, right or wrong.
#[derive(Clone, Debug)]
pub struct Given {
    pub events: usize,
    pub sources: Vec<usize>,
    pub targets: Vec<usize>,
    pub leasts: Vec<i64>,
    pub mosts: Vec<i64>,
}

impl Given {
    /// The rules, where the lists have one length.
    pub fn rules(&self) -> Vec<Rule> {
        let rule =
            |i| Rule { source: self.sources[i], target: self.targets[i], least: self.leasts[i], most: self.mosts[i] };
        (0..self.sources.len()).map(rule).collect()
    }

    fn lists_differ(&self) -> bool {
        let lengths = [self.targets.len(), self.leasts.len(), self.mosts.len()];
        lengths.iter().any(|&length| length != self.sources.len())
    }
}

// ---- executions

/// How many choices of delays there are.
pub fn choices(rules: &[Rule]) -> u128 {
    rules.iter().map(|rule| (rule.most - rule.least + 1) as u128).product()
}

/// The next choice of delays; false after the last.
fn next_choice(rules: &[Rule], delays: &mut [i64]) -> bool {
    for (rule, delay) in rules.iter().zip(delays) {
        if *delay < rule.most {
            *delay += 1;
            return true;
        }
        *delay = rule.least;
    }
    false
}

/// The time of an event under one choice of delays. `into` has the numbers of the rules into each event, `times` the times that are known.
fn time_of(event: usize, rules: &[Rule], into: &[Vec<usize>], delays: &[i64], times: &mut [Option<i64>]) -> i64 {
    if let Some(time) = times[event] {
        return time;
    }
    let mut last = i64::MIN;
    for &rule in &into[event] {
        let arrival = time_of(rules[rule].source, rules, into, delays, times) + delays[rule];
        last = last.max(arrival);
    }
    times[event] = Some(last);
    last
}

/// The times of all events under one choice of delays.
fn execution(rules: &[Rule], into: &[Vec<usize>], delays: &[i64], times: &mut [Option<i64>]) -> Vec<i64> {
    times.iter_mut().for_each(|time| *time = None);
    times[0] = Some(0);
    (0..into.len()).map(|event| time_of(event, rules, into, delays, times)).collect()
}

/// The greatest t(t) - t(s) over all executions: row s, column t. The graph has no cycle and every event is reached.
pub fn greatest(events: usize, rules: &[Rule]) -> Vec<Vec<i64>> {
    let into: Vec<Vec<usize>> = (0..events).map(|event| rules_into(event, rules)).collect();
    let mut greatest = vec![vec![i64::MIN; events]; events];
    let mut known = vec![None; events];
    let mut delays: Vec<i64> = rules.iter().map(|rule| rule.least).collect();
    loop {
        let times = execution(rules, &into, &delays, &mut known);
        for (row, from) in greatest.iter_mut().zip(&times) {
            for (best, to) in row.iter_mut().zip(&times) {
                *best = (*best).max(to - from);
            }
        }
        if !next_choice(rules, &mut delays) {
            return greatest;
        }
    }
}

/// The same over the times that meet every rule on its own, which are among the executions; none where there are no such times.
pub fn hard_greatest(events: usize, rules: &[Rule]) -> Option<Vec<Vec<i64>>> {
    let into: Vec<Vec<usize>> = (0..events).map(|event| rules_into(event, rules)).collect();
    let mut greatest: Option<Vec<Vec<i64>>> = None;
    let mut known = vec![None; events];
    let mut delays: Vec<i64> = rules.iter().map(|rule| rule.least).collect();
    loop {
        let times = execution(rules, &into, &delays, &mut known);
        if rules.iter().all(|rule| binds(rule, &times)) {
            let rows = greatest.get_or_insert_with(|| vec![vec![i64::MIN; events]; events]);
            for (row, from) in rows.iter_mut().zip(&times) {
                for (best, to) in row.iter_mut().zip(&times) {
                    *best = (*best).max(to - from);
                }
            }
        }
        if !next_choice(rules, &mut delays) {
            return greatest;
        }
    }
}

/// Whether the two times of a rule differ by a delay of its interval.
fn binds(rule: &Rule, times: &[i64]) -> bool {
    (rule.least..=rule.most).contains(&(times[rule.target] - times[rule.source]))
}

/// What is wrong with a written schedule under hard deadlines, if anything. `greatest` is the row of s, over the times that meet every rule.
pub fn hard_schedule_fault(
    rules: &[Rule],
    s: usize,
    greatest: &[i64],
    times: &[i64],
    delays: &[i64],
) -> Option<String> {
    if times[0] != 0 {
        return Some("the root isn't at 0".to_string());
    }
    if let Some(event) = (0..greatest.len()).find(|&v| times[v] - times[s] != greatest[v]) {
        return Some(format!("event {} is not as late against s as the deadlines allow", event));
    }
    if let Some(rule) = (0..rules.len()).find(|&i| !binds(&rules[i], times)) {
        return Some(format!("rule {} is not met", rule));
    }
    let between = |i: usize| times[rules[i].target] - times[rules[i].source];
    (0..rules.len()).find(|&i| delays[i] != between(i)).map(|i| format!("the delay of rule {} is another", i))
}

fn rules_into(event: usize, rules: &[Rule]) -> Vec<usize> {
    (0..rules.len()).filter(|&rule| rules[rule].target == event).collect()
}

// ---- paths

/// The events that rules lead to from this one, by one rule or more.
fn led_to(from: usize, rules: &[Rule]) -> Vec<usize> {
    let mut found: Vec<usize> = Vec::new();
    let mut looked_at = 0;
    let mut here = from;
    loop {
        for rule in rules.iter().filter(|rule| rule.source == here) {
            if !found.contains(&rule.target) {
                found.push(rule.target);
            }
        }
        if looked_at == found.len() {
            return found;
        }
        here = found[looked_at];
        looked_at += 1;
    }
}

/// The lowest event that a rule or more lead back to.
fn lowest_on_cycle(events: usize, rules: &[Rule]) -> Option<usize> {
    (0..events).find(|event| led_to(*event, rules).contains(event))
}

fn lowest_unreached(events: usize, rules: &[Rule]) -> Option<usize> {
    let reached = led_to(0, rules);
    (1..events).find(|event| !reached.contains(event))
}

/// The depth of every event, by walking every path from the root.
pub fn depths(events: usize, rules: &[Rule]) -> Vec<usize> {
    let mut deepest = vec![0; events];
    walk(0, 0, rules, &mut deepest);
    deepest
}

fn walk(event: usize, length: usize, rules: &[Rule], deepest: &mut [usize]) {
    deepest[event] = deepest[event].max(length);
    for rule in rules.iter().filter(|rule| rule.source == event) {
        walk(rule.target, length + 1, rules, deepest);
    }
}

// ---- refusals

/// What is asked of a graph besides s and t.
#[derive(Clone, Copy, Debug)]
pub enum Form {
    Exact,
    /// With the lengths of the two lent lists.
    Schedule(usize, usize),
    /// With q.
    Coarse(usize),
}

fn delay_outside(rule: &Rule) -> bool {
    let inside = -1_000_000..=1_000_000;
    !inside.contains(&rule.least) || !inside.contains(&rule.most) || rule.least > rule.most
}

/// 21 for the events, 22 for the rules, 23 for the lent lists, in this order.
fn counts_refused(given: &Given, form: Form) -> Option<usize> {
    let short = match form {
        Form::Schedule(times, delays) => times < given.events || delays < given.sources.len(),
        _ => false,
    };
    if given.events == 0 || given.events > 1_024 {
        Some(21)
    } else if given.sources.len() > 4_096 || given.lists_differ() {
        Some(22)
    } else if short {
        Some(23)
    } else {
        None
    }
}

/// The number and place of the first refusal that applies.
pub fn refusal(given: &Given, form: Form, s: usize, t: usize) -> Option<(usize, usize)> {
    if let Some(number) = counts_refused(given, form) {
        return Some((number, 0));
    }
    let events = given.events;
    let rules = given.rules();
    if let Some(rule) = rules.iter().position(|rule| rule.source >= events || rule.target >= events) {
        return Some((2, rule));
    }
    if let Some(rule) = rules.iter().position(delay_outside) {
        return Some((3, rule));
    }
    if let Some(place) = [s, t].iter().position(|&event| event >= events) {
        return Some((4, place));
    }
    match form {
        Form::Coarse(q) if q == 0 || q > 1_000 => return Some((9, q)),
        _ => {}
    }
    if let Some(event) = lowest_on_cycle(events, &rules) {
        return Some((5, event));
    }
    lowest_unreached(events, &rules).map(|event| (6, event))
}

// ---- the coarse form

/// Every least delay moved down and every most delay moved up, tick by tick, to a multiple of q.
pub fn outward(rules: &[Rule], q: usize) -> Vec<Rule> {
    rules.iter().map(|rule| moved_outward(*rule, q as i64)).collect()
}

fn moved_outward(mut rule: Rule, q: i64) -> Rule {
    while rule.least % q != 0 {
        rule.least -= 1;
    }
    while rule.most % q != 0 {
        rule.most += 1;
    }
    rule
}

// ---- the schedule

/// What is wrong with a written schedule against s, if anything. `greatest` is the row of s: how late each event can be against it.
pub fn schedule_fault(rules: &[Rule], s: usize, greatest: &[i64], times: &[i64], delays: &[i64]) -> Option<String> {
    if let Some(event) = (0..greatest.len()).find(|&v| times[v] - times[s] != greatest[v]) {
        return Some(format!("event {} is not as late against s as an execution has it", event));
    }
    if let Some(event) = (0..greatest.len()).find(|&v| Some(times[v]) != time_by(v, rules, times, delays)) {
        return Some(format!("it is no execution at event {}", event));
    }
    let fits = |i: &usize| Some(delays[*i]) == greatest_delay(&rules[*i], times);
    (0..rules.len()).find(|i| !fits(i)).map(|i| format!("the delay of rule {} is not the greatest that fits", i))
}

/// The time that an event has to have: the root 0, any other the greatest of source time + delay.
fn time_by(event: usize, rules: &[Rule], times: &[i64], delays: &[i64]) -> Option<i64> {
    if event == 0 {
        return Some(0);
    }
    let arrivals = rules_into(event, rules).into_iter().map(|rule| times[rules[rule].source] + delays[rule]);
    arrivals.max()
}

/// The greatest delay of the interval that doesn't carry the source past the target's time, tried from the most down.
fn greatest_delay(rule: &Rule, times: &[i64]) -> Option<i64> {
    let mut delay = rule.most;
    while delay >= rule.least {
        if times[rule.source] + delay <= times[rule.target] {
            return Some(delay);
        }
        delay -= 1;
    }
    None
}

// ---- claims

/// What is said of a claim that isn't refused.
#[derive(Clone, Copy, Debug, PartialEq, Eq)]
pub enum Verdict {
    Maximum,
    Below,
    Broken(usize),
    Differs,
}

/// The refusal of a claim with so many times and delays: the question's, with 22 for wrong lists after 21.
pub fn claim_refusal(given: &Given, s: usize, t: usize, times: usize, delays: usize) -> Option<(usize, usize)> {
    let wrong = times != given.events || delays != given.sources.len();
    match refusal(given, Form::Exact, s, t) {
        Some((21, place)) => Some((21, place)),
        _ if wrong => Some((22, 0)),
        other => other,
    }
}

/// Whether the two lists are an execution: every choice of delays is made, and where it is the list, the times that follow are compared.
fn is_execution(rules: &[Rule], times: &[i64], delays: &[i64]) -> bool {
    let into: Vec<Vec<usize>> = (0..times.len()).map(|event| rules_into(event, rules)).collect();
    let mut known = vec![None; times.len()];
    let mut choice: Vec<i64> = rules.iter().map(|rule| rule.least).collect();
    loop {
        if choice == delays {
            return execution(rules, &into, &choice, &mut known) == times;
        }
        if !next_choice(rules, &mut choice) {
            return false;
        }
    }
}

/// Whether an event breaks one of 01's sentences.
fn is_broken(event: usize, rules: &[Rule], times: &[i64], delays: &[i64]) -> bool {
    let into = rules_into(event, rules);
    let outside = into.iter().any(|&i| delays[i] < rules[i].least || delays[i] > rules[i].most);
    let arrivals = into.iter().map(|&i| times[rules[i].source] as i128 + delays[i] as i128);
    let due = if event == 0 { Some(0) } else { arrivals.max() };
    outside || due != Some(times[event] as i128)
}

/// The verdict on a claim that isn't refused. `greatest` is the maximum.
pub fn verdict(
    rules: &[Rule],
    s: usize,
    t: usize,
    claimed: i64,
    greatest: i64,
    times: &[i64],
    delays: &[i64],
) -> Verdict {
    let broken = (0..times.len()).find(|&event| is_broken(event, rules, times, delays));
    assert_eq!(
        broken.is_none(),
        is_execution(rules, times, delays),
        "no event is broken exactly if it is an execution"
    );
    match broken {
        Some(event) => Verdict::Broken(event),
        None if times[t] - times[s] != claimed => Verdict::Differs,
        None if claimed == greatest => Verdict::Maximum,
        None => Verdict::Below,
    }
}

// ---- unfoldings

/// A process graph as it is handed in, with K and the lengths of the four lent lists.
#[derive(Clone, Debug)]
pub struct GivenProcess {
    pub templates: Given,
    pub marks: Vec<usize>,
    pub start_leasts: Vec<i64>,
    pub start_mosts: Vec<i64>,
    pub copies: usize,
    pub lent: [usize; 4],
}

impl GivenProcess {
    /// How many rules are written, as a number that can't be too small.
    fn written(&self) -> u128 {
        self.templates.sources.len() as u128 * self.copies as u128
    }

    fn last_event(&self) -> u128 {
        self.templates.events as u128 * self.copies as u128
    }

    /// 21 for the events, 22 for the templates, 24 for the unfolding, 23 for the lent lists, in this order.
    fn counts_refused(&self) -> Option<usize> {
        let lengths = [self.marks.len(), self.start_leasts.len(), self.start_mosts.len()];
        let lists_differ = self.templates.lists_differ() || lengths.iter().any(|&length| length != self.templates.sources.len());
        if self.templates.events == 0 || self.templates.events > 1_023 {
            Some(21)
        } else if self.templates.sources.len() > 4_096 || lists_differ {
            Some(22)
        } else if self.copies == 0 || self.last_event() > 1_023 || self.written() > 4_096 {
            Some(24)
        } else if self.lent.iter().any(|&length| (length as u128) < self.written()) {
            Some(23)
        } else {
            None
        }
    }

    /// The start interval of a template as a rule: one with mark 1 has it, any other has none.
    fn start_rule(&self, template: usize) -> Option<Rule> {
        if self.marks[template] != 1 {
            return None;
        }
        let (least, most) = (self.start_leasts[template], self.start_mosts[template]);
        Some(Rule { source: 0, target: self.templates.targets[template], least, most })
    }

    pub fn refusal(&self) -> Option<(usize, usize)> {
        if let Some(number) = self.counts_refused() {
            return Some((number, 0));
        }
        let events = self.templates.events;
        let templates = self.templates.rules();
        if let Some(place) = templates.iter().position(|rule| rule.source >= events || rule.target >= events) {
            return Some((2, place));
        }
        let wrong = |&place: &usize| delay_outside(&templates[place]) || self.start_rule(place).iter().any(delay_outside);
        if let Some(place) = (0..templates.len()).find(wrong) {
            return Some((3, place));
        }
        self.marks.iter().position(|&mark| mark != 0 && mark != 1).map(|place| (7, place))
    }
}

/// An event of the unfolding: the root or occurrence k of an event, u_k.
#[derive(Clone, Copy, Debug, PartialEq, Eq)]
enum Node {
    Root,
    Occurrence(usize, usize),
}

/// A member of the report's R with the k of its target and the number of its template.
struct Member {
    k: usize,
    template: usize,
    from: Node,
    to: Node,
    delays: (i64, i64),
}

/// The events of an accepted unfolding, by number.
fn nodes(events: usize, copies: usize) -> Vec<Node> {
    let mut nodes = vec![Node::Root];
    for k in 0..copies {
        nodes.extend((0..events).map(|event| Node::Occurrence(event, k)));
    }
    nodes
}

/// The members of R that one template gives, as far as their target's k is below K.
fn members(template: usize, rule: &Rule, start: Option<Rule>, mark: usize, copies: usize) -> Vec<Member> {
    let mut members = Vec::new();
    if let Some(first) = start {
        let to = Node::Occurrence(first.target, 0);
        members.push(Member { k: 0, template, from: Node::Root, to, delays: (first.least, first.most) });
    }
    let mut k = 0;
    while k + mark < copies {
        let from = Node::Occurrence(rule.source, k);
        let to = Node::Occurrence(rule.target, k + mark);
        members.push(Member { k: k + mark, template, from, to, delays: (rule.least, rule.most) });
        k += 1;
    }
    members
}

/// The event graph of an accepted process graph: the number of events, and the rules in 01's order.
pub fn unfolding(process: &GivenProcess) -> (usize, Vec<Rule>) {
    let templates = process.templates.rules();
    let nodes = nodes(process.templates.events, process.copies);
    let mut set: Vec<Member> = Vec::new();
    for (template, rule) in templates.iter().enumerate() {
        set.extend(members(template, rule, process.start_rule(template), process.marks[template], process.copies));
    }
    set.sort_by_key(|member| (member.k, member.template));
    let number = |node: Node| nodes.iter().position(|&other| other == node).expect("every node is listed");
    let rule = |member: &Member| Rule {
        source: number(member.from),
        target: number(member.to),
        least: member.delays.0,
        most: member.delays.1,
    };
    (nodes.len(), set.iter().map(rule).collect())
}
