//! The figures, the limits and the report's worked table, asked of the library: each line of a file is a question and its answer.
//!
//!     figures FILE
//!
//! tests/figures.txt says what a line is. Prints each answer that differs and how many there are. Exit status 1: some differ; 2: the file is not as it should be.

use crankforest_tests::library::{self, Answer, Rules, Templates, Written};
use std::process::exit;

/// A question: its form, its counts and its lists, as the line has them.
struct Question<'a> {
    form: &'a str,
    counts: Vec<usize>,
    lists: Vec<&'a str>,
}

fn unread(line: &str) -> ! {
    eprintln!("figures: not a question: {line}");
    exit(2)
}

/// A number without a sign; below 0 it is counted from the greatest on.
fn unsigned(word: &str) -> Option<usize> {
    word.parse().ok().or_else(|| word.parse().ok().map(|x: isize| x as usize))
}

/// The numbers of a list, with `*k` and `+k` written out.
fn numbers<T: Copy>(list: &str, read: impl Fn(&str) -> Option<T>, next: impl Fn(T) -> T) -> Option<Vec<T>> {
    let mut all = vec![];
    for word in list.split_whitespace() {
        match word.strip_prefix(['*', '+']) {
            None => all.push(read(word)?),
            Some(count) => {
                while all.len() < count.parse().ok()? {
                    let last = *all.last()?;
                    all.push(if word.starts_with('*') { last } else { next(last) });
                }
            }
        }
    }
    Some(all)
}

impl Question<'_> {
    /// The count at `i`, or 0.
    fn count(&self, i: usize) -> usize {
        self.counts.get(i).copied().unwrap_or(0)
    }

    fn events(&self, i: usize) -> Vec<usize> {
        numbers(self.lists[i], unsigned, |x| x.wrapping_add(1)).unwrap_or_else(|| unread(self.lists[i]))
    }

    fn delays(&self, i: usize) -> Vec<i64> {
        numbers(self.lists[i], |word| word.parse().ok(), |x| x + 1).unwrap_or_else(|| unread(self.lists[i]))
    }
}

/// The question of a line before its answer.
fn question(line: &str) -> Option<Question<'_>> {
    let (label, rest) = line.split_once(':')?;
    let mut lists = rest.split(';');
    let counts = numbers(lists.next()?, unsigned, |x| x)?;
    let lists: Vec<&str> = lists.collect();
    let form = label.split_once(' ')?.0;
    let expected: &[usize] = if matches!(form, "unfold" | "gap") { &[5, 7] } else { &[4] };
    expected.contains(&lists.len()).then_some(Question { form, counts, lists })
}

/// A name and the numbers of a list.
fn listed<T: ToString>(name: &str, list: &[T]) -> String {
    let mut words = vec![name.to_string()];
    words.extend(list.iter().map(T::to_string));
    words.join(" ")
}

fn said(a: Answer) -> String {
    format!("{} {} {} {} {}", a.refusal, a.place, a.separation, a.source_depth, a.target_depth)
}

/// The answer to a question of an event graph.
fn of_graph(q: &Question, rules: Rules) -> String {
    let (n, s, t) = (q.count(0), q.count(1), q.count(2));
    match q.form {
        "exact" => said(library::exact(n, rules, s, t)),
        "coarse" => said(library::coarse(n, rules, s, t, q.count(3))),
        "schedule" => {
            let (mut times, mut delays) = (vec![99; q.count(3)], vec![99; q.count(4)]);
            let answer = library::schedule(n, rules, s, t, &mut times, &mut delays);
            format!("{}; {}; {}", said(answer), listed("times", &times), listed("delays", &delays))
        }
        _ => unread(q.form),
    }
}

/// The answer to a question of a process graph.
fn of_process(q: &Question, rules: Rules) -> String {
    let marks = q.events(4);
    let (start_leasts, start_mosts) = if q.lists.len() == 7 {
        (q.delays(5), q.delays(6))
    } else {
        (vec![0; marks.len()], vec![0; marks.len()])
    };
    let templates = Templates { rules, marks: &marks, start_leasts: &start_leasts, start_mosts: &start_mosts };
    let lent = q.count(2);
    let (events, delays) = (vec![99; lent], vec![99; lent]);
    let held = Written {
        lent: [lent; 4],
        sources: events.clone(),
        targets: events,
        leasts: delays.clone(),
        mosts: delays,
    };
    let mut out = held.clone();
    let unfolded = library::unfold(q.count(0), q.count(1), templates, &mut out);
    if q.form == "gap" {
        let answer = library::exact(unfolded.events, out.as_rules(unfolded.rules), q.count(3), q.count(4));
        return answer.separation.to_string();
    }
    let head = format!("{} {} {} {}", unfolded.refusal, unfolded.place, unfolded.events, unfolded.rules);
    if lent == 0 {
        return head;
    }
    if out == held {
        return head + "; kept";
    }
    let (sources, targets) = (listed("sources", &out.sources), listed("targets", &out.targets));
    let (leasts, mosts) = (listed("leasts", &out.leasts), listed("mosts", &out.mosts));
    format!("{head}; {sources}; {targets}; {leasts}; {mosts}")
}

/// What the library answers.
fn answer(q: &Question) -> String {
    let (sources, targets, leasts, mosts) = (q.events(0), q.events(1), q.delays(2), q.delays(3));
    let rules = Rules { sources: &sources, targets: &targets, leasts: &leasts, mosts: &mosts };
    if matches!(q.form, "unfold" | "gap") {
        of_process(q, rules)
    } else {
        of_graph(q, rules)
    }
}

/// Whether the library answers as the line says; what it answers where not.
fn asked(line: &str) -> Option<bool> {
    let (asks, expected) = line.rsplit_once(" = ")?;
    let got = answer(&question(asks)?);
    if got != expected {
        println!("figures: {asks}\n    expected {expected}\n    got      {got}");
    }
    Some(got == expected)
}

fn main() {
    let path = std::env::args().nth(1).unwrap_or_default();
    let text = std::fs::read_to_string(&path).unwrap_or_else(|_| {
        eprintln!("usage: figures FILE");
        exit(2)
    });
    let lines: Vec<&str> = text.lines().filter(|line| !line.is_empty() && !line.starts_with('#')).collect();
    let differ = lines.iter().filter(|line| !asked(line).unwrap_or_else(|| unread(line))).count();
    println!("figures: {} asked, {differ} differ", lines.len());
    exit((differ != 0 || lines.is_empty()).into())
}
