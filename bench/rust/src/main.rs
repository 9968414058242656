//! The benchmark: the library's analysis, called through the static library, beside plain Rust and plain C, in one process and in turns. See
//! docs/BENCHMARKS.md; bench/run builds and starts it.
//!
//!     crankforest-bench                             the tables
//!     crankforest-bench ENGINE EVENTS RULES LAPS    one engine (library, rust or c) alone, for bench/count
//!     crankforest-bench text                        writes the text of the text table
//!
//! ROUNDS and MILLISECONDS in the environment say how often each is timed (default 15) and how long each time at least (default 50).
mod claims;
mod deadlines;
mod engines;
mod graphs;
mod plain;
#[cfg(feature = "text")]
mod plain_text;
mod texts;
mod timing;

use engines::{Answer, Engine, ENGINES};
use graphs::{Lists, Numbers, Question};
use std::env;
use timing::{best_of, Effort};

const SIZES: [(usize, usize); 8] = [(2, 1), (64, 256), (256, 1024), (512, 2048), (1024, 1023), (1024, 2048), (1024, 3072), (1024, 4096)];

/// A graph and the questions asked about it.
struct Case {
    lists: Lists,
    questions: Vec<Question>,
}

impl Case {
    fn new(n: usize, r: usize) -> Case {
        let mut numbers = Numbers::from(1);
        Case { lists: graphs::forward(&mut numbers, n, r), questions: graphs::questions(&mut numbers, n, r) }
    }

    /// Changes the graph as a question says, asks it, and gives the answer.
    fn ask(&mut self, engine: Engine, question: usize) -> Answer {
        let Question { s, t, rule, least } = self.questions[question];
        self.lists.leasts[rule] = least;
        engine(&self.lists.graph(), s, t)
    }

    /// Asks all questions once, and gives a sum over the answers.
    fn cycle(&mut self, engine: Engine) -> u64 {
        (0..self.questions.len()).fold(0, |sum, question| summed(sum, self.ask(engine, question)))
    }
}

/// The sum with one answer more.
fn summed(sum: u64, a: Answer) -> u64 {
    let depths = (a.source_depth << 32) + (a.target_depth << 16);
    let refusal = (a.refusal << 56) + (a.place << 44);
    sum.wrapping_mul(31).wrapping_add((depths + refusal) as u64).wrapping_add(a.separation as u64)
}

/// Sees that the three give the same answer, and gives it.
fn agreed(answers: [Answer; 3]) -> Answer {
    assert_eq!(answers[0], answers[1], "library and rust");
    assert_eq!(answers[0], answers[2], "library and c");
    answers[0]
}

/// Sees that the three agree on small graphs, many of which are refused; each refusal comes up.
fn agree_when_refused() {
    let mut numbers = Numbers::from(5);
    let mut seen = [0; 25];
    for _ in 0..5000 {
        let lists = graphs::faulty(&mut numbers);
        let (s, t) = (numbers.below(9), numbers.below(9));
        let answer = agreed(ENGINES.map(|(_, engine)| engine(&lists.graph(), s, t)));
        seen[answer.refusal] += 1;
    }
    assert!([0, 2, 3, 4, 5, 6, 21, 22].iter().all(|&number| seen[number] > 0), "{:?}", seen);
}

/// The sum of a cycle, after the first has made the graphs that all cycles from then on find; sees that the three agree on every answer.
fn agree_on(case: &mut Case) -> u64 {
    case.cycle(ENGINES[0].1);
    (0..case.questions.len()).fold(0, |sum, question| summed(sum, agreed(ENGINES.map(|(_, engine)| case.ask(engine, question)))))
}

/// The table of the analysis.
fn analysis_table(effort: &Effort) {
    println!("### Analysis\n");
    println!("| n | r | Rattle, ns | Rust, ns | C, ns | Rattle, ns per event + rule | Rust | C | Rattle / Rust | Rattle / C |");
    println!("|---|---|---|---|---|---|---|---|---|---|");
    agree_when_refused();
    for (n, r) in SIZES {
        let mut case = Case::new(n, r);
        let expected = agree_on(&mut case);
        let laps = case.questions.len() as f64;
        let mut cycle = |which: usize| assert_eq!(case.cycle(ENGINES[which].1), expected, "{}", ENGINES[which].0);
        let [a, b, c] = best_of(effort, &mut cycle).map(|time| time / laps);
        let each = (n + r) as f64;
        println!(
            "| {} | {} | {:.0} | {:.0} | {:.0} | {:.1} | {:.1} | {:.1} | {:.2} | {:.2} |",
            n,
            r,
            a,
            b,
            c,
            a / each,
            b / each,
            c / each,
            a / b,
            a / c
        );
    }
}

/// One engine alone; writes a sum over the answers.
fn alone(engine: &str, n: &str, r: &str, laps: &str) {
    let engine = ENGINES.iter().find(|(name, _)| *name == engine).expect("the engine is library, rust or c").1;
    let number = |text: &str| text.parse::<usize>().expect("a number");
    let mut case = Case::new(number(n), number(r));
    let questions = case.questions.len();
    let sum = (0..number(laps)).fold(0, |sum, lap| summed(sum, case.ask(engine, lap % questions)));
    println!("{}", sum);
}

fn main() {
    let words: Vec<String> = env::args().skip(1).collect();
    let words: Vec<&str> = words.iter().map(String::as_str).collect();
    match words[..] {
        [] => {
            let effort = Effort::of_environment();
            analysis_table(&effort);
            claims::table(&effort);
            deadlines::table(&effort);
            #[cfg(feature = "text")]
            texts::table(&effort);
        }
        ["text"] => print!("{}", texts::text().0),
        [engine, n, r, laps] => alone(engine, n, r, laps),
        _ => panic!("nothing, ENGINE EVENTS RULES LAPS, or text"),
    }
}
