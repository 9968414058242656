//! The text form: its text and, with the feature `text`, its table.
use crate::graphs::{self, Numbers};

/// A text of 64 events and 1,024 rows, and the places of digits in it that may be changed.
pub fn text() -> (String, Vec<usize>) {
    let lists = graphs::forward(&mut Numbers::from(1), 64, 1024);
    let mut text = String::from("source,target,least,most\r\n");
    let mut digits = vec![];
    for i in 0..lists.sources.len() {
        let (least, most) = (lists.leasts[i] * 1001 - 900_000, lists.mosts[i] * 500);
        text += &format!("{},{},{}", lists.sources[i], lists.targets[i], least);
        digits.push(text.len() - 1);
        text += &format!(",{}\r\n", most);
    }
    (text, digits)
}

#[cfg(feature = "text")]
pub use with_library::table;

#[cfg(feature = "text")]
mod with_library {
    use super::{text, Numbers};
    use crate::plain_text;
    use crate::timing::{best_of, Effort};
    use std::fs::{self, File};
    use std::path::Path;
    use std::env;
    use std::process::{Command, Stdio};

    extern "C" {
        fn crankforest_separation(text: *const u8, length: usize, s: usize, t: usize) -> i64;
        fn crankforest_pairs(text: *const u8, length: usize, out: *mut u8, out_length: usize, place: *mut usize, bytes: *mut usize) -> usize;
    }

    fn separation(text: &[u8], s: usize, t: usize) -> i64 {
        // SAFETY: the text is handed over with its length.
        unsafe { crankforest_separation(text.as_ptr(), text.len(), s, t) }
    }

    fn pairs(text: &[u8], out: &mut [u8]) -> usize {
        let (mut place, mut bytes) = (0, 0);
        // SAFETY: each list is handed over with its length, and the places for single numbers are our own.
        unsafe { crankforest_pairs(text.as_ptr(), text.len(), out.as_mut_ptr(), out.len(), &mut place, &mut bytes) };
        bytes
    }

    type Separation = fn(&[u8], usize, usize) -> i64;
    type Pairs = fn(&[u8], &mut [u8]) -> usize;

    const SEPARATIONS: [Separation; 2] = [separation, plain_text::separation];
    const PAIRS: [Pairs; 2] = [pairs, plain_text::pairs];

    /// Where the pair program is, if it is there.
    const PROGRAM: &str = "crates/pairs/out/pairs";

    /// What the pair function writes.
    fn written(pairs: Pairs, text: &[u8]) -> Vec<u8> {
        let mut out = vec![0; 131_072];
        let length = pairs(text, &mut out);
        out.truncate(length);
        out
    }

    /// Sees that the library and plain Rust agree on a text, and gives what they write.
    fn agree_on(text: &[u8], s: usize, t: usize) -> Vec<u8> {
        let [ours, theirs] = SEPARATIONS.map(|separation| separation(text, s, t));
        assert_eq!(ours, theirs, "separation of {} and {} of {:?}", s, t, String::from_utf8_lossy(text));
        let [ours, theirs] = PAIRS.map(|pairs| written(pairs, text));
        assert!(ours == theirs, "pairs of {:?}", String::from_utf8_lossy(text));
        ours
    }

    /// Sees that they agree on texts with a few bytes changed, many of which are refused; refusals 3, 5, 6, 8 and 21 come up.
    fn agree_when_changed() {
        let mut numbers = Numbers::from(7);
        let mut seen = [0; 25];
        for _ in 0..5000 {
            let mut text = b"source,target,least,most\r\n00,02,-5,1000\r\n2,1,0,07\r\n1,03,-0,9\r\n0,3,1,1000000\r\n".to_vec();
            text.truncate(text.len() - numbers.below(4) * numbers.below(20));
            for _ in 0..numbers.below(3) {
                let at = numbers.below(text.len());
                text[at] = b"0123456789-,\r\n\" "[numbers.below(16)];
            }
            let out = agree_on(&text, numbers.below(5), numbers.below(5));
            let refused = out.strip_prefix(b"refused,").map(|rest| rest.iter().take_while(|byte| byte.is_ascii_digit()));
            seen[refused.map_or(0, |digits| digits.fold(0, |number, digit| 10 * number + usize::from(digit - b'0')))] += 1;
        }
        assert!([0, 3, 5, 6, 8, 21].iter().all(|&refusal| seen[refusal] > 0), "{:?}", seen);
        agree_on(b"", 0, 0);
        agree_on(&[b'0'; 32_769], 0, 0);
    }

    /// The text, and the laps: before each one digit is changed. After one cycle of them the texts are the same again.
    struct Laps {
        text: Vec<u8>,
        digits: Vec<usize>,
        next: usize,
    }

    impl Laps {
        const CYCLE: usize = 64;

        fn new() -> Laps {
            let (text, digits) = text();
            Laps { text: text.into_bytes(), digits, next: 0 }
        }

        /// Changes the text for the next lap, and gives the lap's number in the cycle.
        fn change(&mut self) -> usize {
            let lap = self.next;
            self.next = (lap + 1) % Laps::CYCLE;
            self.text[self.digits[lap * 7]] = b'0' + (lap % 10) as u8;
            lap
        }

        /// The two events that a lap asks about.
        fn events(lap: usize) -> (usize, usize) {
            (lap, lap * 29 % 64)
        }

        /// Sees that the library and plain Rust agree on every lap, and gives the separation and the number of bytes written of each.
        fn agreed(&mut self) -> Vec<(i64, usize)> {
            let mut answers = vec![];
            for _ in 0..Laps::CYCLE {
                let (s, t) = Laps::events(self.change());
                let bytes = agree_on(&self.text, s, t).len();
                answers.push((separation(&self.text, s, t), bytes));
            }
            answers
        }
    }

    /// Runs a program on the text, `input`, and gives what it writes.
    fn output(program: &str, input: &Path) -> Vec<u8> {
        let input = File::open(input).expect("the text");
        Command::new(program).stdin(input).stdout(Stdio::piped()).output().expect(program).stdout
    }

    /// The table of the text form.
    pub fn table(effort: &Effort) {
        agree_when_changed();
        let mut laps = Laps::new();
        laps.agreed();
        let expected = laps.agreed();
        println!("\n### Text form\n");
        println!("| 64 events, 1,024 rows, {} bytes | bytes written | Rattle, µs | Rust, µs | Rattle / Rust |", laps.text.len());
        println!("|---|---|---|---|---|");

        let [a, b] = best_of(effort, &mut |which: usize| {
            let lap = laps.change();
            let (s, t) = Laps::events(lap);
            assert_eq!(SEPARATIONS[which](&laps.text, s, t), expected[lap].0);
        });
        println!("| `crankforest_separation` | | {:.1} | {:.1} | {:.2} |", a / 1e3, b / 1e3, a / b);

        let mut out = vec![0; 131_072];
        let [a, b] = best_of(effort, &mut |which: usize| {
            let lap = laps.change();
            assert_eq!(PAIRS[which](&laps.text, &mut out), expected[lap].1);
        });
        let lines = agree_on(&laps.text, 0, 0);
        println!("| `crankforest_pairs` | {} | {:.1} | {:.1} | {:.2} |", lines.len(), a / 1e3, b / 1e3, a / b);

        // A process under an emulator (tests/x86_64) starts none of its kind.
        let emulated = env::var("RUNNER").map_or(false, |runner| !runner.is_empty());
        if !emulated && Path::new(PROGRAM).exists() {
            let input = Path::new("target/bench/pairs.csv");
            fs::write(input, &laps.text).expect("the text can be written");
            let programs = [PROGRAM, "true"];
            let [a, b] = best_of(effort, &mut |which: usize| {
                let bytes = output(programs[which], input);
                assert!(which == 1 || bytes == lines, "the pair program");
            });
            println!("| the program `pairs` as a process | {} | {:.1} | | |", lines.len(), a / 1e3);
            println!("| an empty process, `true` | 0 | {:.1} | | |", b / 1e3);
        }
    }
}
