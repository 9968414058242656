//! Programs for x86-64, run as processes: by themselves, or by the emulator that the environment's RUNNER names; tests/x86_64 sets it. The tests are such
//! a program too.

use std::env;
use std::path::Path;
use std::process::Command;

pub fn command(program: &Path) -> Command {
    let runner = env::var("RUNNER").unwrap_or_default();
    let mut words = runner.split_whitespace();
    match words.next() {
        None => Command::new(program),
        Some(first) => {
            let mut command = Command::new(first);
            command.args(words).arg(program);
            command
        }
    }
}

/// How many of so many random cases to try: under an emulator, which takes ten times as long, one in eight.
pub fn cases(all: usize) -> usize {
    if env::var("RUNNER").map_or(true, |runner| runner.is_empty()) {
        all
    } else {
        all / 8
    }
}
