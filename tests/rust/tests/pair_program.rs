//! The pair program as a process: the examples, texts with known answers, and random and damaged texts against plain Rust. It is
//! crates/pairs/out/pairs, or what the environment's CRANKFOREST_PAIRS names.

use crankforest_tests::random::Random;
use crankforest_tests::{plain_text, programs, texts};
use std::env;
use std::fs::{self, File};
use std::path::{Path, PathBuf};
use std::process::Stdio;

fn repository() -> PathBuf {
    Path::new(env!("CARGO_MANIFEST_DIR")).join("../..")
}

fn program() -> PathBuf {
    match env::var_os("CRANKFOREST_PAIRS") {
        Some(path) => PathBuf::from(path),
        None => repository().join("crates/pairs/out/pairs"),
    }
}

/// What the program writes with this file as its standard input. It ends with status 0 and writes no error, refused or not.
fn run(input: &Path) -> Vec<u8> {
    let file = File::open(input).expect("the input can be read");
    let output = programs::command(&program()).stdin(Stdio::from(file)).output().expect("crates/pairs/out/pairs runs");
    assert!(output.status.success(), "{}: {}", input.display(), output.status);
    assert_eq!(output.stderr, b"", "{}", input.display());
    output.stdout
}

/// The same, of a text that is put to a file of this name first.
fn run_on(name: &str, text: &[u8]) -> Vec<u8> {
    let input = Path::new(env!("CARGO_TARGET_TMPDIR")).join(name);
    fs::write(&input, text).expect("the input can be written");
    run(&input)
}

fn shown(text: &[u8]) -> String {
    let cut = text.len().min(2_000);
    format!("{} bytes: {:?}", text.len(), String::from_utf8_lossy(&text[..cut]))
}

/// examples/NAME.csv gives examples/NAME.out.
#[test]
fn examples() {
    let folder = repository().join("examples");
    let mut count = 0;
    for entry in fs::read_dir(&folder).expect("there is a folder examples") {
        let input = entry.expect("an entry of examples").path();
        if input.extension().map_or(false, |extension| extension == "csv") {
            let due = fs::read(input.with_extension("out")).expect("an example has its .out");
            assert_eq!(run(&input), due, "{}", input.display());
            count += 1;
        }
    }
    assert!(count > 0, "there is no example");
}

#[test]
fn known_texts() {
    for (text, written) in texts::known() {
        assert_eq!(String::from_utf8_lossy(&run_on("known.csv", &text)), written, "{}", shown(&text));
    }
}

#[test]
fn texts_of_any_kind() {
    let mut random = Random::new(41);
    for _ in 0..programs::cases(400) {
        let text = texts::any(&mut random);
        let (got, due) = (run_on("any.csv", &text), plain_text::pairs(&text));
        assert_eq!(String::from_utf8_lossy(&got), String::from_utf8_lossy(&due), "{}", shown(&text));
    }
}

/// The program goes on reading where a read gives only a part.
#[test]
fn a_text_that_comes_in_parts() {
    use std::io::Write;
    let text = texts::longest();
    let mut child = programs::command(&program()).stdin(Stdio::piped()).stdout(Stdio::piped()).spawn().expect("it runs");
    let mut input = child.stdin.take().expect("its input");
    for part in text.chunks(5_000) {
        input.write_all(part).expect("it reads");
        input.flush().expect("it reads");
        std::thread::sleep(std::time::Duration::from_millis(2));
    }
    drop(input);
    let output = child.wait_with_output().expect("it ends");
    assert_eq!(output.stdout, plain_text::pairs(&text));
}
