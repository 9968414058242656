//! The same as guard.c, from Rust: `guard FILE EVENT EVENT...`.

extern "C" {
    /// include/crankforest.h
    fn crankforest_separation(text: *const u8, length: usize, s: usize, t: usize) -> i64;
}

/// What the entry gives for refusal k is this minus k.
const REFUSED: i64 = -4_000_000_000;

/// The greatest t(t) − t(s), or the refusal's number.
fn separation(text: &[u8], s: usize, t: usize) -> Result<i64, i64> {
    // The entry asks nothing of the bytes or the numbers; the slice's pointer and length belong together.
    let number = unsafe { crankforest_separation(text.as_ptr(), text.len(), s, t) };
    if number <= REFUSED {
        Err(REFUSED - number)
    } else {
        Ok(number)
    }
}

fn greatest_gap(text: &[u8], events: &[usize]) -> Result<i64, i64> {
    let mut greatest = 0;
    for &s in events {
        for &t in events {
            greatest = greatest.max(separation(text, s, t)?);
        }
    }
    Ok(greatest)
}

fn main() {
    let words: Vec<String> = std::env::args().collect();
    if words.len() < 3 {
        eprintln!("guard FILE EVENT EVENT...");
        std::process::exit(2);
    }
    let text = std::fs::read(&words[1]).expect("the file can be read");
    let events: Vec<usize> = words[2..].iter().map(|word| word.parse().expect("an event number")).collect();
    match greatest_gap(&text, &events) {
        Ok(gap) => println!("greatest gap {gap}, guard {}", gap + 1),
        Err(refusal) => {
            println!("refused, {refusal}");
            std::process::exit(1);
        }
    }
}
