//! The text form as a Rust programmer would write it, for comparison: a reader that goes through the text once, one latest schedule for each event as the
//! source, and the lines of the pair program written into a lent list. Safe code, arrays on the stack, no heap.
use crate::plain::{self, Graph, Refusal, EVENTS};

const MAX_BYTES: usize = 32_768;
const MAX_EVENTS: usize = 64;
const MAX_ROWS: usize = 1024;
const OUT_BYTES: usize = 131_072;

/// The rules of a text.
struct Rules {
    n: usize,
    r: usize,
    sources: [usize; MAX_ROWS],
    targets: [usize; MAX_ROWS],
    leasts: [i64; MAX_ROWS],
    mosts: [i64; MAX_ROWS],
}

impl Rules {
    fn none() -> Rules {
        Rules { n: 1, r: 0, sources: [0; MAX_ROWS], targets: [0; MAX_ROWS], leasts: [0; MAX_ROWS], mosts: [0; MAX_ROWS] }
    }

    fn graph(&self) -> Graph<'_> {
        let r = self.r;
        Graph { n: self.n, sources: &self.sources[..r], targets: &self.targets[..r], leasts: &self.leasts[..r], mosts: &self.mosts[..r] }
    }
}

/// Takes these bytes off the front.
fn literal(rest: &mut &[u8], bytes: &[u8]) -> Option<()> {
    *rest = rest.strip_prefix(bytes)?;
    Some(())
}

/// Takes one to seven digits off the front.
fn natural(rest: &mut &[u8]) -> Option<usize> {
    let count = rest.iter().take_while(|byte| byte.is_ascii_digit()).count();
    if !(1..=7).contains(&count) {
        return None;
    }
    let (digits, after) = rest.split_at(count);
    *rest = after;
    Some(digits.iter().fold(0, |value, byte| 10 * value + usize::from(byte - b'0')))
}

/// The same, with a minus or none.
fn integer(rest: &mut &[u8]) -> Option<i64> {
    if literal(rest, b"-").is_some() {
        natural(rest).map(|value| -(value as i64))
    } else {
        natural(rest).map(|value| value as i64)
    }
}

/// Takes the end of a line off the front; the end of the text will do.
fn line_end(rest: &mut &[u8]) -> Option<()> {
    if rest.is_empty() {
        return Some(());
    }
    literal(rest, b"\r\n")
}

/// Takes a row off the front.
fn row(rest: &mut &[u8]) -> Option<(usize, usize, i64, i64)> {
    let source = natural(rest)?;
    literal(rest, b",")?;
    let target = natural(rest)?;
    literal(rest, b",")?;
    let least = integer(rest)?;
    literal(rest, b",")?;
    let most = integer(rest)?;
    line_end(rest)?;
    Some((source, target, least, most))
}

/// Reads a text.
fn read(text: &[u8], rules: &mut Rules) -> Result<(), Refusal> {
    if text.len() > MAX_BYTES {
        return Err(Refusal { number: 1, place: 0 });
    }
    let mut rest = text;
    let broken = |place| Refusal { number: 8, place };
    literal(&mut rest, b"source,target,least,most").ok_or_else(|| broken(1))?;
    line_end(&mut rest).ok_or_else(|| broken(1))?;
    let mut r = 0;
    while !rest.is_empty() {
        let (source, target, least, most) = row(&mut rest).ok_or_else(|| broken(r + 2))?;
        rules.n = rules.n.max(source + 1).max(target + 1);
        if r < MAX_ROWS {
            rules.sources[r] = source;
            rules.targets[r] = target;
            rules.leasts[r] = least;
            rules.mosts[r] = most;
        }
        r += 1;
    }
    if rules.n > MAX_EVENTS {
        return Err(Refusal { number: 21, place: 0 });
    }
    if r > MAX_ROWS {
        return Err(Refusal { number: 22, place: 0 });
    }
    rules.r = r;
    Ok(())
}

/// What crankforest_separation gives.
pub fn separation(text: &[u8], s: usize, t: usize) -> i64 {
    let mut rules = Rules::none();
    let found = read(text, &mut rules).and_then(|()| plain::separation(&rules.graph(), s, t));
    match found {
        Ok(found) => found.separation,
        Err(refusal) => -4_000_000_000 - refusal.number as i64,
    }
}

/// `table[s][t]` is the separation of s and t.
fn separations(text: &[u8], table: &mut [[i64; MAX_EVENTS]; MAX_EVENTS]) -> Result<usize, Refusal> {
    let mut rules = Rules::none();
    read(text, &mut rules)?;
    let graph = rules.graph();
    let mut latest = [0; EVENTS];
    for (s, row) in table[..graph.n].iter_mut().enumerate() {
        plain::analyse(&graph, s, s, &mut latest)?;
        row.copy_from_slice(&latest[..MAX_EVENTS]);
    }
    Ok(graph.n)
}

/// A list that is written from the front on.
struct Out<'a> {
    bytes: &'a mut [u8],
    length: usize,
}

impl Out<'_> {
    fn put(&mut self, bytes: &[u8]) {
        self.bytes[self.length..self.length + bytes.len()].copy_from_slice(bytes);
        self.length += bytes.len();
    }

    fn put_number(&mut self, number: i64) {
        let mut digits = [0; 20];
        let mut first = digits.len();
        let mut left = number.unsigned_abs();
        loop {
            first -= 1;
            digits[first] = b'0' + (left % 10) as u8;
            left /= 10;
            if left == 0 {
                break;
            }
        }
        if number < 0 {
            first -= 1;
            digits[first] = b'-';
        }
        self.put(&digits[first..]);
    }

    /// The numbers with commas between, and the end of the line.
    fn put_line(&mut self, numbers: &[i64]) {
        for (i, &number) in numbers.iter().enumerate() {
            if i > 0 {
                self.put(b",");
            }
            self.put_number(number);
        }
        self.put(b"\r\n");
    }
}

/// What crankforest_pairs writes; gives the number of bytes, 0 where the list is too short.
pub fn pairs(text: &[u8], out: &mut [u8]) -> usize {
    if out.len() < OUT_BYTES {
        return 0;
    }
    let mut out = Out { bytes: out, length: 0 };
    let mut table = [[0; MAX_EVENTS]; MAX_EVENTS];
    match separations(text, &mut table) {
        Ok(n) => {
            out.put(b"from,to,least,most\r\n");
            for from in 0..n {
                for to in from + 1..n {
                    out.put_line(&[from as i64, to as i64, -table[to][from], table[from][to]]);
                }
            }
        }
        Err(refusal) => {
            out.put(b"refused,");
            out.put_line(&[refusal.number as i64, refusal.place as i64]);
        }
    }
    out.length
}
