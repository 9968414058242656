//! The text form in plain Rust, written from 01: the reader, the number that the firmware gets, and the bytes that the pair program writes.

use crate::library::Graph;
use crate::plain::{check_graph, latest, Refusal};

pub const MOST_BYTES: usize = 32_768;
pub const MOST_EVENTS: usize = 64;
pub const MOST_ROWS: usize = 1_024;
pub const REFUSED: i64 = -4_000_000_000;
pub const HEADER: &[u8] = b"source,target,least,most";

/// The rows: each ends at a CR LF or at the end of the text. A text that ends in CR LF has no row after it.
fn rows(text: &[u8]) -> Vec<&[u8]> {
    let mut rows = Vec::new();
    let mut rest = text;
    while let Some(end) = rest.windows(2).position(|pair| pair == b"\r\n") {
        rows.push(&rest[..end]);
        rest = &rest[end + 2..];
    }
    if !rest.is_empty() {
        rows.push(rest);
    }
    rows
}

/// One to seven digits.
fn digits(field: &[u8]) -> Option<i64> {
    if field.is_empty() || field.len() > 7 || !field.iter().all(u8::is_ascii_digit) {
        return None;
    }
    Some(field.iter().fold(0, |value, &digit| value * 10 + i64::from(digit - b'0')))
}

fn delay(field: &[u8]) -> Option<i64> {
    match field.strip_prefix(b"-") {
        Some(after) => digits(after).map(|value| -value),
        None => digits(field),
    }
}

fn event(field: &[u8]) -> Option<usize> {
    digits(field).map(|value| value as usize)
}

/// Puts a row's rule to the graph's lists; none if the row breaks the rules.
fn read_row(row: &[u8], graph: &mut Graph) -> Option<()> {
    let fields: Vec<&[u8]> = row.split(|&byte| byte == b',').collect();
    if fields.len() != 4 {
        return None;
    }
    let (source, target) = (event(fields[0])?, event(fields[1])?);
    let (least, most) = (delay(fields[2])?, delay(fields[3])?);
    graph.events = graph.events.max(1 + source).max(1 + target);
    graph.add(source, target, least, most);
    Some(())
}

/// The graph of a text, or refusal 1 for the bytes, 8, 21 or 22.
pub fn read(text: &[u8]) -> Result<Graph, Refusal> {
    if text.len() > MOST_BYTES {
        return Err(Refusal { number: 1, place: 0 });
    }
    let rows = rows(text);
    if rows.first() != Some(&HEADER) {
        return Err(Refusal { number: 8, place: 1 });
    }
    let mut graph = Graph::new(1, &[]);
    for (i, row) in rows.iter().enumerate().skip(1) {
        if read_row(row, &mut graph).is_none() {
            return Err(Refusal { number: 8, place: i + 1 });
        }
    }
    if graph.events > MOST_EVENTS {
        return Err(Refusal { number: 21, place: 0 });
    }
    if graph.sources.len() > MOST_ROWS {
        return Err(Refusal { number: 22, place: 0 });
    }
    Ok(graph)
}

fn try_separation(text: &[u8], s: usize, t: usize) -> Result<i64, Refusal> {
    let graph = read(text)?;
    check_graph(graph.events, graph.rules())?;
    if s >= graph.events || t >= graph.events {
        return Err(Refusal { number: 4, place: usize::from(s < graph.events) });
    }
    Ok(latest(graph.events, graph.rules(), s)?.u[t])
}

/// The number that the firmware gets.
pub fn separation(text: &[u8], s: usize, t: usize) -> i64 {
    match try_separation(text, s, t) {
        Ok(separation) => separation,
        Err(refusal) => REFUSED - refusal.number as i64,
    }
}

/// The separations of all pairs: row s, column t.
fn table(graph: &Graph) -> Result<Vec<Vec<i64>>, Refusal> {
    check_graph(graph.events, graph.rules())?;
    let row = |s| latest(graph.events, graph.rules(), s).map(|found| found.u);
    (0..graph.events).map(row).collect()
}

/// The bytes that the pair program writes.
pub fn pairs(text: &[u8]) -> Vec<u8> {
    match read(text).and_then(|graph| table(&graph)) {
        Ok(table) => written(&table).into_bytes(),
        Err(refusal) => format!("refused,{},{}\r\n", refusal.number, refusal.place).into_bytes(),
    }
}

fn written(table: &[Vec<i64>]) -> String {
    let mut out = String::from("from,to,least,most\r\n");
    for (from, row) in table.iter().enumerate() {
        for (to, most) in row.iter().enumerate().skip(from + 1) {
            out += &format!("{},{},{},{}\r\n", from, to, -table[to][from], most);
        }
    }
    out
}
