//! Inputs of the tests on text: texts with known answers, random ones, damaged ones and those at the limits.

use crate::random::Random;

const H: &str = "source,target,least,most\r\n";

/// 01's table for the input rows `0,1,0,100`, `1,2,1,2`, `1,3,3,7`.
const TABLE: &str = "from,to,least,most\r\n0,1,0,100\r\n0,2,1,102\r\n0,3,3,107\r\n1,2,1,2\r\n1,3,3,7\r\n2,3,1,6\r\n";

fn with_header(rows: &str) -> Vec<u8> {
    format!("{}{}", H, rows).into_bytes()
}

fn repeated(row: &str, count: usize) -> Vec<u8> {
    with_header(&row.repeat(count))
}

/// A chain of so many events, every delay from 0 to 1.
fn chain(events: usize) -> Vec<u8> {
    let row = |i: usize| format!("{},{},0,1\r\n", i - 1, i);
    with_header(&(1..events).map(row).collect::<String>())
}

/// A text of exactly 32,768 bytes that is accepted.
pub fn longest() -> Vec<u8> {
    let mut text = repeated("0000000,0000001,-0000002,-0000001\r\n", 935);
    text.extend_from_slice(b"000,001,-02,003\r\n");
    text
}

/// Texts with what the pair program writes for them, from 01 and its open points.
pub fn known() -> Vec<(Vec<u8>, String)> {
    let mut known = known_rows();
    known.extend(known_whole());
    known
}

/// Rows after the header, with what is written.
fn known_rows() -> Vec<(Vec<u8>, String)> {
    let pair = |least: i64, most: i64| format!("from,to,least,most\r\n0,1,{},{}\r\n", least, most);
    let refused = |number: usize, place: usize| format!("refused,{},{}\r\n", number, place);
    let bad = |row: usize| refused(8, row);
    let cases = [
        // 01's own rows, with the last ending and without
        ("0,1,0,100\r\n1,2,1,2\r\n1,3,3,7\r\n", TABLE.to_string()),
        ("0,1,0,100\r\n1,2,1,2\r\n1,3,3,7", TABLE.to_string()),
        ("1,3,3,7\r\n1,2,1,2\r\n0,1,0,100\r\n", TABLE.to_string()),
        // no rows
        ("", "from,to,least,most\r\n".to_string()),
        // numbers
        ("0,1,-3,-1\r\n", pair(-3, -1)),
        ("0,1,-0,1\r\n", pair(0, 1)),
        ("0,1,0,-0\r\n", pair(0, 0)),
        ("0000000,0000001,-0000001,0000001\r\n", pair(-1, 1)),
        ("0,1,-1000000,1000000\r\n", pair(-1_000_000, 1_000_000)),
        ("0,1,1,2\r\n0,1,0,5\r\n", pair(1, 5)),
        ("0,1,0,00000001\r\n", bad(2)),
        ("0,1,-00000001,1\r\n", bad(2)),
        ("00000000,1,0,1\r\n", bad(2)),
        ("-0,1,0,1\r\n", bad(2)),
        ("0,-1,0,1\r\n", bad(2)),
        ("0,1,--1,1\r\n", bad(2)),
        ("0,1,-,1\r\n", bad(2)),
        ("0,1,+0,1\r\n", bad(2)),
        ("0,1,0.0,1\r\n", bad(2)),
        ("0,1, 0,1\r\n", bad(2)),
        ("0,1,0,1 \r\n", bad(2)),
        ("0,1,0x0,1\r\n", bad(2)),
        ("0,1,1-,1\r\n", bad(2)),
        // fields
        ("0,1,0\r\n", bad(2)),
        ("0,1,0,1,\r\n", bad(2)),
        ("0,1,0,1,0\r\n", bad(2)),
        ("0,1,,1\r\n", bad(2)),
        (",1,0,1\r\n", bad(2)),
        ("0,1,0,\r\n", bad(2)),
        ("0,1,0,\"1\"\r\n", bad(2)),
        ("\"0\",1,0,1\r\n", bad(2)),
        // rows
        ("\r\n", bad(2)),
        ("0,1,0,1\r\n\r\n", bad(3)),
        ("0,1,0,1\r\n\r\n0,1,0,1\r\n", bad(3)),
        ("0,1,0,1\r", bad(2)),
        ("0,1,0,1\n", bad(2)),
        ("0,1,0,1\r\r\n", bad(2)),
        ("0,1,0,1\n\r\n", bad(2)),
        ("0,1,0,1\n0,1,0,1\r\n", bad(2)),
        ("0,1,0,1\r0,1,0,1\r\n", bad(2)),
        ("0,1,0,1\r\n0,1,0,1\r", bad(3)),
        ("0,1,0,1\r\nx", bad(3)),
        ("0,1,0,1\r\n0,1,0,1\u{0}\r\n", bad(3)),
        // 8 before the counts, the counts before the analysis
        ("0,70,0,1\r\nx\r\n", bad(3)),
        ("0,64,0,1\r\n", refused(21, 0)),
        ("0,9999999,0,1\r\n", refused(21, 0)),
        ("0,64,5,1\r\n", refused(21, 0)),
        // the analysis: rules and events are counted from 0
        ("0,1,2,1\r\n", refused(3, 0)),
        ("0,1,0,1\r\n0,1,0,1000001\r\n", refused(3, 1)),
        ("0,1,-1000001,0\r\n", refused(3, 0)),
        ("0,1,0,9999999\r\n", refused(3, 0)),
        ("0,0,0,0\r\n", refused(5, 0)),
        ("0,1,0,1\r\n1,0,0,1\r\n", refused(5, 0)),
        ("0,1,0,1\r\n2,3,0,1\r\n3,2,0,1\r\n", refused(5, 2)),
        // event 2 stands behind the cycle
        ("0,1,0,1\r\n3,4,0,1\r\n4,3,0,1\r\n3,2,0,1\r\n0,3,0,1\r\n", refused(5, 3)),
        ("0,12,0,1\r\n12,11,0,1\r\n11,12,0,1\r\n", refused(5, 11)),
        ("1,0,0,1\r\n", refused(6, 1)),
        ("0,1,0,1\r\n2,1,0,1\r\n", refused(6, 2)),
        ("0,2,0,1\r\n", refused(6, 1)),
        ("0,63,0,1\r\n", refused(6, 1)),
    ];
    cases.iter().map(|(rows, written)| (with_header(rows), written.clone())).collect()
}

/// Whole texts, with what is written.
fn known_whole() -> Vec<(Vec<u8>, String)> {
    let refused = |number: usize, place: usize| format!("refused,{},{}\r\n", number, place);
    let header_only = "from,to,least,most\r\n".to_string();
    let mut too_long = longest();
    too_long.push(b'\n');
    let mut bad_after_many = repeated("0,1,0,1\r\n", 1_100);
    bad_after_many.extend_from_slice(b"x\r\n");
    let mut last_place = repeated("0,1,0,1\r\n", 3_637);
    last_place.extend_from_slice(b"x");
    vec![
        (b"".to_vec(), refused(8, 1)),
        (b"\r\n".to_vec(), refused(8, 1)),
        (b"source,target,least,most".to_vec(), header_only.clone()),
        (b"source,target,least,most\r\n".to_vec(), header_only),
        (b"source,target,least,most\r".to_vec(), refused(8, 1)),
        (b"source,target,least,most\n".to_vec(), refused(8, 1)),
        (b"source,target,least,mos".to_vec(), refused(8, 1)),
        (b"source,target,least,most,\r\n".to_vec(), refused(8, 1)),
        (b"Source,target,least,most\r\n".to_vec(), refused(8, 1)),
        (b"\"source\",target,least,most\r\n".to_vec(), refused(8, 1)),
        (b"\xef\xbb\xbfsource,target,least,most\r\n".to_vec(), refused(8, 1)),
        (b"source, target,least,most\r\n".to_vec(), refused(8, 1)),
        (b"0,1,0,1\r\n".to_vec(), refused(8, 1)),
        (longest(), "from,to,least,most\r\n0,1,-2,3\r\n".to_string()),
        (too_long, refused(1, 0)),
        (vec![b'x'; 32_768], refused(8, 1)),
        (vec![b'x'; 32_769], refused(1, 0)),
        (vec![0; 100_000], refused(1, 0)),
        (repeated("0,1,0,1\r\n", 1_024), "from,to,least,most\r\n0,1,0,1\r\n".to_string()),
        (repeated("0,1,0,1\r\n", 1_025), refused(22, 0)),
        (repeated("0,64,0,1\r\n", 1_025), refused(21, 0)),
        (bad_after_many, refused(8, 1_102)),
        (last_place, refused(8, 3_639)),
        (chain(64), chain_table(64)),
        (chain(65), refused(21, 0)),
    ]
}

/// The table of a chain: event j is at least 0 and at most j - i ticks after event i.
fn chain_table(events: usize) -> String {
    let mut table = "from,to,least,most\r\n".to_string();
    for from in 0..events {
        for to in from + 1..events {
            table += &format!("{},{},0,{}\r\n", from, to, to - from);
        }
    }
    table
}

/// Texts and two events with the number that the firmware gets, from 01 and its open points.
pub fn known_separations() -> Vec<(Vec<u8>, usize, usize, i64)> {
    const REFUSED: i64 = -4_000_000_000;
    let row = "0,1,0,100\r\n1,2,1,2\r\n1,3,3,7\r\n";
    let fork = "0,1,2,5\r\n0,2,1,3\r\n1,3,0,0\r\n2,3,0,0\r\n";
    let cases = [
        (row, 2, 3, 6),
        (row, 3, 2, -1),
        (row, 2, 2, 0),
        (row, 0, 3, 107),
        (fork, 1, 3, 1),
        (fork, 2, 3, 4),
        (fork, 3, 1, 0),
        ("0,1,1,2\r\n0,1,0,5\r\n", 0, 1, 5),
        ("0,1,1,2\r\n0,1,0,5\r\n", 1, 0, -1),
        ("0,1,-3,-1\r\n", 0, 1, -1),
        ("0,1,-3,-1\r\n", 1, 0, 3),
        ("", 0, 0, 0),
        ("", 0, 1, REFUSED - 4),
        (row, 4, 0, REFUSED - 4),
        (row, 0, 4, REFUSED - 4),
        (row, usize::MAX, 0, REFUSED - 4),
        (row, 0, 1 << 32, REFUSED - 4),
        ("0,1,5,1\r\n", 9, 0, REFUSED - 3),
        ("1,1,0,0\r\n", 9, 0, REFUSED - 4),
        ("1,1,0,0\r\n", 0, 1, REFUSED - 5),
        ("0,2,0,0\r\n", 0, 2, REFUSED - 6),
        ("0,2,0,0\r\n", 0, 3, REFUSED - 4),
        ("0,64,0,0\r\n", 99, 0, REFUSED - 21),
        ("x", 99, 0, REFUSED - 8),
    ];
    let mut known: Vec<(Vec<u8>, usize, usize, i64)> =
        cases.iter().map(|&(rows, s, t, number)| (with_header(rows), s, t, number)).collect();
    known.push((vec![], 0, 0, REFUSED - 8));
    known.push((vec![b'x'; 32_769], 0, 0, REFUSED - 1));
    known.push((repeated("0,1,0,1\r\n", 1_025), 0, 1, REFUSED - 22));
    known.push((repeated("0,64,0,1\r\n", 1_025), 0, 1, REFUSED - 21));
    known
}

// ---- random texts

/// A text, right or wrong.
pub fn any(random: &mut Random) -> Vec<u8> {
    match random.below(10) {
        0..=4 => valid(random),
        5 => careless(random),
        6..=8 => {
            let mut text = if random.once_in(4) { careless(random) } else { valid(random) };
            for _ in 0..1 + random.below(2) {
                damage(random, &mut text);
            }
            text
        }
        _ => random_bytes(random),
    }
}

/// A text whose graph is accepted, now and then with many rows.
pub fn valid(random: &mut Random) -> Vec<u8> {
    let n = if random.once_in(5) { 1 + random.below(64) } else { 1 + random.below(8) };
    let most_more = if random.once_in(10) { 800 } else { 8 };
    let more = if n > 1 { random.below(most_more) } else { 0 };
    let mut order: Vec<usize> = (0..n).collect();
    random.shuffle(&mut order[1..]);
    let mut rows = Vec::new();
    for i in 1..n + more {
        let i = if i < n { i } else { 1 + random.below(n - 1) };
        let source = order[random.below(i)];
        let wide = random.pick(&[3, 100, 1_000_000]);
        let (a, b) = (random.between(-wide, wide), random.between(-wide, wide));
        rows.push(row(random, source, order[i], a.min(b), a.max(b)));
    }
    random.shuffle(&mut rows);
    joined(random, &rows)
}

/// A text whose rows are right and whose graph may be anything.
pub fn careless(random: &mut Random) -> Vec<u8> {
    let n = random.pick(&[2, 3, 4, 6, 64, 66, 9_999_999]);
    let count = random.below(6);
    let wide = random.pick(&[5, 1_000_001, 9_999_999]);
    let mut rows = Vec::new();
    for _ in 0..count {
        let (source, target) = (random.below(n), random.below(n));
        let (least, most) = (random.between(-wide, wide), random.between(-wide, wide));
        let crossed = random.once_in(10) || least <= most;
        let (least, most) = if crossed { (least, most) } else { (most, least) };
        rows.push(row(random, source, target, least, most));
    }
    joined(random, &rows)
}

fn row(random: &mut Random, source: usize, target: usize, least: i64, most: i64) -> String {
    let (source, target) = (padded(random, source as u64), padded(random, target as u64));
    let (least, most) = (delay(random, least), delay(random, most));
    format!("{},{},{},{}", source, target, least, most)
}

/// A number with leading zeros now and then, up to seven digits.
fn padded(random: &mut Random, number: u64) -> String {
    let width = if random.once_in(6) { 1 + random.below(7) } else { 1 };
    format!("{:0width$}", number, width = width)
}

fn delay(random: &mut Random, delay: i64) -> String {
    let minus = delay < 0 || (delay == 0 && random.once_in(4));
    let digits = padded(random, delay.unsigned_abs());
    if minus {
        format!("-{}", digits)
    } else {
        digits
    }
}

/// The header and the rows; the last ending is left out now and then.
fn joined(random: &mut Random, rows: &[String]) -> Vec<u8> {
    let mut text = H.to_string();
    for row in rows {
        text += row;
        text += "\r\n";
    }
    let end = if random.once_in(3) { text.len() - 2 } else { text.len() };
    text.into_bytes()[..end].to_vec()
}

/// One byte changed, removed or inserted, two exchanged, or the text cut.
pub fn damage(random: &mut Random, text: &mut Vec<u8>) {
    let byte = draw_byte(random);
    let at = random.below(text.len() + 1);
    if at == text.len() {
        text.push(byte);
        return;
    }
    match random.below(6) {
        0 | 1 => text[at] = byte,
        2 => drop(text.remove(at)),
        3 | 4 => text.insert(at, byte),
        _ => text.truncate(at),
    }
}

fn draw_byte(random: &mut Random) -> u8 {
    if random.once_in(4) {
        return random.below(256) as u8;
    }
    random.pick(b"0123456789-,\r\n\r\n\",- +;")
}

/// Bytes of any kind, now and then behind the header.
pub fn random_bytes(random: &mut Random) -> Vec<u8> {
    let most = random.pick(&[4, 40, 400, 40_000]);
    let length = random.below(most);
    let mut text = if random.once_in(2) { H.as_bytes().to_vec() } else { vec![] };
    text.extend((0..length).map(|_| draw_byte(random)));
    text
}
