//! What one would write with no proof: reads a segment of version 1, given as a file, by `serde_json` into a struct, with the checks that a record asks for,
//! and prints the least time of some turns. `tools/bench history` builds it and runs it beside mr_history.
use serde::Deserialize;
use std::time::Instant;

#[derive(Deserialize)]
#[serde(deny_unknown_fields)]
struct Line<'a> {
    attempt: Option<&'a str>,
    event: &'a str,
    node: Option<u32>,
    incarnation: Option<u32>,
}

#[derive(Clone, Copy, PartialEq)]
enum Kind {
    Map,
    Reduce,
}

#[allow(dead_code)]
#[derive(Clone, Copy)]
struct Attempt {
    start: u64,
    job: u32,
    kind: Kind,
    task: u32,
    number: u32,
}

#[allow(dead_code)]
enum Record {
    Started(Attempt, u32),
    Map(Attempt, u32, u32),
    Reduce(Attempt),
    Failed(Attempt),
    Unsuccessful,
}

// A number in at least so many digits, with no zero in front beyond that.
fn number<T: std::str::FromStr>(text: &str, width: usize) -> Option<T> {
    let is_spelled = text.len() == width || text.len() > width && !text.starts_with('0');
    if is_spelled && text.bytes().all(|b| b.is_ascii_digit()) { text.parse().ok() } else { None }
}

fn attempt(text: &str) -> Option<Attempt> {
    let mut fields = text.strip_prefix("attempt_")?.split('_');
    let start = number(fields.next()?, 1)?;
    let job = number(fields.next()?, 4)?;
    let kind = match fields.next()? {
        "m" => Kind::Map,
        "r" => Kind::Reduce,
        _ => return None,
    };
    let task = number(fields.next()?, 6)?;
    let number = number(fields.next()?, 1).filter(|it| *it < 1_000_000)?;
    if fields.next().is_some() { None } else { Some(Attempt { start, job, kind, task, number }) }
}

fn record(line: &[u8]) -> Option<Record> {
    let line: Line = serde_json::from_slice(line).ok()?;
    match (line.event, line.attempt, line.node, line.incarnation) {
        ("unsuccessful", None, None, None) => Some(Record::Unsuccessful),
        ("started", Some(text), Some(node), None) => Some(Record::Started(attempt(text)?, node)),
        ("map", Some(text), Some(node), Some(incarnation)) if incarnation > 0 => {
            attempt(text).filter(|it| it.kind == Kind::Map).map(|it| Record::Map(it, node, incarnation))
        }
        ("reduce", Some(text), None, None) => attempt(text).filter(|it| it.kind == Kind::Reduce).map(Record::Reduce),
        ("failed", Some(text), None, None) => Some(Record::Failed(attempt(text)?)),
        _ => None,
    }
}

fn replay(bytes: &[u8]) -> Option<Vec<Record>> {
    let whole = bytes.len() - bytes.rsplit(|b| *b == b'\n').next().map_or(0, <[u8]>::len);
    bytes[..whole].split_inclusive(|b| *b == b'\n').map(|line| record(&line[..line.len() - 1])).collect()
}

fn main() {
    let bytes = std::fs::read(std::env::args().nth(1).expect("a file")).expect("a file that can be read");
    let (mut least, mut count) = (u128::MAX, 0);
    for _ in 0..9 {
        let start = Instant::now();
        count = replay(&bytes).expect("a segment").len();
        least = start.elapsed().as_micros().min(least);
    }
    println!("plain_history: {count} records of {} bytes in {least} us", bytes.len());
}
