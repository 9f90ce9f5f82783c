//! What one would write with no proof: `plain_seq wordcount|lineindex REDUCES FILE..` takes each file for a split and prints
//! the part files as `mrsim seq` does. `tools/bench seq` builds it and compares the two.
use std::collections::BTreeMap;
use std::io::Write;

fn words(line: &[u8]) -> impl Iterator<Item = &[u8]> {
    line.split(|b| *b == b' ' || *b == b'\t').filter(|word| !word.is_empty())
}

fn pairs<V>(splits: &[Vec<u8>], value: impl Fn(usize, usize) -> V) -> BTreeMap<Vec<u8>, Vec<V>> {
    let mut groups: BTreeMap<Vec<u8>, Vec<V>> = BTreeMap::new();
    for (split, bytes) in splits.iter().enumerate() {
        for (line_no, line) in bytes.split(|b| *b == b'\n').enumerate() {
            for word in words(line) {
                groups.entry(word.to_vec()).or_default().push(value(split, line_no));
            }
        }
    }
    groups
}

fn parts<V>(groups: BTreeMap<Vec<u8>, Vec<V>>, reduces: u64, text: impl Fn(&[V]) -> String) -> Vec<Vec<u8>> {
    let mut parts = vec![Vec::new(); reduces as usize];
    for (key, values) in &groups {
        let reduce = key.iter().map(|b| u64::from(*b)).sum::<u64>() % reduces;
        let part = &mut parts[reduce as usize];
        part.extend_from_slice(key);
        writeln!(part, "\t{}", text(values)).unwrap();
    }
    parts
}

fn position(place: &(usize, usize)) -> String {
    format!("{}:{}", place.0, place.1)
}

fn main() {
    let args: Vec<String> = std::env::args().collect();
    let reduces: u64 = args[2].parse().unwrap();
    let splits: Vec<Vec<u8>> = args[3..].iter().map(|file| std::fs::read(file).unwrap()).collect();
    let parts = if args[1] == "wordcount" {
        parts(pairs(&splits, |_, _| 1u64), reduces, |ones| ones.iter().sum::<u64>().to_string())
    } else {
        parts(pairs(&splits, |split, line_no| (split, line_no)), reduces, |places| {
            places.iter().map(position).collect::<Vec<String>>().join(",")
        })
    };
    let mut out = std::io::stdout().lock();
    for (reduce, bytes) in parts.iter().enumerate() {
        writeln!(out, "== part-r-{reduce:05} {}", bytes.len()).unwrap();
        out.write_all(bytes).unwrap();
    }
}
