//! Counts how often each line of standard input comes, as `nb_tally` does, in a dashmap: `lines THREADS`. It reads all of the input,
//! and each thread counts a part of it. The keys are the lines where they were read, by the fx hash. It prints them in the order
//! of their bytes.
use dashmap::DashMap;
use fxhash::FxBuildHasher;
use std::io::{stdin, stdout, BufWriter, Read, Write};
use std::thread;

/// The parts of a text for so many threads, each of whole lines.
fn parts(text: &[u8], threads: usize) -> Vec<&[u8]> {
    let mut rest = text;
    let mut parts = Vec::new();
    for left in (1..=threads).rev() {
        let near = rest.len() / left;
        let end = rest[near..].iter().position(|&byte| byte == b'\n').map_or(rest.len(), |more| near + more + 1);
        let (part, behind) = rest.split_at(end);
        parts.push(part);
        rest = behind;
    }
    parts
}

fn main() {
    let threads = std::env::args().nth(1).map_or(1, |word| word.parse().expect("a number of threads"));
    let mut text = Vec::new();
    stdin().read_to_end(&mut text).expect("standard input");
    let counts: DashMap<&[u8], u64, FxBuildHasher> = DashMap::default();
    thread::scope(|scope| {
        for part in parts(&text, threads).into_iter().filter(|part| !part.is_empty()) {
            let counts = &counts;
            scope.spawn(move || {
                for line in part.strip_suffix(b"\n").unwrap_or(part).split(|&byte| byte == b'\n') {
                    *counts.entry(line).or_insert(0) += 1;
                }
            });
        }
    });
    let mut rows: Vec<_> = counts.into_iter().collect();
    rows.sort_unstable();
    let mut out = BufWriter::new(stdout().lock());
    for (line, times) in rows {
        write!(out, "{times:7} ").and_then(|()| out.write_all(line)).and_then(|()| out.write_all(b"\n")).expect("standard output");
    }
}
