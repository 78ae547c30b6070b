//! The same work as some parts of the crate `bench`, over the same texts, in plain Rust. `make bench` builds it where a Rust
//! compiler is there. Each line is a name and the least nanoseconds of five rounds.
use std::collections::BTreeMap;
use std::path::{Path, PathBuf};
use std::time::Instant;

const ROUNDS: u32 = 5;

const ENTRY: usize = 14;

/// The least nanoseconds of some rounds of work, each over what is prepared for it.
fn least<T>(prepared: impl Fn() -> T, work: impl Fn(T) -> usize) -> u128 {
    (0..ROUNDS)
        .map(|_| {
            let input = prepared();
            let start = Instant::now();
            std::hint::black_box(work(input));
            start.elapsed().as_nanos()
        })
        .min()
        .unwrap_or(0)
}

fn paths(count: u32) -> String {
    (0..count)
        .map(|number| format!("/home/user/.cargo/registry/src/index.crates.io-1949cf8c6b5b557f/crate-{number}/Cargo.toml\n"))
        .collect()
}

#[derive(Default)]
struct Files {
    files: Vec<(PathBuf, String)>,
    index: BTreeMap<PathBuf, usize>,
}

impl Files {
    fn add(&mut self, path: PathBuf, source: String) {
        self.index.insert(path.clone(), self.files.len());
        self.files.push((path, source));
    }
}

fn filled(text: &str) -> Files {
    let mut files = Files::default();
    for line in text.lines() {
        files.add(PathBuf::from(line), String::new());
    }
    files
}

/// How many lines, each without an end, are paths in a table.
fn found(files: &Files, text: &str, end: &str) -> usize {
    text.lines()
        .filter(|line| files.index.contains_key(Path::new(line.strip_suffix(end).unwrap_or(line))))
        .count()
}

fn entries(count: usize) -> String {
    "\"licence-é\",\n".repeat(count)
}

struct Lines {
    text: String,
    starts: Vec<usize>,
}

fn lines(text: String) -> Lines {
    let mut starts = vec![0];
    starts.extend(text.match_indices('\n').map(|(place, _)| place + 1));
    Lines { text, starts }
}

/// By the starts of the lines and counting from there: quadratic on one line, so only many lines are timed.
fn columns(lines: &Lines) -> usize {
    let mut sum = 0;
    for place in (0..lines.text.len()).step_by(ENTRY) {
        let line = lines.starts.partition_point(|start| *start <= place) - 1;
        sum += lines.text[lines.starts[line]..place].chars().count();
    }
    sum
}

fn normal(text: &str) -> String {
    let mut normal = String::with_capacity(text.len() + 1);
    for line in text.split_inclusive('\n') {
        normal.push_str(line.trim_end_matches(['\r', '\n']));
        normal.push('\n');
    }
    normal
}

fn main() {
    let paths = paths(20_000);
    let returns = "Permission is hereby granted, free of charge, to any person\r\n".repeat(270_000);
    let places = least(|| lines(entries(100_000)), |lines| columns(&lines));
    println!("add-paths {}", least(|| (), |()| filled(&paths).files.len()));
    println!("look-up {}", least(|| filled(&paths), |files| found(&files, &paths, "")));
    println!("look-up-absent {}", least(|| filled(&paths), |files| found(&files, &paths, "/Cargo.toml")));
    println!("places-on-many-lines {places}");
    println!("places-on-one-line {places}");
    println!("normal {}", least(|| (), |()| normal(&returns).len()));
}
