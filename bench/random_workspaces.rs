//! Makes workspaces that look drawn, each of its number alone, for the built program (bench/random.sh): crates, edges of each kind,
//! fields with and without faults, policies with and without faults, files that can't be read.
//!
//! `random_workspaces SEED COUNT` makes so many, of the numbers from the seed on: in the working folder, for each number a folder with
//! that name. In it m.json and p.toml are metadata and policy, words is what the program is asked for, a word a line, and w/ the crates.
use std::fmt::Write as _;
use std::fs;
use std::io;
use std::os::unix::fs::symlink;
use std::path::{Path, PathBuf};
use std::process::ExitCode;

/// Numbers that look drawn, and are the same for a seed each time.
struct Numbers(u64);

impl Numbers {
    /// A number below this one; 0 where that is 0.
    fn below(&mut self, bound: u64) -> u64 {
        self.0 = self.0.wrapping_mul(6_364_136_223_846_793_005).wrapping_add(1_442_695_040_888_963_407);
        (self.0 >> 33) % bound.max(1)
    }

    /// Whether it is one time of so many.
    fn is_one_of(&mut self, times: u64) -> bool {
        self.below(times) == 0
    }

    /// One of some texts.
    fn pick<'t>(&mut self, texts: &[&'t str]) -> &'t str {
        texts[self.below(texts.len() as u64) as usize]
    }
}

// ---- fields

/// Names that fields and policies take.
const NAMES: [&str; 12] = [
    "MIT", "Apache-2.0", "ISC", "Zlib", "BSD-3-Clause", "MPL-2.0", "GPL-3.0-only", "GPL-2.0-or-later", "LGPL-2.1-or-later",
    "Unicode-3.0", "CC0-1.0", "LicenseRef-own",
];

/// Pieces that come in any order.
const PIECES: [&str; 14] = [
    "MIT", "ISC", "GPL-2.0", "GPL-3.0-only", "Foo-1.0", "mit", "(", ")", "OR", "AND", "WITH", "Classpath-exception-2.0", "/", "+",
];

/// What stands between two names.
const BETWEEN: [&str; 5] = [" OR ", " AND ", "/", " OR (MIT AND ISC) AND ", " AND (Zlib OR MIT) OR "];

/// A field: pieces in any order, or mostly names that are joined, one or two of them in parentheses.
fn field(numbers: &mut Numbers) -> String {
    let mut out = String::new();
    if numbers.is_one_of(4) {
        for _ in 0..numbers.below(6) {
            out.push_str(numbers.pick(&PIECES));
            out.push(' ');
        }
    } else {
        out.push_str(numbers.pick(&NAMES));
        for _ in 0..numbers.below(4) {
            out.push_str(numbers.pick(&BETWEEN));
            out.push_str(numbers.pick(&NAMES));
        }
    }
    out
}

// ---- metadata

/// A crate: its field, where it has one, and whether it is published nowhere.
struct Made {
    field: Option<String>,
    is_private: bool,
}

fn crates(numbers: &mut Numbers) -> Vec<Made> {
    let mut made = Vec::new();
    for _ in 0..=numbers.below(6) {
        let text = field(numbers);
        let field = if numbers.is_one_of(5) { None } else { Some(text) };
        made.push(Made { field, is_private: numbers.is_one_of(5) });
    }
    made
}

fn package(folder: &str, index: usize, made: &Made) -> String {
    let field = made.field.as_ref().map_or("null".to_string(), |field| format!("\"{field}\""));
    let publish = if made.is_private { r#","publish":[]"# } else { "" };
    format!(
        r#"{{"name":"c{index}","version":"1.{index}.0","id":"c{index} 1.{index}.0","manifest_path":"{folder}/c{index}/Cargo.toml","license":{field}{publish}}}"#
    )
}

/// A crate's edges, each to a later crate and of any kind.
fn node(index: usize, count: usize, numbers: &mut Numbers) -> String {
    let mut edges = Vec::new();
    for to in index + 1..count {
        if numbers.is_one_of(2) {
            let kind = numbers.pick(&["null", "null", "\"dev\"", "\"build\""]);
            edges.push(format!(r#"{{"pkg":"c{to} 1.{to}.0","dep_kinds":[{{"kind":{kind}}}]}}"#));
        }
    }
    format!(r#"{{"id":"c{index} 1.{index}.0","deps":[{}]}}"#, edges.join(","))
}

/// The metadata of crates, the first of which is the root.
fn metadata(folder: &str, crates: &[Made], numbers: &mut Numbers) -> String {
    let packages: Vec<String> = crates.iter().enumerate().map(|(index, made)| package(folder, index, made)).collect();
    let second = if crates.len() > 1 && numbers.is_one_of(2) { r#","c1 1.1.0""# } else { "" };
    let nodes: Vec<String> = (0..crates.len()).map(|index| node(index, crates.len(), numbers)).collect();
    format!(
        r#"{{"packages":[{}],"workspace_members":["c0 1.0.0"{second}],"workspace_root":"{folder}","resolve":{{"root":"c0 1.0.0","nodes":[{}]}}}}"#,
        packages.join(","),
        nodes.join(",")
    )
}

// ---- policies

/// The hashes of the texts that licence files have, and one that none has.
const HASHES: [&str; 4] = ["0x3b207505", "0x98e8c4bb", "0x02cc5d05", "1"];

fn names(numbers: &mut Numbers) -> String {
    let names: Vec<String> = (0..numbers.below(7)).map(|_| format!("\"{}\"", numbers.pick(&NAMES))).collect();
    names.join(", ")
}

/// Files that an exception is tied to.
fn files(numbers: &mut Numbers) -> String {
    let mut files = Vec::new();
    for _ in 0..numbers.below(3) {
        let path = numbers.pick(&["LICENSE", "LICENSE", "./LICENSE", "s/../LICENSE", "Cargo.toml"]);
        files.push(format!("{{ path = \"{path}\", hash = {} }}", numbers.pick(&HASHES)));
    }
    format!(", license-files = [{}]", files.join(", "))
}

/// Up to three exceptions, mostly for one of the crates. They are tied to files in version 3 alone, but for one time of sixteen.
fn exceptions(is_3: bool, numbers: &mut Numbers) -> String {
    let mut exceptions = Vec::new();
    for _ in 0..numbers.below(4) {
        let has_files = numbers.is_one_of(if is_3 { 2 } else { 16 });
        let spec = numbers.pick(&["c0", "c1", "c2", "c1@1.1.0", "c1@=1.1.0", "c2@<2", "no"]);
        let allow = names(numbers);
        let files = if has_files { files(numbers) } else { String::new() };
        exceptions.push(format!("{{ crate = \"{spec}\", allow = [{allow}]{files} }}"));
    }
    format!("exceptions = [{}]\n", exceptions.join(", "))
}

/// A policy, with keys beside the list that may be left out, and now and then one that may not be there.
fn policy(numbers: &mut Numbers) -> String {
    let mut out = String::new();
    if numbers.is_one_of(6) {
        out.push_str("[graph]\nexclude-dev = true\n");
    }
    let _ = writeln!(out, "[licenses]\nallow = [{}]", names(numbers));
    let version = numbers.pick(&["3", "3", "3", "1", "2", ""]);
    if !version.is_empty() {
        let _ = writeln!(out, "version = {version}");
    }
    if !numbers.is_one_of(3) {
        out.push_str(&exceptions(version == "3", numbers));
    }
    if numbers.is_one_of(4) {
        out.push_str("private = { ignore = true }\n");
    }
    if numbers.is_one_of(4) {
        let _ = writeln!(out, "unused-allowed-license = \"{}\"", numbers.pick(&["allow", "warn", "deny", "no"]));
    }
    if numbers.is_one_of(12) {
        out.push_str(numbers.pick(&["alow = 1\n", "[", "x = 1.5\n", "confidence-threshold = 0.5\n", "\u{feff}"]));
    }
    out
}

// ---- workspaces

const COMMANDS: [&str; 8] = [
    "check licenses",
    "check licenses",
    "-f json check licenses",
    "check -D warnings licenses",
    "list",
    "notice",
    "record",
    "bill --name n --namespace x --created 2024-05-01T12:00:00Z",
];

const TEXTS: [&str; 3] = ["Permission is hereby granted\n", "All rights reserved\r\n", ""];

/// The files of a crate: mostly a manifest, and now and then a licence text.
fn files_of(folder: &str, index: usize, made: &Made, numbers: &mut Numbers) -> Vec<(String, String)> {
    let mut files = Vec::new();
    if !numbers.is_one_of(4) {
        let field = made.field.as_ref().map_or(String::new(), |field| format!("license = \"{field}\"\n"));
        let text = format!("[package]\nname = \"c{index}\"\nversion = \"1.{index}.0\"\n{field}");
        files.push((format!("{folder}/c{index}/Cargo.toml"), text));
    }
    if numbers.is_one_of(3) {
        files.push((format!("{folder}/c{index}/LICENSE"), numbers.pick(&TEXTS).to_string()));
    }
    files
}

/// Puts at a path what can't be read as a file: a folder, or a link that leads to itself.
fn write_unreadable(path: &Path, is_folder: bool) -> io::Result<()> {
    fs::remove_file(path)?;
    if is_folder { fs::create_dir(path) } else { symlink(path, path) }
}

/// Makes the workspace of a number in a folder.
fn make(folder: &Path, seed: u64) -> io::Result<()> {
    let mut numbers = Numbers(seed);
    let (top, root) = (folder.display(), folder.join("w").display().to_string());
    let crates = crates(&mut numbers);
    let mut files = vec![
        (format!("{top}/m.json"), metadata(&root, &crates, &mut numbers)),
        (format!("{top}/p.toml"), policy(&mut numbers)),
        (format!("{root}/Cargo.toml"), String::new()),
    ];
    for (index, made) in crates.iter().enumerate() {
        fs::create_dir_all(format!("{root}/c{index}"))?;
        files.extend(files_of(&root, index, made, &mut numbers));
    }
    files.iter().try_for_each(|(path, text)| fs::write(path, text))?;
    fs::write(folder.join("words"), numbers.pick(&COMMANDS).replace(' ', "\n") + "\n")?;
    // One time of three a file can't be read, if there are so many.
    let place = if numbers.is_one_of(3) { numbers.below(30) as usize } else { 0 };
    match files.get(place.wrapping_sub(1)) {
        Some((path, _)) => write_unreadable(Path::new(path), numbers.is_one_of(2)),
        None => Ok(()),
    }
}

fn make_all(seed: u64, count: u64) -> io::Result<()> {
    let here: PathBuf = std::env::current_dir()?;
    (0..count).map(|step| seed.wrapping_add(step)).try_for_each(|seed| make(&here.join(seed.to_string()), seed))
}

fn main() -> ExitCode {
    let words: Vec<u64> = std::env::args().skip(1).filter_map(|word| word.parse().ok()).collect();
    match words[..] {
        [seed, count] if make_all(seed, count).is_ok() => ExitCode::SUCCESS,
        _ => ExitCode::FAILURE,
    }
}
