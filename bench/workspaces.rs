//! Makes the workspaces that the gate of this repository is measured on, beside the plain one (bench/plain_gate.rs):
//! `workspaces KIND COUNT` writes metadata.json, deny.toml and the crates' files into the working folder.
//!
//! `small`: a manifest for each crate, all of them rejected. `real`: crates of a registry with their files. `wide`: the same without
//! files. `one`: a crate beside much that no row of metadata names. `bare`: crates without a field, each with a manifest and a
//! licence file, a quarter of them rejected. `named`: crates with manifests, whose fields go through all names of the catalogue's
//! file catalog.txt but for those that were given up; the policy allows three of four names. `unused`: a crate under a policy of so
//! many entries, none of which it needs.
mod licence_texts;

use licence_texts::{ISC, MIT};
use std::collections::BTreeSet;
use std::fmt::Write as _;
use std::fs;
use std::io;
use std::path::Path;
use std::process::ExitCode;

/// Numbers that look drawn, and are the same each time.
struct Numbers(u64);

impl Numbers {
    fn below(&mut self, bound: usize) -> usize {
        self.0 = self.0.wrapping_mul(6_364_136_223_846_793_005).wrapping_add(1_442_695_040_888_963_407);
        ((self.0 >> 33) as usize) % bound.max(1)
    }
}

const REGISTRY: &str = "registry+https://github.com/rust-lang/crates.io-index";

const FIELDS: [&str; 8] = [
    "MIT OR Apache-2.0", "MIT", "Apache-2.0", "MIT/Apache-2.0", "BSD-3-Clause", "(MIT OR Apache-2.0) AND Unicode-3.0", "ISC",
    "Apache-2.0 WITH LLVM-exception OR Apache-2.0 OR MIT",
];

/// Names that are allowed, and not needed.
const UNUSED: [&str; 40] = [
    "0BSD", "BlueOak-1.0.0", "BSD-1-Clause", "BSD-2-Clause", "BSD-2-Clause-Patent", "BSD-3-Clause", "BSD-3-Clause-Clear",
    "BSD-4-Clause", "BSL-1.0", "BUSL-1.1", "bzip2-1.0.6", "CC0-1.0", "CDLA-Permissive-2.0", "curl", "FTL", "HPND", "ICU", "IJG",
    "ISC", "MIT-0", "NCSA", "OpenSSL", "PostgreSQL", "PSF-2.0", "Python-2.0", "Ruby", "Unicode-3.0", "Unicode-DFS-2016", "Unlicense",
    "UPL-1.0", "Vim", "WTFPL", "X11", "Zlib", "MPL-2.0", "EPL-2.0", "CC-BY-4.0", "GPL-2.0-only", "GPL-3.0-only", "LGPL-3.0-only",
];

// ---- crates

/// A crate of a workspace that is made.
struct Made {
    name: String,
    version: String,
    id: String,
    manifest: String,
    field: Option<String>,
    edges: Vec<usize>,
}

/// A crate with a file or two of its own, without edges; each is a member.
fn small(folder: &str, index: usize, field: Option<String>) -> Made {
    Made {
        name: format!("c{index}"),
        version: "1.0.0".to_string(),
        id: format!("c{index}"),
        manifest: format!("{folder}/c{index}/Cargo.toml"),
        field,
        edges: Vec::new(),
    }
}

/// A crate of a registry, as cargo writes it, with edges to later ones.
fn real(folder: &str, numbers: &mut Numbers, index: usize, count: usize) -> Made {
    let name = format!("{}-{}{index}", ["serde", "tokio", "windows", "proc", "wasm"][numbers.below(5)], ["core", "macro", "sys", "util"][numbers.below(4)]);
    let version = format!("{}.{}.{}", numbers.below(3), numbers.below(40), numbers.below(200));
    let mut edges: BTreeSet<usize> = BTreeSet::new();
    if index + 1 < count {
        edges.insert(index + 1);
        for _ in 0..numbers.below(9) {
            edges.insert(index + 1 + numbers.below((count - index - 1).min(400)));
        }
    }
    Made {
        id: format!("{REGISTRY}#{name}@{version}"),
        manifest: format!("{folder}/registry/{name}-{version}/Cargo.toml"),
        field: Some(FIELDS[numbers.below(8)].to_string()),
        name,
        version,
        edges: edges.into_iter().collect(),
    }
}

fn crates(folder: &str, kind: &str, count: usize, names: &[String]) -> Vec<Made> {
    let mut numbers = Numbers(7);
    let field = |index: usize| match kind {
        "bare" => None,
        "named" => Some(format!("{} OR {}", names[index % names.len()], names[(index + 4) % names.len()])),
        _ => Some("Apache-2.0 OR MIT".to_string()),
    };
    match kind {
        "real" | "wide" => (0..count).map(|index| real(folder, &mut numbers, index, count)).collect(),
        "one" | "unused" => vec![small(folder, 0, field(0))],
        _ => (0..count).map(|index| small(folder, index, field(index))).collect(),
    }
}

// ---- metadata

/// What cargo writes of a dependency of a package.
fn dependencies(out: &mut String, made: &Made, crates: &[Made]) {
    for (number, place) in made.edges.iter().enumerate() {
        let _ = write!(
            out,
            r#"{}{{"name":"{}","source":"{REGISTRY}","req":"^1.0","kind":null,"rename":null,"optional":false,"uses_default_features":true,"features":["std","alloc"],"target":"cfg(windows)","registry":null}}"#,
            if number > 0 { "," } else { "" },
            crates[*place].name
        );
    }
}

/// What cargo writes of a package beside the keys that a gate needs.
fn further_keys(out: &mut String, made: &Made, crates: &[Made], numbers: &mut Numbers) {
    let Made { name, manifest, .. } = made;
    let _ = write!(out, r#","license_file":null,"description":"What the crate {name} does, in a line or two","source":"{REGISTRY}","dependencies":["#);
    dependencies(out, made, crates);
    out.push_str(r#"],"targets":["#);
    for number in 0..numbers.below(8) + 1 {
        let _ = write!(
            out,
            r#"{}{{"kind":["test"],"crate_types":["bin"],"name":"{name}_{number}","src_path":"{manifest}/../tests/{name}_{number}.rs","edition":"2021","doc":false,"doctest":false,"test":true}}"#,
            if number > 0 { "," } else { "" }
        );
    }
    out.push_str(r#"],"features":{"default":["std"]"#);
    for number in 0..numbers.below(20) {
        let _ = write!(out, r#","feature-{number}":["dep:other-{number}","std","alloc"]"#);
    }
    let _ = write!(
        out,
        r#"}},"metadata":{{"docs":{{"rs":{{"all-features":true,"targets":["x86_64-unknown-linux-gnu"]}}}}}},"publish":null,"authors":["A. Person <a@example.org>"],"categories":["encoding"],"keywords":["one","two"],"readme":"README.md","repository":"https://example.org/{name}","homepage":null,"documentation":null,"edition":"2021","links":null,"default_run":null,"rust_version":"1.70""#
    );
}

fn package(out: &mut String, made: &Made, crates: &[Made], numbers: &mut Numbers, is_full: bool) {
    let Made { name, version, id, manifest, field, .. } = made;
    let field = field.as_ref().map_or("null".to_string(), |field| format!("\"{field}\""));
    let _ = write!(out, r#"{{"name":"{name}","version":"{version}","id":"{id}","license":{field},"manifest_path":"{manifest}""#);
    if is_full {
        further_keys(out, made, crates, numbers);
    }
    out.push('}');
}

fn node(out: &mut String, made: &Made, crates: &[Made]) {
    let _ = write!(out, r#"{{"id":"{}","deps":["#, made.id);
    for (number, place) in made.edges.iter().enumerate() {
        let to = &crates[*place];
        let _ = write!(
            out,
            r#"{}{{"name":"{}","pkg":"{}","dep_kinds":[{{"kind":null,"target":null}}]}}"#,
            if number > 0 { "," } else { "" },
            to.name,
            to.id
        );
    }
    out.push_str(r#"],"features":["default","std"]}"#);
}

/// Metadata, up to the value of its last key.
fn metadata(folder: &str, crates: &[Made], is_full: bool) -> String {
    let mut numbers = Numbers(1);
    let mut out = String::from(r#"{"packages":["#);
    for (index, made) in crates.iter().enumerate() {
        out.push_str(if index > 0 { "," } else { "" });
        package(&mut out, made, crates, &mut numbers, is_full);
    }
    let members = if is_full { &crates[..1] } else { crates };
    let ids: Vec<String> = members.iter().map(|made| format!("\"{}\"", made.id)).collect();
    let _ = write!(out, r#"],"workspace_members":[{}],"workspace_root":"{folder}","resolve":{{"root":null,"nodes":["#, ids.join(","));
    for (index, made) in crates.iter().enumerate() {
        out.push_str(if index > 0 { "," } else { "" });
        node(&mut out, made, crates);
    }
    out.push_str(r#"]},"target_directory":"/t","version":1,"metadata":"#);
    out
}

/// A list that no row of metadata names.
fn beside(count: usize) -> String {
    let items: Vec<String> = (0..count).map(|index| format!(r#"{{"name":"item-{index}","kinds":["one","two"],"number":{index}}}"#)).collect();
    format!("[{}]", items.join(","))
}

// ---- files

/// The text of a licence file: with a field of no matter, without one that of the crate's licence.
fn licence_text(made: &Made, index: usize) -> String {
    let owner = format!("Copyright (c) 20{:02} The {} Developers", index % 25, made.name);
    match &made.field {
        Some(_) => "Permission is hereby granted, free of charge, to any person who\n".repeat(90),
        None if index % 4 == 3 => format!("ISC License\n\n{owner}\n\n{ISC}"),
        None => format!("MIT License\n\n{owner}\n\n{MIT}"),
    }
}

fn write_files(made: &Made, index: usize) -> io::Result<()> {
    let folder = Path::new(&made.manifest).parent().unwrap_or(Path::new("."));
    fs::create_dir_all(folder)?;
    let comment = "# a line that names the license and so is tried, in a manifest!\n".repeat(31);
    let field = made.field.as_ref().map_or(String::new(), |field| format!("license = \"{field}\"\n"));
    fs::write(&made.manifest, format!("[package]\nname = \"{}\"\n{comment}{field}", made.name))?;
    fs::write(folder.join("LICENSE"), licence_text(made, index))
}

/// All names but each fourth, in quotes.
fn three_of_four(names: &[String]) -> Vec<String> {
    let allowed = names.iter().enumerate().filter(|(index, _)| index % 4 != 3);
    allowed.map(|(_, name)| format!("\"{name}\"")).collect()
}

fn policy(kind: &str, count: usize, names: &[String]) -> String {
    if kind == "unused" {
        let entries: Vec<String> = (0..count).map(|index| format!("\"{}\"", UNUSED[index % UNUSED.len()])).collect();
        return format!("[licenses]\nallow = [{}]\n", entries.join(", "));
    }
    let allow = match kind {
        "small" => r#""0BSD", "Zlib""#.to_string(),
        "bare" => r#""MIT""#.to_string(),
        "named" => three_of_four(names).join(", "),
        _ => r#""MIT", "Apache-2.0", "BSD-3-Clause", "Unicode-3.0", "ISC""#.to_string(),
    };
    format!("[licenses]\nallow = [{allow}]\n")
}

/// The licences of a catalogue's file that were not given up.
fn names_of(catalogue: &str) -> Vec<String> {
    let licences = catalogue.lines().filter(|line| line.starts_with("license ") && !line.contains(" deprecated"));
    licences.filter_map(|line| line.split(' ').nth(1)).map(str::to_string).collect()
}

fn make(folder: &str, kind: &str, count: usize) -> io::Result<()> {
    let names = if kind == "named" { names_of(&fs::read_to_string("catalog.txt")?) } else { Vec::new() };
    let crates = crates(folder, kind, count, &names);
    if kind != "wide" {
        crates.iter().enumerate().try_for_each(|(index, made)| write_files(made, index))?;
    }
    let rest = if kind == "one" { beside(count) } else { "null".to_string() };
    fs::write("metadata.json", metadata(folder, &crates, kind == "real" || kind == "wide") + &rest + "}")?;
    fs::write("deny.toml", policy(kind, count, &names))
}

fn main() -> ExitCode {
    let words: Vec<String> = std::env::args().skip(1).collect();
    let folder = std::env::current_dir().map(|folder| folder.display().to_string()).unwrap_or_default();
    let made = match &words[..] {
        [kind, count] => count.parse().ok().and_then(|count| make(&folder, kind, count).ok()),
        _ => None,
    };
    made.map_or(ExitCode::FAILURE, |()| ExitCode::SUCCESS)
}
