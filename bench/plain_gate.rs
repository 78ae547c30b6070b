//! A licence gate in plain Rust over `serde_json`'s value, beside which the gate of this repository is measured (bench/gates.sh). It
//! keeps no more than it needs: it borrows from one value of the metadata, looks up a crate's keys where they are wanted, reads
//! each manifest and licence file into one text, searches it and lets it go, and writes each finding as it comes.
//!
//! It takes the words of `cargo-deny`, and answers `check licenses`, `list` and `sample` as that does, byte for byte, over what
//! bench/workspaces.rs makes: policies that are a list of allowed licences, fields that are expressions, manifests that name
//! them, licence files with known texts. A policy, a field or a file of another kind ends it with status 1. What it has no use for
//! it does not look at: other keys of the metadata, with their faults, and line ends in names.
mod answers;
mod expressions;
mod licence_texts;

use answers::{Form, Label, Layout, Listed, Printer, Severity, after};
use expressions::{Catalog, Policy, Term, expression};
use licence_texts::{ISC, MIT};
use serde_json::Value;
use std::borrow::Cow;
use std::collections::HashMap;
use std::fmt::Write as _;
use std::fs::{self, File};
use std::io::{self, BufWriter, Read, Write};
use std::iter::once;
use std::process::ExitCode;

// ---- files

/// The files of crates.
trait Tree {
    /// Reads a file into a text, in place of what it has.
    fn read(&self, path: &str, text: &mut String) -> Option<()>;

    /// The names of the files of a folder that may hold licences.
    fn licence_files(&self, folder: &str) -> Option<Vec<String>>;
}

struct Disk;

impl Tree for Disk {
    fn read(&self, path: &str, text: &mut String) -> Option<()> {
        text.clear();
        File::open(path).ok()?.read_to_string(text).ok().map(drop)
    }

    fn licence_files(&self, folder: &str) -> Option<Vec<String>> {
        let mut names = Vec::new();
        for entry in fs::read_dir(folder).ok()? {
            let entry = entry.ok()?;
            let name = entry.file_name().into_string().ok()?;
            let kind = entry.file_type().ok()?;
            let is_file = kind.is_file() || kind.is_symlink() && fs::metadata(entry.path()).is_ok_and(|there| there.is_file());
            if is_file && is_licence_name(&name) {
                names.push(name);
            }
        }
        names.sort_unstable();
        Some(names)
    }
}

fn is_licence_name(name: &str) -> bool {
    name.starts_with("LICENSE") || name.starts_with("COPYING")
}

/// Folders in memory, each with the names of its files, which are empty.
struct Made(HashMap<String, Vec<&'static str>>);

impl Tree for Made {
    fn read(&self, path: &str, text: &mut String) -> Option<()> {
        text.clear();
        let (folder, name) = path.rsplit_once('/')?;
        self.0.get(folder)?.contains(&name).then_some(())
    }

    fn licence_files(&self, folder: &str) -> Option<Vec<String>> {
        let names = self.0.get(folder)?.iter().filter(|name| is_licence_name(name));
        Some(names.map(|name| name.to_string()).collect())
    }
}

// ---- metadata

fn text<'v>(value: &'v Value, key: &str) -> Option<&'v str> {
    value.get(key)?.as_str()
}

fn list<'v>(value: &'v Value, key: &str) -> Option<&'v [Value]> {
    value.get(key)?.as_array().map(Vec::as_slice)
}

fn holds_float(value: &Value) -> bool {
    match value {
        Value::Number(number) => number.is_f64(),
        Value::Array(items) => items.iter().any(holds_float),
        Value::Object(members) => members.values().any(holds_float),
        _ => false,
    }
}

fn metadata(text: &str) -> Option<Value> {
    let value = serde_json::from_str(text).ok()?;
    (!holds_float(&value)).then_some(value)
}

/// A package and its edges.
struct Node<'v> {
    package: &'v Value,
    deps: &'v [Value],
    is_found: bool,
}

/// Whether an edge is walked that leads from a crate for which dev dependencies do not count.
fn counts(dep: &Value) -> bool {
    let Some(kinds) = list(dep, "dep_kinds") else { return true };
    kinds.iter().any(|kind| matches!(text(kind, "kind"), None | Some("build")))
}

/// The graph's nodes by their ids, and the crates that a walk has found.
struct Walk<'v> {
    nodes: HashMap<&'v str, Node<'v>>,
    found: Vec<(&'v str, &'v Value)>,
    waiting: Vec<&'v [Value]>,
}

impl<'v> Walk<'v> {
    fn new(value: &'v Value, resolve: &'v Value) -> Option<Walk<'v>> {
        let packages = list(value, "packages")?;
        let mut nodes = HashMap::with_capacity(packages.len());
        for package in packages {
            nodes.insert(text(package, "id")?, Node { package, deps: &[], is_found: false });
        }
        for node in list(resolve, "nodes")? {
            nodes.get_mut(text(node, "id")?)?.deps = list(node, "deps").unwrap_or_default();
        }
        (nodes.len() == packages.len()).then_some(Walk { nodes, found: Vec::new(), waiting: Vec::new() })
    }

    fn visit(&mut self, id: &'v str) -> Option<()> {
        let node = self.nodes.get_mut(id)?;
        if !node.is_found {
            node.is_found = true;
            self.found.push((id, node.package));
            self.waiting.push(node.deps);
        }
        Some(())
    }
}

/// The packages that the roots reach without dev dependencies, in the order of their ids.
fn selected(value: &Value) -> Option<Vec<(&str, &Value)>> {
    let resolve = value.get("resolve")?;
    let mut walk = Walk::new(value, resolve)?;
    match text(resolve, "root") {
        Some(root) => walk.visit(root)?,
        None => list(value, "workspace_members")?.iter().try_for_each(|id| walk.visit(id.as_str()?))?,
    }
    while let Some(deps) = walk.waiting.pop() {
        deps.iter().filter(|dep| counts(dep)).try_for_each(|dep| walk.visit(text(dep, "pkg")?))?;
    }
    walk.found.sort_unstable_by_key(|found| found.0);
    Some(walk.found)
}

// ---- licence files

/// Each byte of a word in small letters, and 0 for all others.
const SMALL: [u8; 256] = small_letters();

const fn small_letters() -> [u8; 256] {
    let mut small = [0; 256];
    let mut byte = 0;
    while byte < 128 {
        if (byte as u8).is_ascii_alphanumeric() {
            small[byte] = (byte as u8).to_ascii_lowercase();
        }
        byte += 1;
    }
    small
}

/// The words of a text in small letters, each with a blank behind it, without the lines that say whose it is.
fn write_words(text: &str, words: &mut Vec<u8>) {
    words.resize(text.len() + 1, 0);
    let out = &mut words[..];
    let (mut line, mut end) = (0, 0);
    let mut bytes = text.bytes();
    while let Some(mut byte) = bytes.next() {
        if SMALL[byte as usize] != 0 {
            while SMALL[byte as usize] != 0 {
                out[end] = SMALL[byte as usize];
                end += 1;
                byte = bytes.next().unwrap_or(b'\n');
            }
            out[end] = b' ';
            end += 1;
        }
        if byte == b'\n' || bytes.len() == 0 {
            end = if is_notice(&out[line..end]) { line } else { end };
            line = end;
        }
    }
    words.truncate(end);
}

fn is_notice(line: &[u8]) -> bool {
    let Some(rest) = line.strip_prefix(b"copyright ") else { return false };
    let second = rest.split(|byte| *byte == b' ').next().unwrap_or_default();
    second == b"c" || !second.is_empty() && second.iter().all(u8::is_ascii_digit)
}

/// The texts that are known, as words, each with its licence.
fn known_texts() -> Vec<(Vec<u8>, &'static str)> {
    let headings = ["", "MIT License\n", "The MIT License\n", "The MIT License (MIT)\n"];
    let of_mit = headings.map(|heading| (heading, MIT, "MIT"));
    let of_isc = ["", "ISC License\n"].map(|heading| (heading, ISC, "ISC"));
    let texts = of_mit.into_iter().chain(of_isc);
    texts
        .map(|(heading, body, name)| {
            let mut words = Vec::new();
            write_words(&format!("{heading}{body}"), &mut words);
            (words, name)
        })
        .collect()
}

/// Reads licence files, into texts that are kept from one to the next.
struct Reader<'t, T> {
    tree: &'t T,
    known: Vec<(Vec<u8>, &'static str)>,
    path: String,
    text: String,
    words: Vec<u8>,
}

impl<'t, T: Tree> Reader<'t, T> {
    fn new(tree: &'t T) -> Reader<'t, T> {
        Reader { tree, known: known_texts(), path: String::new(), text: String::new(), words: Vec::new() }
    }

    /// The licence of a file.
    fn licence(&mut self, folder: &str, name: &str) -> Option<&'static str> {
        self.path.clear();
        let _ = write!(self.path, "{folder}/{name}");
        self.tree.read(&self.path, &mut self.text)?;
        write_words(&self.text, &mut self.words);
        self.known.iter().find(|known| known.0 == self.words).map(|known| known.1)
    }

    /// The licences of a folder's files as an expression, with the names of the files; nothing where there are none.
    fn licences(&mut self, folder: &str) -> Option<(Cow<'static, str>, Vec<String>)> {
        let files = self.tree.licence_files(folder)?;
        let mut licences = Cow::Borrowed("");
        for name in &files {
            let licence = self.licence(folder, name)?;
            if licences.is_empty() {
                licences = Cow::Borrowed(licence);
            } else {
                let _ = write!(licences.to_mut(), " AND {licence}");
            }
        }
        Some((licences, files))
    }
}

// ---- the check

/// Where the licence field of a manifest stands, with its value.
fn field_place(manifest: &str) -> Option<(usize, &str)> {
    manifest.match_indices("license").find_map(|(start, key)| {
        let rest = manifest[start + key.len()..].trim_start().strip_prefix('=')?;
        let value = rest.trim_start().strip_prefix(['"', '\''])?;
        Some((manifest.len() - value.len(), &value[..value.find(['"', '\''])?]))
    })
}

/// Where an expression stands: the parts of its file's name, its line and column; and where it comes from.
struct Source<'s> {
    file: [&'s str; 2],
    place: (usize, usize),
    origin: Cow<'s, str>,
}

/// How many crates have each verdict.
#[derive(Default)]
struct Verdicts {
    accepted: usize,
    rejected: usize,
    unlicensed: usize,
}

struct Check<'c, T, W: Write> {
    reader: Reader<'c, T>,
    catalog: &'c Catalog<'c>,
    policy: Policy<'c>,
    printer: Printer<W>,
    terms: Vec<Term>,
    verdicts: Verdicts,
}

impl<T: Tree, W: Write> Check<'_, T, W> {
    fn check(&mut self, id: &str, package: &Value) -> Option<()> {
        let path = text(package, "manifest_path")?;
        match text(package, "license") {
            Some(field) => self.check_field(id, path, field),
            None => self.check_files(id, path, package),
        }
    }

    fn check_field(&mut self, id: &str, path: &str, field: &str) -> Option<()> {
        let mut manifest = std::mem::take(&mut self.reader.text);
        let is_read = self.reader.tree.read(path, &mut manifest).is_some();
        let place = if is_read { field_place(&manifest).filter(|found| found.1 == field) } else { None };
        let is_accepted = self.judge(field, false)?;
        self.tell(is_accepted, field, || {
            let (file, place) = match place {
                Some((start, _)) => ([path, ""], after((1, 1), &manifest[..start])),
                None => ([id, "-synthesized.toml"], (4, 12)),
            };
            Source { file, place, origin: Cow::Borrowed("Cargo.toml `license`") }
        })?;
        self.reader.text = manifest;
        Some(())
    }

    fn check_files(&mut self, id: &str, path: &str, package: &Value) -> Option<()> {
        let (name, version) = (text(package, "name")?, text(package, "version")?);
        self.printer.tell(
            Severity::Warning,
            "no-license-field",
            format_args!("license expression was not specified in manifest for crate '{name} = {version}'"),
            ["", ""],
            [],
        )?;
        let (licences, files) = self.reader.licences(path.rsplit_once('/')?.0)?;
        if licences.is_empty() {
            return self.tell_unlicensed(id, name, version);
        }
        let is_accepted = self.judge(&licences, true)?;
        self.tell(is_accepted, &licences, || Source {
            file: [id, "-synthesized.toml"],
            place: (5, 15),
            origin: Cow::Owned(format!("license files: {}", files.join(", "))),
        })
    }

    /// Whether an expression is accepted; its terms stay.
    fn judge(&mut self, text: &str, takes_deprecated: bool) -> Option<bool> {
        let Check { catalog, policy, terms, .. } = self;
        expression(text, catalog, takes_deprecated, terms, |asked| policy.hit(asked))
    }

    /// Prints the verdict of an expression whose terms were judged, if it is to be printed.
    fn tell<'s>(&mut self, is_accepted: bool, text: &str, source: impl FnOnce() -> Source<'s>) -> Option<()> {
        let (severity, code, message) = if is_accepted {
            self.verdicts.accepted += 1;
            (Severity::Note, "accepted", "license requirements satisfied")
        } else {
            self.verdicts.rejected += 1;
            (Severity::Error, "rejected", "failed to satisfy license requirements")
        };
        if !self.printer.prints(severity) {
            self.printer.count(severity);
            return Some(());
        }
        let Source { file, place, origin } = source();
        let whole = Label { arrow: ":::", place, message: ["license expression retrieved via ", &origin], span: text };
        let labels = self.terms.iter().map(|term| Label {
            arrow: "-->",
            place: after(place, &text[..term.start]),
            message: if term.hit.is_some() { ["accepted: license is explicitly allowed", ""] } else { ["rejected: license is not explicitly allowed", ""] },
            span: &text[term.start..term.end],
        });
        self.printer.tell(severity, code, format_args!("{message}"), file, once(whole).chain(labels))
    }

    fn tell_unlicensed(&mut self, id: &str, name: &str, version: &str) -> Option<()> {
        self.verdicts.unlicensed += 1;
        let label = Label { arrow: "-->", place: (2, 9), message: ["", ""], span: name };
        self.printer.tell(
            Severity::Warning,
            "unlicensed",
            format_args!("a valid license expression could not be retrieved for the crate"),
            [id, "-synthesized.toml"],
            [label],
        )?;
        self.printer.tell(Severity::Error, "unlicensed", format_args!("{name} = {version} is unlicensed"), ["", ""], [])
    }

    /// Prints the policy's entries that no term needed.
    fn tell_unused(&mut self, path: &str, severity: Severity) -> Option<()> {
        let Check { policy, printer, .. } = self;
        if !printer.prints(severity) {
            policy.unused().for_each(|_| printer.count(severity));
            return Some(());
        }
        policy.locate();
        policy.unused().try_for_each(|entry| {
            let label = Label { arrow: "-->", place: entry.place, message: ["unmatched license allowance", ""], span: entry.name };
            printer.tell(severity, "license-not-encountered", format_args!("license was not encountered"), [path, ""], [label])
        })
    }
}

// ---- the commands

/// What the words ask for.
#[derive(Default)]
struct Request {
    metadata: String,
    config: String,
    catalog: String,
    level: String,
    format: String,
    allowed: Vec<String>,
    list_format: String,
    layout: String,
    rest: Vec<String>,
}

fn request(mut words: impl Iterator<Item = String>) -> Option<Request> {
    let mut request = Request::default();
    while let Some(word) = words.next() {
        let is_list = request.rest.first().is_some_and(|command| command == "list");
        let place = match word.as_str() {
            "--metadata-path" => &mut request.metadata,
            "--config" => &mut request.config,
            "--catalog" => &mut request.catalog,
            "-L" => &mut request.level,
            "-l" => &mut request.layout,
            "-f" if is_list => &mut request.list_format,
            "-f" => &mut request.format,
            _ => {
                let list = if word == "-A" { &mut request.allowed } else { &mut request.rest };
                list.push(if word == "-A" { words.next()? } else { word });
                continue;
            }
        };
        *place = words.next()?;
    }
    Some(request)
}

fn level(request: &Request) -> Option<Severity> {
    match request.level.as_str() {
        "off" => Some(Severity::Off),
        "error" => Some(Severity::Error),
        "" | "warn" => Some(Severity::Warning),
        _ => None,
    }
}

/// The catalogue's file that is named, or the built-in one.
fn catalogue(request: &Request) -> Option<Cow<'static, str>> {
    if request.catalog.is_empty() {
        return Some(Cow::Borrowed(include_str!("built-in.txt")));
    }
    fs::read_to_string(&request.catalog).ok().map(Cow::Owned)
}

fn check_all<T: Tree, W: Write>(check: &mut Check<'_, T, W>, metadata: &Value, path: &str, unused: Severity) -> Option<()> {
    selected(metadata)?.into_iter().try_for_each(|(id, package)| check.check(id, package))?;
    check.tell_unused(path, unused)
}

fn check(request: &Request) -> Option<ExitCode> {
    let form = if request.format == "json" { Form::Json } else { Form::Human };
    let catalogue = catalogue(request)?;
    let catalog = Catalog::new(&catalogue);
    let policy = fs::read_to_string(&request.config).ok()?;
    let mut check = Check {
        reader: Reader::new(&Disk),
        policy: Policy::new(&policy, &catalog)?,
        catalog: &catalog,
        printer: Printer::new(BufWriter::new(io::stderr().lock()), form, level(request)?),
        terms: Vec::new(),
        verdicts: Verdicts::default(),
    };
    let metadata = metadata(&fs::read_to_string(&request.metadata).ok()?)?;
    let is_note = request.allowed.iter().any(|code| code == "license-not-encountered");
    check_all(&mut check, &metadata, &request.config, if is_note { Severity::Note } else { Severity::Warning })?;
    let has_errors = check.printer.end()?;
    if form == Form::Human && level(request)? != Severity::Off {
        println!("licenses {}", if has_errors { "FAILED" } else { "ok" });
    }
    Some(ExitCode::from(if has_errors { 4 } else { 0 }))
}

/// The licences of a crate, in byte order.
fn licences_of<T: Tree>(package: &Value, reader: &mut Reader<'_, T>, catalog: &Catalog, terms: &mut Vec<Term>) -> Option<Vec<String>> {
    let field = text(package, "license");
    let texts = match field {
        Some(field) => Cow::Borrowed(field),
        None => reader.licences(text(package, "manifest_path")?.rsplit_once('/')?.0)?.0,
    };
    terms.clear();
    if !texts.is_empty() {
        expression(&texts, catalog, field.is_none(), terms, |_| None)?;
    }
    let mut licences: Vec<String> = terms.iter().map(|term| term.printed(&texts)).collect();
    licences.sort_unstable();
    licences.dedup();
    Some(licences)
}

fn listing(request: &Request) -> Option<ExitCode> {
    let catalogue = catalogue(request)?;
    let catalog = Catalog::new(&catalogue);
    let policy = fs::read_to_string(&request.config).ok()?;
    Policy::new(&policy, &catalog)?;
    let metadata = metadata(&fs::read_to_string(&request.metadata).ok()?)?;
    let layout = if request.layout == "crate" { Layout::Crate } else { Layout::License };
    let mut listed = Listed::new(BufWriter::new(io::stdout().lock()), &request.list_format, layout)?;
    let (mut reader, mut terms) = (Reader::new(&Disk), Vec::new());
    for (_, package) in selected(&metadata)? {
        let licences = licences_of(package, &mut reader, &catalog, &mut terms)?;
        listed.add(format!("{}@{}", text(package, "name")?, text(package, "version")?), licences)?;
    }
    listed.end()?;
    Some(ExitCode::SUCCESS)
}

/// Metadata of crates, each of which leads to two further ones.
fn made_metadata(count: usize) -> String {
    let fields = [r#""MIT""#, r#""MIT OR Apache-2.0""#, r#""GPL-3.0-only""#, "null"];
    let comma = |is_there: bool| if is_there { "," } else { "" };
    let mut text = String::from(r#"{"packages":["#);
    for index in 0..count {
        let (comma, field) = (comma(index > 0), fields[index % 4]);
        let _ = write!(text, r#"{comma}{{"name":"c{index}","version":"1.0.{index}","id":"c{index}","manifest_path":"/s/c{index}/Cargo.toml","license":{field}}}"#);
    }
    text.push_str(r#"],"workspace_members":["c0"],"workspace_root":"/s","resolve":{"root":"c0","nodes":["#);
    for index in 0..count {
        let _ = write!(text, r#"{}{{"id":"c{index}","deps":["#, comma(index > 0));
        for to in (2 * index + 1..2 * index + 3).filter(|to| *to < count) {
            let _ = write!(text, r#"{}{{"pkg":"c{to}"}}"#, comma(to % 2 == 0));
        }
        text.push_str("]}");
    }
    text.push_str("]}}");
    text
}

/// The folders of these crates.
fn made_tree(count: usize) -> Made {
    Made((0..count).map(|index| (format!("/s/c{index}"), vec!["Cargo.toml"])).collect())
}

fn sample(count: usize) -> Option<ExitCode> {
    let catalog = Catalog::new(include_str!("built-in.txt"));
    let tree = made_tree(count);
    let mut check = Check {
        reader: Reader::new(&tree),
        policy: Policy::new("[licenses]\nallow = [\"MIT\"]\n", &catalog)?,
        catalog: &catalog,
        printer: Printer::new(io::sink(), Form::Human, Severity::Off),
        terms: Vec::new(),
        verdicts: Verdicts::default(),
    };
    let metadata = metadata(&made_metadata(count))?;
    check_all(&mut check, &metadata, "/s/p.toml", Severity::Warning)?;
    let Verdicts { accepted, rejected, unlicensed } = check.verdicts;
    println!("crates {count}\naccepted {accepted}\nrejected {rejected}\nunlicensed {unlicensed}");
    Some(ExitCode::SUCCESS)
}

fn main() -> ExitCode {
    let answer = request(std::env::args().skip(1)).and_then(|request| {
        let rest: Vec<&str> = request.rest.iter().map(String::as_str).collect();
        match rest[..] {
            ["check", "licenses"] => check(&request),
            ["list"] => listing(&request),
            ["sample", count] => sample(count.parse().ok()?),
            _ => None,
        }
    });
    answer.unwrap_or(ExitCode::FAILURE)
}
