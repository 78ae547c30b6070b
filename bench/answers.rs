//! What the plain gate prints: findings for a person or as JSON, and the forms of a listing.
use std::collections::{BTreeMap, BTreeSet};
use std::fmt::Arguments;
use std::io::Write;

/// How many line feeds a text has, counted in bytes over parts that are short enough.
fn feeds(text: &str) -> usize {
    let parts = text.as_bytes().chunks(255);
    parts.map(|part| usize::from(part.iter().map(|byte| u8::from(*byte == b'\n')).sum::<u8>())).sum()
}

/// The line and column, from 1, behind a text that begins at one.
pub fn after((line, column): (usize, usize), text: &str) -> (usize, usize) {
    match text.rfind('\n') {
        Some(feed) => (line + feeds(text), text[feed + 1..].chars().count() + 1),
        None => (line, column + text.chars().count()),
    }
}

// ---- findings

#[derive(Clone, Copy, PartialEq, Eq, PartialOrd, Ord)]
pub enum Severity {
    Note,
    Warning,
    Error,
    /// No finding has it: of a level, that none is printed.
    Off,
}

#[derive(Clone, Copy, PartialEq, Eq)]
pub enum Form {
    Human,
    Json,
}

pub struct Label<'t> {
    pub arrow: &'static str,
    pub place: (usize, usize),
    pub message: [&'t str; 2],
    pub span: &'t str,
}

/// Writes findings as they come, and counts them.
pub struct Printer<W> {
    out: W,
    form: Form,
    level: Severity,
    counts: [usize; 3],
}

impl<W: Write> Printer<W> {
    pub fn new(out: W, form: Form, level: Severity) -> Printer<W> {
        Printer { out, form, level, counts: [0; 3] }
    }

    pub fn prints(&self, severity: Severity) -> bool {
        severity >= self.level
    }

    pub fn count(&mut self, severity: Severity) {
        self.counts[severity as usize] += 1;
    }

    /// Prints a finding whose labels are in the file whose name has two parts.
    pub fn tell<'t>(
        &mut self,
        severity: Severity,
        code: &str,
        message: Arguments,
        file: [&str; 2],
        labels: impl IntoIterator<Item = Label<'t>>,
    ) -> Option<()> {
        self.count(severity);
        if !self.prints(severity) {
            return Some(());
        }
        let severity = ["note", "warning", "error"][severity as usize];
        match self.form {
            Form::Human => self.tell_person(severity, code, message, file, labels),
            Form::Json => self.tell_json(severity, code, message, labels),
        }
    }

    fn tell_person<'t>(
        &mut self,
        severity: &str,
        code: &str,
        message: Arguments,
        [file, end]: [&str; 2],
        labels: impl IntoIterator<Item = Label<'t>>,
    ) -> Option<()> {
        writeln!(self.out, "{severity}[{code}]: {message}").ok()?;
        for Label { arrow, place: (line, column), message: [first, second], .. } in labels {
            let colon = if first.is_empty() { "" } else { ": " };
            writeln!(self.out, "  {arrow} {file}{end}:{line}:{column}{colon}{first}{second}").ok()?;
        }
        Some(())
    }

    fn tell_json<'t>(&mut self, severity: &str, code: &str, message: Arguments, labels: impl IntoIterator<Item = Label<'t>>) -> Option<()> {
        write!(self.out, r#"{{"fields":{{"code":"{code}","labels":["#).ok()?;
        for (number, Label { place: (line, column), message: [first, second], span, .. }) in labels.into_iter().enumerate() {
            let comma = if number > 0 { "," } else { "" };
            write!(self.out, r#"{comma}{{"column":{column},"line":{line},"message":"#).ok()?;
            json(&mut self.out, &[first, second].concat())?;
            self.out.write_all(br#","span":"#).ok()?;
            json(&mut self.out, span)?;
            self.out.write_all(b"}").ok()?;
        }
        self.out.write_all(br#"],"message":"#).ok()?;
        json(&mut self.out, &message.to_string())?;
        writeln!(self.out, r#","notes":[],"severity":"{severity}"}},"type":"diagnostic"}}"#).ok()
    }

    /// Writes what is left, as JSON with a summary; whether a finding is an error.
    pub fn end(&mut self) -> Option<bool> {
        let [notes, warnings, errors] = self.counts;
        if self.form == Form::Json {
            let counts = format!(r#"{{"errors":{errors},"helps":0,"notes":{notes},"warnings":{warnings}}}"#);
            writeln!(self.out, r#"{{"fields":{{"licenses":{counts}}},"type":"summary"}}"#).ok()?;
        }
        self.out.flush().ok()?;
        Some(errors > 0)
    }
}

fn json<W: Write>(out: &mut W, text: &str) -> Option<()> {
    serde_json::to_writer(out, text).ok()
}

// ---- listings

#[derive(Clone, Copy, PartialEq, Eq)]
pub enum Layout {
    License,
    Crate,
}

#[derive(Clone, Copy, PartialEq, Eq)]
enum Style {
    Human,
    Json,
    Tsv,
}

/// Writes a listing: by crates as they come, else once all are there.
pub struct Listed<W> {
    out: W,
    style: Style,
    layout: Layout,
    rows: Vec<(String, Vec<String>)>,
    count: usize,
}

impl<W: Write> Listed<W> {
    pub fn new(out: W, format: &str, layout: Layout) -> Option<Listed<W>> {
        let style = match format {
            "" | "human" => Style::Human,
            "json" => Style::Json,
            "tsv" => Style::Tsv,
            _ => return None,
        };
        Some(Listed { out, style, layout, rows: Vec::new(), count: 0 })
    }

    /// Adds a crate with its licences, which are in byte order.
    pub fn add(&mut self, name: String, licences: Vec<String>) -> Option<()> {
        let is_first = self.count == 0;
        self.count += 1;
        match (self.style, self.layout) {
            (Style::Human, Layout::Crate) => {
                let items = licences.iter().map(String::as_str);
                if licences.is_empty() { self.line(&name, 0, ["Unlicensed"].into_iter()) } else { self.line(&name, licences.len(), items) }
            }
            (Style::Json, Layout::Crate) => {
                self.out.write_all(if is_first { br#"[{"crate":"# } else { br#",{"crate":"# }).ok()?;
                json(&mut self.out, &name)?;
                self.out.write_all(br#","licenses":"#).ok()?;
                self.array(licences.iter().map(String::as_str))?;
                self.out.write_all(b"}").ok()
            }
            _ => {
                self.rows.push((name, licences));
                Some(())
            }
        }
    }

    fn line<'t>(&mut self, head: &str, count: usize, items: impl Iterator<Item = &'t str>) -> Option<()> {
        write!(self.out, "{head} ({count}): ").ok()?;
        for (number, item) in items.enumerate() {
            self.out.write_all(if number > 0 { b", " } else { b"" }).ok()?;
            self.out.write_all(item.as_bytes()).ok()?;
        }
        self.out.write_all(b"\n").ok()
    }

    fn array<'t>(&mut self, items: impl Iterator<Item = &'t str>) -> Option<()> {
        self.out.write_all(b"[").ok()?;
        for (number, item) in items.enumerate() {
            self.out.write_all(if number > 0 { b"," } else { b"" }).ok()?;
            json(&mut self.out, item)?;
        }
        self.out.write_all(b"]").ok()
    }

    /// Writes what could not be written as it came.
    pub fn end(mut self) -> Option<()> {
        let rows = std::mem::take(&mut self.rows);
        match (self.style, self.layout) {
            (Style::Tsv, _) => self.columns(&rows)?,
            (_, Layout::License) => self.licences(&rows)?,
            (Style::Json, Layout::Crate) => self.out.write_all(if self.count == 0 { b"[]\n" } else { b"]\n" }).ok()?,
            (Style::Human, Layout::Crate) => {}
        }
        self.out.flush().ok()
    }

    fn licences(&mut self, rows: &[(String, Vec<String>)]) -> Option<()> {
        let mut crates: BTreeMap<&str, Vec<&str>> = BTreeMap::new();
        for (name, licences) in rows {
            licences.iter().for_each(|licence| crates.entry(licence).or_default().push(name));
        }
        let unlicensed: Vec<&str> = rows.iter().filter(|row| row.1.is_empty()).map(|row| row.0.as_str()).collect();
        if self.style == Style::Json {
            return self.licences_json(&crates, &unlicensed);
        }
        crates.iter().try_for_each(|(licence, names)| self.line(licence, names.len(), names.iter().copied()))?;
        if unlicensed.is_empty() { Some(()) } else { self.line("Unlicensed", unlicensed.len(), unlicensed.iter().copied()) }
    }

    fn licences_json(&mut self, crates: &BTreeMap<&str, Vec<&str>>, unlicensed: &[&str]) -> Option<()> {
        self.out.write_all(br#"{"licenses":["#).ok()?;
        for (number, (licence, names)) in crates.iter().enumerate() {
            self.out.write_all(if number > 0 { b",[" } else { b"[" }).ok()?;
            json(&mut self.out, licence)?;
            self.out.write_all(b",").ok()?;
            self.array(names.iter().copied())?;
            self.out.write_all(b"]").ok()?;
        }
        self.out.write_all(br#"],"unlicensed":"#).ok()?;
        self.array(unlicensed.iter().copied())?;
        self.out.write_all(b"}\n").ok()
    }

    fn columns(&mut self, rows: &[(String, Vec<String>)]) -> Option<()> {
        let columns: BTreeSet<&str> = rows.iter().flat_map(|row| &row.1).map(String::as_str).collect();
        self.out.write_all(b"crate").ok()?;
        columns.iter().try_for_each(|licence| write!(self.out, "\t{licence}").ok())?;
        self.out.write_all(b"\tUnlicensed\n").ok()?;
        for (name, licences) in rows {
            self.out.write_all(name.as_bytes()).ok()?;
            let mut rest = licences.iter().peekable();
            for column in &columns {
                let has_it = rest.next_if(|licence| licence == column).is_some();
                self.out.write_all(if has_it { b"\tX" } else { b"\t" }).ok()?;
            }
            self.out.write_all(if licences.is_empty() { b"\tX\n" } else { b"\t\n" }).ok()?;
        }
        Some(())
    }
}
