//! The plain gate's names of licences, its policy, and the expressions that it judges.
use std::collections::{HashMap, HashSet};

// ---- the catalogue

#[derive(Clone, Copy)]
pub struct Licence {
    family: u32,
    rank: u32,
    is_later: bool,
    is_deprecated: bool,
    is_gnu: bool,
}

/// The names of a catalogue's file. Imprecise texts are for fields that are read laxly, and passed over.
pub struct Catalog<'t> {
    licences: HashMap<&'t str, Licence>,
    exceptions: HashSet<&'t str>,
}

fn licence<'t>(mut words: impl Iterator<Item = &'t str>) -> Option<Licence> {
    let (family, rank) = (words.next()?.parse().ok()?, words.next()?.parse().ok()?);
    let mut licence = Licence { family, rank, is_later: false, is_deprecated: false, is_gnu: false };
    for mark in words {
        match mark {
            "later" => licence.is_later = true,
            "deprecated" => licence.is_deprecated = true,
            _ => licence.is_gnu = true,
        }
    }
    Some(licence)
}

impl<'t> Catalog<'t> {
    pub fn new(text: &'t str) -> Catalog<'t> {
        let mut catalog = Catalog { licences: HashMap::new(), exceptions: HashSet::new() };
        for line in text.lines() {
            let mut words = line.split(' ');
            match (words.next(), words.next()) {
                (Some("license"), Some(name)) => drop(licence(words).map(|licence| catalog.licences.insert(name, licence))),
                (Some("exception"), Some(name)) => drop(catalog.exceptions.insert(name)),
                _ => {}
            }
        }
        catalog
    }
}

// ---- the policy

/// What of a term decides whether an entry satisfies it.
pub struct Asked<'t> {
    family: u32,
    rank: u32,
    takes_later: bool,
    exception: Option<&'t str>,
}

/// An allowed licence. Its place is its line and column, once it was asked for.
pub struct Entry<'p> {
    pub name: &'p str,
    pub place: (usize, usize),
    start: usize,
    rank: u32,
    is_later: bool,
    is_used: bool,
}

impl Entry<'_> {
    fn satisfies(&self, asked: &Asked) -> bool {
        let is_same = self.rank == asked.rank && (asked.takes_later || !self.is_later);
        is_same || self.rank > asked.rank && asked.takes_later
    }
}

/// The entries as the text has them, their numbers by name, and those numbers for each family and exception.
pub struct Policy<'p> {
    text: &'p str,
    entries: Vec<Entry<'p>>,
    by_name: Vec<u32>,
    by_family: HashMap<(u32, Option<&'p str>), Vec<u32>>,
}

/// What is before the list of a policy.
const HEAD: &str = "[licenses]\nallow = [";

impl<'p> Policy<'p> {
    /// The policy of a text that is a list of allowed licences alone.
    pub fn new(text: &'p str, catalog: &Catalog) -> Option<Policy<'p>> {
        let list = text.strip_prefix(HEAD)?.trim_end().strip_suffix(']')?;
        let mut policy = Policy { text, entries: Vec::new(), by_name: Vec::new(), by_family: HashMap::new() };
        let mut families = Vec::new();
        // every second part is a name
        let mut parts = list.split('"');
        let mut start = HEAD.len();
        while let Some(between) = parts.next() {
            start += between.len() + 1;
            let Some(name) = parts.next() else { break };
            families.push(policy.add(name, start, catalog)?);
            start += name.len() + 1;
        }
        policy.by_name = (0..policy.entries.len() as u32).collect();
        policy.by_name.sort_by_key(|number| policy.entries[*number as usize].name);
        for number in &policy.by_name {
            policy.by_family.entry(families[*number as usize]).or_default().push(*number);
        }
        Some(policy)
    }

    /// Adds an entry; its family and exception.
    fn add(&mut self, name: &'p str, start: usize, catalog: &Catalog) -> Option<(u32, Option<&'p str>)> {
        let (licence, exception) = match name.split_once(' ') {
            Some((licence, rest)) => (licence, Some(rest.strip_prefix("WITH ").filter(|name| catalog.exceptions.contains(name))?)),
            None => (name, None),
        };
        let Licence { family, rank, is_later, .. } = *catalog.licences.get(licence)?;
        self.entries.push(Entry { name, place: (0, 0), start, rank, is_later, is_used: false });
        Some((family, exception))
    }

    /// The first entry, by name, that satisfies a term, which is used then.
    pub fn hit(&mut self, asked: &Asked) -> Option<u32> {
        let numbers = self.by_family.get(&(asked.family, asked.exception))?;
        let hit = *numbers.iter().find(|number| self.entries[**number as usize].satisfies(asked))?;
        self.entries[hit as usize].is_used = true;
        Some(hit)
    }

    /// The entries that were no hit, by name.
    pub fn unused(&self) -> impl Iterator<Item = &Entry<'p>> {
        self.by_name.iter().map(|number| &self.entries[*number as usize]).filter(|entry| !entry.is_used)
    }

    /// Finds the places of these entries, from one to the next in the text.
    pub fn locate(&mut self) {
        let (mut from, mut place) = (0, (1, 1));
        for entry in self.entries.iter_mut().filter(|entry| !entry.is_used) {
            place = crate::answers::after(place, &self.text[from..entry.start]);
            from = entry.start;
            entry.place = place;
        }
    }
}

// ---- expressions

/// Where a term stands in its expression, and the entry that satisfies it.
pub struct Term {
    pub start: usize,
    pub end: usize,
    pub hit: Option<u32>,
}

impl Term {
    /// The term in one spelling.
    pub fn printed(&self, text: &str) -> String {
        let mut words = text[self.start..self.end].split_ascii_whitespace();
        match (words.next(), words.nth(1)) {
            (Some(licence), Some(exception)) => format!("{licence} WITH {exception}"),
            (licence, _) => licence.unwrap_or_default().to_string(),
        }
    }
}

struct Parser<'t, H> {
    text: &'t str,
    start: usize,
    token: &'t str,
    catalog: &'t Catalog<'t>,
    takes_deprecated: bool,
    terms: &'t mut Vec<Term>,
    hit: H,
}

fn is_in_word(byte: u8) -> bool {
    byte.is_ascii_alphanumeric() || matches!(byte, b'-' | b'.' | b':')
}

impl<'t, H: FnMut(&Asked) -> Option<u32>> Parser<'t, H> {
    /// Goes on to the next token: a word, a single character, or nothing at the end.
    fn advance(&mut self) {
        let bytes = self.text.as_bytes();
        self.start += self.token.len();
        while self.start < bytes.len() && matches!(bytes[self.start], b' ' | b'\t' | b'\r' | b'\n') {
            self.start += 1;
        }
        let mut end = self.start;
        while end < bytes.len() && is_in_word(bytes[end]) {
            end += 1;
        }
        if end == self.start {
            end += self.text[end..].chars().next().map_or(0, char::len_utf8);
        }
        self.token = &self.text[self.start..end];
    }

    fn takes(&mut self, spellings: [&str; 2]) -> bool {
        let is_there = spellings.contains(&self.token);
        if is_there {
            self.advance();
        }
        is_there
    }

    fn either(&mut self) -> Option<bool> {
        let mut holds = self.both()?;
        while self.takes(["OR", "or"]) || self.takes(["/", "/"]) {
            holds |= self.both()?;
        }
        Some(holds)
    }

    fn both(&mut self) -> Option<bool> {
        let mut holds = self.single()?;
        while self.takes(["AND", "and"]) {
            holds &= self.single()?;
        }
        Some(holds)
    }

    fn single(&mut self) -> Option<bool> {
        if self.takes(["(", "("]) {
            let holds = self.either()?;
            return self.takes([")", ")"]).then_some(holds);
        }
        let licence = *self.catalog.licences.get(self.token)?;
        let start = self.start;
        let mut end = start + self.token.len();
        self.advance();
        let has_plus = self.token == "+" && self.start == end;
        if has_plus {
            end += 1;
            self.advance();
        }
        if licence.is_gnu && has_plus || licence.is_deprecated && !self.takes_deprecated {
            return None;
        }
        let exception = if self.takes(["WITH", "with"]) { Some(self.exception(&mut end)?) } else { None };
        let Licence { family, rank, is_later, .. } = licence;
        let hit = (self.hit)(&Asked { family, rank, takes_later: is_later || has_plus, exception });
        self.terms.push(Term { start, end, hit });
        Some(hit.is_some())
    }

    fn exception(&mut self, end: &mut usize) -> Option<&'t str> {
        let name = *self.catalog.exceptions.get(self.token)?;
        *end = self.start + self.token.len();
        self.advance();
        Some(name)
    }
}

/// Whether an expression holds by the entries that its terms hit. Its terms are left, in the order of the text.
pub fn expression<'t>(
    text: &'t str,
    catalog: &'t Catalog<'t>,
    takes_deprecated: bool,
    terms: &'t mut Vec<Term>,
    hit: impl FnMut(&Asked) -> Option<u32>,
) -> Option<bool> {
    terms.clear();
    let mut parser = Parser { text, start: 0, token: "", catalog, takes_deprecated, terms, hit };
    parser.advance();
    let holds = parser.either()?;
    parser.token.is_empty().then_some(holds)
}
