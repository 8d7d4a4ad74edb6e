//! Random values, entries and lines that are mostly read without refusal. Small word lists, so
//! that duplicates and the same thing spelled two ways come up.

use crate::random::Random;

const SPACES: [&str; 12] = ["", "", "", "", "", " ", " ", "  ", "\t", "\u{a0}", "\u{2003}", "\r"];
const GAPS: [&str; 6] = [" ", " ", "  ", "\t", "\u{3000}", "\r "];

const NAMES: [&str; 20] = [
    "a",
    "b",
    "c",
    "d",
    "dug",
    "cell",
    "input",
    "principal",
    "resource",
    "\"a\"",
    "\"b\"",
    "\\x61",
    "\"\\u{61}\"",
    "é",
    "a b",
    "\"a:b\"",
    "\"a,b\"",
    "\"\"",
    "",
    "(a:b)",
];

const IN_STRINGS: [&str; 30] = [
    "a", "b", "K7", "night", " ", "é", "😀", "\u{301}", "\u{7f}", "'", "\\'", "\\\"", "\\\\",
    "\\n", "\\t", "\\u{41}", "\\u{4_1}", "\\u{_41}", "\\u{+41}", "\\x4", "\\xff", "\\q", "\\é",
    ",", ":", "(", "]", "{", "::", ".",
];

const TYPES: [&str; 12] = [
    "User", "Cell", "Cell", "Ns::Type", "A::B::C", "", "é", "x y", ":", "a::\"b\"", "T\\",
    "\\u{41}",
];

const NUMBERS: [&str; 18] = [
    "0",
    "-0",
    "+5",
    "7",
    "007",
    "-1",
    "12.50",
    "1.",
    ".5",
    "+.5",
    "-1.5e-3",
    "1.e1",
    "1e1",
    "9223372036854775807",
    "-9223372036854775808",
    "9223372036854775808",
    "1.5.2",
    "1_0",
];

const BARE: [&str; 15] = [
    "x",
    "nul",
    "True",
    "null",
    "true",
    "false",
    "\\n",
    "http://a/b",
    "a b",
    ".",
    "inf",
    "nan",
    "-",
    "é\u{200b}",
    "T::id",
];

/// What upsets the reading of all that follows, so it is rare.
const UPSETTING: [&str; 8] = ["\"", "\"x", "::\"q", "a\"b", "(", "]", "{", "\\"];

const PARTS: [&str; 7] = ["Dig", "Action", "A", "", " B ", "é", ":"];
const KINDS: [&str; 8] = ["request", "response", "k", "k", "a b", "::k", "é", "k)"];

/// The line with this as its time: in place of what stands behind the first `@`, or else at the
/// start, up to whitespace.
pub fn with_time(line: &str, spelled: &str) -> String {
    let from = line.find('@').map_or(0, |at| at + 1);
    let to = line[from..].find(char::is_whitespace).map_or(from, |at| from + at);
    format!("{}{spelled}{}", &line[..from], &line[to..])
}

pub struct Grammar {
    pub random: Random,
}

impl Grammar {
    pub fn new(seed: u64) -> Grammar {
        Grammar { random: Random::new(seed) }
    }

    fn space(&mut self) -> &'static str {
        *self.random.pick(&SPACES)
    }

    fn gap(&mut self) -> &'static str {
        *self.random.pick(&GAPS)
    }

    fn spaced(&mut self, text: &str) -> String {
        format!("{}{text}{}", self.space(), self.space())
    }

    /// One of a list, or rarely something that belongs nowhere.
    fn word(&mut self, from: &[&'static str]) -> &'static str {
        if self.random.once_in(60) {
            *self.random.pick(&UPSETTING)
        } else {
            *self.random.pick(from)
        }
    }

    fn quoted(&mut self) -> String {
        let count = self.random.below(4);
        format!("\"{}\"", self.random.words(&IN_STRINGS, count))
    }

    fn entity(&mut self) -> String {
        let ty = self.word(&TYPES);
        format!("{ty}::{}", self.quoted())
    }

    fn scalar(&mut self) -> String {
        match self.random.below(8) {
            0 | 1 => self.quoted(),
            2 | 3 => self.entity(),
            4 | 5 => self.random.pick(&NUMBERS).to_string(),
            6 => self.random.pick(&["null", "true", "false"]).to_string(),
            _ => self.word(&BARE).to_string(),
        }
    }

    /// `levels` more may be nested.
    pub fn value(&mut self, levels: usize) -> String {
        if levels == 0 || !self.random.once_in(3) {
            return self.scalar();
        }
        if self.random.once_in(2) {
            let count = self.random.below(4);
            let items: Vec<String> = (0..count).map(|_| self.item(levels - 1)).collect();
            format!("[{}]", items.join(","))
        } else {
            format!("{{{}}}", self.fields(levels - 1))
        }
    }

    fn item(&mut self, levels: usize) -> String {
        if self.random.once_in(12) {
            return self.space().to_string();
        }
        let value = self.value(levels);
        self.spaced(&value)
    }

    /// The inside of a record or of an argument group: mostly distinct names.
    pub fn fields(&mut self, levels: usize) -> String {
        let count = self.random.below(4);
        let start = self.random.below(NAMES.len());
        let mut fields = Vec::new();
        for index in 0..count {
            let ordered = NAMES[(start + 5 * index) % NAMES.len()];
            let name = if self.random.once_in(25) { self.word(&NAMES) } else { ordered };
            let value = self.value(levels);
            fields.push(format!("{}:{}", self.spaced(name), self.spaced(&value)));
        }
        if self.random.once_in(15) {
            fields.push(self.space().to_string());
        }
        fields.join(",")
    }

    fn entry(&mut self) -> String {
        let key = self.entity();
        let mut out = format!("{}:{}{{{}}}", self.spaced(&key), self.space(), self.fields(1));
        if self.random.once_in(3) {
            let count = self.random.below(4);
            let parents: Vec<String> = (0..count).map(|_| self.entity()).collect();
            out += &format!("{}in{}[{}]", self.space(), self.space(), parents.join(","));
        }
        out
    }

    fn envelopes(&mut self) -> String {
        let mut out = String::new();
        if self.random.once_in(2) {
            let names = ["principal", "resource", "action", "principal "];
            let count = self.random.below(3);
            let start = self.random.below(names.len());
            let fields: Vec<String> = (0..count)
                .map(|index| format!("{}:{}", names[(start + index) % names.len()], self.value(1)))
                .collect();
            out += &format!("scope({}){}", fields.join(", "), self.space());
        }
        if self.random.once_in(2) {
            let count = self.random.below(4);
            let entries: Vec<String> = (0..count).map(|_| self.entry()).collect();
            out += &format!("entities({}){}", entries.join(","), self.space());
        }
        if self.random.once_in(3) {
            out += &format!("request_context({}){}", self.fields(2), self.space());
        }
        out
    }

    fn head(&mut self) -> String {
        let count = 1 + self.random.below(3);
        let parts: Vec<&str> = (0..count).map(|_| self.word(&PARTS)).collect();
        let parts = parts.join("::");
        let kind = self.word(&KINDS);
        // A `(` in a head ends it.
        let action = self.quoted();
        let action = if self.random.once_in(20) { action } else { action.replace('(', "") };
        format!("{parts}::{action}{}::{}", self.space(), self.spaced(kind))
    }

    /// A line, not trimmed.
    pub fn line(&mut self) -> String {
        let time = *self.random.pick(&["0", "40", "-1", "+7", "9223372036854775807", "00"]);
        let (gap, envelopes, head) = (self.gap(), self.envelopes(), self.head());
        let group = self.fields(3);
        let behind = if self.random.once_in(8) { " text behind" } else { "" };
        let line = format!("@{time}{gap}{envelopes}{head}({group}){behind}");
        self.spaced(&line)
    }
}
