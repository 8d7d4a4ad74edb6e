//! Random entities JSON (02, A2): texts that are mostly read, in any order of members and any spelling of names, with faults of shape
//! here and there, and copies with damaged syntax. Small word lists, so that names and keys meet.

use crate::random::Random;

pub const EXTENSION: &str = "__extn";
pub const REFERENCE: &str = "__entity";

/// White_Space, and some that looks it.
const WHITE_SPACE: [&str; 30] = [
    "\u{9}", "\u{a}", "\u{b}", "\u{c}", "\u{d}", "\u{20}", "\u{85}", "\u{a0}", "\u{1680}",
    "\u{2000}", "\u{2001}", "\u{2002}", "\u{2003}", "\u{2004}", "\u{2005}", "\u{2006}", "\u{2007}",
    "\u{2008}", "\u{2009}", "\u{200a}", "\u{2028}", "\u{2029}", "\u{202f}", "\u{205f}", "\u{3000}",
    "\u{200b}", "\u{1c}", "\u{180e}", "\u{2060}", "\u{feff}",
];

/// What looks like white space of JSON and is none.
const NO_WHITE: [&str; 6] = ["\u{c}", "\u{b}", "\u{a0}", "\u{2028}", "\u{feff}", "\u{85}"];

const WHITE: [&str; 12] = ["", "", "", "", "", "", "", " ", " ", "\n", "\t", "\r\n  "];

const NAMES: [&str; 18] = [
    "a",
    "b",
    "c",
    "d",
    "é",
    "😀",
    "",
    "dug",
    "uid",
    "type",
    "id",
    "attrs",
    "a b",
    "_entity",
    "__entity_",
    "\u{0}",
    "a/b",
    "\"",
];

const TYPES: [&str; 16] = [
    "A",
    "A",
    "A",
    "B",
    "Cell",
    "Ns::Type",
    "A::B::C",
    "",
    "é",
    "A ",
    "a::\"b",
    "\u{feff}A",
    "null",
    "\u{301}x",
    "T\\",
    "😀",
];

/// Types that a log has no other way to spell, and that it reads as they are.
const CALM_TYPES: [&str; 7] = ["A", "A", "B", "Cell", "Ns::Type", "é", "T1"];

const IDS: [&str; 12] =
    ["1", "1", "1", "2", "K'7", "", "\u{7f}", " 1", "\"", "\\u{7f}", "é", "\u{301}"];

/// What the texts are made of.
const PIECES: [&str; 28] = [
    "a",
    "night",
    " ",
    "é",
    "😀",
    "\u{10ffff}",
    "\u{301}",
    "\u{7f}",
    "\u{0}",
    "\u{1f}",
    "\u{8}",
    "\u{c}",
    "\n",
    "\t",
    "\r",
    "/",
    "\\",
    "\"",
    "\u{2028}",
    "\u{feff}",
    "\u{ffff}",
    "\u{d7ff}",
    "\u{e000}",
    "u0041",
    "[",
    "}",
    ",",
    "::\"",
];

/// Each is an integer of 64 bits.
const INTEGERS: [&str; 9] = [
    "0",
    "-0",
    "7",
    "-1",
    "12",
    "9223372036854775807",
    "-9223372036854775808",
    "1000000000000000000",
    "10",
];

/// No escapes, and halves of pairs.
const NO_ESCAPES: [&str; 14] = [
    "\\'",
    "\\v",
    "\\a",
    "\\0",
    "\\x41",
    "\\u12",
    "\\u{41}",
    "\\U0041",
    "\\ud800",
    "\\udc00",
    "\\ud800\\u0041",
    "\\ude00\\ud83d",
    "\\u004g",
    "\\",
];

/// Numbers of JSON that are none.
pub const OTHER_NUMBERS: [&str; 16] = [
    "1e",
    "1_0",
    "-01",
    "1.5.5",
    "9223372036854775808",
    "-9223372036854775809",
    "1.0",
    "-0.0",
    "1e2",
    "1E+2",
    "0e0",
    "1.5e-3",
    "18446744073709551616",
    "00",
    "1.",
    "-",
];

/// What no value is, and what is rarely one.
const OTHER_VALUES: [&str; 16] = [
    "nul",
    "True",
    "NaN",
    "Infinity",
    "\"\\ud800\"",
    "\"\\q\"",
    "'a'",
    "",
    "[1,]",
    "{\"a\":1,}",
    "01",
    "+1",
    ".5",
    "\"\t\"",
    "\"",
    "//",
];

const INNERMOST: [&str; 16] = [
    "{\"__entity\":{\"type\":\"B\",\"id\":\"2\"},\"x\":1}",
    "{\"__extn\":{\"x\":1,\"x\":2}}",
    "",
    "1",
    "1.5",
    "\"x\"",
    "null",
    "[]",
    "{}",
    "{\"x\":1}",
    "{\"__extn\":1}",
    "{\"__entity\":{\"type\":\"B\",\"id\":\"2\"}}",
    "{\"__entity\":1}",
    "{\"x\":1,\"x\":2}",
    "{\"x\":[],\"__entity\":1}",
    "[1.5]",
];

const DAMAGE: [&str; 26] = [
    "\"", "\"", "\\", "[", "]", "{", "}", ":", ",", ",", " ", "\n", "1", "0", "-", ".", "e",
    "null", "\\u", "\\ud800", "\u{feff}", "\u{a0}", "é", "\"a\":1,", "\u{0}", "__extn",
];

pub struct CellsGrammar {
    pub random: Random,
    /// Once in so many places stands a fault.
    faults: usize,
    /// Once in so many characters an escape stands where none must.
    escapes: usize,
    /// Only what a log can spell too.
    calm: bool,
}

impl CellsGrammar {
    pub fn new(mut random: Random) -> CellsGrammar {
        let faults = *random.pick(&[12, 40, 1_000_000]);
        let escapes = *random.pick(&[3, 20, 1_000]);
        let calm = random.once_in(4);
        CellsGrammar { random, faults, escapes, calm }
    }

    fn fault(&mut self) -> bool {
        self.random.once_in(self.faults)
    }

    fn white(&mut self) -> &'static str {
        if self.random.once_in(8 * self.faults) {
            return *self.random.pick(&NO_WHITE);
        }
        *self.random.pick(&WHITE)
    }

    fn spaced(&mut self, text: &str) -> String {
        format!("{}{text}{}", self.white(), self.white())
    }

    fn unit(&mut self, unit: u16) -> String {
        if self.random.once_in(2) { format!("\\u{unit:04x}") } else { format!("\\u{unit:04X}") }
    }

    fn escape(&mut self, c: char) -> String {
        let short = match c {
            '"' | '\\' | '/' => Some(c),
            '\u{8}' => Some('b'),
            '\u{c}' => Some('f'),
            '\n' => Some('n'),
            '\r' => Some('r'),
            '\t' => Some('t'),
            _ => None,
        };
        match short {
            Some(short) if !self.random.once_in(4) => format!("\\{short}"),
            _ => {
                let mut units = [0; 2];
                c.encode_utf16(&mut units).iter().map(|unit| self.unit(*unit)).collect()
            }
        }
    }

    /// A text spelled as a string: each character as it is or escaped.
    pub fn string(&mut self, text: &str) -> String {
        let mut out = String::from("\"");
        for c in text.chars() {
            let must = matches!(c, '"' | '\\' | '\0'..='\x1f');
            if must || self.random.once_in(self.escapes) {
                out += &self.escape(c);
            } else {
                out.push(c);
            }
        }
        out + "\""
    }

    fn any_string(&mut self) -> String {
        let count = self.random.below(4);
        let text = self.random.words(&PIECES, count);
        let mut out = self.string(&text);
        if self.random.once_in(3 * self.faults) {
            let escape = *self.random.pick(&NO_ESCAPES);
            out.insert_str(out.len() - 1, escape);
        }
        out
    }

    fn number(&mut self) -> String {
        let list: &[&str] = if self.fault() { &OTHER_NUMBERS } else { &INTEGERS };
        self.random.pick(list).to_string()
    }

    /// A type and an id.
    fn key(&mut self) -> (String, String) {
        let types: &[&str] = if self.calm { &CALM_TYPES } else { &TYPES };
        let mut ty = self.random.pick(types).to_string();
        if self.fault() {
            let white = *self.random.pick(&WHITE_SPACE);
            ty = format!("{white}{ty}");
        }
        (ty, self.random.pick(&IDS).to_string())
    }

    /// `type` and `id`, in any order.
    pub fn uid(&mut self) -> String {
        let (ty, id) = self.key();
        let mut members =
            vec![("type".to_string(), self.string(&ty)), ("id".to_string(), self.string(&id))];
        self.disturb(&mut members);
        self.object(members)
    }

    /// Members in a random order, and rarely one too many, too few, or of another kind.
    fn disturb(&mut self, members: &mut Vec<(String, String)>) {
        for last in (1..members.len()).rev() {
            if self.random.once_in(2) {
                let other = self.random.below(last + 1);
                members.swap(last, other);
            }
        }
        if !self.fault() {
            return;
        }
        let at = self.random.below(members.len());
        match self.random.below(9) {
            0 => drop(members.remove(at)),
            1 => {
                let to = self.random.below(members.len() + 1);
                let member = members[at].clone();
                members.insert(to, member);
            }
            2 => {
                let name = self.random.pick(&["tags", "uid", "Type", "", EXTENSION, REFERENCE]);
                members.insert(at, (name.to_string(), "\"x\"".to_string()));
            }
            3 => members[at].1 = self.value(2),
            4 => members[at].0 += " ",
            5 => members[at].0 = members[at].0.to_uppercase(),
            6 => members[at].1 = "\"A::\\\"1\\\"\"".to_string(),
            7 => members[at].1 = "null".to_string(),
            _ => members.push((members[at].0.clone(), self.value(1))),
        }
    }

    fn object(&mut self, members: Vec<(String, String)>) -> String {
        let member = |(name, value): (String, String)| {
            let name = self.string(&name);
            format!("{}:{}", self.spaced(&name), self.spaced(&value))
        };
        let members: Vec<String> = members.into_iter().map(member).collect();
        format!("{{{}}}", members.join(","))
    }

    fn array(&mut self, items: Vec<String>) -> String {
        let items: Vec<String> = items.iter().map(|item| self.spaced(item)).collect();
        if items.is_empty() {
            format!("[{}]", self.white())
        } else {
            format!("[{}]", items.join(","))
        }
    }

    fn reference(&mut self) -> String {
        let inside = if self.fault() { self.value(1) } else { self.uid() };
        let mut members = vec![(REFERENCE.to_string(), inside)];
        if self.fault() {
            let at = self.random.below(2);
            let name = *self.random.pick(&["x", "a", EXTENSION, REFERENCE]);
            members.insert(at, (name.to_string(), self.value(1)));
        }
        self.object(members)
    }

    /// A record: mostly names that differ.
    pub fn record(&mut self, levels: usize) -> String {
        let count = *self.random.pick(&[0, 1, 1, 2, 3, 4]);
        let start = self.random.below(NAMES.len());
        let mut members = Vec::new();
        for index in 0..count {
            let mut name = NAMES[(start + 5 * index) % NAMES.len()].to_string();
            if self.fault() {
                name =
                    self.random.pick(&["a", "b", "c", "d", "", EXTENSION, REFERENCE]).to_string();
            }
            members.push((name, self.value(levels)));
            if self.fault() {
                let again = members[self.random.below(members.len())].0.clone();
                members.push((again, self.value(levels)));
            }
        }
        self.object(members)
    }

    /// `levels` more may be nested.
    pub fn value(&mut self, levels: usize) -> String {
        if self.random.once_in(4 * self.faults) {
            return self.random.pick(&OTHER_VALUES).to_string();
        }
        match self.random.below(if levels == 0 { 6 } else { 9 }) {
            0 | 1 => self.any_string(),
            2 | 3 => self.number(),
            4 => self.random.pick(&["null", "true", "false"]).to_string(),
            5 => self.reference(),
            6 | 7 => self.record(levels - 1),
            _ => {
                let items = (0..self.random.below(4)).map(|_| self.value(levels - 1)).collect();
                self.array(items)
            }
        }
    }

    fn parents(&mut self) -> String {
        let count = *self.random.pick(&[0, 0, 0, 1, 2, 3]);
        let mut items: Vec<String> = (0..count).map(|_| self.uid()).collect();
        if self.fault() {
            items.push(self.value(2));
        }
        self.array(items)
    }

    /// An entity object around these attrs.
    fn entity(&mut self, attrs: String) -> String {
        let uid = self.uid();
        self.entity_of(uid, attrs)
    }

    fn entity_of(&mut self, uid: String, attrs: String) -> String {
        let parents = self.parents();
        let mut members = vec![
            ("uid".to_string(), uid),
            ("attrs".to_string(), attrs),
            ("parents".to_string(), parents),
        ];
        self.disturb(&mut members);
        self.object(members)
    }

    /// Two entities with one key, in spellings of their own.
    fn same_keys(&mut self) -> [String; 2] {
        let (ty, id) = self.key();
        [0, 1].map(|_| {
            let uid = format!("{{\"type\":{},\"id\":{}}}", self.string(&ty), self.string(&id));
            let attrs = self.record(1);
            let mut members = vec![("uid", uid), ("attrs", attrs), ("parents", self.parents())];
            if self.random.once_in(6) {
                members.remove(self.random.below(3));
            }
            self.object(
                members.into_iter().map(|(name, value)| (name.to_string(), value)).collect(),
            )
        })
    }

    fn entities(&mut self) -> String {
        let count = *self.random.pick(&[0, 1, 1, 1, 2, 2, 3]);
        let mut items = Vec::new();
        for _ in 0..count {
            let attrs = self.record(3);
            items.push(self.entity(attrs));
            if self.random.once_in(12) {
                items.extend(self.same_keys());
            }
            if self.fault() {
                items.push(self.value(1));
            }
            if self.fault() {
                let again = items[self.random.below(items.len())].clone();
                items.push(again);
            }
        }
        let array = self.array(items);
        self.spaced(&array)
    }

    /// An entity with a value at about the deepest level.
    fn deep(&mut self) -> String {
        let levels = 124 + self.random.below(8);
        let mut value = self.random.pick(&INNERMOST).to_string();
        let kinds = self.random.below(3);
        for _ in 0..levels {
            let array = value.is_empty() || kinds == 0 || kinds == 1 && self.random.once_in(2);
            value = if array { format!("[{value}]") } else { format!("{{\"a\":{value}}}") };
        }
        let before = *self.random.pick(&["", "", "\"b\":1,", "\"a\":2,", "\"b\":1.5,"]);
        let behind = *self.random.pick(&["", "", ",\"b\":1", ",\"a\":2", ",\"__extn\":1", "}"]);
        let entity = match self.random.below(12) {
            0 => format!("{{\"uid\":{value},\"attrs\":{{}},\"parents\":[]}}"),
            1 => format!("{{\"attrs\":{{}},\"parents\":[{value}]}}"),
            2 => value,
            _ => self.entity(format!("{{{before}\"a\":{value}{behind}}}")),
        };
        format!("[{entity}]")
    }

    /// Nothing but brackets, many.
    fn brackets(&mut self) -> String {
        let most = *self.random.pick(&[60, 600, 2_047, 2_048]);
        let levels = most - self.random.below(3);
        let (open, close) = if self.random.once_in(3) { ("{\"\":", "}") } else { ("[", "]") };
        let levels = if open == "[" { levels } else { levels / 3 };
        let innermost = *self.random.pick(&["", "[]", "{}", "0", "\""]);
        let missing = self.random.below(3).saturating_sub(1);
        format!("{}{innermost}{}", open.repeat(levels), close.repeat(levels - missing))
    }

    /// A text of about 4,096 bytes.
    fn at_limit(&mut self) -> String {
        let length = 4_094 + self.random.below(5);
        let text = self.entities();
        let long = |text: &str, fill: &str| {
            let left = length.saturating_sub(text.len());
            fill.repeat(left / fill.len()) + &"x".repeat(left % fill.len())
        };
        match self.random.below(6) {
            0 => format!("{}{text}", " ".repeat(length.saturating_sub(text.len()))),
            1 => format!("{text}{}", "\n".repeat(length.saturating_sub(text.len()))),
            2 => {
                let open = "[{\"parents\":[],\"attrs\":{},\"uid\":{\"type\":\"A\",\"id\":\"";
                let fill = *self.random.pick(&["x", "\u{7f}", "é", "\\n", "\\u007f", "😀"]);
                format!("{open}{}\"}}}}]", long(&format!("{open}\"}}}}]"), fill))
            }
            3 => {
                let open =
                    "[{\"uid\":{\"type\":\"A\",\"id\":\"\"},\"parents\":[],\"attrs\":{\"a\":[";
                let unit = *self.random.pick(&["1,", "[],", "{},", "\"\",", "-12 ,"]);
                let count = (length - open.len() - 6) / unit.len();
                let out = format!("{open}{}0]}}}}]", unit.repeat(count));
                format!("{out}{}", " ".repeat(length.saturating_sub(out.len())))
            }
            4 => {
                let names: String = (0..300).map(|n| format!("\"n{n}\":{n},")).collect();
                let last = *self.random.pick(&["x", "n7", "n\\u0037", EXTENSION]);
                format!("[{}]", self.entity(format!("{{{names}\"{last}\":0}}")))
            }
            _ => {
                let each = |n: usize| {
                    let uid = format!("{{\"type\":\"A\",\"id\":\"{n}\"}}");
                    format!("{{\"uid\":{uid},\"attrs\":{{}},\"parents\":[]}}")
                };
                let last = *self.random.pick(&[7, 64, 71]);
                let all: Vec<String> = (0..70).chain([last]).map(each).collect();
                format!("[{}]", all.join(","))
            }
        }
    }

    /// A text with some of its syntax changed.
    pub fn damaged(&mut self, text: &str) -> String {
        let mut out = text.to_string();
        for _ in 0..1 + self.random.below(2) {
            out = self.damaged_once(&out);
        }
        out
    }

    fn damaged_once(&mut self, text: &str) -> String {
        let r = &mut self.random;
        let special: Vec<usize> =
            text.match_indices(|c| "[]{}:,\"\\".contains(c)).map(|(at, _)| at).collect();
        let mut at = r.below(text.len() + 1);
        if !special.is_empty() && !r.once_in(3) {
            at = *r.pick(&special);
        }
        let at = text.floor_char_boundary(at);
        let next = at + text[at..].chars().next().map_or(0, char::len_utf8);
        let piece = *r.pick(&DAMAGE);
        match r.below(7) {
            0 | 1 => format!("{}{}", &text[..at], &text[next..]),
            2 | 3 => format!("{}{piece}{}", &text[..at], &text[at..]),
            4 => format!("{}{piece}{}", &text[..at], &text[next..]),
            5 => text[..at].to_string(),
            // A part twice.
            _ => {
                let to = text.floor_char_boundary((at + 1 + r.below(12)).min(text.len())).max(at);
                format!("{}{}", &text[..to], &text[at..])
            }
        }
    }

    /// A text of any of these kinds.
    pub fn text(&mut self) -> String {
        let text = match self.random.below(60) {
            0..=4 => self.deep(),
            5 => self.brackets(),
            6 | 7 => self.at_limit(),
            8 => self.value(4),
            9 => {
                let attrs = self.record(2);
                self.entity(attrs)
            }
            10 if self.random.once_in(4) => self.white().to_string(),
            _ => self.entities(),
        };
        if self.random.once_in(if self.calm { 20 } else { 5 }) { self.damaged(&text) } else { text }
    }
}
