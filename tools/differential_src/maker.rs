//! Makes a log from a seed: mostly lines that are read, lines with faults, texts at the limits, and damaged copies.

use crate::damage;
use crate::grammar::Grammar;
use crate::random::Random;
use crate::words::*;
use std::sync::OnceLock;

pub struct Maker {
    pub random: Random,
    /// How often whitespace stands where it may: once in so many places.
    spaces: usize,
    /// No word that upsets the reading of what follows: most lines are then read.
    pub(crate) tame: bool,
}

/// Both ends of every range that `escape_debug` writes as numbers, and their neighbours.
fn range_ends() -> &'static [char] {
    static ENDS: OnceLock<Vec<char>> = OnceLock::new();
    ENDS.get_or_init(|| {
        let ranges = oracle::ranges::anywhere().into_iter().chain(oracle::ranges::first_only());
        let ends = ranges.flat_map(|(start, end)| [start.saturating_sub(1), start, end - 1, end]);
        ends.filter_map(char::from_u32).collect()
    })
}

/// A seed for one log: logs of neighbouring numbers have nothing in common.
fn mixed(seed: u64, index: u64) -> u64 {
    let mut n = seed
        .wrapping_mul(0xd134_2543_de82_ef95)
        .wrapping_add(index)
        .wrapping_add(0x9e37_79b9_7f4a_7c15);
    n = (n ^ (n >> 30)).wrapping_mul(0xbf58_476d_1ce4_e5b9);
    n = (n ^ (n >> 27)).wrapping_mul(0x94d0_49bb_1331_11eb);
    n ^ (n >> 31)
}

/// The choices of what has this number.
pub fn random(seed: u64, index: u64) -> Random {
    Random::new(mixed(seed, index))
}

impl Maker {
    pub fn new(seed: u64, index: u64) -> Maker {
        let mut random = random(seed, index);
        let spaces = *random.pick(&[2, 4, 8, 20]);
        let tame = !random.once_in(3);
        Maker { random, spaces, tame }
    }

    pub fn log(&mut self) -> Vec<u8> {
        let log = match self.random.below(400) {
            0..=1 => self.log_at_limit(),
            2..=13 => self.line_at_limit(),
            14..=29 => self.deep().into_bytes(),
            30..=49 => self.soup().into_bytes(),
            60..=64 => self.many_fields().into_bytes(),
            65..=76 => self.characters().into_bytes(),
            _ => self.lines().into_bytes(),
        };
        let mut log = self.marked(log);
        let damaged = if self.tame { 8 } else { 3 };
        if self.random.once_in(damaged) {
            for _ in 0..1 + self.random.below(3) {
                self.damage_bytes(&mut log);
            }
        }
        if self.random.once_in(40) {
            let bytes = *self.random.pick(&BYTES);
            let at = self.random.below(log.len() + 1);
            log.splice(at..at, bytes.iter().copied());
        }
        log
    }

    /// U+FEFF in front, sometimes.
    pub(crate) fn marked(&mut self, log: Vec<u8>) -> Vec<u8> {
        let mark = match self.random.below(60) {
            0..=4 => "\u{feff}",
            5 => "\u{feff}\u{feff}",
            6 => "\n\u{feff}",
            _ => return log,
        };
        [mark.as_bytes(), &log].concat()
    }

    fn lines(&mut self) -> String {
        let count = *self.random.pick(&[1, 1, 1, 2, 2, 3, 4, 6]);
        let mut log = String::new();
        let mut line = String::new();
        for index in 0..count {
            let again = index > 0 && self.random.once_in(8);
            if !again {
                line = self.any_line();
            }
            log += &line;
            if index + 1 < count || self.random.once_in(2) {
                let ends =
                    if self.tame && !self.random.once_in(8) { &LINE_ENDS[..9] } else { &LINE_ENDS };
                log += *self.random.pick(ends);
            }
        }
        log
    }

    pub(crate) fn any_line(&mut self) -> String {
        let kinds = if self.tame { 50 } else { 20 };
        match self.random.below(kinds) {
            0..=1 => self.vector_line(),
            2..=5 => self.faults(),
            6 => self.space() + &self.space() + &self.space(),
            7..=8 => format!("@0 entities({})::\"\"::k()", self.faulty_entries()),
            9..=11 => self.neighbours(),
            _ => self.line(),
        }
    }

    /// A line of the vectors' own grammar.
    fn vector_line(&mut self) -> String {
        let mut grammar = Grammar::new(self.random.below(1 << 30) as u64);
        let line = grammar.line();
        if self.random.once_in(2) { line } else { damage::damaged(&mut self.random, &line) }
    }

    /// Every fault beside every other.
    fn faults(&mut self) -> String {
        let r = &mut self.random;
        let front = *r.pick(&[
            "@0 ",
            "@0 ",
            "@0 ",
            "@0 ",
            "@0 ",
            "@0 ",
            "",
            "0 ",
            "@",
            "@0",
            "@x ",
            "@ 0 ",
            "x@0 ",
            "\u{feff}@0 ",
        ]);
        let mut parts = [*r.pick(&SCOPES), *r.pick(&ENTITIES), *r.pick(&CONTEXTS)];
        if r.once_in(12) {
            let (a, b) = (r.below(3), r.below(3));
            parts.swap(a, b);
        }
        let end = *r.pick(&ENDS);
        let [a, b, c] = parts;
        let spaces: Vec<String> = (0..3).map(|_| self.space()).collect();
        format!("{front}{a}{}{b}{}{c}{}{end}", spaces[0], spaces[1], spaces[2])
    }

    /// Faults in neighbouring places of a line: time, scope, entities, context, event. Behind them the line ends, or goes on well.
    fn neighbours(&mut self) -> String {
        let first = self.random.below(5);
        let last = first + self.random.below(3);
        let count = *self.random.pick(&[last + 1, 5]);
        let well = ["@0 ", "", "", "", "::\"\"::k()"].into_iter().enumerate().take(count);
        well.map(|(place, well)| match place {
            _ if (first..=last).contains(&place) => self.fault(place),
            _ => well.to_string(),
        })
        .collect()
    }

    fn fault(&mut self, place: usize) -> String {
        let close = *self.random.pick(&["", ")"]);
        match place {
            0 => self.random.pick(&FRONT_FAULTS).to_string(),
            1 => format!("scope({}{close}", self.faulty_fields(1)),
            2 => format!("entities({}{close}", self.faulty_entries()),
            3 => format!("request_context({}{close}", self.faulty_fields(1)),
            _ => format!("{}{}{close}", self.random.pick(&HEAD_FAULTS), self.faulty_fields(1)),
        }
    }

    /// A few parts of a body.
    fn few(&mut self, part: impl Fn(&mut Maker) -> String) -> String {
        let count = 1 + self.random.below(4);
        let parts: Vec<String> = (0..count).map(|_| part(self)).collect();
        parts.join(",")
    }

    /// Few names, so that they meet, and values that are refused.
    fn faulty_fields(&mut self, levels: usize) -> String {
        self.few(|maker| {
            let name = *maker.random.pick(&["a", "b", "a", "b", ""]);
            match maker.random.below(6) {
                0 => name.to_string(),
                1 | 2 if levels > 0 => format!("{name}:{{{}}}", maker.faulty_fields(levels - 1)),
                3 if levels > 0 => format!("{name}:[{{{}}}]", maker.faulty_fields(levels - 1)),
                _ => format!("{name}:1"),
            }
        })
    }

    /// Every fault of an entry beside every other, behind an entry whose key it may repeat and before a further one.
    fn faulty_entries(&mut self) -> String {
        let before = *self.random.pick(&BEFORE_ENTRIES);
        let mut out = format!("{before}{}", self.faulty_entry());
        if self.random.once_in(2) {
            out += &format!(",{}", self.faulty_entry());
        }
        out
    }

    fn faulty_entry(&mut self) -> String {
        let r = &mut self.random;
        let (key, colon) = (*r.pick(&ENTRY_KEYS), *r.pick(&ENTRY_COLONS));
        let (record, tail) = (*r.pick(&ENTRY_RECORDS), *r.pick(&ENTRY_TAILS));
        let record = match self.random.below(6) {
            0 => format!("{{{}}}", self.faulty_fields(1)),
            _ => record.to_string(),
        };
        let tail = match self.random.below(3) {
            0 => format!("in[{}]", self.few(|maker| maker.random.pick(&PARENTS).to_string())),
            _ => tail.to_string(),
        };
        format!("{key}{colon}{record}{}{tail}", self.space())
    }

    fn space(&mut self) -> String {
        if !self.random.once_in(self.spaces) {
            return String::new();
        }
        // A line feed stands here only where the line may fall apart.
        let spaces = if self.tame { &WHITE_SPACE[1..] } else { &WHITE_SPACE };
        match self.random.below(12) {
            0..=4 => " ".to_string(),
            5 if self.random.once_in(if self.tame { 20 } else { 2 }) => {
                self.random.pick(&NO_SPACE).to_string()
            }
            6 => format!("{}{}", self.random.pick(spaces), self.random.pick(spaces)),
            _ => self.random.pick(spaces).to_string(),
        }
    }

    pub(crate) fn spaced(&mut self, text: &str) -> String {
        format!("{}{text}{}", self.space(), self.space())
    }

    /// One of a list, or rarely something that belongs nowhere.
    fn word(&mut self, from: &[&'static str]) -> String {
        if self.tame {
            return self.calm(from);
        }
        let list: &[&'static str] = if self.random.once_in(80) { &UPSETTING } else { from };
        self.random.pick(list).to_string()
    }

    /// One of a list whose quotes and brackets are paired.
    fn calm(&mut self, from: &[&'static str]) -> String {
        let calm = |word: &str| {
            let count = |c: char| word.matches(c).count();
            let quotes = count('"') % 2 == 0 && !word.contains("\\\"");
            quotes
                && [('(', ')'), ('[', ']'), ('{', '}')]
                    .iter()
                    .all(|(open, close)| count(*open) == count(*close))
        };
        loop {
            let word = *self.random.pick(from);
            if calm(word) {
                return word.to_string();
            }
        }
    }

    fn char(&mut self) -> char {
        let code = match self.random.below(8) {
            0..=2 => *self.random.pick(range_ends()) as u32,
            3 => self.random.below(0x110000) as u32,
            4 => self.random.below(0x3000) as u32,
            5 => self.random.below(0x80) as u32,
            _ => *self.random.pick(&[
                'é', '😀', '\u{301}', '\u{200d}', '\u{7f}', '\u{0}', '\u{e000}', '\u{ffff}',
            ]) as u32,
        };
        let plain = |c: &char| !"\"\\()[]{}:,\n".contains(*c);
        char::from_u32(code).filter(plain).unwrap_or('\u{fffd}')
    }

    fn escape(&mut self) -> String {
        if !self.random.once_in(4) {
            return self.random.pick(&ESCAPES).to_string();
        }
        let count = self.random.below(9);
        let digits =
            ["0", "0", "1", "4", "7", "a", "F", "d", "D", "8", "_", "_", "+", "-", "e", "9"];
        let inside = self.random.words(&digits, count);
        match self.random.below(4) {
            0 => format!("\\x{inside}"),
            _ => format!("\\u{{{inside}}}"),
        }
    }

    fn inside(&mut self) -> String {
        let count = *self.random.pick(&[0, 1, 1, 2, 3, 5]);
        let mut out = String::new();
        for _ in 0..count {
            match self.random.below(12) {
                0..=2 => out += *self.random.pick(&["a", "K7", "night", " ", "'", "b c", "."]),
                3..=5 => out.push(self.char()),
                6..=9 => out += &self.escape(),
                10 => {
                    out += *self.random.pick(&[",", ":", "(", ")", "[", "]", "{", "}", "::", "@"])
                }
                _ => out += &self.space(),
            }
        }
        out
    }

    fn quoted(&mut self) -> String {
        let inside =
            if self.random.once_in(3) { self.random.pick(&IDS).to_string() } else { self.inside() };
        format!("\"{inside}\"")
    }

    fn entity(&mut self) -> String {
        let ty = if self.random.once_in(2) { "T".to_string() } else { self.word(&TYPES) };
        let ty = if self.random.once_in(10) { self.spaced(&ty) } else { ty };
        format!("{ty}::{}", self.quoted())
    }

    fn number(&mut self) -> String {
        let r = &mut self.random;
        if !r.once_in(4) {
            return r.pick(&NUMBERS).to_string();
        }
        let mut out = r.pick(&["", "", "+", "-"]).to_string();
        let count = *r.pick(&[0, 1, 1, 2, 19, 20]);
        out += &r.words(&["0", "1", "9", "5"], count);
        if r.once_in(2) {
            let count = r.below(3);
            out += &format!(".{}", r.words(&["0", "5"], count));
        }
        if r.once_in(4) {
            let count = r.below(3);
            out += &format!(
                "{}{}{}",
                r.pick(&["e", "E"]),
                r.pick(&["", "+", "-"]),
                r.words(&["0", "1"], count)
            );
        }
        out
    }

    fn scalar(&mut self) -> String {
        match self.random.below(10) {
            0 | 1 => self.quoted(),
            2 | 3 => self.entity(),
            4..=6 => self.number(),
            7 | 8 => self.word(&WORDS),
            _ if self.tame => self.random.pick(&["x", "é b", "\\n", "a.b", "'"]).to_string(),
            _ => self.inside(),
        }
    }

    fn value(&mut self, levels: usize) -> String {
        if levels == 0 || !self.random.once_in(3) {
            return self.scalar();
        }
        if self.random.once_in(2) {
            let count = self.random.below(4);
            let items: Vec<String> = (0..count).map(|_| self.item(levels - 1)).collect();
            format!("[{}]", items.join(","))
        } else {
            format!("{{{}}}", self.fields(levels - 1))
        }
    }

    fn item(&mut self, levels: usize) -> String {
        if self.random.once_in(10) {
            return self.space();
        }
        let value = self.value(levels);
        self.spaced(&value)
    }

    /// Mostly distinct names.
    fn fields(&mut self, levels: usize) -> String {
        let count = self.random.below(5);
        let start = self.random.below(NAMES.len());
        let mut fields = Vec::new();
        for index in 0..count {
            let ordered = match self.tame {
                true => CALM_NAMES[(start + index) % CALM_NAMES.len()].to_string(),
                false => NAMES[(start + 5 * index) % NAMES.len()].to_string(),
            };
            let rare = if self.tame { 100 } else { 25 };
            let name = match self.random.below(rare) {
                0 => self.word(&NAMES),
                1 => self.quoted(),
                2 if !self.tame => self.inside(),
                _ => ordered,
            };
            let value = self.value(levels);
            fields.push(format!("{}:{}", self.spaced(&name), self.spaced(&value)));
        }
        if self.random.once_in(12) {
            let at = self.random.below(fields.len() + 1);
            let empty = self.space();
            fields.insert(at, empty);
        }
        fields.join(",")
    }

    fn entry(&mut self) -> String {
        let key = self.entity();
        let mut out =
            format!("{}:{}{{{}}}{}", self.spaced(&key), self.space(), self.fields(1), self.space());
        if self.random.once_in(2) {
            let count = self.random.below(4);
            let parents: Vec<String> = (0..count)
                .map(|_| {
                    let parent =
                        if self.random.once_in(25) { self.value(1) } else { self.entity() };
                    self.spaced(&parent)
                })
                .collect();
            out += &format!("in{}[{}]{}", self.space(), parents.join(","), self.space());
        }
        out
    }

    fn scope(&mut self) -> String {
        let names = ["principal", "resource", "action", " principal ", "resource\u{a0}", "x"];
        let count = self.random.below(if self.tame { 3 } else { 5 });
        let start = self.random.below(names.len());
        let fields: Vec<String> = (0..count)
            .map(|index| {
                let value = self.value(1);
                format!("{}:{}", names[(start + index) % names.len()], self.spaced(&value))
            })
            .collect();
        format!("scope({})", fields.join(","))
    }

    fn envelopes(&mut self) -> String {
        let mut parts = Vec::new();
        if self.random.once_in(2) {
            parts.push(self.scope());
        }
        if self.random.once_in(2) {
            let count = self.random.below(4);
            let entries: Vec<String> = (0..count).map(|_| self.entry()).collect();
            parts.push(format!("entities({})", entries.join(",")));
        }
        if self.random.once_in(3) {
            parts.push(format!("request_context({})", self.fields(2)));
        }
        if self.random.once_in(40) {
            parts.reverse();
        }
        parts.into_iter().map(|part| part + &self.space()).collect()
    }

    fn head(&mut self) -> String {
        let count = 1 + self.random.below(3);
        let parts: Vec<String> = (0..count).map(|_| self.word(&PARTS)).collect();
        let kind = self.word(&KINDS);
        // A `(` in a head ends it.
        let action = self.quoted();
        let action = if self.random.once_in(20) { action } else { action.replace('(', "") };
        format!("{}::{action}{}::{}", parts.join("::"), self.space(), self.spaced(&kind))
    }

    pub(crate) fn line(&mut self) -> String {
        let time = if self.random.once_in(if self.tame { 30 } else { 6 }) {
            *self.random.pick(&TIMES)
        } else {
            *self.random.pick(&TIMES[..16])
        };
        let gap = if self.random.once_in(3) { *self.random.pick(&WHITE_SPACE[1..]) } else { " " };
        let gap = format!("{gap}{}", self.space());
        let (envelopes, head) = (self.envelopes(), self.head());
        let group = self.fields(3);
        let behind = if self.random.once_in(8) {
            *self.random.pick(&[" text", "x", "(", " \"", "}"])
        } else {
            ""
        };
        let line = format!("@{time}{gap}{envelopes}{head}({group}){behind}");
        self.spaced(&line)
    }

    /// Texts without a line's order: for cuts, decodings and keys.
    fn soup(&mut self) -> String {
        let count = self.random.below(14);
        let mut out = String::new();
        for _ in 0..count {
            match self.random.below(6) {
                0 | 1 => out += *self.random.pick(&SPECIAL),
                2 => out += &self.escape(),
                3 => out.push(self.char()),
                4 => out += &self.value(1),
                _ => out += &self.space(),
            }
        }
        out
    }

    /// Nesting around the depth limit, in each place where a value can stand.
    fn deep(&mut self) -> String {
        let levels = 126 + self.random.below(6);
        let inside = *self.random.pick(&INNERMOST);
        let (open, close) = *self.random.pick(&NESTINGS);
        let levels = if open.contains("a:[") { levels / 2 } else { levels };
        let (front, behind) = *self.random.pick(&[("", ""), ("[", "]"), ("{x:", "}")]);
        let value =
            format!("{front}{}{inside}{}{behind}", open.repeat(levels), close.repeat(levels));
        match self.random.below(8) {
            0 => format!("@0 scope(principal:{value})::\"\"::k()"),
            1 => format!("@0 entities({value}:{{}})::\"\"::k()"),
            2 => format!("@0 entities(T::\"a\":{{a:{value}}})::\"\"::k()"),
            3 => format!("@0 entities(T::\"a\":{{}}in[{value}])::\"\"::k()"),
            4 => format!("@0 request_context(c:{value})::\"\"::k()"),
            5 => format!("@0 ::\"\"::k(v:{value},v:1)"),
            6 => value,
            _ => format!("@0 ::\"\"::k(v:{value})"),
        }
    }

    /// Many names and entries, so that sorting shows.
    fn many_fields(&mut self) -> String {
        let count = 10 + self.random.below(140);
        let prime = 151;
        let step = 1 + self.random.below(prime - 1);
        let order: Vec<usize> = (0..count).map(|n| (n + 1) * step % prime).collect();
        let fields: Vec<String> = order.iter().map(|n| format!("n{n}:{n}")).collect();
        let entries: Vec<String> = order.iter().map(|n| format!("A::\"{n}\":{{}}")).collect();
        match self.random.below(4) {
            0 => format!("@0 ::\"\"::k({})", fields.join(",")),
            1 => format!("@0 request_context(v:[{{{}}}])::\"\"::k()", fields.join(",")),
            2 => format!("@0 entities({})::\"\"::k()", entries.join(",")),
            _ => format!("@0 entities(A::\"a\":{{{}}})::\"\"::k(b:1,a:2)", fields.join(",")),
        }
    }

    /// Many short texts, each with a character at an end of a range in front, some with one more. Of types each has an id of its own, since
    /// what is read is trimmed.
    fn characters(&mut self) -> String {
        let mut texts = Vec::new();
        for _ in 0..40 + self.random.below(160) {
            let mut text = self.random.pick(range_ends()).to_string();
            if self.random.once_in(3) {
                text.push(*self.random.pick(range_ends()));
            }
            texts.push(text);
        }
        let of_types = || texts.iter().enumerate().map(|(n, text)| format!("{text}::\"{n}\""));
        let entries = |mut keys: Vec<String>| {
            keys.sort();
            keys.dedup();
            format!("@0 entities({}:{{}})::\"\"::k()", keys.join(":{},"))
        };
        let values = |items: Vec<String>| format!("@0 ::\"\"::k(v:[{}])", items.join(","));
        match self.random.below(5) {
            0 => texts.iter().take(20).map(|text| format!("@0 ::\"{text}\"::k()\n")).collect(),
            1 => entries(texts.iter().map(|text| format!("::\"{text}\"")).collect()),
            2 => entries(of_types().collect()),
            3 => values(of_types().collect()),
            _ => {
                let mut item = |text: &String| {
                    let ty = if self.random.once_in(3) { "T::" } else { "" };
                    format!("{ty}\"{text}\"")
                };
                values(texts.iter().map(&mut item).collect())
            }
        }
    }

    /// So many bytes of one filling.
    fn filling(&mut self, length: usize) -> String {
        let unit = *self.random.pick(&[
            "x", "x", "\u{7f}", "é", "\\n", "1,", "a:1,", "[],", "\u{3000}", "\u{301}", "'", " ",
            "\"\",", "😀",
        ]);
        let mut out = unit.repeat(length / unit.len());
        out += &"x".repeat(length - out.len());
        out
    }

    /// A line of about 4,096 bytes, trimmed or not, between others.
    fn line_at_limit(&mut self) -> Vec<u8> {
        let length = 4_094 + self.random.below(5);
        let forms = [
            ("@0 ::\"\"::k(v:", ")"),
            ("@0 ::\"\"::k(v:[", "])"),
            ("@0 ::\"\"::k(v:\"", "\")"),
            ("@0 ::\"\"::k(v:T::\"", "\")"),
            ("@0 ::\"", "\"::k()"),
            ("@0 ::\"\"::k(", ")"),
            ("", ""),
            ("@0 entities(T::\"", "\":{})::\"\"::k()"),
            ("@0 entities(", "::\"\":{})::\"\"::k()"),
        ];
        let (front, behind) = *self.random.pick(&forms);
        let fill = self.filling(length - front.len() - behind.len());
        let mut line = format!("{front}{fill}{behind}");
        match self.random.below(5) {
            0 => {
                line = format!(
                    "{}{line}{}",
                    self.random.pick(&WHITE_SPACE),
                    self.random.pick(&WHITE_SPACE)
                )
            }
            1 => line = format!("{}{line}", " ".repeat(*self.random.pick(&[1, 2, 4_096]))),
            2 => line = format!("@1 ::\"\"::k()\n{line}\r\n@2 ::\"\"::k()"),
            3 => line = self.random.pick(&WHITE_SPACE).repeat(length),
            _ => {}
        }
        let mut line = line.into_bytes();
        if self.random.once_in(8) {
            line.extend(*self.random.pick(&BYTES));
        }
        line
    }

    /// A log of about 65,536 bytes.
    fn log_at_limit(&mut self) -> Vec<u8> {
        let length = 65_534 + self.random.below(5);
        let line = match self.random.below(5) {
            0 => "\n".to_string(),
            1 => "@0 ::\"\"::k()\n".to_string(),
            2 => format!("@7 ::\"\"::k(v:{})\n", "x".repeat(4_081)),
            3 => " ".to_string(),
            _ => "@7 scope(principal:U::\"a\") ::\"\"::k(a:1, b:\"x\")\r\n".to_string(),
        };
        let lines = line.repeat(length / line.len());
        let rest = length - lines.len();
        let fill = if self.random.once_in(4) { "x".repeat(rest) } else { " ".repeat(rest) };
        let mut log = match self.random.below(3) {
            0 => format!("{fill}{lines}"),
            _ => format!("{lines}{fill}"),
        }
        .into_bytes();
        match self.random.below(6) {
            0 => log[length - 1] = 0xff,
            1 => log[length - 1] = b'x',
            2 => log.splice(..3, "\u{feff}".bytes()).for_each(drop),
            _ => {}
        }
        log
    }

    pub(crate) fn damage_bytes(&mut self, log: &mut Vec<u8>) {
        if log.is_empty() {
            return;
        }
        let special: Vec<usize> =
            (0..log.len()).filter(|at| b"@:(){}[]\"\\,".contains(&log[*at])).collect();
        let r = &mut self.random;
        let at =
            if special.is_empty() || r.once_in(3) { r.below(log.len()) } else { *r.pick(&special) };
        match r.below(9) {
            0 | 1 => drop(log.remove(at)),
            2 | 3 => log.insert(at, log[at]),
            4 => log[at] ^= 1 << r.below(7),
            5 => log[at] = *r.pick(b"@:(){}[]\"\\, \n.ein"),
            6 => log.splice(at..at, r.pick(&SPECIAL).bytes()).for_each(drop),
            7 => {
                let other = r.below(log.len());
                log.swap(at, other);
            }
            _ => {
                let end = (at + 1 + r.below(12)).min(log.len());
                let part = log[at..end].to_vec();
                let to = if r.once_in(2) { end } else { r.below(log.len()) };
                log.splice(to..to, part);
            }
        }
    }
}
