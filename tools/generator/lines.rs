//! Lines: the pack of a line. The op says which tables are lent: 1 longer than needed, 2 just long
//! enough, 3 to 5 one entry short of kinds, of numbers, of texts.

use crate::cases::Cases;
use crate::damage::damaged;
use crate::grammar::Grammar;
use crate::hand::Hand;
use oracle::limits::{self, LINE, TEXT};
use oracle::pack::Pack;

pub const HEAD: &str = "::\"\"::k";

pub fn make(cases: &mut Cases, hand: &Hand) {
    add(cases, b"");
    for line in hand.list("lines") {
        add(cases, line);
        add_with(cases, 2, line);
    }
    for line in sizes() {
        add(cases, line.as_bytes());
        add_with(cases, 2, line.as_bytes());
    }
    for value in hand.list("values").iter().chain(hand.list("numbers")) {
        add(cases, &[format!("@0 {HEAD}(v:").as_bytes(), value, b")"].concat());
    }
    depths(cases);
    escapes(cases, hand);
    refused_as_text(cases);
    short_tables(cases, hand);
    several_faults(cases);
    faulty_entries(cases);
    random(cases, 6, 700);
    // Every number that parse_line can give. 35 is not among them: what ends at its matching
    // brace is always read as a record.
    cases.must_refuse((1..=4).chain(10..=34), 4);
}

fn add(cases: &mut Cases, line: &[u8]) {
    add_with(cases, 1, line);
}

fn add_with(cases: &mut Cases, op: u8, line: &[u8]) {
    match limits::line(line) {
        Ok(Some((trimmed, event))) => {
            let pack = Pack::of_event(trimmed, &event);
            // What the code relies on to have room.
            assert!(pack.kinds.len() <= trimmed.len(), "more nodes than bytes: {trimmed}");
            assert!(pack.texts.len() <= 6 * trimmed.len(), "more texts than thought: {trimmed}");
            cases.add(op, line, &[&[1], &pack.bytes()[..]].concat());
        }
        Ok(None) => {
            cases.add(op, line, &[2]);
        }
        Err(number) => cases.refused(op, line, number, &[0, number]),
    }
}

/// A line of `length` bytes with one long string.
pub fn filled(length: usize) -> String {
    let front = format!("@0 {HEAD}(v:");
    let fill = "x".repeat(length - front.len() - 1);
    format!("{front}{fill})")
}

/// Lines around the limit, before and behind trimming, and those that fill the pack most.
pub fn sizes() -> Vec<String> {
    let mut lines = Vec::new();
    for length in LINE - 1..=LINE + 1 {
        let whole = filled(length);
        lines.push(format!(" {whole}"));
        lines.push(format!("{whole}\n"));
        lines.push(format!("\u{3000}{whole}\r\n"));
        lines.push(format!("{}{whole}{}", "\t".repeat(LINE), "\u{a0}".repeat(LINE)));
        // So long before trimming.
        lines.push(format!(" {}", filled(length - 1)));
        lines.push(format!("{}\u{85}", filled(length - 2)));
        lines.push(format!(" {}\u{2028}", filled(length - 4)));
        lines.push(" ".repeat(length));
        lines.push("\u{85}".repeat(length));
        // The last bytes are a character of several.
        lines.push(format!("@0 {HEAD}(){}é", ")".repeat(length - 14)));
        lines.push(format!("@0{}{HEAD}()", " ".repeat(length - 11)));
        lines.push("x".repeat(length));
        lines.push(whole);
    }
    let room = LINE - 40;
    let raw = "\u{7f}".repeat(room);
    lines.push(format!("@0 entities(::\"{raw}\":{{}}){HEAD}()"));
    lines.push(format!("@0 entities(::\"{}\":{{}}){HEAD}()", "\u{10ffff}".repeat(room / 4)));
    lines.push(format!("@0 {HEAD}({})", "[],".repeat(room / 3)));
    lines.push(format!("@0 {HEAD}(v:[{}])", "1,".repeat(room / 2)));
    lines.push(format!("@0 {HEAD}(v:[{}])", "::\"\",".repeat(room / 5)));
    lines.push(format!("@0 entities(::\"\":{{}}in[{}]){HEAD}()", "::\"\",".repeat(room / 5)));
    lines.push(format!("@0 {}::\"\"::k()", "::".repeat(room / 2)));
    let names: String = (0..400).map(|n| format!("n{n}:{n},")).collect();
    lines.push(format!("@0 {HEAD}({names})"));
    lines.push(format!("@0 {HEAD}({names}n7:)"));
    let entries: String = (0..200).map(|n| format!("A::\"{n}\":{{}},")).collect();
    lines.push(format!("@0 entities({entries}){HEAD}()"));
    lines.push(format!("@0 entities({entries}A::\"7\":{{}}){HEAD}()"));
    lines
}

/// Values around the depth limit, in every place that reads one.
fn depths(cases: &mut Cases) {
    for levels in 126..=130 {
        for inside in ["", "1"] {
            let value = format!("{}{inside}{}", "[".repeat(levels), "]".repeat(levels));
            let envelopes = [
                format!("scope(principal:{value})"),
                format!("scope(other:{value})"),
                format!("entities(T::\"a\":{{v:{value}}})"),
                format!("entities(T::\"a\":{{}}in[{value}])"),
                format!("entities({value}:{{}})"),
                format!("request_context(v:{value})"),
            ];
            envelopes.iter().for_each(|e| add(cases, format!("@0 {e}{HEAD}()").as_bytes()));
            add(cases, format!("@0 {HEAD}(v:{value})").as_bytes());
        }
    }
}

/// The texts of the escapes in every place that decodes and in those that do not.
fn escapes(cases: &mut Cases, hand: &Hand) {
    for text in hand.list("escapes") {
        let text = std::str::from_utf8(text).expect("escapes are of UTF-8");
        add(cases, format!("@0 {HEAD}(v:\"{text}\")").as_bytes());
        add(cases, format!("@0 {HEAD}(v:{{\"{text}\":{text}}},{text}:T::\"{text}\")").as_bytes());
        add(cases, format!("@0 {text}::\"{text}\"::{text}()").as_bytes());
        add(cases, format!("@0 entities(T::\"{text}\":{{}}){HEAD}()").as_bytes());
    }
}

fn refused_as_text(cases: &mut Cases) {
    let line = filled(100).into_bytes();
    for bad in [&b"\xff"[..], b"\xc3", b"\xed\xa0\x80", b"\xf4\x90\x80\x80"] {
        add(cases, &[bad, &line].concat());
        add(cases, &[&line, bad].concat());
        add(cases, &[bad, b"x"].concat());
    }
    add(cases, &[&vec![b'x'; LINE + 1][..], b"\xff"].concat());
    for length in [TEXT - 1, TEXT, TEXT + 1] {
        add(cases, &vec![b' '; length]);
        add(cases, &vec![b'@'; length]);
        add(cases, &[&vec![b' '; length - 100], &line[..]].concat());
        add(cases, &[&vec![b' '; length - 1], b"\xff".as_slice()].concat());
    }
}

/// Tables that are too short are refused before the line is looked at.
fn short_tables(cases: &mut Cases, hand: &Hand) {
    let example = &hand.list("lines")[0];
    let too_long = vec![b' '; TEXT + 1];
    let long_line = filled(LINE + 1);
    let lines: [&[u8]; 7] =
        [b"", b" \n", example, b"x", b"@0 \xff", &too_long, long_line.as_bytes()];
    for op in 3..=5 {
        lines.iter().for_each(|line| cases.refused(op, line, 1, &[0, 1]));
    }
}

/// Every fault beside every other, so that the order shows.
fn several_faults(cases: &mut Cases) {
    let scopes = ["", "scope(a)", "scope(a:1,a:1)", "scope(p:{a})"];
    let entities = [
        "",
        "entities(x)",
        "entities(T::\"a\"{})",
        "entities(T:{)",
        "entities(T:{b:2,b:2})",
        "entities(T:{}y)",
        "entities(T:{}in 1)",
        "entities(T:{}in[1])",
        "entities(T:{})",
        "entities(T::\"a\":{},T::\"\\x61\":{})",
        "entities(",
    ];
    let contexts = ["", "request_context(a)", "request_context(b:1,b:2)", "request_context("];
    let ends = [
        "",
        "x)(",
        "x(",
        "x(a)",
        "::\"a(a)",
        "::\"a\"(a)",
        "::\"\"::k(a)",
        "::\"\"::k(a:1,a:2)",
        "::\"\"::k()",
    ];
    for scope in scopes {
        for entity in entities {
            for context in contexts {
                for end in ends {
                    add(cases, format!("@0 {scope} {entity} {context} {end}").as_bytes());
                }
            }
        }
    }
    for front in ["", "0 ", "@", "@0", "@x ", "@ 0 ", "@9223372036854775808 "] {
        for rest in ["", "scope(", "entities(x)x", "x(", "::\"\"::k()"] {
            add(cases, format!("{front}{rest}").as_bytes());
        }
    }
}

/// Every fault of an entry beside every other, with an entry before it whose key it may repeat.
fn faulty_entries(cases: &mut Cases) {
    for before in ["", "T::\"a\":{},"] {
        for key in ["T::\"a\"", "x", "[{a}]", "{a:1,a:1}", ""] {
            for colon in [":", ""] {
                for record in ["{}", "{b}", "{b:1,b:1}", "{(}", "{", "[{}]"] {
                    for tail in ["", "y", "in", "in[1]", "in[{c}]", "in[T::\"a\"]"] {
                        let entry = format!("{before}{key}{colon}{record}{tail}");
                        add(cases, format!("@0 entities({entry}){HEAD}()").as_bytes());
                    }
                }
            }
        }
    }
}

pub fn random_line(grammar: &mut Grammar) -> String {
    let line = grammar.line();
    if grammar.random.once_in(2) { line } else { damaged(&mut grammar.random, &line) }
}

fn random(cases: &mut Cases, seed: u64, count: usize) {
    let mut grammar = Grammar::new(seed);
    for _ in 0..count {
        let line = grammar.line();
        add(cases, line.as_bytes());
        for _ in 0..2 {
            let worse = damaged(&mut grammar.random, &line);
            add(cases, worse.as_bytes());
        }
    }
}
