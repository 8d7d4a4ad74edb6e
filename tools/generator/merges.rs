//! Two logs merged, as document 02 asks (A11). The op says which tables are lent, as for lines; the
//! lengths of the output and of the first log stand before the logs. What the document and its
//! readings state of an answer is asserted here: the oracle must give it.

use crate::cases::Cases;
use crate::grammar::{Grammar, with_time};
use crate::hand::Hand;
use crate::lines::{HEAD, filled, random_line};
use oracle::limits::{self, LINE, TEXT};
use oracle::merge::{self, Refusal};
use oracle::value::Event;

const TABLE_TOO_SHORT: Refusal = (1, 0, 0);
const MERGED_TOO_LONG: Refusal = (47, 0, 0);
const OUTPUT_TOO_SHORT: Refusal = (5, 0, 0);
/// Longer than any answer.
const LONG_OUTPUT: usize = TEXT + 9;

pub fn make(cases: &mut Cases, hand: &Hand) {
    nothing(cases);
    equal_times(cases);
    signs(cases);
    falls(cases);
    falls_and_refusals(cases);
    refusals_by_log(cases);
    refusals_of_lines(cases, hand);
    sizes(cases);
    dropped(cases);
    large(cases);
    trimmed(cases);
    marks(cases);
    long_lines(cases);
    short_tables(cases);
    again(cases);
    random(cases);
    cases.must_refuse((1..=5).chain(10..=34), 2);
    cases.must_refuse(45..=47, 10);
}

/// One case: which tables, an output of `room` bytes. The answer is what the oracle says.
fn add(
    cases: &mut Cases,
    op: u8,
    room: usize,
    first: &[u8],
    second: &[u8],
) -> Result<String, Refusal> {
    let merged = merge::logs(first, second, room);
    let input = input(room, first, second);
    match &merged {
        Ok(text) => {
            cases.add(op, &input, &[b"\x01", text.as_bytes()].concat());
        }
        Err(refusal) => refused(cases, op, &input, *refusal),
    }
    merged
}

fn input(room: usize, first: &[u8], second: &[u8]) -> Vec<u8> {
    let number = |length: usize| (length as u32).to_le_bytes();
    [&number(room), &number(first.len()), first, second].concat()
}

fn refused(cases: &mut Cases, op: u8, input: &[u8], (number, log, line): Refusal) {
    let line = (line as u32).to_le_bytes();
    cases.refused(op, input, number, &[&[0, number, log], &line[..]].concat());
}

/// An output that is longer than the result, one that it just fills, one a byte short.
fn three_outputs(cases: &mut Cases, first: &[u8], second: &[u8]) -> Result<String, Refusal> {
    let merged = add(cases, 1, LONG_OUTPUT, first, second);
    let length = merged.as_ref().map_or(0, String::len);
    assert_eq!(add(cases, 2, length, first, second), merged);
    if length > 0 {
        assert_eq!(add(cases, 1, length - 1, first, second), Err(OUTPUT_TOO_SHORT));
    }
    if let Ok(text) = &merged {
        reads_as_both(text, first, second);
    }
    merged
}

/// The result has the events of both logs, in rising time.
fn reads_as_both(merged: &str, first: &[u8], second: &[u8]) {
    let events = |log: &[u8]| -> Vec<Event> {
        limits::log(log).expect("an accepted log").into_iter().map(|(_, event)| event).collect()
    };
    let mut both = [events(first), events(second)].concat();
    both.sort_by_key(|event| event.ts);
    assert_eq!(events(merged.as_bytes()), both);
}

/// Two logs that merge into this one.
fn merges(cases: &mut Cases, first: &str, second: &str, stated: &str) {
    let merged = three_outputs(cases, first.as_bytes(), second.as_bytes());
    assert_eq!(merged.as_deref(), Ok(stated), "{first} and {second}");
}

/// Two logs that are refused so, whatever the output is.
fn refuses(cases: &mut Cases, first: &[u8], second: &[u8], stated: Refusal) {
    for (op, room) in [(1, LONG_OUTPUT), (2, 0)] {
        assert_eq!(add(cases, op, room, first, second), Err(stated));
    }
}

/// An event's line: its time as it is spelled, and its kind.
fn line(time: &str, kind: &str) -> String {
    format!("@{time} ::\"\"::{kind}()")
}

/// A log of lines, each a time and a kind in a word such as `5a`, each with a line feed.
fn log(words: &str) -> String {
    let spelled = |word: &str| {
        let (time, kind) = word.split_at(word.len() - 1);
        line(time, kind) + "\n"
    };
    words.split_whitespace().map(spelled).collect()
}

/// The logs of these lines merge into the log of those.
fn merges_lines(cases: &mut Cases, first: &str, second: &str, stated: &str) {
    merges(cases, &log(first), &log(second), &log(stated));
}

fn nothing(cases: &mut Cases) {
    assert_eq!(add(cases, 2, 0, b"", b""), Ok(String::new()));
    for (first, second) in [("", ""), ("\u{feff}", " \n\t\n"), ("\n\n\u{3000}\r\n", "\u{feff}\n")] {
        merges(cases, first, second, "");
    }
    merges(cases, "", &line("5", "a"), &log("5a"));
    merges(cases, &line("5", "a"), "\n", &log("5a"));
}

fn equal_times(cases: &mut Cases) {
    merges_lines(cases, "5a", "5b", "5a 5b");
    merges_lines(cases, "5a 5b", "5c", "5a 5b 5c");
    merges_lines(cases, "5c", "5b 5a", "5c 5b 5a");
    merges_lines(cases, "5a 5b 5c", "5d 5e 5f", "5a 5b 5c 5d 5e 5f");
    merges_lines(cases, "5a 5a", "5a 5a", "5a 5a 5a 5a");
    merges_lines(cases, "1a 3b", "2c 2d", "1a 2c 2d 3b");
    merges_lines(cases, "2c 2d", "1a 3b", "1a 2c 2d 3b");
    merges_lines(cases, "1a 2b 2c 4d", "2e 3f 4g 4h", "1a 2b 2c 2e 3f 4d 4g 4h");
    merges_lines(cases, "1a 2b 3c", "4d 5e", "1a 2b 3c 4d 5e");
    merges_lines(cases, "4d 5e", "1a 2b 3c", "1a 2b 3c 4d 5e");
}

fn signs(cases: &mut Cases) {
    let (least, most) = ("-9223372036854775808", "9223372036854775807");
    merges_lines(cases, "-1a", "-2b", "-2b -1a");
    merges_lines(cases, "-1a 0b", "-2c 1d", "-2c -1a 0b 1d");
    merges_lines(cases, "0a", "-1b", "-1b 0a");
    merges_lines(cases, &format!("{most}a"), &format!("{least}b"), &format!("{least}b {most}a"));
    merges_lines(
        cases,
        &format!("{least}a {most}b"),
        "-1c 0d",
        &format!("{least}a -1c 0d {most}b"),
    );
    merges_lines(cases, "+5a", "5b", "+5a 5b");
    merges_lines(cases, "5a", "+5b 0005c", "5a +5b 0005c");
    merges_lines(cases, "-0a", "0b", "-0a 0b");
    merges_lines(cases, "0a +0b", "-0c 00d", "0a +0b -0c 00d");
}

fn falls(cases: &mut Cases) {
    let stated = [
        ("5a 5b 4c", 3),
        ("5a 4b 3c", 2),
        ("5a 4b 6c", 2),
        ("1a 5b 4c 3d", 3),
        ("0a -1b", 2),
        ("-1a -2b", 2),
        ("9223372036854775807a -9223372036854775808b", 2),
        ("+5a 4b", 2),
    ];
    for (words, at) in stated {
        let fall = log(words);
        refuses(cases, fall.as_bytes(), b"", (45, 1, at));
        refuses(cases, b"\n", fall.as_bytes(), (46, 2, at));
        refuses(cases, log("9a").as_bytes(), fall.as_bytes(), (46, 2, at));
        refuses(cases, fall.as_bytes(), log("2a 1b").as_bytes(), (45, 1, at));
    }
    // Blank lines count as lines, and are no events.
    let (five, four) = (line("5", "k"), line("4", "k"));
    refuses(cases, format!("{five}\n\n {four}").as_bytes(), b"", (45, 1, 3));
    let marked = format!("\u{feff}\n{five}\r\n\u{a0}\n\n{four}\n{five}");
    refuses(cases, marked.as_bytes(), b"", (45, 1, 5));
    refuses(cases, five.as_bytes(), marked.as_bytes(), (46, 2, 5));
    let late = format!("{five}{}{four}", "\n".repeat(65_500));
    refuses(cases, late.as_bytes(), b"", (45, 1, 65_501));
    refuses(cases, b"", late.as_bytes(), (46, 2, 65_501));
    // No fall between the logs, nor where equal times follow each other.
    merges_lines(cases, "5a 5b 6c", "1d 1e 1f", "1d 1e 1f 5a 5b 6c");
}

/// A fall comes behind every refusal of either log.
fn falls_and_refusals(cases: &mut Cases) {
    let fall = log("5a 4b");
    let wrong = log("5a") + "x\n";
    let long = vec![b' '; TEXT + 1];
    refuses(cases, fall.as_bytes(), wrong.as_bytes(), (10, 2, 2));
    refuses(cases, fall.as_bytes(), b"\n\xff", (3, 2, 0));
    refuses(cases, fall.as_bytes(), &long, (2, 2, 0));
    refuses(cases, fall.as_bytes(), filled(LINE + 1).as_bytes(), (4, 2, 1));
    refuses(cases, wrong.as_bytes(), fall.as_bytes(), (10, 1, 2));
    // Within one log too.
    refuses(cases, format!("{fall}x").as_bytes(), b"", (10, 1, 3));
    refuses(cases, b"", format!("{fall}x").as_bytes(), (10, 2, 3));
}

/// All of the first log's before any of the second's.
fn refusals_by_log(cases: &mut Cases) {
    let long = vec![b' '; TEXT + 1];
    let late = format!("{}x", "\n".repeat(6));
    for second in [&b""[..], b"x", b"\xff", &long] {
        refuses(cases, &long, second, (2, 1, 0));
        refuses(cases, b"x\xff", second, (3, 1, 0));
        refuses(cases, late.as_bytes(), second, (10, 1, 7));
    }
    refuses(cases, log("5a").as_bytes(), &long, (2, 2, 0));
    refuses(cases, log("5a").as_bytes(), b"\xff", (3, 2, 0));
    let last = format!("{}x", "\n".repeat(TEXT - 1));
    refuses(cases, last.as_bytes(), b"\xff", (10, 1, TEXT));
    refuses(cases, b"\n", last.as_bytes(), (10, 2, TEXT));
    let deep = format!("@0 {HEAD}(v:{}1{})", "[".repeat(129), "]".repeat(129));
    refuses(cases, deep.as_bytes(), b"x", (24, 1, 1));
    refuses(cases, log("5a").as_bytes(), format!("\n{deep}").as_bytes(), (24, 2, 2));
}

/// The lines of `hand` in either log: a refusal of the first comes before the second's, and one of
/// the second before a fall.
fn refusals_of_lines(cases: &mut Cases, hand: &Hand) {
    let (fall, front) = (log("5a 4b").into_bytes(), log("0a").into_bytes());
    for faulty in hand.list("lines") {
        let _ = add(cases, 1, LONG_OUTPUT, &[&front, &faulty[..], b"\n"].concat(), b"x");
        let _ = add(cases, 2, 0, &fall, &[b"\n", &front[..], faulty].concat());
    }
}

/// Lines without blanks, so many bytes; the last byte is a line feed. The times are equal.
fn full(bytes: usize) -> String {
    let each = log("7k");
    let zeros = "0".repeat(bytes % each.len());
    each.repeat(bytes / each.len() - 1) + &line(&format!("{zeros}7"), "k") + "\n"
}

fn sizes(cases: &mut Cases) {
    let most = full(TEXT);
    // So many bytes too, but with no line feed behind the last line.
    let over = full(TEXT + 1);
    let open = over.strip_suffix('\n').expect("a line feed");
    assert_eq!((most.len(), open.len()), (TEXT, TEXT));
    for blank in ["", " \n\n", "\u{feff}"] {
        merges(cases, &most, blank, &most);
        merges(cases, blank, &most, &most);
        refuses(cases, open.as_bytes(), blank.as_bytes(), MERGED_TOO_LONG);
        refuses(cases, blank.as_bytes(), open.as_bytes(), MERGED_TOO_LONG);
    }
    refuses(cases, most.as_bytes(), log("9a").as_bytes(), MERGED_TOO_LONG);
    refuses(cases, open.as_bytes(), open.as_bytes(), MERGED_TOO_LONG);
    refuses(cases, open.as_bytes(), log("2a 1b").as_bytes(), (46, 2, 2));
    merges(cases, &format!("\u{feff}{}", full(TEXT - 3)), "", &full(TEXT - 3));
}

/// What is dropped does not count: here half of either log.
fn dropped(cases: &mut Cases) {
    let half = full(TEXT / 2);
    let padded = half.clone() + &"\n".repeat(TEXT / 2);
    let wide = half.replacen('\n', &format!("{}\n", " ".repeat(TEXT / 2)), 1);
    for log in [&padded, &wide] {
        merges(cases, log, &padded, &half.repeat(2));
        refuses(cases, log.as_bytes(), full(TEXT / 2 + 1).as_bytes(), MERGED_TOO_LONG);
    }
    refuses(cases, half.as_bytes(), full(TEXT / 2 + 1).as_bytes(), MERGED_TOO_LONG);
}

/// Long lines whose times alternate: 65,536 bytes, and one more.
fn large(cases: &mut Cases) {
    let each = |time: usize| format!("@{time:03}{}\n", &filled(1_023 - 2)[2..]);
    let all: Vec<String> = (0..64).map(each).collect();
    let dealt = |turn: usize| all.iter().skip(turn).step_by(2).cloned().collect::<String>();
    let (even, odd) = (dealt(0), dealt(1));
    merges(cases, &even, &odd, &all.concat());
    merges(cases, &odd, &even, &all.concat());
    refuses(cases, even.replacen(" ", "  ", 1).as_bytes(), odd.as_bytes(), MERGED_TOO_LONG);
    let falling = format!("{odd}{even}");
    refuses(cases, b"", falling.as_bytes(), (46, 2, 33));
}

fn trimmed(cases: &mut Cases) {
    let (a, b) = (line("1", "a"), line("2", "b"));
    let result = log("1a 2b");
    merges(cases, &format!("{a}\r\n"), &format!("{b}\r\n"), &result);
    merges(cases, &format!("\u{2003}{a}\u{a0}"), &format!("\r{b}\u{2028}\u{85}\n"), &result);
    merges(cases, &format!("\t\n\u{3000}{b}\u{b}\n\u{c}"), &format!(" {a} "), &result);
    // Behind the last parenthesis all stays but for the space at the end.
    merges(cases, &format!("{a} tail \n"), &b, &format!("{a} tail\n{b}\n"));
    merges(
        cases,
        &format!("{a}\u{200b}"),
        &format!("{b}\u{feff} "),
        &format!("{a}\u{200b}\n{b}\u{feff}\n"),
    );
    merges(
        cases,
        &a.replace(' ', "\u{2003}\t"),
        &b,
        &format!("{}\n{b}\n", a.replace(' ', "\u{2003}\t")),
    );
}

fn marks(cases: &mut Cases) {
    let (a, b) = (line("1", "a"), line("2", "b"));
    merges(cases, &format!("\u{feff}{b}"), &format!("\u{feff}{a}\n"), &log("1a 2b"));
    merges(cases, &format!("\u{feff}\n{a}"), &format!("\u{feff} {b}\n"), &log("1a 2b"));
    refuses(cases, a.as_bytes(), format!("{a}\n\u{feff}{b}").as_bytes(), (10, 2, 2));
    refuses(cases, format!("\u{feff}\u{feff}{a}").as_bytes(), b.as_bytes(), (10, 1, 1));
    refuses(cases, a.as_bytes(), format!(" \u{feff}{b}").as_bytes(), (10, 2, 1));
}

fn long_lines(cases: &mut Cases) {
    let (fits, too_long) = (filled(LINE), filled(LINE + 1));
    let spaces = " ".repeat(5_000);
    refuses(cases, format!("\n{too_long}").as_bytes(), b"", (4, 1, 2));
    refuses(cases, log("5a").as_bytes(), format!("{spaces}{too_long}\n").as_bytes(), (4, 2, 1));
    let padded = format!("{spaces}{fits}{spaces}\n");
    merges(cases, &padded, &log("1a"), &format!("{fits}\n{}", log("1a")));
    merges(cases, &log("-1a"), &padded, &format!("{}{fits}\n", log("-1a")));
}

/// Tables that are too short are refused before the logs and the output are looked at.
fn short_tables(cases: &mut Cases) {
    let long = vec![b' '; TEXT + 1];
    let (accepted, fall) = (log("5a"), log("5a 4b"));
    let logs: [&[u8]; 6] = [b"", accepted.as_bytes(), fall.as_bytes(), b"\nx", b"\xff", &long];
    for (first, second) in logs.iter().zip(logs.iter().cycle().skip(1)) {
        refuses_tables(cases, first, second);
        refuses_tables(cases, first, first);
    }
}

/// With each table too short in turn, whatever the output is.
fn refuses_tables(cases: &mut Cases, first: &[u8], second: &[u8]) {
    for (op, room) in (3..=5).flat_map(|op| [(op, 0), (op, LONG_OUTPUT)]) {
        refused(cases, op, &input(room, first, second), TABLE_TOO_SHORT);
    }
}

/// Some logs that merge.
fn pairs() -> [(String, String); 4] {
    [
        (log("1a 3b"), log("2c 2d")),
        (format!("\u{feff}\n {}\r\n", line("5", "a")), line("+5", "b") + " tail"),
        (log("-2a -1b 0c"), log("-3d 7e")),
        (format!("{}\n", filled(LINE)), log("0a")),
    ]
}

/// What they merge into, which is judged, listed and merged again.
pub fn results() -> Vec<String> {
    let merged = |(first, second): (String, String)| {
        merge::logs(first.as_bytes(), second.as_bytes(), TEXT).expect("logs that merge")
    };
    pairs().into_iter().map(merged).collect()
}

fn again(cases: &mut Cases) {
    for ((first, second), result) in pairs().iter().zip(results()) {
        merges(cases, first, second, &result);
        merges(cases, &result, "", &result);
        merges(cases, "", &result, &result);
        merges(cases, &result, "\n \n", &result);
    }
}

/// What may stand before a time that is not negative.
const FRONTS: [&str; 4] = ["", "", "+", "00"];
/// What stands behind a line.
const ENDS: [&str; 8] = ["\n", "\n", "\n", "\r\n", "\n\n", "\n \r\n", "\n\u{3000}\n", "\u{85}\n"];

/// A time, spelled in one of several ways.
fn spelled(grammar: &mut Grammar, time: i32) -> String {
    let front = if time < 0 { "" } else { *grammar.random.pick(&FRONTS) };
    format!("{front}{time}")
}

/// A log whose times mostly rise, from few of them. One in so many lines may have a fault.
fn random_log(grammar: &mut Grammar, faults: usize) -> String {
    let mut log = if grammar.random.once_in(8) { "\u{feff}".to_string() } else { String::new() };
    let mut time = grammar.random.below(4) as i32 - 3;
    for _ in 0..grammar.random.below(4) {
        let faulty = grammar.random.once_in(faults);
        let line = if faulty { random_line(grammar) } else { grammar.line() };
        time += grammar.random.below(3) as i32;
        time -= if grammar.random.once_in(12) { 2 } else { 0 };
        log += &with_time(&line, &spelled(grammar, time));
        log += *grammar.random.pick(&ENDS);
    }
    log
}

fn random(cases: &mut Cases) {
    let mut grammar = Grammar::new(9);
    for turn in 0..160 {
        let faults = if turn % 4 == 0 { 4 } else { 1_000 };
        let first = random_log(&mut grammar, faults);
        let second = random_log(&mut grammar, faults);
        let merged = add(cases, 1, LONG_OUTPUT, first.as_bytes(), second.as_bytes());
        let length = merged.as_ref().map_or(0, String::len);
        let room = if turn % 3 == 0 { length.saturating_sub(1) } else { length };
        let _ = add(cases, 2, room, first.as_bytes(), second.as_bytes());
    }
}
