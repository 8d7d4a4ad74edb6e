//! Listings of one line. The op says which tables are lent, as for lines; the number of the event
//! and the length of the output stand before the line.

use crate::cases::Cases;
use crate::grammar::Grammar;
use crate::hand::Hand;
use crate::lines::{HEAD, filled, random_line, sizes};
use crate::merges;
use crate::traps;
use oracle::limits::{LINE, TEXT};
use oracle::{limits, listing};

const NUMBERS: [u64; 4] = [1, 2, 10, u64::MAX];
/// The output is too short: what 01 adds, behind all other refusals.
const OUTPUT_TOO_SHORT: u8 = 5;

pub fn make(cases: &mut Cases, hand: &Hand) {
    let example = &hand.list("lines")[0];
    for number in NUMBERS.into_iter().chain([0, 9, 99, 65_536, u64::MAX / 10]) {
        three_outputs(cases, number, example);
    }
    every_room(cases);
    let lists = hand.list("listings").iter().chain(hand.list("lines"));
    for (line, number) in lists.zip(NUMBERS.into_iter().cycle()) {
        three_outputs(cases, number, line);
    }
    // With the largest number each fills its output most. An output that no listing of the line could
    // exceed, and one that is a byte shorter: there the product counts first.
    for line in traps::lines() {
        three_outputs(cases, u64::MAX, line.as_bytes());
        for room in [limits::listing(&line) - 1, limits::listing(&line)] {
            add(cases, 1, u64::MAX, room, line.as_bytes());
        }
    }
    for (line, number) in sizes().iter().chain(&sorted()).zip(NUMBERS.into_iter().cycle()) {
        three_outputs(cases, number, line.as_bytes());
    }
    for (line, number) in merges::results().iter().flat_map(|log| log.lines()).zip(1..) {
        three_outputs(cases, number, line.as_bytes());
    }
    values(cases, hand);
    depths(cases);
    short_tables(cases, hand);
    refused_as_text(cases);
    random(cases);
    // 24 is met around the depth limit alone; 35 never, as lines.rs says.
    cases.must_refuse((1..=5).chain(10..=34), 2);
}

/// One case: which tables, event number, output of `room` bytes.
fn add(cases: &mut Cases, op: u8, number: u64, room: usize, line: &[u8]) {
    let input = input(number, room, line);
    match limits::line(line) {
        Ok(Some((trimmed, event))) => {
            let listed = listing::event(number, &event);
            assert!(listed.len() <= limits::listing(trimmed), "a listing is too long: {trimmed}");
            if listed.len() > room {
                let refusal = OUTPUT_TOO_SHORT;
                return cases.refused(op, &input, refusal, &[0, refusal]);
            }
            cases.add(op, &input, &[b"\x01", listed.as_bytes()].concat());
        }
        Ok(None) => {
            cases.add(op, &input, &[2]);
        }
        Err(refusal) => cases.refused(op, &input, refusal, &[0, refusal]),
    }
}

fn input(number: u64, room: usize, line: &[u8]) -> Vec<u8> {
    let room = (room as u32).to_le_bytes();
    [&number.to_le_bytes(), &room[..], line].concat()
}

/// How long the listing is; of a line that has none, nothing.
fn length(number: u64, line: &[u8]) -> usize {
    match limits::line(line) {
        Ok(Some((_, event))) => listing::event(number, &event).len(),
        _ => 0,
    }
}

/// An output that is longer than the listing, one that it just fills, one a byte short.
fn three_outputs(cases: &mut Cases, number: u64, line: &[u8]) {
    for turn in 0..3 {
        one_output(cases, turn, number, line);
    }
}

fn one_output(cases: &mut Cases, turn: usize, number: u64, line: &[u8]) {
    let length = length(number, line);
    match turn % 3 {
        0 => add(cases, 1, number, length + 9, line),
        1 => add(cases, 2, number, length, line),
        _ => add(cases, 1, number, length.saturating_sub(1), line),
    }
}

/// Every output that is too short, for a small event; refused and blank lines need none.
fn every_room(cases: &mut Cases) {
    let line = format!("@-5 scope(principal:1)entities(T::\"a\":{{}}){HEAD}(v:[1])");
    for room in 0..length(1, line.as_bytes()) + 3 {
        add(cases, 2, 1, room, line.as_bytes());
    }
    for line in ["", " \n", "x", "@0 ::\"\"::k(a:1,a:2)"] {
        [0, 1, 1_000].iter().for_each(|room| add(cases, 2, 1, *room, line.as_bytes()));
    }
}

/// Many names and entries, so that sorting shows: descending, and scattered.
fn sorted() -> Vec<String> {
    let mut lines = Vec::new();
    let falling: Vec<usize> = (0..150).rev().collect();
    // Each once, for 151 is prime.
    let scattered: Vec<usize> = (0..151).map(|n| n * 60 % 151).collect();
    for order in [falling, scattered] {
        let field = |n: &usize| format!("n{n}:{n}");
        let entry = |n: &usize| format!("A::\"{n}\":{{}}");
        let all = |spell: &dyn Fn(&usize) -> String| -> String {
            order.iter().map(spell).collect::<Vec<_>>().join(",")
        };
        let fields = all(&field);
        lines.push(format!("@0 {HEAD}({fields})"));
        lines.push(format!("@0 request_context(v:[{{{fields}}}]){HEAD}()"));
        lines.push(format!("@0 entities({}){HEAD}()", all(&entry)));
        lines.push(format!("@0 entities(A::\"a\":{{{fields}}}){HEAD}(b:1,a:2)"));
    }
    // As many fields as a line has room for. Each once, for 389 and 1,000 have no common factor.
    let letter = |n: u32| char::from_digit(n, 36).expect("below 36");
    let thousand: String = (0..1000)
        .map(|n| n * 389 % 1000)
        .map(|n| format!("{}{}:,", letter(n / 36), letter(n % 36)))
        .collect();
    lines.push(format!("@0 {HEAD}({thousand})"));
    lines.push(format!("@0 {HEAD}(v:{{{thousand}}})"));
    // Records in records: each is sorted while the outer ones are.
    let mut inner = "{b:1,a:2}".to_string();
    for _ in 0..40 {
        inner = format!("{{z:{inner},y:[{{d:1,c:2}}],x:3}}");
    }
    lines.push(format!("@0 {HEAD}(v:{inner},u:{inner})"));
    assert!(lines.iter().all(|line| length(1, line.as_bytes()) > 0), "a line is refused");
    lines
}

fn values(cases: &mut Cases, hand: &Hand) {
    let texts = hand.list("values").iter().chain(hand.list("numbers"));
    for ((turn, value), number) in texts.enumerate().zip(NUMBERS.into_iter().cycle()) {
        let line = [format!("@0 {HEAD}(v:").as_bytes(), value, b")"].concat();
        one_output(cases, turn, number, &line);
    }
}

fn depths(cases: &mut Cases) {
    for levels in [127, 128, 129, 130] {
        for (open, close) in [("[", "]"), ("{a:", "}")] {
            for inside in ["", "1", "{b:1,a:2}"] {
                let value = format!("{}{inside}{}", open.repeat(levels), close.repeat(levels));
                three_outputs(cases, 10, format!("@0 {HEAD}(v:{value})").as_bytes());
            }
        }
    }
}

/// Tables that are too short are refused before the line and the output are looked at.
fn short_tables(cases: &mut Cases, hand: &Hand) {
    let too_long = vec![b' '; TEXT + 1];
    let lines: [&[u8]; 5] = [b"", &hand.list("lines")[0], b"x", b"@0 \xff", &too_long];
    for op in 3..=5 {
        for line in lines {
            for room in [0, 1_000] {
                cases.refused(op, &input(1, room, line), 1, &[0, 1]);
            }
        }
    }
}

fn refused_as_text(cases: &mut Cases) {
    for length in [TEXT, TEXT + 1] {
        three_outputs(cases, 1, &vec![b' '; length]);
        three_outputs(cases, 1, &[&vec![b' '; length - 1], b"\xff".as_slice()].concat());
    }
    for line in [&b"\xff"[..], b"@0 ::\"\"::k(v:\xc3)", b"@0 ::\"\xed\xa0\x80\"::k()"] {
        three_outputs(cases, 1, line);
    }
    three_outputs(cases, 1, filled(LINE + 1).as_bytes());
}

fn random(cases: &mut Cases) {
    let mut grammar = Grammar::new(8);
    for (turn, number) in NUMBERS.into_iter().cycle().take(450).enumerate() {
        let whole = !grammar.random.once_in(3);
        let line = if whole { grammar.line() } else { random_line(&mut grammar) };
        one_output(cases, turn, number, line.as_bytes());
    }
}
