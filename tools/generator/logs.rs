//! Logs: how a log is judged. The op says which tables are lent, as for lines.

use crate::cases::Cases;
use crate::grammar::Grammar;
use crate::hand::Hand;
use crate::lines::{HEAD, filled, random_line};
use crate::merges;
use oracle::limits::{self, LINE, TEXT};

const ENDS: [&str; 10] =
    ["\n", "\n", "\n", "\r\n", "\n\n", "\n \r\n", "\n\u{3000}\n", "\r", "\u{2028}", "\n\u{feff}"];

pub fn make(cases: &mut Cases, hand: &Hand) {
    add(cases, b"");
    for log in hand.list("logs") {
        add(cases, log);
        add_with(cases, 2, log);
    }
    for line in hand.list("lines") {
        // A refusal's line, and that later lines are not waved through.
        add(cases, &[b"@0 ::\"\"::k()\r\n\n", &line[..], b"\nx"].concat());
    }
    merges::results().iter().for_each(|log| add(cases, log.as_bytes()));
    sizes(cases);
    depths(cases);
    bad_utf8(cases);
    short_tables(cases, hand);
    random(cases);
    cases.must_refuse((1..=4).chain(10..=34), 2);
}

fn add(cases: &mut Cases, log: &[u8]) {
    add_with(cases, 1, log);
}

fn add_with(cases: &mut Cases, op: u8, log: &[u8]) {
    match limits::log(log) {
        Ok(events) => {
            let count = (events.len() as u32).to_le_bytes();
            cases.add(op, log, &[&[1], &count[..]].concat());
        }
        Err((number, line)) => refused(cases, op, log, number, line),
    }
}

fn refused(cases: &mut Cases, op: u8, log: &[u8], number: u8, line: usize) {
    let line = (line as u32).to_le_bytes();
    cases.refused(op, log, number, &[&[0, number], &line[..]].concat());
}

/// Tables that are too short are refused before the log is looked at, at line 0.
fn short_tables(cases: &mut Cases, hand: &Hand) {
    let too_long = vec![b' '; TEXT + 1];
    let logs: [&[u8]; 6] = [b"", b"\n\n", &hand.list("logs")[0], b"\nx", b"@0 \xff", &too_long];
    for op in 3..=5 {
        logs.iter().for_each(|log| refused(cases, op, log, 1, 0));
    }
}

fn sizes(cases: &mut Cases) {
    let line = format!("@7 {HEAD}(a:1, b:\"x\")\n");
    for length in TEXT - 1..=TEXT + 1 {
        let lines = line.repeat(length / line.len());
        let fill = " ".repeat(length - lines.len());
        add(cases, format!("{lines}{fill}").as_bytes());
        add_with(cases, 2, format!("{lines}{fill}").as_bytes());
        add(cases, format!("{fill}{lines}").as_bytes());
        add(cases, format!("\u{feff}{}", " ".repeat(length - 3)).as_bytes());
        // 2 before 3, and 3 only where the text is not too long.
        add(cases, &[" ".repeat(length - 1).as_bytes(), b"\xff"].concat());
        add(cases, format!("{}é", "\n".repeat(length - 2)).as_bytes());
    }
    // As many events as fit, and as many lines: all blank, and the last refused.
    add(cases, format!("@0 {HEAD}()\n").repeat(TEXT / 13).as_bytes());
    add(cases, "\n".repeat(TEXT).as_bytes());
    add(cases, format!("{}x", "\n".repeat(TEXT - 1)).as_bytes());
    add(cases, format!("{}\n", filled(LINE)).repeat(15).as_bytes());
    for length in LINE - 1..=LINE + 1 {
        add(cases, format!("\n{}\nx", filled(length)).as_bytes());
        add(cases, format!("\u{feff}{}", filled(length)).as_bytes());
        add(cases, format!("{line}  {}\t\r\n{line}", filled(length)).as_bytes());
        add(cases, " ".repeat(length).as_bytes());
        add(cases, format!("{line}{}", "x".repeat(length)).as_bytes());
    }
}

fn depths(cases: &mut Cases) {
    for levels in 128..=130 {
        let value = format!("{}1{}", "[".repeat(levels), "]".repeat(levels));
        add(cases, format!("@0 {HEAD}(v:{value})\nx").as_bytes());
        add(cases, format!("\n\n@0 scope(p:{value}){HEAD}()\n").as_bytes());
    }
}

fn bad_utf8(cases: &mut Cases) {
    let line = format!("@7 {HEAD}()\n").into_bytes();
    for bad in
        [&b"\xff"[..], b"\xc3", b"\xe2\x80", b"\xed\xa0\x80", b"\xf4\x90\x80\x80", b"\xc0\x80"]
    {
        add(cases, bad);
        add(cases, &[&line, bad].concat());
        add(cases, &[bad, &line].concat());
        add(cases, &[b"x\n", bad].concat());
    }
    // 3 before 4, at line 0.
    add(cases, &[filled(LINE + 1).as_bytes(), b"\n\xff"].concat());
}

fn random(cases: &mut Cases) {
    let mut grammar = Grammar::new(7);
    for _ in 0..600 {
        let mut log =
            if grammar.random.once_in(8) { "\u{feff}".to_string() } else { String::new() };
        for _ in 0..1 + grammar.random.below(5) {
            // Mostly whole lines, so that faults stand in later lines too.
            let whole = !grammar.random.once_in(3);
            log += &if whole { grammar.line() } else { random_line(&mut grammar) };
            log += *grammar.random.pick(&ENDS);
        }
        let mut log = log.into_bytes();
        if grammar.random.once_in(20) {
            let at = grammar.random.below(log.len());
            log[at] = 0x80 + grammar.random.below(128) as u8;
        }
        add(cases, &log);
    }
}
