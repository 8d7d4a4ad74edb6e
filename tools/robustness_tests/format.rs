//! The examples of docs/FORMAT.md: what the programs and the Rust give, and where the Rust cuts.

use crate::manual::{block, code, codes, rows};
use crate::tester::{Case, Tester};
use oracle::pack::Pack;
use oracle::{answers, cells, limits};

/// Each line with its answer: a refusal's number, or lines of its listing.
fn lines(t: &mut Tester, page: &str) {
    let table = rows(page, "| Line | Answer |\n");
    assert!(table.len() > 50);
    for row in &table {
        let line = code(&row[0]).expect("code");
        let listing = answers::night_listing(line.as_bytes());
        let holds = match row[1].parse::<u8>() {
            Ok(number) => listing == format!("refused {number} line 1\n"),
            Err(_) => codes(&row[1])
                .iter()
                .all(|part| listing.lines().any(|listed| listed == *part)),
        };
        assert!(holds, "format: {line}");
        t.whole(&format!("format: {line}"), line.as_bytes());
    }
}

/// Bodies, and the places where they are cut.
fn cuts(page: &str) {
    for row in rows(page, "| Body | Cut at |\n") {
        let body = code(&row[0]).expect("code");
        assert_eq!(
            answers::cuts(body.as_bytes()).trim_end(),
            row[1],
            "format: {body}"
        );
    }
}

pub fn listings(t: &mut Tester, page: &str) {
    lines(t, page);
    cuts(page);
    let log = block(page, "log");
    assert_eq!(
        answers::night_listing(log.as_bytes()),
        block(page, "listing")
    );
    t.whole("format: the night listing", log.as_bytes());
}

/// Pairs of logs, each line of a log by itself, with the merged log or the refusal.
pub fn merges(t: &mut Tester, page: &str) {
    let table = rows(page, "| First log | Second log | Answer |\n");
    assert!(table.len() > 3);
    for row in &table {
        let [first, second, merged] = [0, 1, 2].map(|cell| codes(&row[cell]).join("\n"));
        let answer = if merged.is_empty() { &row[2] } else { &merged };
        let given = answers::merge(first.as_bytes(), second.as_bytes());
        assert_eq!(given, format!("{answer}\n"), "format: {first}");
        let case = Case::merge(t, first.as_bytes(), second.as_bytes());
        t.answered(&format!("format: {answer}"), &case);
    }
}

/// The entities of a line with this body of them, as a pack has them.
fn in_a_line(body: &str) -> Pack {
    let line = format!("@0 entities({body})::\"\"::k()");
    let (trimmed, event) = limits::line(line.as_bytes())
        .expect("a line")
        .expect("an event");
    Pack::of_event(trimmed, &event).entities_alone()
}

/// Entities JSON, where `UID` stands for a uid: a refusal's number, or the body of a line's entities that gives the same.
pub fn cells(page: &str) {
    let table = rows(page, "| Entities JSON | Answer |\n");
    assert!(table.len() > 40);
    for row in &table {
        let text = code(&row[0]).expect("code");
        let text = text.replace("UID", r#"{"type":"A","id":"1"}"#);
        let given = cells::pack(text.as_bytes()).map(|pack| pack.entities_alone());
        let expected = row[1]
            .parse::<u8>()
            .map_or_else(|_| Ok(in_a_line(&codes(&row[1]).concat())), Err);
        assert_eq!(given, expected, "format: {text}");
    }
}
