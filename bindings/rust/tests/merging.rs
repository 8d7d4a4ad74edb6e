//! Two logs merged, on texts whose answers are known.

use lulzhemor::{MergeRefusal, Refusal, TEXT_LIMIT, Tables};

/// What stands in an output before a call.
const OLD: u8 = 77;

/// The merged log; what lies behind it is unchanged, and so is all of the output where the logs are refused.
fn merged(room: usize, first: &[u8], second: &[u8]) -> Result<Vec<u8>, MergeRefusal> {
    let mut out = vec![OLD; room];
    let answer = Tables::new().merge(first, second, &mut out);
    let count = answer.unwrap_or(0);
    assert!(out[count..].iter().all(|byte| *byte == OLD));
    answer.map(|count| out[..count].to_vec())
}

/// The same as text, with room for every merged log.
fn text(first: &str, second: &str) -> String {
    let bytes = merged(TEXT_LIMIT, first.as_bytes(), second.as_bytes()).expect("no refusal");
    String::from_utf8(bytes).expect("UTF-8")
}

fn refused(room: usize, first: &[u8], second: &[u8]) -> (Refusal, u8, u64) {
    let refusal = merged(room, first, second).expect_err("a refusal");
    (refusal.refusal, refusal.log, refusal.line)
}

/// An event's line at a time, of a kind.
fn event(time: &str, kind: &str) -> String {
    format!("@{time} ::\"\"::{kind}()\n")
}

fn events(lines: &[(&str, &str)]) -> String {
    lines.iter().map(|(time, kind)| event(time, kind)).collect()
}

/// A log of as many bytes as a log may have, which ends in these.
fn longest(end: &str) -> String {
    let line = event("1", "k");
    let kept = TEXT_LIMIT - end.len();
    let mut log = line.repeat(kept / line.len() - 1);
    log += &event("1", &"k".repeat(1 + kept - log.len() - line.len()));
    log + end
}

#[test]
fn times_rise_and_equal_ones_keep_their_order() {
    let first = events(&[("-1", "a"), ("5", "b"), ("5", "c")]);
    let second = events(&[("-2", "d"), ("+5", "e"), ("5", "f"), ("6", "g")]);
    let both = events(&[
        ("-2", "d"),
        ("-1", "a"),
        ("5", "b"),
        ("5", "c"),
        ("+5", "e"),
        ("5", "f"),
        ("6", "g"),
    ]);
    assert_eq!(text(&first, &second), both);
    assert_eq!(text(&both, ""), both);
    assert_eq!(text("", &both), both);
    let (least, most) = (i64::MIN.to_string(), i64::MAX.to_string());
    let (least, most) = (event(&least, "k"), event(&most, "k"));
    assert_eq!(text(&most, &least), format!("{least}{most}"));
}

#[test]
fn lines_are_trimmed_and_blank_ones_dropped() {
    let first = "\u{FEFF}\n\u{2003}@1 ::\"\"::k() tail\u{A0}\r\n \t\n";
    let second = "\u{FEFF}@2 ::\"\"::k()\u{200B}";
    assert_eq!(
        text(first, second),
        "@1 ::\"\"::k() tail\n@2 ::\"\"::k()\u{200B}\n"
    );
    let none: Vec<u8> = Vec::new();
    assert_eq!(merged(0, b"", b""), Ok(none.clone()));
    assert_eq!(merged(0, "\u{FEFF}".as_bytes(), b" \n\t\n"), Ok(none));
}

#[test]
fn the_first_refusal_has_its_log_and_line() {
    let falls = events(&[("5", "a"), ("4", "b"), ("3", "c")]);
    let blank = format!("{}\n {}", event("5", "a"), event("4", "b"));
    let one = event("1", "k");
    for (first, second, answer) in [
        (
            blank.as_str(),
            falls.as_str(),
            (Refusal::TIMES_FALL_IN_FIRST, 1, 3),
        ),
        (&falls, &one, (Refusal::TIMES_FALL_IN_FIRST, 1, 2)),
        (&one, &falls, (Refusal::TIMES_FALL_IN_SECOND, 2, 2)),
        (&falls, &format!("{one}x"), (Refusal::NO_AT, 2, 2)),
        ("x", "x", (Refusal::NO_AT, 1, 1)),
        (&one, &format!("{one}\u{FEFF}{one}"), (Refusal::NO_AT, 2, 2)),
        (
            &one,
            &"\n".repeat(TEXT_LIMIT + 1),
            (Refusal::TEXT_TOO_LONG, 2, 0),
        ),
    ] {
        assert_eq!(
            refused(TEXT_LIMIT, first.as_bytes(), second.as_bytes()),
            answer
        );
    }
    assert_eq!(
        refused(0, falls.as_bytes(), b"\xff"),
        (Refusal::NOT_UTF8, 2, 0)
    );
    let last = format!("{}x", "\n".repeat(TEXT_LIMIT - 1));
    assert_eq!(
        refused(0, b"", last.as_bytes()),
        (Refusal::NO_AT, 2, 65_536)
    );
}

#[test]
fn the_merged_log_is_a_log_and_fits_the_output() {
    let (whole, one) = (longest(""), event("1", "k"));
    assert_eq!(whole.len(), TEXT_LIMIT);
    let neither = |refusal| (refusal, 0, 0);
    assert_eq!(
        merged(TEXT_LIMIT, whole.as_bytes(), b""),
        Ok(whole.clone().into_bytes())
    );
    assert_eq!(
        refused(TEXT_LIMIT - 1, b"", whole.as_bytes()),
        neither(Refusal::OUTPUT_TOO_SHORT)
    );
    assert_eq!(
        refused(one.len() - 1, one.as_bytes(), b""),
        neither(Refusal::OUTPUT_TOO_SHORT)
    );
    for room in [0, TEXT_LIMIT, TEXT_LIMIT + 9] {
        assert_eq!(
            refused(room, whole.as_bytes(), one.as_bytes()),
            neither(Refusal::MERGED_TOO_LONG)
        );
    }
    // As many bytes without the last line feed: merging writes it, one byte more.
    let unended = longest(one.trim_end());
    assert_eq!(unended.len(), TEXT_LIMIT);
    assert_eq!(
        refused(TEXT_LIMIT + 9, b"", unended.as_bytes()),
        neither(Refusal::MERGED_TOO_LONG)
    );
}

#[test]
fn a_refusal_is_printed_with_its_log_and_line() {
    let falls = events(&[("2", "k"), ("1", "k")]);
    let refusal = merged(99, b"", falls.as_bytes()).expect_err("times fall");
    assert_eq!(
        refusal.to_string(),
        "refused 46 log 2 line 2: the second log's times fall"
    );
}

/// One set of tables serves any calls, in any order.
#[test]
fn tables_keep_nothing() {
    let (mut tables, mut out) = (Tables::new(), vec![0; 99]);
    let log = events(&[("1", "k"), ("2", "k")]);
    for _ in 0..2 {
        assert!(tables.read_line(event("7", "k").as_bytes()).is_ok());
        let count = tables
            .merge(log.as_bytes(), b"", &mut out)
            .expect("no refusal");
        assert_eq!(out[..count], *log.as_bytes());
        assert_eq!(tables.judge(&out[..count]), Ok(2));
        assert!(tables.merge(b"x", b"", &mut out).is_err());
    }
}
