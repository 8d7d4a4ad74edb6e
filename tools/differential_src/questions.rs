//! What is asked about one log.

use crate::answer::{Ask, Lent, Question};
use crate::random::Random;

/// A line that repeats the one before it is read again only in a log of so few lines; in a longer one, so many of them.
const LINES: usize = 24;
/// How many texts are drawn from a log.
const DRAWN: usize = 4;
/// No room at all.
pub const NO_ROOM: i32 = i32::MIN;

/// A text at its limit has short tables more often.
fn lent(random: &mut Random, text: &[u8]) -> Lent {
    match random.below(if text.len() < 65_000 { 120 } else { 12 }) {
        0 => Lent::ShortKinds,
        1 => Lent::ShortNumbers,
        2 => Lent::ShortTexts,
        n if n % 2 == 0 => Lent::Exact,
        _ => Lent::Longer,
    }
}

/// An output of so many bytes more than a short line's listing has is longer than any listing of that line.
const AMPLE: i32 = 300;

fn slack(random: &mut Random) -> i32 {
    *random.pick(&[0, 0, 0, 9, AMPLE, 1, -1, -1, NO_ROOM])
}

pub fn question<'a>(random: &mut Random, ask: Ask, text: &'a [u8]) -> Question<'a> {
    Question { ask, text, other: b"", lent: lent(random, text), slack: slack(random) }
}

pub fn about<'a>(random: &mut Random, log: &'a [u8]) -> Vec<Question<'a>> {
    let mut out = vec![question(random, Ask::Judge, log)];
    if random.once_in(6) {
        // A line feed inside is whitespace.
        out.push(question(random, Ask::Read, log));
        out.push(question(random, Ask::List(1), log));
    }
    let lines: Vec<&[u8]> = log.split(|b| *b == b'\n').collect();
    let step = lines.len().div_ceil(LINES);
    for (index, line) in lines.iter().enumerate() {
        if index % step != 0 && *line == lines[index - 1] {
            continue;
        }
        let next = index as u64 + 1;
        let number = *random.pick(&[next, next, next, 10, u64::MAX, 1 << 63, 0]);
        out.push(question(random, Ask::Read, line));
        out.push(question(random, Ask::List(number), line));
    }
    for _ in 0..DRAWN {
        let text = drawn(random, log);
        let ask = *random.pick(&[Ask::Cut, Ask::Decode, Ask::Key]);
        let other = if ask == Ask::Key { drawn(random, log) } else { b"" };
        out.push(Question { other, ..question(random, ask, text) });
    }
    // Judging drops U+FEFF, reading a line does not.
    if let Some(line) = lines[0].strip_prefix("\u{feff}".as_bytes()) {
        out.push(question(random, Ask::Read, line));
        out.push(question(random, Ask::List(1), line));
    }
    let again: Vec<Question> =
        out.iter().filter(|question| is_short(question)).map(fitting).collect();
    out.extend(again);
    out
}

/// Is a table or the output too short for the answer?
pub fn is_short(question: &Question) -> bool {
    let tables = !question.lent.is_enough();
    let has_output = !matches!(question.ask, Ask::Judge | Ask::Read | Ask::Cells);
    tables && question.ask.has_tables() || has_output && question.slack < 0
}

/// The same, with all that the answer needs.
pub fn fitting<'a>(question: &Question<'a>) -> Question<'a> {
    Question { lent: Lent::Exact, slack: 0, ..*question }
}

/// A part of the log: all of it, between two quotes or brackets, of a length at the limit, or any.
fn drawn<'a>(random: &mut Random, log: &'a [u8]) -> &'a [u8] {
    match random.below(8) {
        0 | 1 => log,
        2..=4 => {
            let marks: Vec<usize> =
                (0..log.len()).filter(|at| b"\"()[]{}".contains(&log[*at])).take(400).collect();
            if marks.len() < 2 {
                return log;
            }
            let first = random.below(marks.len() - 1);
            let last = (first + 1 + random.below(4)).min(marks.len() - 1);
            &log[marks[first] + 1..marks[last]]
        }
        _ if log.len() > 4_000 => {
            let length = (4_095 + random.below(4)).min(log.len());
            let at = boundary(log, random.below(log.len() - length + 1));
            &log[at..(at + length).min(log.len())]
        }
        kind => {
            let (a, b) = (random.below(log.len() + 1), random.below(log.len() + 1));
            let (a, b) = (a.min(b), a.max(b));
            // Rarely in the middle of a character.
            if kind == 5 && random.once_in(8) {
                &log[a..b]
            } else {
                &log[boundary(log, a)..boundary(log, b)]
            }
        }
    }
}

/// The next place where no character goes on.
fn boundary(log: &[u8], at: usize) -> usize {
    let goes_on = |at: &usize| log.get(*at).is_some_and(|b| b & 0xc0 == 0x80);
    (at..).find(|at| !goes_on(at)).unwrap_or(log.len())
}
