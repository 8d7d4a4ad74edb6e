//! Damages a text, so that its faults are met, often several at once.

use crate::random::Random;

const PIECES: [&str; 24] = [
    "\"",
    "\"",
    "\\",
    "(",
    ")",
    "[",
    "]",
    "{",
    "}",
    ":",
    "::",
    "::\"",
    ",",
    ",",
    "@",
    " ",
    "in",
    "in[",
    "scope(",
    "entities(",
    "request_context(",
    "a:1",
    "é",
    ".",
];

fn place(random: &mut Random, text: &str) -> usize {
    let mut at = random.below(text.len() + 1);
    while !text.is_char_boundary(at) {
        at -= 1;
    }
    at
}

fn next(text: &str, at: usize) -> usize {
    at + text[at..].chars().next().map_or(0, char::len_utf8)
}

fn once(random: &mut Random, text: &str) -> String {
    let at = place(random, text);
    let piece = *random.pick(&PIECES);
    match random.below(8) {
        0 | 1 | 2 => format!("{}{}", &text[..at], &text[next(text, at)..]),
        3 | 4 => format!("{}{piece}{}", &text[..at], &text[at..]),
        5 => format!("{}{piece}{}", &text[..at], &text[next(text, at)..]),
        6 => {
            // A part twice.
            let other = place(random, text);
            let (from, to) = (at.min(other), at.max(other).min(at.min(other) + 12));
            let to = (from..=to).rev().find(|to| text.is_char_boundary(*to)).unwrap_or(from);
            format!("{}{}", &text[..to], &text[from..])
        }
        // A special character lost: every occurrence is as likely as any.
        _ => {
            let special: Vec<usize> =
                text.match_indices(|c| "@:(){}[]\"\\,".contains(c)).map(|(at, _)| at).collect();
            if special.is_empty() {
                return text.to_string();
            }
            let at = *random.pick(&special);
            format!("{}{}", &text[..at], &text[at + 1..])
        }
    }
}

pub fn damaged(random: &mut Random, text: &str) -> String {
    let mut out = text.to_string();
    for _ in 0..1 + random.below(3) {
        out = once(random, &out);
    }
    out
}
