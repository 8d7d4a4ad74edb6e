//! The scans. Ops: 1 cut at commas, 2 matching_paren, 3 matching_brace, 4 top_level_char of `{`,
//! 5 split_top_level_once at `:`, 6 find_unescaped_quote, 7 cutting refused.

use crate::cases::Cases;
use crate::hand::Hand;
use crate::random::Random;
use oracle::limits::{LINE, TEXT};
use oracle::{answers, scans};

/// One of each kind of character that the scans tell apart.
const KINDS: [&str; 10] = [",", "\"", "\\", "(", ")", "{", "}", ":", "a", "é"];
const PIECES: [&str; 20] = [
    ",", ",", "\"", "\"", "\\", "\\\"", "\\\\", "(", ")", "[", "]", "{", "}", ":", ":", "a", "bc",
    "é", "\\é", "😀",
];

pub fn make(cases: &mut Cases, hand: &Hand) {
    add(cases, "");
    for text in hand.list("cuts") {
        add(cases, std::str::from_utf8(text).expect("cuts are of UTF-8"));
    }
    every_short_text(cases);
    every_damage(cases);
    random(cases);
    sizes(cases);
    refusals(cases);
}

fn add(cases: &mut Cases, text: &str) {
    cut(cases, text.as_bytes());
    let colon = scans::split_top_level_once(text, ':').map(|(left, _)| left.len());
    let found = [
        (2, scans::matching_paren(text)),
        (3, scans::matching_brace(text)),
        (4, scans::top_level_char(text, '{')),
        (5, colon),
        (6, scans::find_unescaped_quote(text)),
    ];
    for (op, place) in found {
        let answer = match place {
            Some(place) => [&[1], &(place as u32).to_le_bytes()[..]].concat(),
            None => vec![0],
        };
        cases.add(op, text.as_bytes(), &answer);
    }
}

fn cut(cases: &mut Cases, body: &[u8]) {
    match answers::cut_places(body) {
        Ok(places) => {
            let answer: Vec<u8> = places.iter().flat_map(|p| (*p as u64).to_le_bytes()).collect();
            cases.add(1, body, &answer);
        }
        Err(number) => cases.refused(7, body, number, &[number]),
    }
}

/// All texts of up to three characters, one of each kind.
fn every_short_text(cases: &mut Cases) {
    for a in KINDS {
        add(cases, a);
        for b in KINDS {
            add(cases, &format!("{a}{b}"));
            KINDS.iter().for_each(|c| add(cases, &format!("{a}{b}{c}")));
        }
    }
}

/// One character put in at every place of a text that has everything.
fn every_damage(cases: &mut Cases) {
    let text = r#"a:1,{b:[2,"c,\"}"]},(é:3),x"#;
    for at in (0..=text.len()).filter(|at| text.is_char_boundary(*at)) {
        for piece in ["\"", "\\", "(", "]", "}", "\\é"] {
            add(cases, &format!("{}{piece}{}", &text[..at], &text[at..]));
        }
    }
}

fn random(cases: &mut Cases) {
    let mut random = Random::new(3);
    for _ in 0..700 {
        let count = 4 + random.below(20);
        add(cases, &random.words(&PIECES, count));
    }
}

fn sizes(cases: &mut Cases) {
    for length in [LINE - 1, LINE, LINE + 1] {
        add(cases, &",".repeat(length));
        add(cases, &format!("{}a", "(".repeat(length - 1)));
        add(cases, &format!("{}{}", "\\".repeat(length - 1), "\""));
        add(
            cases,
            &format!("\"{}", "\\\"".repeat(length)).chars().take(length).collect::<String>(),
        );
        add(cases, &format!("{}){{}}:\",", "x".repeat(length - 6)));
    }
}

fn refusals(cases: &mut Cases) {
    cut(cases, b"a,\xff");
    cut(cases, b"\xe9");
    cut(cases, &[b"\xff,", &[b','; LINE][..]].concat());
    cut(cases, &[b','; TEXT]);
    cut(cases, &[b','; TEXT + 1]);
    cut(cases, &[&[b','; TEXT][..], b"\xff"].concat());
    cases.must_refuse(2..=4, 2);
}
