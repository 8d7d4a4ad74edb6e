//! UTF-8 and whitespace. Ops: 1 is it UTF-8, 2 trimmed, 3 first character, 4 blank.

use crate::cases::Cases;
use crate::hand::Hand;
use crate::random::Random;

/// White_Space, as 01 lists it.
const SPACES: [u32; 25] = [
    0x9, 0xa, 0xb, 0xc, 0xd, 0x20, 0x85, 0xa0, 0x1680, 0x2000, 0x2001, 0x2002, 0x2003, 0x2004,
    0x2005, 0x2006, 0x2007, 0x2008, 0x2009, 0x200a, 0x2028, 0x2029, 0x202f, 0x205f, 0x3000,
];

/// What stands next to a range of White_Space, and what is often taken for a space.
const NEIGHBOURS: [u32; 22] = [
    0x8, 0xe, 0x1f, 0x21, 0x84, 0x86, 0x9f, 0xa1, 0x167f, 0x1681, 0x1fff, 0x200b, 0x2027, 0x202a,
    0x202e, 0x2030, 0x205e, 0x2060, 0x2fff, 0x3001, 0xfeff, 0x180e,
];

/// The ends of each width, and the ends of the gap that surrogates leave.
const WIDTHS: [u32; 11] =
    [0x0, 0x7f, 0x80, 0x7ff, 0x800, 0xd7ff, 0xe000, 0xfffd, 0xffff, 0x10000, 0x10ffff];

/// Bytes next to which some rule of UTF-8 changes.
const EDGES: [u8; 12] = [0x0, 0x7f, 0x80, 0x8f, 0x90, 0x9f, 0xa0, 0xbf, 0xc0, 0xc2, 0xe0, 0xff];
const LEADS: [u8; 25] = [
    0x41, 0x7f, 0x80, 0xbf, 0xc0, 0xc1, 0xc2, 0xc3, 0xdf, 0xe0, 0xe1, 0xe2, 0xec, 0xed, 0xee, 0xef,
    0xf0, 0xf1, 0xf3, 0xf4, 0xf5, 0xf7, 0xf8, 0xfc, 0xff,
];
const LAST: [u8; 4] = [0x7f, 0x80, 0xbf, 0xc0];

pub fn make(cases: &mut Cases, hand: &Hand) {
    add(cases, b"");
    hand.list("chars").iter().for_each(|text| add(cases, text));
    (0..=255).for_each(|byte| add(cases, &[byte]));
    sequences(cases);
    truncated(cases);
    spaces(cases);
    places(cases);
    random(cases);
}

fn add(cases: &mut Cases, bytes: &[u8]) {
    let valid = std::str::from_utf8(bytes);
    cases.add(1, bytes, &[valid.is_ok() as u8]);
    cases.add(3, bytes, &first(bytes));
    if let Ok(text) = valid {
        cases.add(2, bytes, text.trim().as_bytes());
        cases.add(4, bytes, &[text.trim().is_empty() as u8]);
    }
}

/// The character that the bytes begin with: 1, code point, width; or 0.
fn first(bytes: &[u8]) -> Vec<u8> {
    for width in 1..=bytes.len().min(4) {
        if let Ok(text) = std::str::from_utf8(&bytes[..width]) {
            let code = text.chars().next().expect("one character") as u32;
            let mut out = vec![1];
            out.extend(code.to_le_bytes());
            out.push(width as u8);
            return out;
        }
    }
    vec![0]
}

fn sequences(cases: &mut Cases) {
    for lead in LEADS {
        for second in EDGES {
            add(cases, &[lead, second]);
            if lead < 0xe0 {
                continue;
            }
            for third in LAST {
                add(cases, &[lead, second, third]);
                if (0xf0..0xf6).contains(&lead) {
                    LAST.iter().for_each(|fourth| add(cases, &[lead, second, third, *fourth]));
                }
            }
        }
    }
    // Overlong forms, surrogates, and the forms of five and six bytes that were once allowed.
    let old: [&[u8]; 8] = [
        b"\xc0\x80",
        b"\xe0\x80\x80",
        b"\xe0\x9f\xbf",
        b"\xf0\x80\x80\x80",
        b"\xf0\x8f\xbf\xbf",
        b"\xed\xa0\x80\xed\xb0\x80",
        b"\xf8\x88\x80\x80\x80",
        b"\xfc\x84\x80\x80\x80\x80",
    ];
    for form in old {
        add(cases, form);
        add(cases, &[b"a ", form, b" a"].concat());
    }
}

fn utf8(code: u32) -> String {
    char::from_u32(code).expect("a character").to_string()
}

fn truncated(cases: &mut Cases) {
    for code in WIDTHS.iter().chain(&SPACES) {
        let whole = utf8(*code);
        for length in 1..=whole.len() {
            let cut = &whole.as_bytes()[..length];
            add(cases, cut);
            add(cases, &[b"a", cut].concat());
            add(cases, &[cut, b"a"].concat());
            add(cases, &[cut, whole.as_bytes()].concat());
            add(cases, &[cut, b" "].concat());
        }
        add(cases, &whole.as_bytes()[whole.len() - 1..]);
    }
}

fn spaces(cases: &mut Cases) {
    for code in SPACES.iter().chain(&NEIGHBOURS) {
        let c = utf8(*code);
        let shapes = [
            format!("{c}{c}"),
            format!("{c}a"),
            format!("a{c}"),
            format!("{c}a{c}"),
            format!("a{c}a"),
            format!("{c}{c}a b{c}{c}"),
            format!(" {c}\té{c} "),
            format!("{c} {c}"),
            format!("é{c}"),
        ];
        shapes.iter().for_each(|text| add(cases, text.as_bytes()));
    }
    let all: String = SPACES.iter().map(|code| utf8(*code)).collect();
    add(cases, all.as_bytes());
    add(cases, format!("{all}x{all}").as_bytes());
    add(cases, format!("{all}\u{200b}{all}").as_bytes());
}

/// One odd character at each place of an ASCII text: a reader may look at several bytes at once.
fn places(cases: &mut Cases) {
    for length in [1, 7, 8, 9, 16, 33] {
        for at in 0..length {
            for odd in [&b"\xff"[..], "é".as_bytes(), b"\x80", "\u{3000}".as_bytes()] {
                let mut text = vec![b'x'; length];
                text.splice(at..at + 1, odd.iter().copied());
                add(cases, &text);
            }
        }
    }
    add(cases, &[b' '; 4_097]);
    add(cases, &[b'x'; 4_097]);
    add(cases, "\u{2003}".repeat(1_366).as_bytes());
}

fn random(cases: &mut Cases) {
    let mut random = Random::new(1);
    let pieces: Vec<Vec<u8>> = SPACES
        .iter()
        .chain(&NEIGHBOURS)
        .chain(&WIDTHS)
        .map(|code| utf8(*code).into_bytes())
        .chain([b"a".to_vec(), b"bc".to_vec(), "é".into(), "😀".into()])
        .collect();
    for number in 0..500 {
        let count = 1 + random.below(12);
        let mut text: Vec<u8> = Vec::new();
        for _ in 0..count {
            text.extend(random.pick(&pieces));
        }
        // Every second text is damaged by one byte.
        if number % 2 == 1 {
            let at = random.below(text.len());
            text[at] = random.below(256) as u8;
        }
        add(cases, &text);
    }
}
