//! Decoding and keys. Ops: 1 decoded, 2 key, 3 decoding refused, 4 key refused.

use crate::cases::Cases;
use crate::hand::Hand;
use crate::random::Random;
use oracle::limits::{LINE, TEXT};
use oracle::{answers, ranges};

/// What escapes are made of, and what breaks them.
const PIECES: [&str; 40] = [
    "\\", "\\", "\\", "\\u{", "\\u{", "\\x", "u", "{", "}", "}", "x", "_", "+", "-", "0", "4", "1",
    "41", "a", "F", "g", "7f", "ff", "d800", "110000", "10ffff", "\"", "'", "n", "t", "r", "é",
    "😀", "\u{301}", "\u{7f}", " ", "\n", "00000000", "e000", "d7ff",
];

const TYPES: [&str; 8] = ["", "Cell", "A::B", "a::\"b", "é", "\"", "\\u{41}", "x y"];

pub fn make(cases: &mut Cases, hand: &Hand) {
    decode(cases, b"");
    for text in hand.list("escapes") {
        decode(cases, text);
        key(cases, b"Cell", text);
        // An escape is read alike wherever it stands.
        decode(cases, &[b"a", &text[..], b"\\n", &text[..], b"z"].concat());
    }
    for line in hand.list("keys") {
        let bar = line.iter().position(|b| *b == b'|').expect("a type, `|`, an id");
        key(cases, &line[..bar], &line[bar + 1..]);
    }
    every_byte_behind_a_backslash(cases);
    code_points(cases);
    boundaries(cases);
    random(cases);
    sizes(cases);
    refusals(cases);
}

fn decode(cases: &mut Cases, text: &[u8]) {
    match answers::decoded(text) {
        Ok(decoded) => {
            cases.add(1, text, decoded.as_bytes());
        }
        Err(number) => cases.refused(3, text, number, &[number]),
    }
}

fn key(cases: &mut Cases, ty: &[u8], id: &[u8]) {
    match answers::stored_key(ty, id) {
        Ok(spelled) => {
            let length = (ty.len() as u16).to_le_bytes();
            cases.add(2, &[&length, ty, id].concat(), spelled.as_bytes());
        }
        Err(number) => {
            let length = (ty.len() as u32).to_le_bytes();
            cases.refused(4, &[&length, ty, id].concat(), number, &[number]);
        }
    }
}

fn every_byte_behind_a_backslash(cases: &mut Cases) {
    for byte in 0..=127u8 {
        decode(cases, &[b'\\', byte]);
        decode(cases, &[b'\\', byte, b'4', b'1', b'}']);
        decode(cases, &[b'\\', b'x', byte]);
        decode(cases, &[b'\\', b'x', b'4', byte]);
        decode(cases, &[b'\\', b'u', byte]);
        decode(cases, &[b'\\', b'u', b'{', byte, b'}']);
        decode(cases, &[b'\\', b'u', b'{', b'4', byte, b'}']);
        key(cases, b"T", &[byte]);
        key(cases, b"T", &[b'a', byte, byte]);
    }
    for byte in 0..=255u8 {
        decode(cases, format!("\\x{byte:02x}").as_bytes());
        decode(cases, format!("\\x{byte:X}g").as_bytes());
    }
}

/// Values around which `\u{..}` names a character or does not, in several spellings.
fn code_points(cases: &mut Cases) {
    let edges = [
        0x0u64,
        0x7f,
        0x80,
        0x7ff,
        0x800,
        0xd7ff,
        0xd800,
        0xdfff,
        0xe000,
        0xffff,
        0x10000,
        0x10ffff,
        0x110000,
        0xffff_ffff,
        0x1_0000_0000,
        0x1_0000_0041,
    ];
    for code in edges {
        let spellings = [
            format!("\\u{{{code:x}}}"),
            format!("\\u{{{code:X}}}"),
            format!("\\u{{+{code:x}}}"),
            format!("\\u{{{code:08x}}}"),
            format!("\\u{{{code:012x}}}"),
            format!("\\u{{{code:x}_}}"),
            format!("\\u{{_{code:x}}}"),
            format!("\\u{{0_{code:x}}}"),
            format!("\\u{{{code:x}"),
        ];
        spellings.iter().for_each(|text| decode(cases, text.as_bytes()));
    }
    decode(cases, format!("\\u{{{}41}}", "0".repeat(3_000)).as_bytes());
    decode(cases, format!("\\u{{{}", "0".repeat(3_000)).as_bytes());
}

/// Both ends of every range of both tables and what stands next to them, first and later.
fn boundaries(cases: &mut Cases) {
    let ranges = ranges::anywhere().into_iter().chain(ranges::first_only());
    let mut codes: Vec<u32> =
        ranges.flat_map(|(start, end)| [start.saturating_sub(1), start, end - 1, end]).collect();
    codes.sort_unstable();
    codes.dedup();
    for (number, c) in codes.into_iter().filter_map(char::from_u32).enumerate() {
        let id = format!("{c}a{c}");
        key(cases, b"T", id.as_bytes());
        if number % 8 == 0 {
            decode(cases, id.escape_debug().to_string().as_bytes());
        }
    }
}

fn random(cases: &mut Cases) {
    let mut random = Random::new(2);
    for _ in 0..1_500 {
        let count = 1 + random.below(9);
        let text = random.words(&PIECES, count);
        decode(cases, text.as_bytes());
        if random.once_in(3) {
            let ty = *random.pick(&TYPES);
            key(cases, ty.as_bytes(), text.as_bytes());
        }
    }
}

fn sizes(cases: &mut Cases) {
    let lengths = [LINE - 1, LINE, LINE + 1];
    for length in lengths {
        decode(cases, &b"\\n".repeat(length)[..length]);
        key(cases, &vec![b'T'; length], b"a");
        key(cases, b"T", &vec![b'a'; length]);
    }
    // The longest keys that an id can give, by width of its characters.
    for (c, width) in [('\u{7f}', 1), ('\u{ad}', 2), ('\u{200b}', 3), ('\u{10ffff}', 4)] {
        let full = c.to_string().repeat(LINE / width);
        key(cases, b"T", full.as_bytes());
        key(cases, b"T", format!("{full}a").as_bytes());
    }
    decode(cases, &b"\\x41".repeat(TEXT / 4));
    decode(cases, &[b"a", &b"\\x41".repeat(TEXT / 4)[..]].concat());
}

fn refusals(cases: &mut Cases) {
    let long = vec![b'a'; LINE + 1];
    let huge = vec![b'a'; TEXT + 1];
    let bad = b"a\xff".as_slice();
    decode(cases, bad);
    decode(cases, b"\\u{41}\xc3");
    decode(cases, &[bad, &huge[..]].concat());
    let texts = [b"T".as_slice(), &long, bad, &[bad, &long[..]].concat()];
    for ty in texts {
        for id in texts {
            key(cases, ty, id);
        }
    }
    key(cases, bad, &huge);
    key(cases, &huge, bad);
    key(cases, b"T", &huge);
    cases.must_refuse(2..=4, 3);
}
