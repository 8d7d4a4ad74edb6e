//! Numbers. Ops: 1 i64, 2 is it a decimal.

use crate::cases::Cases;
use crate::hand::Hand;
use crate::random::Random;

const PIECES: [&str; 26] = [
    "0",
    "1",
    "5",
    "9",
    "12",
    "007",
    ".",
    ".",
    ".",
    "e",
    "E",
    "+",
    "-",
    "e+",
    "e-",
    "_",
    " ",
    "inf",
    "nan",
    "infinity",
    "x",
    "9223372036854775807",
    "9223372036854775808",
    "é",
    "f",
    "١",
];

pub fn make(cases: &mut Cases, hand: &Hand) {
    add(cases, "");
    for text in hand.list("numbers") {
        let text = std::str::from_utf8(text).expect("numbers are of UTF-8");
        add(cases, text);
        for around in ["+", "-", " ", "0", ".", "+-"] {
            add(cases, &format!("{around}{text}"));
            add(cases, &format!("{text}{around}"));
        }
    }
    limits(cases);
    (0..=255).map(|byte| byte as u8 as char).for_each(|c| around(cases, c));
    long(cases);
    random(cases);
}

fn add(cases: &mut Cases, text: &str) {
    let integer = match text.parse::<i64>() {
        Ok(n) => [&[1], &n.to_le_bytes()[..]].concat(),
        Err(_) => vec![0],
    };
    cases.add(1, text.as_bytes(), &integer);
    let decimal = text.contains('.') && text.parse::<f64>().is_ok();
    cases.add(2, text.as_bytes(), &[decimal as u8]);
}

/// Every integer near the limits of an i64 and of an u64, with signs and leading zeros.
fn limits(cases: &mut Cases) {
    let middles =
        [0i128, 1 << 31, 1 << 32, 1 << 63, -(1 << 63), 1 << 64, -(1 << 64), 10i128.pow(19)];
    for middle in middles {
        for n in middle - 11..=middle + 11 {
            add(cases, &n.to_string());
            add(cases, &format!("{n:+}"));
            add(cases, &format!("{n:025}"));
            add(cases, &format!("{n}.0"));
        }
    }
}

/// One character alone, and before, in and behind numbers.
fn around(cases: &mut Cases, c: char) {
    let shapes = [
        format!("{c}"),
        format!("{c}5"),
        format!("5{c}"),
        format!("5{c}5"),
        format!("{c}.5"),
        format!("5.{c}"),
        format!("5.5{c}"),
        format!("5.{c}5"),
        format!("5.5{c}5"),
        format!("5.5e{c}5"),
    ];
    shapes.iter().for_each(|text| add(cases, text));
}

fn long(cases: &mut Cases) {
    for length in [18, 19, 20, 21, 64, 400, 4_095] {
        let nines = "9".repeat(length);
        let zeros = "0".repeat(length);
        let shapes = [
            nines.clone(),
            zeros.clone(),
            format!("{zeros}7"),
            format!("-{zeros}7"),
            format!("{nines}."),
            format!(".{nines}"),
            format!("{nines}.{nines}e{nines}"),
            format!("1.e-{nines}"),
            format!("{nines}x"),
        ];
        shapes.iter().for_each(|text| add(cases, text));
    }
}

fn random(cases: &mut Cases) {
    let mut random = Random::new(4);
    for _ in 0..3_000 {
        let count = 1 + random.below(7);
        add(cases, &random.words(&PIECES, count));
    }
}
