//! What the header for C and the manual say too: refusals by name, number and text, the bounds, and every signature.

use lulzhemor::Refusal;
use std::collections::BTreeMap;

const HEADER: &str = include_str!("../../c/lulzhemor.h");
const MANUAL: &str = include_str!("../../../docs/MANUAL.md");

/// The header's refusals: each number with its text.
fn refusals() -> BTreeMap<u8, String> {
    let (_, below) = HEADER
        .split_once("enum lulzhemor_refusal {")
        .expect("the enum");
    let (rows, below) = below.split_once("};").expect("its end");
    let numbers: BTreeMap<&str, u8> = rows
        .lines()
        .filter_map(|row| row.trim().trim_end_matches(',').split_once(" = "))
        .map(|(name, number)| (name, number.parse().expect("a number")))
        .collect();
    let texts = below.lines().filter_map(|row| {
        let (name, text) = row
            .trim()
            .strip_prefix("case ")?
            .split_once(": return \"")?;
        Some((numbers[name], text.strip_suffix("\";")?.to_string()))
    });
    texts.collect()
}

#[test]
fn each_refusal_has_the_text_of_the_header() {
    let texts = refusals();
    assert_eq!(texts.len(), 36);
    for number in 0..=255 {
        let known = [1..=5, 10..=37, 45..=47]
            .iter()
            .any(|numbers| numbers.contains(&number));
        let text = texts.get(&number).map(String::as_str);
        assert_eq!(text.is_some(), known, "{number}");
        let text = text.unwrap_or("unknown refusal");
        assert_eq!(Refusal(number).message(), text);
        assert_eq!(
            Refusal(number).to_string(),
            format!("refused {number}: {text}")
        );
    }
}

#[test]
fn the_bounds_are_those_of_the_header() {
    for (name, bound) in [
        ("TEXT_LIMIT", lulzhemor::TEXT_LIMIT),
        ("LINE_LIMIT", lulzhemor::LINE_LIMIT),
        ("JSON_LIMIT", lulzhemor::JSON_LIMIT),
        ("LISTING_ROOM", lulzhemor::LISTING_ROOM),
    ] {
        let row = format!("#define LULZHEMOR_{name} {bound}\n");
        assert!(HEADER.contains(&row), "{name}");
    }
}

/// Without whitespace, and without the comma that a signature may have behind its last parameter.
fn squeezed(text: &str) -> String {
    let text: String = text.split_whitespace().collect();
    text.replace(",)", ")")
}

/// The functions that the header declares; those that it defines have a body.
fn declared() -> Vec<String> {
    let code: String = HEADER
        .split("*/")
        .filter_map(|part| part.split("/*").next())
        .collect();
    code.split([';', '}'])
        .map(squeezed)
        .filter(|text| text.ends_with(')') && !text.contains('{'))
        .collect()
}

#[test]
fn the_manual_has_every_signature() {
    let (_, below) = MANUAL.split_once("`TABLES` stands for").expect("TABLES");
    let tables = below.split('`').nth(3).expect("what TABLES stands for");
    let source = squeezed(include_str!("../src/lib.rs"));
    let mut listed = Vec::new();
    for row in below
        .lines()
        .filter(|row| row.contains("lulzhemor_") && row.starts_with("| `"))
    {
        let mut cells = row.split('`').skip(1).step_by(2);
        let (c, rust) = (cells.next().expect("C"), cells.next().expect("Rust"));
        listed.push(squeezed(&c.replace("TABLES", tables)));
        let signature = squeezed(&format!("pub fn {rust} {{"));
        assert!(source.contains(&signature), "{rust}");
    }
    listed.sort();
    let mut declared = declared();
    declared.sort();
    assert_eq!(listed, declared);
    assert_eq!(listed.len(), 9);
}
