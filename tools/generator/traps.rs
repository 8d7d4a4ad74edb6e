//! Lines whose listing follows from document 02 (A1): a type text and a stored key print escaped between
//! quotes, and entries keep the order of their stored keys. Each listing is asserted here: the
//! oracle must give it.

use crate::lines::HEAD;
use oracle::limits::{self, LINE};
use oracle::listing;

/// Each with lines that stand in its listing, one right behind the other.
const STATED: [(&str, &[&str]); 18] = [
    // A type with quotes and a comma in it is no second item.
    (r#"@0 ::""::k(a: [A" "b",e"C::"d"])"#, &[r#"logged {"a":[e"A\" \"b\",e\"C" "d"]}"#]),
    (r#"@0 ::""::k(a: [A::"b",C::"d"])"#, &[r#"logged {"a":[e"A" "b",e"C" "d"]}"#]),
    // Sorted by what is stored, not by what prints.
    (
        r#"@0 entities(A::"x":{},'::"x":{})::""::k(A:1,':2)"#,
        &[
            r#"logged {"\'":i2,"A":i1}"#,
            "context {}",
            r#"entity "\'::\"x\"" {} []"#,
            r#"entity "A::\"x\"" {} []"#,
        ],
    ),
    // An id is escaped in the stored key, and the key where it prints.
    ("@0 entities(::\"\u{7f}\":{})::\"\"::k()", &[r#"entity "::\"\\u{7f}\"" {} []"#]),
    // U+0301 is escaped as the first character alone, U+202E and U+00A0 in any place.
    (
        "@0 entities(\u{301}::\"y\":{})::\"\"::k(a:\u{301}x::\"y\")",
        &[r#"logged {"a":e"\u{301}x" "y"}"#, "context {}", r#"entity "\u{301}::\"y\"" {} []"#],
    ),
    (
        "@0 entities(x\u{301}::\"y\":{})::\"\"::k(a:x\u{301}::\"y\")",
        &[
            "logged {\"a\":e\"x\u{301}\" \"y\"}",
            "context {}",
            "entity \"x\u{301}::\\\"y\\\"\" {} []",
        ],
    ),
    (
        "@0 entities(\u{202e}x::\"y\":{})::\"\"::k(a:\u{202e}x::\"y\")",
        &[r#"logged {"a":e"\u{202e}x" "y"}"#, "context {}", r#"entity "\u{202e}x::\"y\"" {} []"#],
    ),
    (
        "@0 entities(A\u{a0}B::\"\\u{a0}\":{})::\"\"::k(a:A\u{a0}B::\"\\u{a0}\")",
        &[
            r#"logged {"a":e"A\u{a0}B" "\u{a0}"}"#,
            "context {}",
            r#"entity "A\u{a0}B::\"\\u{a0}\"" {} []"#,
        ],
    ),
    // A type is not decoded.
    (r#"@0 ::""::k(a:\::"b",b:\n::"b")"#, &[r#"logged {"a":e"\\" "b","b":e"\\n" "b"}"#]),
    (r#"@0 ::""::k(a:x"y" z::"w")"#, &[r#"logged {"a":e"x\"y\" z" "w"}"#]),
    (
        r#"@0 entities(A::"x":{} in [P Q::"r", ::""])::""::k()"#,
        &[r#"entity "A::\"x\"" {} [e"P Q" "r",e"" ""]"#],
    ),
    (r#"@0 scope(principal: null)::""::k()"#, &["event 1 at 0", "principal null", r#"name """#]),
    (r#"@0 ::""::k()"#, &["event 1 at 0", r#"name """#]),
    (r#"@0 ::""::k(a: "i5")"#, &[r#"logged {"a":s"i5"}"#]),
    (r#"@0 ::""::k(a: 5)"#, &[r#"logged {"a":i5}"#]),
    (r#"@0 ::""::k("a": 1)"#, &[r#"logged {"\"a\"":i1}"#]),
    (r#"@0 ::""::k(a: 1)"#, &[r#"logged {"a":i1}"#]),
    // With the largest number seven bytes for each of the line, and one.
    (TIGHT, &[r#"action """#, r#"kind "\u{7f}""#, "logged {}", "context {}"]),
];

const TIGHT: &str = "@0 ::\"\"::\u{7f}()";

/// Each pair lists in two ways.
const APART: [(&str, &str); 5] = [
    (r#"@0 ::""::k(a: [A" "b",e"C::"d"])"#, r#"@0 ::""::k(a: [A::"b",C::"d"])"#),
    (r#"@0 scope(principal: null)::""::k()"#, r#"@0 ::""::k()"#),
    (r#"@0 ::""::k(a: "i5")"#, r#"@0 ::""::k(a: 5)"#),
    (r#"@0 ::""::k("a": 1)"#, r#"@0 ::""::k(a: 1)"#),
    ("@0 ::\"\"::k(a:\u{7f}::\"b\")", r#"@0 ::""::k(a:\u{7f}::"b")"#),
];

fn listed(number: u64, line: &str) -> String {
    let (_, event) = limits::line(line.as_bytes()).expect("no refusal").expect("an event");
    listing::event(number, &event)
}

/// All of them, and a line of 4,096 bytes whose one id is nothing but U+007F.
pub fn lines() -> Vec<String> {
    for (line, stated) in STATED {
        let text = format!("\n{}", listed(1, line));
        assert!(text.contains(&format!("\n{}\n", stated.join("\n"))), "{line}");
    }
    for (one, other) in APART {
        assert_ne!(listed(1, one), listed(1, other), "{one} and {other}");
    }
    let long = format!("@0 entities(::\"{}\":{{}}){HEAD}()", "\u{7f}".repeat(4_067));
    assert_eq!((long.len(), listed(u64::MAX, &long).len()), (LINE, 28_571));
    assert_eq!(listed(u64::MAX, TIGHT).len(), limits::listing(TIGHT));
    let stated = STATED.iter().map(|(line, _)| *line);
    let apart = APART.iter().flat_map(|(one, other)| [*one, *other]);
    stated.chain(apart).map(str::to_string).chain([long]).collect()
}
