//! Values. Op: 1 the pack of the value, read at depth 0.

use crate::cases::Cases;
use crate::damage::damaged;
use crate::grammar::Grammar;
use crate::hand::Hand;
use oracle::limits::LINE;
use oracle::pack::Pack;
use oracle::reader;

pub fn make(cases: &mut Cases, hand: &Hand) {
    add(cases, "");
    for text in hand.list("values") {
        let text = std::str::from_utf8(text).expect("values are of UTF-8");
        add(cases, text);
        add(cases, &format!(" {text}\u{3000}"));
        add(cases, &format!("[{text}]"));
        add(cases, &format!("{{a: {text}, b:2}}"));
    }
    for number in hand.list("numbers") {
        add(cases, std::str::from_utf8(number).expect("numbers are of UTF-8"));
    }
    depths(cases);
    sizes(cases);
    random(cases);
    cases.must_refuse(24..=26, 10);
}

fn add(cases: &mut Cases, text: &str) {
    match reader::value(text) {
        Ok(value) => {
            let pack = Pack::of_value(text, &value);
            cases.add(1, text.as_bytes(), &[&[1], &pack.bytes()[..]].concat());
        }
        Err(number) => cases.refused(1, text.as_bytes(), number, &[0, number]),
    }
}

/// Around the limit, depth 128, which is 129 levels: in arrays, in records and in both by turns.
fn depths(cases: &mut Cases) {
    let shapes: [[(&str, &str); 2]; 4] = [
        [("[", "]"), ("[", "]")],
        [("{a:", "}"), ("{a:", "}")],
        [("[", "]"), ("{a:", "}")],
        [("[1,", ",2]"), ("{ \"a\" : ", " }")],
    ];
    for levels in 126..=131 {
        for shape in shapes {
            for inside in ["", "1", "[]", "{}", "{b}", "x,", "a:1,a:1"] {
                let opened: String = (0..levels).map(|level| shape[level % 2].0).collect();
                let closed: String = (0..levels).rev().map(|level| shape[level % 2].1).collect();
                add(cases, &format!("{opened}{inside}{closed}"));
            }
        }
    }
    // Too deep, with a fault before it, behind it, and nowhere.
    let deep = format!("{}1{}", "[".repeat(129), "]".repeat(129));
    add(cases, &format!("[{{a}},{deep}]"));
    add(cases, &format!("[{deep},{{a}}]"));
    add(cases, &format!("{{a:1,a:{deep}}}"));
    add(cases, &format!("{{a:{deep},a}}"));
    add(cases, &format!("{}{}", "[".repeat(200), "]".repeat(128)));
    add(cases, &"[".repeat(300));
}

fn sizes(cases: &mut Cases) {
    for length in [LINE - 1, LINE] {
        add(cases, &"x".repeat(length));
        add(cases, &format!("\"{}\"", "\\".repeat(length - 2)));
        add(cases, &format!("::\"{}\"", "é".repeat((length - 4) / 2)));
        add(cases, &"[".repeat(length));
        add(cases, &format!("[{}]", ",".repeat(length - 2)));
    }
    add(cases, &format!("[{}]", "1,".repeat((LINE - 2) / 2)));
    add(cases, &format!("[{}]", "[],".repeat((LINE - 2) / 3)));
    let names: String = (0..500).map(|n| format!("n{n}:1,")).collect();
    add(cases, &format!("{{{names}}}"));
    add(cases, &format!("{{{names}n250:}}"));
}

fn random(cases: &mut Cases) {
    let mut grammar = Grammar::new(5);
    for _ in 0..1_500 {
        let text = grammar.value(5);
        add(cases, &text);
        let worse = damaged(&mut grammar.random, &text);
        add(cases, &worse);
    }
    // Records and arrays, which the above gives too few of.
    for _ in 0..800 {
        let (open, close) = *grammar.random.pick(&[('{', '}'), ('[', ']')]);
        let text = format!("{open}{}{close}", grammar.fields(4));
        add(cases, &text);
        let worse = damaged(&mut grammar.random, &text);
        add(cases, &worse);
    }
}
