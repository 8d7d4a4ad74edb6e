//! Entities JSON: the pack of a text, or its refusal. The op says which tables are lent, as for lines.

use crate::cases::Cases;
use crate::cells_grammar::{CellsGrammar, EXTENSION, OTHER_NUMBERS, REFERENCE};
use crate::hand::Hand;
use crate::random::Random;
use oracle::cells_traps::{
    self, Stated, Trap, UID, arrays, entity, with_attrs, with_type, with_value,
};
use oracle::limits::{JSON, TEXT};
use oracle::{cells, limits, pack::Pack};

const OTHER: &str = r#"{"type":"B","id":"2"}"#;

pub fn make(cases: &mut Cases, hand: &Hand) {
    for text in hand.list("cells") {
        add(cases, text);
    }
    cells_traps::all().iter().for_each(|trap| add_trap(cases, trap));
    short_tables(cases);
    forms_in_places(cases);
    member_orders(cases);
    escapes(cases);
    surrogates(cases);
    depths(cases);
    spelled_names(cases);
    white_space(cases);
    sizes(cases);
    bad_text(cases);
    damaged(cases);
    random(cases);
    cases.must_refuse([2], 3);
    cases.must_refuse([1, 3, 4, 24, 26, 34, 36, 37], 12);
}

fn add(cases: &mut Cases, text: &[u8]) {
    add_with(cases, 1, text);
}

fn add_with(cases: &mut Cases, op: u8, text: &[u8]) {
    match cells::pack(text) {
        Ok(pack) => {
            cases.add(op, text, &[&[1], &pack.bytes()[..]].concat());
        }
        Err(number) => cases.refused(op, text, number, &[0, number]),
    }
}

/// What is stated of it must be what the oracle answers.
fn add_trap(cases: &mut Cases, trap: &Trap) {
    let text = trap.text.as_bytes();
    let given = cells::pack(text).map(|pack| pack.entities_alone());
    let stated = match &trap.stated {
        Stated::Refused(number) => Err(*number),
        Stated::Envelope(body) => {
            let line = format!("@0 entities({body})::\"\"::k()");
            let read = limits::line(line.as_bytes()).expect("no refusal").expect("an event");
            Ok(Pack::of_event(read.0, &read.1).entities_alone())
        }
    };
    assert_eq!(given, stated, "{}", trap.text);
    add_with(cases, 1, text);
    add_with(cases, 2, text);
}

/// Tables that are too short are refused before the text is looked at.
fn short_tables(cases: &mut Cases) {
    let (read, long, huge) = (with_value("1"), vec![b' '; JSON + 1], vec![b' '; TEXT + 1]);
    let texts: [&[u8]; 7] = [b"", b"[]", b"{}", read.as_bytes(), b"[\xff]", &long, &huge];
    for op in 3..=5 {
        texts.iter().for_each(|text| cases.refused(op, text, 1, &[0, 1]));
    }
}

/// Each form of a value, JSON or none, wherever a value may stand.
fn forms_in_places(cases: &mut Cases) {
    let mut forms = vec![
        "null",
        "true",
        "false",
        "0",
        "-0",
        "-12",
        "\"\"",
        "\"x\"",
        "\" x\"",
        "[]",
        "[1,[2]]",
        "{}",
        "{\"x\":1}",
        UID,
        "{\"__entity\":{\"type\":\"B\",\"id\":\"2\"}}",
        "{\"__extn\":1}",
        "{\"x\":1,\"x\":2}",
        "nul",
        "nulls",
        "tru",
        "fals",
        "",
        "\"",
        "\"\\ud800\"",
        "[",
        "{",
        "{\"x\"}",
        "[1 2]",
    ];
    forms.extend(OTHER_NUMBERS);
    for form in forms {
        let places = [
            form.to_string(),
            format!("[{form}]"),
            format!("[{}]", entity(form, "{}", "[]")),
            format!("[{}]", entity(UID, form, "[]")),
            format!("[{}]", entity(UID, "{}", form)),
            format!("[{}]", entity(UID, "{}", &format!("[{OTHER},{form}]"))),
            format!("[{}]", entity(&format!(r#"{{"type":{form},"id":"1"}}"#), "{}", "[]")),
            format!("[{}]", entity(&format!(r#"{{"type":"A","id":{form}}}"#), "{}", "[]")),
            with_value(form),
            with_value(&format!("[1,{form}]")),
            with_value(&format!(r#"{{"x":{form},"y":2}}"#)),
            with_value(&format!(r#"{{"__entity":{form}}}"#)),
            format!("[{},{form}]", entity(UID, "{}", "[]")),
        ];
        places.iter().for_each(|text| add(cases, text.as_bytes()));
    }
}

/// The members in every order, each left out, and each again at every place.
fn member_orders(cases: &mut Cases) {
    let members = [
        ("uid", [UID, r#"{"id":"1","type":"A"}"#]),
        ("attrs", ["{}", r#"{"b":1,"a":{"__entity":{"id":"2","type":"B"}}}"#]),
        ("parents", ["[]", r#"[{"id":"3","type":"C"},{"type":"B","id":"2"}]"#]),
    ];
    let spelled = |which: usize, form: usize| {
        let (name, values) = members[which];
        format!("\"{name}\":{}", values[form])
    };
    let mut lists: Vec<Vec<usize>> = vec![Vec::new()];
    for _ in 0..3 {
        let longer =
            |list: &Vec<usize>| (0..3).map(|which| [&list[..], &[which]].concat()).collect();
        let more: Vec<Vec<usize>> =
            lists.iter().flat_map(|list| -> Vec<_> { longer(list) }).collect();
        for (index, list) in more.iter().enumerate() {
            let written: Vec<String> =
                list.iter().map(|which| spelled(*which, index % 2)).collect();
            add(cases, format!("[{{{}}}]", written.join(",")).as_bytes());
        }
        lists = more;
    }
    for list in lists.iter().filter(|list| (0..3).all(|which| list.contains(&which))) {
        for (at, which) in (0..4).flat_map(|at| (0..3).map(move |which| (at, which))) {
            let mut list: Vec<usize> = list.clone();
            list.insert(at, which);
            let written: Vec<String> = list.iter().map(|which| spelled(*which, 0)).collect();
            add(cases, format!("[{{{}}}]", written.join(",")).as_bytes());
        }
    }
}

/// Every byte behind a backslash and in place of each digit, and what the escapes stand for.
fn escapes(cases: &mut Cases) {
    for byte in 0..=127u8 {
        add(cases, &[b"[\"\\", &[byte][..], b"\"]"].concat());
        add(cases, &[b"[\"", &[byte][..], b"\"]"].concat());
        add(cases, &[&[byte][..], b"[", &[byte], b"]", &[byte]].concat());
        for at in 0..4 {
            let mut digits = *b"0041";
            digits[at] = byte;
            add(cases, &[b"[\"\\u", &digits[..], b"\"]"].concat());
        }
    }
    let read = [
        r#""\"\\\/\b\f\n\r\t""#,
        r#""\u0000\u0001\u001f\u0020\u007F\u0080\u07ff\u0800\uFFFF""#,
        r#""\u00e9\u00E9é""#,
        r#""\u0022\u005c\u002F""#,
        "\"\u{7f}\u{80}\u{7ff}\u{800}\u{ffff}\u{10000}\u{10ffff}\"",
        r#""a\u0061a\n\"b\\""#,
        r#""\\u0041""#,
        r#""\ud800\udc00\udbff\udfff\ud83d\ude00""#,
    ];
    for text in read {
        add(cases, with_value(text).as_bytes());
        add(cases, with_value(&format!("{{{text}:{text}}}")).as_bytes());
        add(cases, with_type("A").replace("\"1\"", text).as_bytes());
        add(cases, with_type("A").replace("\"A\"", text).as_bytes());
        add(cases, with_attrs(&format!("{{{text}:1,{text}:2}}")).as_bytes());
    }
}

/// Every edge of the surrogates before and behind every other, as a value, a name, and apart.
fn surrogates(cases: &mut Cases) {
    let units = ["0041", "d7ff", "d800", "DBFF", "dc00", "dFfF", "e000"];
    for first in units {
        for second in units {
            for between in ["", "x", "\\n"] {
                let text = format!(r#""\u{first}{between}\u{second}""#);
                add(cases, with_value(&text).as_bytes());
                add(cases, with_value(&format!("{{{text}:1}}")).as_bytes());
            }
        }
        for cut in 1..6 {
            let text = format!("[\"\\ud800{}\"]", &format!("\\u{first}")[..cut]);
            add(cases, text.as_bytes());
        }
    }
}

/// Around the depth limit, in every place that has a depth, and in those that have none.
fn depths(cases: &mut Cases) {
    let records = |levels: usize, innermost: &str| {
        format!("{}{innermost}{}", "{\"x\":".repeat(levels), "}".repeat(levels))
    };
    let innermost = ["", "1", "1.5", "{}", "{\"__extn\":1}", "{\"__entity\":1}", "{\"x\":1}"];
    for levels in 126..=130 {
        for inside in innermost {
            add(cases, with_value(&arrays(levels, inside)).as_bytes());
            if !inside.is_empty() {
                add(cases, with_value(&records(levels, inside)).as_bytes());
            }
        }
        let reference = format!("{{\"__entity\":{OTHER}}}");
        add(cases, with_value(&arrays(levels, &reference)).as_bytes());
        add(cases, with_value(&arrays(levels, "[],1.5")).as_bytes());
        add(cases, with_attrs(&format!("{{\"b\":1.5,\"a\":{}}}", arrays(levels, "1"))).as_bytes());
        add(cases, with_attrs(&format!("{{\"a\":{},\"b\":1.5}}", arrays(levels, "1"))).as_bytes());
        add(cases, with_attrs(&format!("{{\"a\":1,\"a\":{}}}", arrays(levels, ""))).as_bytes());
        let deep = arrays(levels, "");
        add(cases, deep.as_bytes());
        add(cases, format!("[{}]", entity(&deep, "{}", "[]")).as_bytes());
        add(cases, format!("[{}]", entity(UID, &deep, "[]")).as_bytes());
        add(cases, format!("[{}]", entity(UID, "{}", &deep)).as_bytes());
        add(cases, with_value(&format!("{{\"__entity\":{deep}}}")).as_bytes());
        add(cases, arrays(levels, &with_value("1")).as_bytes());
    }
    for levels in [1_000, 2_047, 2_048] {
        add(cases, arrays(levels, "").as_bytes());
        add(cases, format!("{}]", arrays(levels - 1, "")).as_bytes());
        add(cases, arrays(levels, "").trim_end_matches(']').as_bytes());
    }
    for levels in [600, 680] {
        add(cases, records(levels, "1").as_bytes());
        add(cases, format!("{}]", records(levels, "1")).as_bytes());
    }
}

/// The text with one of its characters spelled by a number, for each of them, and with all.
fn spellings(text: &str) -> Vec<String> {
    let chars: Vec<char> = text.chars().collect();
    let spelled = |escaped: &dyn Fn(usize) -> bool| -> String {
        let one = |(at, c): (usize, &char)| match escaped(at) {
            true => format!("\\u{:04x}", *c as u32),
            false => c.to_string(),
        };
        chars.iter().enumerate().map(one).collect()
    };
    let mut out: Vec<String> = (0..chars.len()).map(|at| spelled(&|i| i == at)).collect();
    out.push(spelled(&|_| true));
    out.push(text.to_string());
    out
}

/// Names that mean something, spelled in several ways, and their neighbours; names and keys that repeat, each spelled otherwise.
fn spelled_names(cases: &mut Cases) {
    for name in spellings(REFERENCE) {
        let reference = format!("{{\"{name}\":{OTHER}}}");
        add(cases, with_value(&reference).as_bytes());
        add(cases, with_attrs(&reference).as_bytes());
        add(cases, with_value(&format!("{{\"x\":1,\"{name}\":{OTHER}}}")).as_bytes());
        add(cases, with_value(&format!("{{\"{name}\":{OTHER},\"x\":1}}")).as_bytes());
        add(cases, with_value(&format!("{{\"{name}\":{OTHER},\"__entity\":{OTHER}}}")).as_bytes());
    }
    for name in spellings(EXTENSION) {
        add(cases, with_attrs(&format!("{{\"{name}\":1}}")).as_bytes());
        add(cases, with_value(&format!("{{\"{name}\":1}}")).as_bytes());
        add(cases, with_value(&format!("[{{\"x\":1,\"{name}\":1}}]")).as_bytes());
    }
    for member in ["uid", "attrs", "parents", "type", "id"] {
        for name in spellings(member) {
            let member = format!("\"{member}\"");
            let text = with_value("1").replace(&member, &format!("\"{name}\""));
            add(cases, text.as_bytes());
            add(cases, text.replace("}]", &format!(",\"{name}\":1}}]")).as_bytes());
        }
    }
    for near in
        ["__entit", "__entityy", "_entity", "__Entity", "__ext", "__extns", "_extn", "__EXTN"]
    {
        add(cases, with_attrs(&format!("{{\"{near}\":1}}")).as_bytes());
        add(cases, with_value(&format!("{{\"{near}\":{OTHER}}}")).as_bytes());
    }
    for text in ["ab", "é", "a/", ""] {
        for name in spellings(text) {
            let twice = format!("{{\"{text}\":1,\"x\":2,\"{name}\":3}}");
            add(cases, with_attrs(&twice).as_bytes());
            add(cases, with_value(&twice).as_bytes());
            add(cases, with_value(&format!("[{{\"{name}\":1}},{{\"{text}\":1}}]")).as_bytes());
            let uids = [(text, text), (&*name, text), (text, &*name)]
                .map(|(ty, id)| format!("{{\"type\":\"A{ty}\",\"id\":\"{id}\"}}"));
            let written = uids.map(|uid| entity(&uid, "{}", "[]"));
            add(cases, format!("[{},{}]", written[0], written[1]).as_bytes());
            add(cases, format!("[{},{}]", written[2], written[0]).as_bytes());
        }
    }
}

/// Every White_Space character of 01's list, and some that look it, at the start and the end of types and ids, as they are and escaped.
fn white_space(cases: &mut Cases) {
    let white = ('\0'..=char::MAX).filter(|c| c.is_whitespace());
    for c in white.chain([
        '\u{8}', '\u{e}', '\u{1c}', '\u{84}', '\u{180e}', '\u{200b}', '\u{2060}', '\u{feff}',
    ]) {
        for spelled in [c.to_string(), format!("\\u{:04x}", c as u32)] {
            let uids = [
                format!("{{\"type\":\"{spelled}\",\"id\":\"1\"}}"),
                format!("{{\"type\":\"{spelled}A\",\"id\":\"1\"}}"),
                format!("{{\"type\":\"A{spelled}\",\"id\":\"{spelled}1{spelled}\"}}"),
            ];
            for uid in &uids {
                add(cases, format!("[{}]", entity(uid, "{}", "[]")).as_bytes());
            }
            add(cases, format!("[{}]", entity(UID, "{}", &format!("[{}]", uids[1]))).as_bytes());
            add(cases, with_value(&format!("{{\"__entity\":{}}}", uids[1])).as_bytes());
        }
        add(cases, format!("{c}[{c}]{c}").as_bytes());
    }
}

/// Around 4,096 and 65,536 bytes. What stands before and behind the text counts.
fn sizes(cases: &mut Cases) {
    let wrap = |front: &str, unit: &str, behind: &str, length: usize| {
        let left = length - front.len() - behind.len();
        let fill = unit.repeat(left / unit.len());
        format!("{front}{fill}{}{behind}", "x".repeat(left % unit.len()))
    };
    let open = "[{\"uid\":{\"type\":\"A\",\"id\":\"";
    let shut = "\"},\"attrs\":{},\"parents\":[]}]";
    for length in JSON - 1..=JSON + 1 {
        let texts = [
            wrap(" ", " ", "[]", length),
            wrap("[]", "\n", "\t", length),
            wrap("[", " ", "]", length),
            wrap("\u{feff}", " ", "[]", length),
            wrap("\"", "x", "\"", length),
            wrap("", "[", "", length),
            wrap("", " ", " ", length),
            wrap("[", "1,", "]", length),
            wrap(open, "\u{7f}", shut, length),
            wrap(open, "é", shut, length),
            wrap(open, "\\u007f", shut, length),
            wrap(open, "\u{1f600}", shut, length),
            wrap(&open.replace("\"A\"", "\" A\""), "y", shut, length),
        ];
        for text in &texts {
            add(cases, text.as_bytes());
            add(cases, &[text.as_bytes(), b"\xff"].concat());
        }
        add_with(cases, 2, texts[8].as_bytes());
    }
    for (unit, front, behind) in [
        ("[],", "{\"a\":[", "0]}"),
        ("{},", "{\"a\":[", "0]}"),
        ("1,", "{\"a\":[", "0]}"),
        ("\"\",", "{\"a\":[", "0]}"),
        ("{\"a\":1},", "{\"a\":[", "0]}"),
    ] {
        let whole = with_attrs(&format!("{front}{behind}")).len();
        let fill = unit.repeat((JSON - whole) / unit.len());
        add_with(cases, 2, with_attrs(&format!("{front}{fill}{behind}")).as_bytes());
    }
    let names: String = (0..400).map(|n| format!("\"{n}\":0,")).collect();
    for last in ["x", "7", "399", "\\u0037", "__extn"] {
        add(cases, with_attrs(&format!("{{{names}\"{last}\":0}}")).as_bytes());
    }
    let parents = vec![r#"{"id":"","type":""}"#; 190].join(",");
    add_with(cases, 2, format!("[{}]", entity(UID, "{}", &format!("[{parents}]"))).as_bytes());
    let each = |n: usize| entity(&format!("{{\"type\":\"\",\"id\":\"{n}\"}}"), "{}", "[]");
    let all: Vec<String> = (0..70).map(each).collect();
    add_with(cases, 2, format!("[{}]", all.join(",")).as_bytes());
    for again in [0, 35, 69] {
        add(cases, format!("[{},{}]", all.join(","), all[again]).as_bytes());
    }
    for length in [TEXT - 1, TEXT, TEXT + 1] {
        add(cases, &vec![b' '; length]);
        add(cases, &vec![b'['; length]);
        add(cases, &[&vec![b' '; length - 1], b"\xff".as_slice()].concat());
    }
}

/// Bytes that no UTF-8 has, wherever: 3 comes before 4 and 36.
fn bad_text(cases: &mut Cases) {
    let text = with_value("\"x\"").into_bytes();
    for bad in
        [&b"\xff"[..], b"\xc3", b"\x80", b"\xed\xa0\x80", b"\xed\xbf\xbf", b"\xf4\x90\x80\x80"]
    {
        for at in [0, 1, 3, text.len() / 2, text.len() - 1, text.len()] {
            add(cases, &[&text[..at], bad, &text[at..]].concat());
        }
        add(cases, &[b"[\"", bad, b"\"]"].concat());
        add(cases, &[b"nul", bad].concat());
    }
}

/// A text with a bit of everything: cut at every place, each byte left out, doubled, and replaced.
fn damaged(cases: &mut Cases) {
    let attrs = r#"{"a":[null,-1],"b":{"__entity":{"type":"B","id":"\n"}}}"#;
    let text = with_attrs(attrs);
    let text = text.as_bytes();
    add_with(cases, 2, text);
    for at in 0..text.len() {
        add(cases, &text[..at]);
        add(cases, &[&text[..at], &text[at + 1..]].concat());
        add(cases, &[&text[..at + 1], &text[at..]].concat());
        for byte in *b"\"\\[]{},: 0e-.\n" {
            // Some of them at each place.
            if (usize::from(byte) + at) % 8 == 0 {
                add(cases, &[&text[..at], &[byte], &text[at + 1..]].concat());
            }
        }
    }
}

fn random(cases: &mut Cases) {
    let mut random = Random::new(10);
    for _ in 0..180 {
        let seed = random.below(1 << 30) as u64;
        let text = CellsGrammar::new(Random::new(seed)).text();
        add(cases, text.as_bytes());
    }
}
