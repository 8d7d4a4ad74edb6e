//! Entities JSON, on texts whose answers are known, and beside a log's line of the same entities.

use lulzhemor::{Entities, JSON_LIMIT, Refusal, Tables};

const MANUAL: &str = include_str!("../../../docs/MANUAL.md");
const UID: &str = r#"{"type":"A","id":"1"}"#;

/// Each entry with its record and its parents.
fn printed(entries: Entities) -> String {
    format!("{entries:?}")
}

/// What a text gives, or its refusal.
fn read(text: &str) -> Result<String, Refusal> {
    Tables::new().read_entities(text.as_bytes()).map(printed)
}

/// What a line gives whose body of entities this is.
fn in_a_line(body: &str) -> Result<String, Refusal> {
    let line = format!("@0 entities({body}) ::\"\"::k()");
    let mut tables = Tables::new();
    let event = tables.read_line(line.as_bytes())?;
    Ok(printed(event.expect("an event").entities()))
}

/// An entity object with these members.
fn entity(uid: &str, attrs: &str, parents: &str) -> String {
    format!(r#"{{"uid":{uid},"attrs":{attrs},"parents":{parents}}}"#)
}

/// A text of one entity with these attributes.
fn with(attrs: &str) -> String {
    format!("[{}]", entity(UID, attrs, "[]"))
}

/// The same attributes, of which there is one.
fn with_value(value: &str) -> String {
    with(&format!(r#"{{"a":{value}}}"#))
}

/// The innermost in so many arrays.
fn nested(levels: usize, innermost: &str) -> String {
    format!("{}{innermost}{}", "[".repeat(levels), "]".repeat(levels))
}

#[test]
fn a_text_gives_what_a_line_gives() {
    for (text, body) in [
        (" \t\r\n[ ] ".to_string(), ""),
        (
            with(r#"{"n":null,"t":true,"f":false,"i":-0,"s":"\ud83d\ude00","l":[[],{}],"r":{"x":9223372036854775807}}"#),
            r#"A::"1": {n: null, t: true, f: false, i: 0, s: "\u{1f600}", l: [[], {}], r: {x: 9223372036854775807}}"#,
        ),
        (
            r#"[{"parents":[{"id":"2","type":"B"}],"attrs":{"a":{"\u005f_entity":{"type":"B","id":"2"}}},"uid":{"id":"K\u00277","type":"Cell"}}]"#
                .to_string(),
            r#"Cell::"K'7": {a: B::"2"} in [B::"2"]"#,
        ),
        (
            format!(
                "[{},{}]",
                entity(UID, "{}", "[]"),
                entity(&UID.replace('1', ""), "{}", "[]")
            ),
            r#"A::"1": {}, A::"": {}"#,
        ),
        (with(r#"{"__entity_":1,"_entity":2,"extn":3}"#), r#"A::"1": {__entity_: 1, _entity: 2, extn: 3}"#),
        (with_value(r#""Cell::\"x\"""#), r#"A::"1": {a: "Cell::\"x\""}"#),
    ] {
        let given = read(&text);
        assert!(given.is_ok(), "{text}");
        assert_eq!(given, in_a_line(body), "{text}");
    }
}

/// A name once, in whatever order: the entries are the same.
#[test]
fn members_stand_in_any_order() {
    let members = [
        format!(r#""uid":{UID}"#),
        r#""attrs":{"a":1}"#.to_string(),
        format!(r#""parents":[{UID}]"#),
    ];
    let in_order = |order: [usize; 3]| {
        let [first, second, third] = order.map(|at| &members[at]);
        read(&format!("[{{{first},{second},{third}}}]"))
    };
    let usual = in_order([0, 1, 2]);
    assert!(usual.is_ok());
    for order in [[0, 2, 1], [1, 0, 2], [1, 2, 0], [2, 0, 1], [2, 1, 0]] {
        assert_eq!(in_order(order), usual, "{order:?}");
    }
}

#[test]
fn the_first_refusal_by_place_is_the_answer() {
    let twice = entity(&UID.replace('1', r"\u0031"), "{}", "[]");
    for (number, text) in [
        (Refusal::VALUE_TOO_DEEP, with_value(&nested(129, ""))),
        (Refusal::VALUE_TOO_DEEP, with_value(&nested(128, "1.5"))),
        (Refusal::NOT_ENTITIES, with_value(&nested(127, "1.5"))),
        (Refusal::DUPLICATE_FIELD, with(r#"{"a":1,"\u0061":2}"#)),
        (Refusal::NOT_ENTITIES, with(r#"{"a":1,"a":1.5}"#)),
        (
            Refusal::DUPLICATE_FIELD,
            r#"[{"attrs":{"a":1,"a":2}}]"#.to_string(),
        ),
        (
            Refusal::DUPLICATE_KEY,
            format!("[{},{twice}]", entity(UID, "{}", "[]")),
        ),
        (
            Refusal::NOT_ENTITIES,
            format!(
                r#"[{},{{"uid":{UID},"attrs":{{}}}}]"#,
                entity(UID, "{}", "[]")
            ),
        ),
    ] {
        assert_eq!(read(&text), Err(number), "{text}");
    }
    let deepest = with_value(&nested(128, ""));
    let in_line = format!(r#"A::"1": {{a: {}}}"#, nested(128, ""));
    assert_eq!(read(&deepest), in_a_line(&in_line));
}

/// No JSON is met before anything else of the text, however late it stands.
#[test]
fn what_is_no_json_is_refused() {
    for text in [
        "",
        "[]x",
        "\u{feff}[]",
        "[1,]",
        "[nul]",
        "[\"\t\"]",
        "[1",
        "[01]",
        "[+1]",
        r#"[{"\udc00":1}]"#,
        r#"[1,"\ud800"]"#,
        r#"["\ude00\ud83d"]"#,
    ] {
        assert_eq!(read(text), Err(Refusal::NOT_JSON), "{text}");
    }
}

#[test]
fn another_shape_is_refused() {
    let one = entity(UID, "{}", "[]");
    let mut texts = vec![
        "{}".to_string(),
        "null".to_string(),
        "[null]".to_string(),
        nested(JSON_LIMIT / 2, ""),
        format!("[{}]", one.replace(r#","parents":[]"#, "")),
        format!("[{}]", one.replace("[]}", r#"[],"tags":{}}"#)),
        format!(
            "[{}]",
            one.replace("{\"uid\"", &format!("{{\"uid\":{UID},\"uid\""))
        ),
        format!("[{}]", one.replace("\"1\"", "1")),
        with(&format!(r#"{{"__entity":{UID}}}"#)),
        with(r#"{"__extn":{"fn":"ip","arg":"::1"}}"#),
        format!(
            "[{}]",
            entity(UID, "{}", &format!(r#"[{{"__entity":{UID}}}]"#))
        ),
    ];
    for value in [
        "1.0",
        "1e2",
        "9223372036854775808",
        r#"{"x":{"__extn":1}}"#,
        r#"{"__entity":5}"#,
        r#"{"__entity":{"type":"B"}}"#,
        r#"{"x":1,"__entity":{"type":"B","id":"2"}}"#,
        r#"{"__entity":{"type":"B","id":"2"},"x":1}"#,
        r#"{"__entity":{"type":"\u00a0B","id":"2"}}"#,
    ] {
        texts.push(with_value(value));
    }
    for text in texts {
        assert_eq!(read(&text), Err(Refusal::NOT_ENTITIES), "{text}");
    }
}

/// White space of a type counts at its start alone, and in an id nowhere.
#[test]
fn a_type_does_not_begin_with_white_space() {
    let typed = |ty: &str| read(&format!("[{}]", entity(&UID.replace('A', ty), "{}", "[]")));
    for ty in [" A", "\u{a0}A", r"\u3000", r"\nA"] {
        assert_eq!(typed(ty), Err(Refusal::NOT_ENTITIES), "{ty}");
    }
    for ty in ["A ", "\u{feff}A", "", r"\u200bA"] {
        assert!(typed(ty).is_ok(), "{ty}");
    }
    assert!(
        read(&format!(
            "[{}]",
            entity(&UID.replace('1', " 1 "), "{}", "[]")
        ))
        .is_ok()
    );
}

#[test]
fn the_limits_are_on_the_whole_text() {
    let padded = |size: usize| format!("[]{}", " ".repeat(size - 2));
    assert_eq!(read(&padded(JSON_LIMIT)), Ok("[]".to_string()));
    assert_eq!(read(&padded(JSON_LIMIT + 1)), Err(Refusal::LINE_TOO_LONG));
    assert_eq!(
        read(&padded(lulzhemor::TEXT_LIMIT)),
        Err(Refusal::LINE_TOO_LONG)
    );
    assert_eq!(
        read(&padded(lulzhemor::TEXT_LIMIT + 1)),
        Err(Refusal::TEXT_TOO_LONG)
    );
    let refused = Tables::new().read_entities(b"[\xff").map(printed);
    assert_eq!(refused, Err(Refusal::NOT_UTF8));
}

/// An id of 4,000 characters, each of which its key has as six bytes.
#[test]
fn a_key_may_be_longer_than_a_line() {
    let uid = UID.replace('1', &"\u{7f}".repeat(4_000));
    let text = format!("[{}]", entity(&uid, "{}", "[]"));
    let mut tables = Tables::new();
    let entry = tables.read_entities(text.as_bytes()).unwrap().next();
    assert_eq!(
        entry.unwrap().key,
        format!("A::\"{}\"", r"\u{7f}".repeat(4_000))
    );
}

/// One set of tables serves lines and exports, in any order.
#[test]
fn tables_keep_nothing() {
    let mut tables = Tables::new();
    let text = with(r#"{"a":"b"}"#);
    for _ in 0..2 {
        assert!(tables.read_line(br#"@7 A::"b"::c(x: "long text")"#).is_ok());
        let entries = tables.read_entities(text.as_bytes()).map(printed);
        assert_eq!(entries, in_a_line(r#"A::"1": {a: b}"#));
        assert!(tables.read_entities(b"{}").is_err());
        assert_eq!(
            tables.read_entities(b"[]").map(|entries| entries.len()),
            Ok(0)
        );
    }
}

/// The first block of this language in the manual.
fn block(language: &str) -> &'static str {
    let (_, below) = MANUAL
        .split_once(&format!("```{language}\n"))
        .expect("a block");
    below.split("```").next().expect("its end")
}

#[test]
fn the_manual_has_an_export_and_its_cells() {
    let mut tables = Tables::new();
    let entries = tables.read_entities(block("json").as_bytes()).unwrap();
    let cells: String = entries
        .map(|entry| format!("{} {:?} in {:?}\n", entry.key, entry.record, entry.parents))
        .collect();
    assert_eq!(cells, block("cells"));
}
