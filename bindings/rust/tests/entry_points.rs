//! Every function, on texts whose answers are known.

use lulzhemor::{Entity, Refusal, RefusedLine, Tables, Value};

const EVENT: &str = r#"@-40 scope(principal: Planner::"night", resource: "site") entities(Cell::"K'7": {dug: true, at: {x: [1, null]}} in [Site::"A", Site::"B"], Site::"A": {}) request_context(urgent: false) Dig::Action::"release"::request(cell: Cell::"K\'7", depth: 12.50, parts: [1, [2, {a: "b,c"}], x], "q": {})"#;

fn entity(value: Value) -> (String, String) {
    match value {
        Value::Entity(Entity { ty, id }) => (ty.to_string(), id.to_string()),
        other => panic!("no entity: {other:?}"),
    }
}

#[test]
fn an_event_is_seen_whole() {
    let mut tables = Tables::new();
    let event = tables.read_line(EVENT.as_bytes()).unwrap().unwrap();
    assert_eq!(event.time(), -40);
    assert_eq!(
        entity(event.principal().unwrap()),
        ("Planner".into(), "night".into())
    );
    assert!(matches!(event.resource(), Some(Value::String("site"))));
    assert_eq!(event.namespace().collect::<Vec<_>>(), ["Dig", "Action"]);
    assert_eq!((event.action(), event.kind()), ("release", "request"));
    assert_eq!(
        format!("{:?}", event.context()),
        r#"{"urgent": Bool(false)}"#
    );
    assert_eq!(
        format!("{:?}", event.logged()),
        r#"{"cell": Entity(Entity { ty: "Cell", id: "K'7" }), "depth": Decimal("12.50"), "parts": Array([Integer(1), Array([Integer(2), Record({"a": String("b,c")})]), String("x")]), "\"q\"": Record({})}"#
    );
    assert_eq!(event.logged().len(), 4);
    assert!(matches!(
        event.logged().get("depth"),
        Some(Value::Decimal("12.50"))
    ));
    assert!(event.logged().get("q").is_none());
}

#[test]
fn entries_have_key_record_and_parents() {
    let mut tables = Tables::new();
    let event = tables.read_line(EVENT.as_bytes()).unwrap().unwrap();
    let entries: Vec<_> = event.entities().collect();
    assert_eq!(entries.len(), 2);
    assert_eq!(entries[0].key, r#"Cell::"K\'7""#);
    assert_eq!(
        format!("{:?}", entries[0].record),
        r#"{"dug": Bool(true), "at": Record({"x": Array([Integer(1), Null])})}"#
    );
    let parents: Vec<_> = entries[0].parents.clone().map(entity).collect();
    assert_eq!(
        parents,
        [("Site".into(), "A".into()), ("Site".into(), "B".into())]
    );
    assert_eq!(entries[1].key, r#"Site::"A""#);
    assert_eq!((entries[1].record.len(), entries[1].parents.len()), (0, 0));
}

#[test]
fn absent_parts_are_none_and_empty() {
    let mut tables = Tables::new();
    let event = tables.read_line(br#"@0 ::""::k()"#).unwrap().unwrap();
    assert!(event.principal().is_none() && event.resource().is_none());
    assert_eq!(event.namespace().collect::<Vec<_>>(), [""]);
    assert_eq!((event.action(), event.kind()), ("", "k"));
    assert_eq!(
        (
            event.logged().len(),
            event.context().len(),
            event.entities().len()
        ),
        (0, 0, 0)
    );
}

#[test]
fn blank_and_refused_lines_give_no_event() {
    let mut tables = Tables::new();
    assert!(
        tables
            .read_line(" \u{3000}\n".as_bytes())
            .unwrap()
            .is_none()
    );
    assert_eq!(
        tables.read_line(b"@0 )(").unwrap_err(),
        Refusal::EVENT_OUT_OF_ORDER
    );
    assert_eq!(tables.read_line(b"\xff").unwrap_err(), Refusal::NOT_UTF8);
    assert_eq!(
        tables.read_line(&[b'@'; 4097]).unwrap_err(),
        Refusal::LINE_TOO_LONG
    );
    assert_eq!(
        tables.read_line(&[b' '; 65537]).unwrap_err(),
        Refusal::TEXT_TOO_LONG
    );
}

#[test]
fn a_log_is_judged_and_its_lines_are_read() {
    let log = "\u{FEFF}@1 A::\"b\"::c()\r\n\n@2 A::\"b\"::c(x: 5)\n";
    let mut tables = Tables::new();
    assert_eq!(tables.judge(log.as_bytes()), Ok(2));
    let mut times = Vec::new();
    for line in lulzhemor::lines(log) {
        if let Some(event) = tables.read_line(line.as_bytes()).unwrap() {
            times.push(event.time());
        }
    }
    assert_eq!(times, [1, 2]);
    let refused = RefusedLine {
        refusal: Refusal::EVENT_UNOPENED,
        line: 4,
    };
    assert_eq!(tables.judge(format!("{log}@3 x").as_bytes()), Err(refused));
    assert_eq!(refused.to_string(), "refused 16 line 4: the event has no (");
    let whole = RefusedLine {
        refusal: Refusal::TEXT_TOO_LONG,
        line: 0,
    };
    assert_eq!(tables.judge(&[b'\n'; 65537]), Err(whole));
}

#[test]
fn an_event_is_listed() {
    let mut tables = Tables::new();
    let mut out = [0; 1024];
    let line = br#"@40 entities(Cell::"K'7": {dug: true} in [Si'te::"A"]) Dig::Action::"release"::request(b: [1, x], a: null)"#;
    let listing = r#"event 7 at 40
name "Dig" "Action"
action "release"
kind "request"
logged {"a":null,"b":[i1,s"x"]}
context {}
entity "Cell::\"K\\\'7\"" {"dug":true} [e"Si\'te" "A"]
"#;
    assert_eq!(tables.list_line(&mut out, line, 7), Ok(Some(listing)));
    assert_eq!(
        tables.list_line(&mut out[..listing.len()], line, 7),
        Ok(Some(listing))
    );
    assert_eq!(
        tables.list_line(&mut out[..listing.len() - 1], line, 7),
        Err(Refusal::OUTPUT_TOO_SHORT)
    );
    assert_eq!(tables.list_line(&mut out, b"", 7), Ok(None));
}

#[test]
fn texts_are_cut_decoded_and_spelled() {
    assert!(lulzhemor::is_utf8("é".as_bytes()) && !lulzhemor::is_utf8(b"\xc3"));
    let mut places = [0; 2];
    assert_eq!(
        lulzhemor::cut_body(&mut places, br#"a,(b,c),"d,e""#),
        Ok(&[1, 7][..])
    );
    assert_eq!(lulzhemor::cut_body(&mut places, b"),a"), Ok(&[][..]));
    assert_eq!(
        lulzhemor::cut_body(&mut places, b"a,b,c,d"),
        Err(Refusal::OUTPUT_TOO_SHORT)
    );
    let mut out = [0; 64];
    assert_eq!(
        lulzhemor::decode(&mut out, br"\u{4_1}\u{_41}\x4"),
        Ok("A\\u{_41}\u{4}")
    );
    let key = lulzhemor::spell_key(&mut out, b"Cell", b"K'7")
        .unwrap()
        .to_string();
    assert_eq!(key, r#"Cell::"K\'7""#);
    let mut id = [0; 64];
    let id = lulzhemor::decode(&mut id, br"K\'7").unwrap();
    assert_eq!(
        lulzhemor::spell_key(&mut out, b"Cell", id.as_bytes()),
        Ok(key.as_str())
    );
    assert_eq!(
        lulzhemor::spell_key(&mut out, b"Cell", &[b'a'; 4097]),
        Err(Refusal::LINE_TOO_LONG)
    );
}

/// The listing of a line as the event with the largest number, in an output of so many bytes.
fn listed(room: usize, line: &str) -> Result<String, Refusal> {
    let mut out = vec![77; room];
    let listing = Tables::new().list_line(&mut out, line.as_bytes(), u64::MAX);
    let listing = listing.map(|listing| listing.expect("an event").to_string());
    if listing.is_err() {
        assert!(out.iter().all(|byte| *byte == 77));
    }
    listing
}

/// The longest line, whose every character lists as six bytes.
#[test]
fn a_long_listing_has_room() {
    let wide = lulzhemor::LINE_LIMIT - r#"@1 ::""::k(:)"#.len();
    let line = format!(r#"@1 ::""::k({}:)"#, "\u{7f}".repeat(wide));
    let listing = format!(
        "event {} at 1\nname \"\"\naction \"\"\nkind \"k\"\nlogged {{\"{}\":s\"\"}}\ncontext {{}}\n",
        u64::MAX,
        r"\u{7f}".repeat(wide)
    );
    assert_eq!(listed(lulzhemor::LISTING_ROOM, &line), Ok(listing));
}

/// A character of an id is escaped in the stored key, and the key where it lists: seven bytes.
#[test]
fn an_id_is_escaped_twice() {
    let wide = lulzhemor::LINE_LIMIT - r#"@0 entities(::"":{})::""::k()"#.len();
    let line = format!(
        r#"@0 entities(::"{}":{{}})::""::k()"#,
        "\u{7f}".repeat(wide)
    );
    let listing = listed(lulzhemor::LISTING_ROOM, &line).expect("no refusal");
    let entity = format!(
        "\nentity \"::\\\"{}\\\"\" {{}} []\n",
        r"\\u{7f}".repeat(wide)
    );
    assert!(listing.ends_with(&entity));
    assert_eq!(listing.len(), 28_571);
    assert_eq!(listed(28_571, &line), Ok(listing));
    assert_eq!(listed(28_570, &line), Err(Refusal::OUTPUT_TOO_SHORT));
}

/// Seven bytes for each of a line, and one: a line that lists in so many, and the room that is enough for all.
#[test]
fn no_listing_is_longer() {
    let tight = "@0 ::\"\"::\u{7f}()";
    let listing = listed(lulzhemor::LISTING_ROOM, tight).expect("no refusal");
    assert_eq!(listing.len(), 7 * tight.len() + 1);
    assert_eq!(lulzhemor::LISTING_ROOM, 7 * lulzhemor::LINE_LIMIT + 1);
}
