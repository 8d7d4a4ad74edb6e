//! Texts of entities JSON with what document 02 says of them (A2): for the self-test, and kept as vectors. A text that is read has the
//! entities of a log's envelope, which the Rust reads: that envelope is what is stated.

use Stated::{Envelope, Refused};

pub enum Stated {
    Refused(u8),
    /// The body of `entities(..)` in a log's line that has the same entities.
    Envelope(String),
}

pub struct Trap {
    pub text: String,
    pub stated: Stated,
}

pub const UID: &str = r#"{"type":"A","id":"1"}"#;
const OTHER: &str = r#"{"type":"B","id":"2"}"#;

/// An entity object, in the order in which the document names its members.
pub fn entity(uid: &str, attrs: &str, parents: &str) -> String {
    format!(r#"{{"uid":{uid},"attrs":{attrs},"parents":{parents}}}"#)
}

/// A text of one entity with these attrs.
pub fn with_attrs(attrs: &str) -> String {
    format!("[{}]", entity(UID, attrs, "[]"))
}

/// A text of one entity with one attribute.
pub fn with_value(value: &str) -> String {
    with_attrs(&format!(r#"{{"a":{value}}}"#))
}

/// A text of one entity with this type.
pub fn with_type(ty: &str) -> String {
    format!("[{}]", entity(&format!(r#"{{"type":"{ty}","id":"1"}}"#), "{}", "[]"))
}

/// The innermost in so many arrays.
pub fn arrays(levels: usize, innermost: &str) -> String {
    format!("{}{innermost}{}", "[".repeat(levels), "]".repeat(levels))
}

struct Traps(Vec<Trap>);

impl Traps {
    fn refused(&mut self, number: u8, texts: &[&str]) {
        let trap = |text: &&str| Trap { text: text.to_string(), stated: Refused(number) };
        self.0.extend(texts.iter().map(trap));
    }

    fn read(&mut self, text: &str, envelope: &str) {
        self.0.push(Trap { text: text.to_string(), stated: Envelope(envelope.to_string()) });
    }

    /// An attribute's value, and what it is in a log.
    fn value(&mut self, value: &str, in_log: &str) {
        self.read(&with_value(value), &format!(r#"A::"1":{{a:{in_log}}}"#));
    }
}

/// Each row of the request's table.
pub fn all() -> Vec<Trap> {
    let mut traps = Traps(Vec::new());
    syntax(&mut traps);
    members(&mut traps);
    names(&mut traps);
    references(&mut traps);
    depths(&mut traps);
    values(&mut traps);
    types(&mut traps);
    order(&mut traps);
    traps.0
}

fn syntax(traps: &mut Traps) {
    traps.refused(36, &["", "[]x", "\u{feff}[]", "[1,]", "[nul]", "[\"\t\"]", "[1"]);
    traps.read(" \t\r\n[ ] ", "");
    traps.refused(37, &["{}", "null", "[null]", &arrays(2_048, "")]);
    traps.refused(4, &[&"[".repeat(4_097)]);
    traps.refused(36, &[r#"[{"\udc00":1}]"#, r#"[1,"\ud800"]"#]);
    traps.refused(37, &["[\"\u{7f}\\/\\b\\f\"]"]);
}

fn members(traps: &mut Traps) {
    let first = entity(UID, "{}", "[]");
    let escaped = entity(r#"{"type":"A","id":"\u0031"}"#, "{}", "[]");
    traps.refused(34, &[&format!("[{first},{first}]"), &format!("[{first},{escaped}]")]);
    traps.read(
        r#"[{"attrs":{"a":1},"uid":{"id":"1","type":"A"},"parents":[{"id":"2","type":"B"}]}]"#,
        r#"A::"1":{a:1} in [B::"2"]"#,
    );
    traps.read(&format!("[{}]", first.replace("uid", r"u\u0069d")), r#"A::"1":{}"#);
    traps.refused(
        37,
        &[
            &format!("[{}]", first.replace(r#","parents":[]"#, "")),
            &format!("[{}]", first.replace("[]}", r#"[],"tags":{}}"#)),
            &format!("[{}]", first.replace(r#","attrs""#, &format!(r#","uid":{UID},"attrs""#))),
        ],
    );
}

fn names(traps: &mut Traps) {
    traps.refused(26, &[&with_attrs(r#"{"a":1,"\u0061":2}"#)]);
    traps.refused(37, &[&with_attrs(r#"{"a":1,"a":1.5}"#)]);
    traps.read(
        &with_attrs(r#"{"__entity_":1,"_entity":2,"extn":3}"#),
        r#"A::"1":{__entity_:1,_entity:2,extn:3}"#,
    );
}

fn references(traps: &mut Traps) {
    traps.value(&format!(r#"{{"\u005f_entity":{OTHER}}}"#), r#"B::"2""#);
    let alone = format!(r#"{{"__entity":{OTHER}}}"#);
    traps.refused(
        37,
        &[
            &with_attrs(&alone),
            &with_value(&alone.replace("{\"__", "{\"x\":1,\"__")),
            &with_value(&alone.replace("}}", "},\"x\":1}")),
            &with_value(r#"{"__entity":5}"#),
            &with_value(r#"{"__entity":{"type":"B"}}"#),
            &with_value(r#"{"__entity":{"type":" B","id":"2"}}"#),
            &with_value(&format!(r#"{{"__entity":{OTHER},"__entity":{OTHER}}}"#)),
        ],
    );
    traps.refused(26, &[&with_value(&format!(r#"{{"x":1,"x":2,"__entity":{OTHER}}}"#))]);
    traps.value(r#""Cell::\"x\"""#, r#""Cell::\"x\"""#);
}

fn depths(traps: &mut Traps) {
    traps.value(&arrays(128, ""), &arrays(128, ""));
    traps.refused(24, &[&with_value(&arrays(129, "")), &with_value(&arrays(128, "1.5"))]);
    traps.refused(37, &[&with_value(&arrays(127, "1.5"))]);
    traps.refused(37, &[&with_value(&arrays(127, r#"{"__extn":1}"#))]);
    let reference = format!(r#"{{"__entity":{OTHER}}}"#);
    traps.value(&arrays(127, &reference), &arrays(127, r#"B::"2""#));
    traps.refused(24, &[&with_value(&arrays(127, r#"{"x":1}"#))]);
    // Nothing has a depth here.
    let deep = arrays(200, "");
    traps.refused(
        37,
        &[
            &format!("[{}]", entity(&deep, "{}", "[]")),
            &format!("[{}]", entity(UID, "{}", &deep)),
            &format!("[{}]", entity(UID, &deep, "[]")),
        ],
    );
}

fn values(traps: &mut Traps) {
    for number in ["-0", "9223372036854775807", "-9223372036854775808"] {
        traps.value(number, number);
    }
    for number in ["9223372036854775808", "-9223372036854775809", "1.0", "1e2"] {
        traps.refused(37, &[&with_value(number)]);
    }
    traps.refused(36, &[&with_value("01"), &with_value("+1")]);
    traps.value(r#""\ud83d\ude00""#, "\"\u{1f600}\"");
    traps.refused(36, &[&with_value(r#""\ude00\ud83d""#)]);
    let id = "\u{7f}".repeat(4_000);
    let uid = format!(r#"{{"type":"A","id":"{id}"}}"#);
    traps.read(&format!("[{}]", entity(&uid, "{}", "[]")), &format!(r#"A::"{id}":{{}}"#));
}

fn types(traps: &mut Traps) {
    let parent = entity(UID, "{}", r#"[{"type":"\u3000","id":"2"}]"#);
    traps.refused(37, &[&with_type(" A"), &with_type(r"\u00a0A"), &format!("[{parent}]")]);
    traps.read(&with_type("").replace(r#""1""#, r#"" 1""#), r#"::" 1":{}"#);
    traps.read(&with_type("\u{feff}A"), "\u{feff}A::\"1\":{}");
    // A log would trim neither of these keys: the space stands inside.
    traps.read(&with_type("A ").replace(r#""1""#, r#"" 1""#), r#"A ::" 1":{}"#);
}

fn order(traps: &mut Traps) {
    let first = entity(UID, "{}", "[]");
    traps.refused(
        26,
        &[
            r#"[{"attrs":{"a":1,"a":2}}]"#,
            &format!("[{first},{}]", entity(UID, r#"{"a":1,"a":2}"#, "[]")),
        ],
    );
    traps.refused(37, &[&format!(r#"[{first},{{"uid":{UID},"attrs":{{}}}}]"#)]);
}
