//! What document 01 says of the Rust, and the odd cases of its reading, checked by running it. A
//! fact is a name (the input, as far as it can be printed), what the oracle gives, and what is stated.

use crate::cells_traps::{self, Stated, Trap};
use crate::limits::{self, LINE, TEXT};
use crate::pack::Pack;
use crate::{answers, cells, hex, ranges};

struct Facts {
    count: usize,
    failures: String,
}

impl Facts {
    fn holds(&mut self, name: &str, given: impl Into<String>, stated: impl Into<String>) {
        let (given, stated) = (given.into(), stated.into());
        self.count += 1;
        if given != stated {
            let text = format!("fact {name}\n  stated: {stated:?}\n  given:  {given:?}\n");
            self.failures += &text;
        }
    }

    /// A line that must be refused. `@0 ` is put in front.
    fn refused(&mut self, rest: &str, number: u8) {
        let line = format!("@0 {rest}");
        self.holds(&line, pack(&line), format!("refused {number}\n"));
    }

    /// What the logged group of `::""::k(..)` prints as.
    fn logged(&mut self, group: &str, printed: &str) {
        let line = format!("@0 ::\"\"::k({group})");
        self.holds(&line, part(&line, "logged "), printed);
    }

    /// What a value prints as, inside a record.
    fn value(&mut self, value: &str, printed: &str) {
        self.logged(&format!("v:{value}"), &format!("{{\"v\":{printed}}}"));
    }

    fn decodes(&mut self, text: &str, to: &str) {
        let given = answers::decoded(text.as_bytes()).unwrap();
        self.holds(&format!("decode {text}"), given, to);
    }

    fn cuts(&mut self, body: &str, places: &str) {
        self.holds(&format!("cuts {body}"), answers::cuts(body.as_bytes()), places);
    }
}

fn pack(line: &str) -> String {
    answers::pack(line.as_bytes())
}

/// The rest of the listing's line that begins so, or the whole listing where none does.
fn part(line: &str, begins: &str) -> String {
    let listing = answers::line(line.as_bytes(), 1);
    let found = listing.lines().find_map(|l| l.strip_prefix(begins));
    found.map(str::to_string).unwrap_or(listing)
}

/// `oracle: N facts, all as stated`, or the facts that do not hold.
pub fn report() -> Result<String, String> {
    let mut facts = Facts { count: 0, failures: String::new() };
    worked_example(&mut facts);
    proof_set(&mut facts);
    rules_and_traps(&mut facts);
    values(&mut facts);
    names(&mut facts);
    entries(&mut facts);
    lines_and_heads(&mut facts);
    whitespace(&mut facts);
    sizes(&mut facts);
    decodings_and_numbers(&mut facts);
    packs(&mut facts);
    cells(&mut facts);
    escape_debug(&mut facts);
    if facts.failures.is_empty() {
        Ok(format!("oracle: {} facts, all as stated\n", facts.count))
    } else {
        Err(facts.failures)
    }
}

fn worked_example(facts: &mut Facts) {
    let log = r#"@40 scope(principal: Planner::"night") entities(Cell::"K'7": {dug: true}) Dig::Action::"release"::request(cell: Cell::"K\'7", depth: 12.50)"#;
    let listing = r#"event 1 at 40
principal e"Planner" "night"
name "Dig" "Action"
action "release"
kind "request"
logged {"cell":e"Cell" "K\'7","depth":d"12.50"}
context {}
entity "Cell::\"K\\\'7\"" {"dug":true} []
events 1
"#;
    facts.holds("01's worked example, its line 8 as 02 has it", answers::night_listing(log.as_bytes()), listing);
}

/// The twelve of 01's proof set, in its order.
fn proof_set(facts: &mut Facts) {
    facts.decodes(r"\u{4_1}", "A");
    facts.decodes(r"\u{_41}", r"\u{_41}");
    facts.decodes(r"\u{+41}", "A");
    facts.decodes(r"\x4", "\u{4}");
    facts.cuts("", "\n");
    facts.cuts(r#"a,(b,c),"d,e""#, "1 7\n");
    facts.cuts("),a", "\n");
    facts.refused(")(", 18);
    for id in ["K'7", r"K\'7"] {
        let line = format!("@0 entities(Cell::\"{id}\":{{}})::\"\"::k()");
        facts.holds(&line, part(&line, "entity "), r#""Cell::\"K\\\'7\"" {} []"#);
    }
    facts.value(r#""x::""#, r#"s"x::""#);
    facts.value("9223372036854775808", r#"s"9223372036854775808""#);
    facts.value("+5", "i5");
    facts.value(".5", r#"d".5""#);
    facts.value(".", r#"s".""#);
}

fn rules_and_traps(facts: &mut Facts) {
    let nested = |inside: &str| format!("v:{}{inside}{}", "[".repeat(129), "]".repeat(129));
    let line = format!("@0 ::\"\"::k({})", nested(""));
    let printed = format!("{{\"v\":{}{}}}", "[".repeat(129), "]".repeat(129));
    facts.holds("129 nested empty arrays", part(&line, "logged "), printed);
    facts.refused(&format!("::\"\"::k({})", nested("1")), 24);
    let line = r#"@0 scope(principal: User::"a)b")"#;
    facts.holds(line, pack(line), "refused 16\n");
    let line = r#"@0 scope(principal: User::"a)b") ::""::k()"#;
    facts.holds(line, part(line, "principal "), r#"s"User::\"a""#);
    facts.logged(r#""a": 1"#, r#"{"\"a\"":i1}"#);
    facts.decodes(r"\xff", "\u{ff}");
    facts.decodes(r"\u{0000041}", "A");
    let line = r#"@+7 ::""::k() text behind"#;
    facts.holds(line, part(line, "event 1 at "), "7");
    facts.logged("b:1,,a:2,", r#"{"a":i2,"b":i1}"#);
    facts.decodes(r"\u{41", r"\u{41");
    facts.decodes(r"\u{110000}\n", "\\u{110000}\n");
}

fn values(facts: &mut Facts) {
    facts.value(r#""\""#, r#"s"\\""#);
    facts.value(r#"""""#, r#"s"\"""#);
    facts.value("\"", r#"s"\"""#);
    facts.value(r"\n", r#"s"\\n""#);
    facts.value("[b]c]", r#"[s"b]c"]"#);
    facts.value(r#""x::"y""#, r#"e"\"x" "y""#);
    facts.value(r#"A" "b",e"C::"d""#, r#"e"A\" \"b\",e\"C" "d""#);
    facts.value(r#"\n::"b""#, r#"e"\\n" "b""#);
    facts.value("-0", "i0");
    for decimal in ["1.", "1.e1", "+.5"] {
        facts.value(decimal, &format!("d\"{decimal}\""));
    }
    for bare in [".e1", "1e1", "inf"] {
        facts.value(bare, &format!("s\"{bare}\""));
    }
}

fn names(facts: &mut Facts) {
    facts.logged(":", r#"{"":s""}"#);
    facts.logged(r"\x41:1", r#"{"\\x41":i1}"#);
    facts.value(r"{\x41:1}", r#"{"A":i1}"#);
    facts.value(r#"{"\x41":1}"#, r#"{"A":i1}"#);
    facts.refused(r#"scope(a:1,a:2)::""::k()"#, 23);
    facts.refused(r#"::""::k(a:1,a:{b})"#, 25);
    let line = r#"@0 scope( principal :null)::""::k()"#;
    facts.holds(line, part(line, "principal "), "null");
}

fn entries(facts: &mut Facts) {
    let head = r#"::""::k()"#;
    let envelopes = [
        ("entities(])", 14),
        ("request_context(])", 15),
        ("entities(][)", 27),
        ("entities(:{])", 29),
        (r#"entities(::"":{a:(}))"#, 30),
        (r#"entities(::"":{}in)"#, 31),
        (r#"entities(::"":{}inx)"#, 31),
        (r#"entities(::"":{}i)"#, 30),
        (r#"entities(::""::{})"#, 33),
        ("entities([{a}]:{})", 25),
        ("entities(x:{}y)", 30),
        (r#"entities(::"":{},::"":{}in[1])"#, 32),
        (r#"entities(::"":{},::"":{})"#, 34),
        ("entities(x{})", 28),
    ];
    for (envelope, number) in envelopes {
        facts.refused(&format!("{envelope}{head}"), number);
    }
    // The first of two, by their stored keys.
    let line = r#"@0 entities(A::"x":{},'::"x":{})::""::k()"#;
    facts.holds(line, part(line, "entity "), r#""\'::\"x\"" {} []"#);
}

fn lines_and_heads(facts: &mut Facts) {
    let lines = [("x", 10), ("@x", 11), ("@", 11), ("@ 0", 12), ("@x 0", 12)];
    for (line, number) in lines {
        facts.holds(line, pack(line), format!("refused {number}\n"));
    }
    let rests = [
        (")", 16),
        ("(", 17),
        (r#"::"("::k()"#, 20),
        ("x)(", 18),
        ("x(a)", 19),
        (r#"::""(a)"#, 21),
        ("scope(", 13),
        ("entities(", 14),
        ("request_context(", 15),
        (r#"::""::k(a)"#, 22),
    ];
    for (rest, number) in rests {
        facts.refused(rest, number);
    }
    let heads = [
        (r#"::""::k)()"#, "kind ", r#""k)""#),
        (r#"::""::::k()"#, "kind ", r#""::k""#),
        (r#":::""::k()"#, "name ", r#"":""#),
        (r#"A :: B::""::k()"#, "name ", r#""A " " B""#),
        (r#"::""::k()"#, "name ", r#""""#),
    ];
    for (rest, begins, printed) in heads {
        let line = format!("@0 {rest}");
        facts.holds(&line, part(&line, begins), printed);
    }
}

fn whitespace(facts: &mut Facts) {
    let event = "::\"\"::k()";
    for inside in ["\r", "\u{b}", "\u{85}", "\u{2028}"] {
        let log = format!("@0{inside}{event}{inside}\n{inside}@1 x");
        facts.holds(&log, answers::judge(log.as_bytes()), "refused 16 line 2\n");
    }
    for other in ["\u{200b}", "\u{1c}", "\u{feff}"] {
        let log = format!("{other}@0 {event}");
        let stated = if other == "\u{feff}" { "events 1\n" } else { "refused 10 line 1\n" };
        facts.holds(&log, answers::judge(log.as_bytes()), stated);
        facts.holds(&log, pack(&log), "refused 10\n");
    }
    let twice = format!("\u{feff}\u{feff}@0 {event}");
    facts.holds(&twice, answers::judge(twice.as_bytes()), "refused 10 line 1\n");
    let one_line = format!("@0\n{event}\n");
    facts.holds(
        &one_line,
        answers::line(one_line.as_bytes(), 1),
        answers::line(format!("@0 {event}").as_bytes(), 1),
    );
}

fn sizes(facts: &mut Facts) {
    let empty = "@0 ::\"\"::k(v:)";
    let filled =
        |total: usize| empty.replace("v:", &format!("v:{}", "x".repeat(total - empty.len())));
    let judged = |text: &str| answers::judge(text.as_bytes());
    facts.holds("a line of 4,096 bytes", judged(&filled(LINE)), "events 1\n");
    facts.holds("a line of 4,097 bytes", judged(&filled(LINE + 1)), "refused 4 line 1\n");
    let spaced = format!("\n {} \n", filled(LINE));
    facts.holds("4,096 bytes after trimming", judged(&spaced), "events 1\n");
    facts.holds("blank, over 4,096 bytes", judged(&" ".repeat(LINE + 1)), "events 0\n");
    facts.holds("65,536 bytes", judged(&" ".repeat(TEXT)), "events 0\n");
    facts.holds("65,537 bytes", judged(&" ".repeat(TEXT + 1)), "refused 2 line 0\n");
    let marked = |spaces: usize| format!("\u{feff}{}", " ".repeat(spaces));
    facts.holds("65,536 bytes with U+FEFF", judged(&marked(TEXT - 3)), "events 0\n");
    facts.holds("65,537 bytes with U+FEFF", judged(&marked(TEXT - 2)), "refused 2 line 0\n");
    facts.holds("bad UTF-8", answers::judge(b"x\n\xff"), "refused 3 line 0\n");
    let listed = |line: &str| answers::line(line.as_bytes(), u64::MAX).len().to_string();
    facts.holds("the listing of 12 bytes", listed("@0 ::\"\"::\u{7f}()"), "85");
    let id = "\u{7f}".repeat(LINE - 29);
    let line = format!("@0 entities(::\"{id}\":{{}})::\"\"::k()");
    facts.holds("the listing of 4,096 bytes", listed(&line), "28571");
}

fn decodings_and_numbers(facts: &mut Facts) {
    facts.decodes(r"\u{+_41}", "A");
    facts.decodes(r"\u{4_}", "\u{4}");
    facts.decodes(r"\u{000000041}", "A");
    facts.decodes(r"\u{-0}", r"\u{-0}");
    facts.decodes(r#"\"\\\'\n\t\r\0\q"#, "\"\\'\n\t\r\0\\q");
    for (at, number) in [
        ("9223372036854775807", true),
        ("-9223372036854775808", true),
        ("-9223372036854775809", false),
    ] {
        let printed = if number { format!("i{at}") } else { format!("s\"{at}\"") };
        facts.value(at, &printed);
    }
}

fn packs(facts: &mut Facts) {
    let tightest = "@0 ::\"\"::k(:)";
    let nodes = [4u64, 0, 0, 8, 10, 10, 10, 9, 10, 6, 9, 9];
    // An empty text behind the kind's one byte still carries where it stands.
    let behind = 1u64 << 32;
    let numbers = [0, 0, 0, 1, 0, 0, 1, 1, behind, behind, 0, 0];
    let mut stated = "nodes 12 texts 1\n".to_string();
    for (kind, number) in nodes.iter().zip(numbers) {
        stated += &format!("{kind} {number}\n");
    }
    stated += &format!("{}\n", hex::spell(b"k"));
    facts.holds(tightest, pack(tightest), stated);
    facts.holds("a blank line", pack(" \n "), "blank\n");
    let below_zero = format!("nodes 1 texts 0\n4 {}\n-\n", u64::MAX);
    facts.holds("value -1", answers::value(b"-1"), below_zero);
    let written = answers::value(b"{b:1,a:2}");
    facts.holds(
        "fields in written order",
        written,
        "nodes 5 texts 2\n9 2\n10 1\n4 1\n10 4294967297\n4 2\n6261\n",
    );
}

/// Entities JSON: what is stated of each trap, and the nodes before the entities.
fn cells(facts: &mut Facts) {
    let nothing = "nodes 9 texts 0\n0 0\n0 0\n0 0\n8 0\n10 0\n10 0\n9 0\n9 0\n9 0\n-\n";
    facts.holds("no entities", answers::cells(b"[]"), nothing);
    for (text, number) in [(&b"[\xff]"[..], 3), (&[b' '; TEXT + 1], 2), (&[b' '; LINE + 1], 4)] {
        let name = format!("{} bytes of JSON", text.len());
        facts.holds(&name, answers::cells(text), format!("refused {number}\n"));
    }
    for Trap { text, stated } in cells_traps::all() {
        let name: String = text.chars().take(200).collect();
        let read = cells::pack(text.as_bytes());
        match stated {
            Stated::Refused(number) => {
                let given = read.map_or_else(|n| format!("refused {n}"), |_| "a pack".to_string());
                facts.holds(&name, given, format!("refused {number}"));
            }
            Stated::Envelope(body) => {
                let given = read.map(|pack| pack.entities_alone().print());
                facts.holds(
                    &name,
                    format!("{given:?}"),
                    format!("{:?}", Ok::<_, u8>(envelope(&body))),
                );
            }
        }
    }
}

/// The entities of a line with this envelope.
fn envelope(body: &str) -> String {
    let line = format!("@0 entities({body})::\"\"::k()");
    let (trimmed, event) = limits::line(line.as_bytes()).expect("a line").expect("an event");
    Pack::of_event(trimmed, &event).entities_alone().print()
}

fn escape_debug(facts: &mut Facts) {
    let count = |ranges: Vec<ranges::Range>| ranges.len().to_string();
    facts.holds("ranges escaped anywhere", count(ranges::anywhere()), "745");
    facts.holds("ranges escaped first only", count(ranges::first_only()), "381");
    let forms: Vec<String> = ranges::short().into_iter().map(|(_, form)| form).collect();
    facts.holds("short escapes", forms.join(" "), r#"\0 \t \n \r \" \' \\"#);
    let back = |c: char| {
        let id = format!("{c}a{c}");
        answers::decoded(id.escape_debug().to_string().as_bytes()) == Ok(id)
    };
    let lost: String = ('\0'..=char::MAX).filter(|c| !back(*c)).collect();
    facts.holds("every character's escape decodes to it", lost, "");
}
