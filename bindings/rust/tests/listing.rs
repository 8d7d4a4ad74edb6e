//! The listing of an event, printed from its view, is the one that `list_line` writes: the view walks to every node.

use lulzhemor::{Entity, Event, Fields, Items, Tables, Value};

fn quoted(text: &str) -> String {
    format!("\"{}\"", text.escape_debug())
}

fn array(items: Items) -> String {
    format!("[{}]", items.map(value).collect::<Vec<_>>().join(","))
}

/// Fields print by ascending name.
fn record(fields: Fields) -> String {
    let mut fields: Vec<_> = fields.collect();
    fields.sort_by_key(|(name, _)| *name);
    let field = |(name, v)| format!("{}:{}", quoted(name), value(v));
    format!(
        "{{{}}}",
        fields.into_iter().map(field).collect::<Vec<_>>().join(",")
    )
}

fn value(v: Value) -> String {
    match v {
        Value::Null => "null".to_string(),
        Value::Bool(b) => b.to_string(),
        Value::Integer(n) => format!("i{n}"),
        Value::Decimal(text) => format!("d{}", quoted(text)),
        Value::String(text) => format!("s{}", quoted(text)),
        Value::Entity(Entity { ty, id }) => format!("e{} {}", quoted(ty), quoted(id)),
        Value::Array(items) => array(items),
        Value::Record(fields) => record(fields),
    }
}

fn listing(number: u64, event: &Event) -> String {
    let mut out = format!("event {number} at {}\n", event.time());
    for (word, part) in [
        ("principal", event.principal()),
        ("resource", event.resource()),
    ] {
        if let Some(part) = part {
            out += &format!("{word} {}\n", value(part));
        }
    }
    let name: String = event
        .namespace()
        .map(|part| format!(" {}", quoted(part)))
        .collect();
    out += &format!(
        "name{name}\naction {}\nkind {}\n",
        quoted(event.action()),
        quoted(event.kind())
    );
    out += &format!(
        "logged {}\ncontext {}\n",
        record(event.logged()),
        record(event.context())
    );
    let mut entries: Vec<_> = event.entities().collect();
    entries.sort_by_key(|entry| entry.key);
    for entry in entries {
        out += &format!(
            "entity {} {} {}\n",
            quoted(entry.key),
            record(entry.record),
            array(entry.parents)
        );
    }
    out
}

/// Numbers that look random: the same on every run.
struct Numbers(u64);

impl Numbers {
    fn below(&mut self, n: u64) -> u64 {
        self.0 = self
            .0
            .wrapping_mul(6_364_136_223_846_793_005)
            .wrapping_add(1_442_695_040_888_963_407);
        (self.0 >> 33) % n
    }

    fn fields(&mut self, levels: u32) -> String {
        let fields: Vec<_> = (0..self.below(4))
            .map(|i| format!("f{i}: {}", self.value(levels)))
            .collect();
        fields.join(", ")
    }

    fn entity(&mut self) -> String {
        let ty = ["Site::Part", "T\\", "'", "\u{301}x\u{301}", "A\u{a0}B"][self.below(5) as usize];
        let id = ["a", "K\\'7", "\\u{e9}\\n", "", "é"][self.below(5) as usize];
        format!("{ty}::\"{id}\"")
    }

    fn value(&mut self, levels: u32) -> String {
        match self.below(if levels == 0 { 7 } else { 11 }) {
            0 => "null".to_string(),
            1 => ["true", "false"][self.below(2) as usize].to_string(),
            2 => format!("-{}", self.below(1 << 31)),
            3 => format!("{}.5", self.below(100)),
            4 => format!("\"text, {}\\t\"", self.below(100)),
            5 => self.entity(),
            6 => "bare word".to_string(),
            7 | 8 => {
                let items: Vec<_> = (0..self.below(4)).map(|_| self.value(levels - 1)).collect();
                format!("[{}]", items.join(", "))
            }
            _ => format!("{{{}}}", self.fields(levels - 1)),
        }
    }

    fn line(&mut self) -> String {
        let mut line = format!("@{} ", self.below(1000) as i64 - 500);
        if self.below(2) == 0 {
            let words = [
                "principal: Crew::\"b\"",
                "resource: 5",
                "principal: x, resource: \"y\"",
                "",
            ];
            line += &format!("scope({}) ", words[self.below(4) as usize]);
        }
        if self.below(2) == 0 {
            let entries: Vec<_> = (0..self.below(4))
                .map(|i| {
                    let parents: Vec<_> = (0..self.below(3)).map(|_| self.entity()).collect();
                    format!(
                        "{}::\"{i}\": {{{}}} in [{}]",
                        ["A", "'", "a", "x y"][self.below(4) as usize],
                        self.fields(2),
                        parents.join(", ")
                    )
                })
                .collect();
            line += &format!("entities({}) ", entries.join(", "));
        }
        if self.below(2) == 0 {
            line += &format!("request_context({}) ", self.fields(1));
        }
        line + &format!("A::B::\"act\"::kind({})", self.fields(4))
    }
}

#[test]
fn a_view_prints_as_the_listing_does() {
    let mut numbers = Numbers(2026);
    let (mut tables, mut others) = (Tables::new(), Tables::new());
    let mut out = vec![0; lulzhemor::LISTING_ROOM];
    let mut read = 0;
    for number in 1..=5_000 {
        let line = numbers.line();
        match tables.read_line(line.as_bytes()) {
            Ok(event) => {
                let event = event.expect("no line is blank");
                let written = others.list_line(&mut out, line.as_bytes(), number);
                assert_eq!(
                    written,
                    Ok(Some(listing(number, &event).as_str())),
                    "{line}"
                );
                read += 1;
            }
            Err(refusal) => assert_eq!(
                others.list_line(&mut out, line.as_bytes(), number),
                Err(refusal),
                "{line}"
            ),
        }
    }
    assert!(read > 4_000, "only {read} of 5,000 lines were read");
}

#[test]
fn the_deepest_value_is_walked() {
    let line = format!(
        "@0 A::\"b\"::c(x: {}1{}, y: 2)",
        "[{a: ".repeat(64),
        "}]".repeat(64)
    );
    let mut tables = Tables::new();
    let printed = listing(1, &tables.read_line(line.as_bytes()).unwrap().unwrap());
    let mut out = vec![0; lulzhemor::LISTING_ROOM];
    assert_eq!(
        tables.list_line(&mut out, line.as_bytes(), 1),
        Ok(Some(printed.as_str()))
    );
}
