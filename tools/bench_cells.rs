//! Entities JSON: `read_entities` beside a plain reader in Rust (`bench_peer.rs`), which is handed bytes too and tests the same; what it read is
//! dropped there. And `is_json` alone, in megabytes to a second. Turns and times as for whole logs. Each row reads several texts in turn, which differ
//! in their words and numbers: of one text, read again and again, a processor learns each byte. Halves of some texts stand beside them: they should
//! take half the time.

use crate::logs::{ROUNDS, TURN, median, time};
use crate::peer::{self, Uid, Value};
use crate::{Tables, ours};
use oracle::cells;
use oracle::order::{Fields, Tree};
use oracle::value;
use std::hint::black_box;

/// The most bytes of a text.
const LIMIT: usize = 4_096;

pub struct Kind {
    pub name: &'static str,
    /// A text of so many bytes at the most, its words and numbers by the number of its first entity.
    text: fn(usize, usize) -> String,
    /// Half as long too.
    half: bool,
}

const KINDS: [Kind; 9] = [
    Kind {
        name: "ten cells",
        text: |bytes, first| cells_of(bytes, first, typical),
        half: true,
    },
    Kind {
        name: "strings with escapes",
        text: |bytes, first| cells_of(bytes, first, escaped),
        half: true,
    },
    Kind {
        name: "long strings",
        text: long_strings,
        half: true,
    },
    Kind {
        name: "numbers",
        text: |bytes, first| one_list(bytes, first, |n| format!("{}", n * n * 31 - 70_000)),
        half: true,
    },
    Kind {
        name: "short entities",
        text: |bytes, first| cells_of(bytes, first, empty),
        half: false,
    },
    Kind {
        name: "many names",
        text: many_names,
        half: false,
    },
    Kind {
        name: "records",
        text: |bytes, first| one_list(bytes, first, |n| format!("{{\"x\": {n}, \"y\": -3}}")),
        half: true,
    },
    Kind {
        name: "arrays nested 128 deep",
        text: |bytes, first| {
            one_list(bytes, first, |_| {
                format!("{}{}", "[".repeat(127), "]".repeat(127))
            })
        },
        half: true,
    },
    Kind {
        name: "arrays nested to the end",
        text: |bytes, _| format!("{}{}", "[".repeat(bytes / 2), "]".repeat(bytes / 2)),
        half: true,
    },
];

/// An entity with these attrs.
fn entity(n: usize, attrs: &str) -> String {
    let uid = format!("{{\"type\": \"Dig::Cell\", \"id\": \"K{n}\"}}");
    let parents = "[{\"type\": \"Deck\", \"id\": \"lower\"}]";
    format!("{{\"uid\": {uid}, \"attrs\": {{{attrs}}}, \"parents\": {parents}}}")
}

/// The word of a list that a number chooses.
fn chosen(n: usize, words: &[&'static str]) -> &'static str {
    words[n * 7919 / 13 % words.len()]
}

fn typical(n: usize) -> String {
    let zone = chosen(n, &["north", "inner basin", "east 4", "quay"]);
    let zone = format!("{{\"__entity\": {{\"type\": \"Zone\", \"id\": \"{zone}\"}}}}");
    let at = format!("{{\"x\": {n}, \"y\": -{}}}", n * 31 % 70);
    let tags = chosen(
        n + 1,
        &[
            "[\"night\", \"wet\"]",
            "[]",
            "[\"deep\"]",
            "[\"wet\", \"old\", \"by hand\"]",
        ],
    );
    let note = chosen(
        n + 2,
        &[
            "all clear, nothing found",
            "",
            "silt",
            "stones near the wall; go slow",
            "2 anchors",
        ],
    );
    let tool = chosen(n + 3, &["dredge B", "crane", "dredge A2"]);
    entity(
        n,
        &format!(
            "\"dug\": {}, \"depth\": {}, \"zone\": {zone}, \"tags\": {tags}, \"at\": {at}, \
             \"note\": \"{note}\", \"by\": null, \"started\": {}, \"crew\": {}, \"tool\": \"{tool}\", \
             \"urgent\": {}",
            n % 3 == 0,
            n * 271 % 3_000,
            1_718_000_000 + n * 977,
            n % 17,
            n % 5 == 0,
        ),
    )
}

fn escaped(n: usize) -> String {
    entity(
        n,
        r#""a\u0062c": "Caf\u00e9 \"Zo\u00eb\" am Stra\u00dfenende, 3\tKilometer\n", "b": "\ud83d\ude00 \\ \/ \b\f""#,
    )
}

fn empty(n: usize) -> String {
    format!("{{\"uid\":{{\"type\":\"A\",\"id\":\"{n}\"}},\"attrs\":{{}},\"parents\":[]}}")
}

/// As many entities as fit.
fn cells_of(bytes: usize, first: usize, entity: fn(usize) -> String) -> String {
    let mut text = String::from("[");
    for n in first.. {
        let next = entity(n);
        if text.len() + next.len() + 2 > bytes {
            break;
        }
        if n > first {
            text += ", ";
        }
        text += &next;
    }
    text + "]"
}

fn long_strings(bytes: usize, first: usize) -> String {
    let each = |n: usize, text: &str| entity(n, &format!("\"note\": \"{text}\""));
    let around = format!("[{}, {}]", each(1, ""), each(2, "")).len();
    let fill = "all clear, nothing found. ".repeat(bytes);
    let fill = &fill[first..first + (bytes - around) / 2];
    format!("[{}, {}]", each(1, fill), each(2, fill))
}

/// One entity whose one attribute is a list, as long as fits.
fn one_list(bytes: usize, first: usize, item: fn(i64) -> String) -> String {
    let around = |list: &str| format!("[{}]", entity(1, &format!("\"list\": [{list}]")));
    let room = bytes - around("").len();
    let first = first as i64;
    let mut list = item(first);
    for n in first + 1.. {
        let next = item(n);
        if list.len() + next.len() + 2 > room {
            break;
        }
        list += ", ";
        list += &next;
    }
    around(&list)
}

fn many_names(bytes: usize, first: usize) -> String {
    let around = entity(1, "").len() + 2;
    let count = (bytes - around) / 16;
    let names: Vec<String> = (0..count)
        .map(|n| format!("\"name{:04}\": {}", first + n, (first + n) % 10))
        .collect();
    format!("[{}]", entity(1, &names.join(", ")))
}

// ---- that both sides read the same

fn same_record(fields: &Fields, map: &std::collections::BTreeMap<String, Value>) -> bool {
    let same = |(name, tree): &(String, Tree)| map.get(name).is_some_and(|v| same_value(tree, v));
    fields.len() == map.len() && fields.iter().all(same)
}

fn same_entity(read: &value::Value, uid: &Uid) -> bool {
    matches!(read, value::Value::Entity { ty, id } if *ty == uid.ty && *id == uid.id)
}

fn same_value(tree: &Tree, value: &Value) -> bool {
    match (tree, value) {
        (Tree::Scalar(value::Value::Null), Value::Null) => true,
        (Tree::Scalar(value::Value::Bool(a)), Value::Bool(b)) => a == b,
        (Tree::Scalar(value::Value::Int(a)), Value::Int(b)) => a == b,
        (Tree::Scalar(value::Value::String(a)), Value::String(b)) => a == b,
        (Tree::Scalar(entity), Value::Entity(uid)) => same_entity(entity, uid),
        (Tree::Array(a), Value::Array(b)) => {
            a.len() == b.len() && a.iter().zip(b).all(|(a, b)| same_value(a, b))
        }
        (Tree::Record(a), Value::Record(b)) => same_record(a, b),
        _ => false,
    }
}

/// The peer reads what the oracle reads, or refuses with the same number.
pub fn peer_agrees(text: &[u8]) -> bool {
    match (cells::entries(text), peer::read(text)) {
        (Err(number), Err(other)) => number == other,
        (Ok(entries), Ok(map)) => {
            let same = |entry: &oracle::order::Entry| {
                map.get(&entry.key).is_some_and(|found| {
                    let mut both = entry.parents.iter().zip(&found.parents);
                    same_record(&entry.record, &found.attrs)
                        && entry.parents.len() == found.parents.len()
                        && both.all(|(a, b)| same_entity(a, b))
                })
            };
            entries.len() == map.len() && entries.iter().all(same)
        }
        _ => false,
    }
}

/// Ours gives the oracle's pack or its number.
fn ours_agrees(tables: &mut Tables, text: &[u8]) -> bool {
    let mut sizes = [0; 2];
    let answer = ours::read_entities(tables, &mut sizes, text);
    let [nodes, bytes] = sizes.map(|size| size as usize);
    match cells::pack(text) {
        Ok(pack) => {
            answer < ours::REFUSED
                && pack.kinds == tables.kinds[..nodes]
                && pack.numbers == tables.numbers[..nodes]
                && pack.texts == tables.texts[..bytes]
        }
        Err(number) => answer == ours::REFUSED + u64::from(number),
    }
}

// ---- the rows

/// Not inlined, so that callgrind sees it.
#[inline(never)]
fn rust_read(text: &[u8]) -> u64 {
    u64::from(black_box(peer::read(black_box(text))).is_ok())
}

fn our_read(tables: &mut Tables, text: &[u8]) -> u64 {
    let mut sizes = [0; 2];
    u64::from(ours::read_entities(tables, &mut sizes, black_box(text)) < ours::REFUSED)
}

fn runs(once: f64) -> u32 {
    (TURN / once).clamp(1.0, 1e4) as u32
}

fn bytes_of(texts: &[String]) -> usize {
    texts.iter().map(String::len).sum::<usize>() / texts.len()
}

fn row(name: &str, texts: &[String]) {
    let mut tables = Tables::new();
    for text in texts {
        assert!(peer_agrees(text.as_bytes()), "{name}: the peer differs");
        assert!(
            ours_agrees(&mut tables, text.as_bytes()),
            "{name}: the two sides differ"
        );
    }
    let mut theirs = || {
        texts
            .iter()
            .map(|text| rust_read(text.as_bytes()))
            .sum::<u64>()
    };
    let mut ours = || {
        texts
            .iter()
            .map(|text| our_read(&mut tables, text.as_bytes()))
            .sum::<u64>()
    };
    let many = runs(time(3, &mut theirs));
    let more = runs(time(3, &mut ours));
    let turns: Vec<[f64; 2]> = (0..ROUNDS)
        .map(|_| [time(many, &mut theirs), time(more, &mut ours)])
        .collect();
    let each =
        |side: usize| median(turns.iter().map(|turn| turn[side]).collect()) / texts.len() as f64;
    let ratio = median(turns.iter().map(|turn| turn[0] / turn[1]).collect());
    let bytes = bytes_of(texts);
    println!(
        "| {name} | {bytes} | {:.0} | {:.0} | {ratio:.2} | {:.0} |",
        each(0),
        each(1),
        bytes as f64 * 1e3 / each(1)
    );
}

fn json_row(name: &str, texts: &[String]) {
    let mut nesting = vec![0u8; LIMIT];
    for text in texts {
        let text = text.as_bytes();
        assert!(ours::is_json(&mut nesting, text), "{name} is JSON");
        assert!(
            !ours::is_json(&mut nesting, &text[..text.len() - 1]),
            "{name} is whole"
        );
    }
    let mut judge = || {
        let judged = |text: &String| {
            u64::from(ours::is_json(
                black_box(&mut nesting),
                black_box(text.as_bytes()),
            ))
        };
        texts.iter().map(judged).sum::<u64>()
    };
    let more = runs(time(3, &mut judge));
    let run = median((0..ROUNDS).map(|_| time(more, &mut judge)).collect()) / texts.len() as f64;
    let bytes = bytes_of(texts);
    println!(
        "| {name} | {bytes} | {run:.0} | {:.0} |",
        bytes as f64 * 1e3 / run
    );
}

/// How many texts a row reads.
const TEXTS: usize = 16;

fn texts_of(kind: &Kind, bytes: usize) -> Vec<String> {
    (0..TEXTS).map(|n| (kind.text)(bytes, 1 + 11 * n)).collect()
}

/// The texts whose rows contain the word: whole ones, and halves.
fn texts(word: &str) -> Vec<(String, Vec<String>)> {
    let mut out = Vec::new();
    for kind in &KINDS {
        out.push((kind.name.to_string(), texts_of(kind, LIMIT)));
        if kind.half {
            out.push((format!("{}, half", kind.name), texts_of(kind, LIMIT / 2)));
        }
    }
    out.retain(|(name, _)| format!("entities JSON {name}").contains(word));
    out
}

/// The rows that contain the word.
pub fn rows(word: &str) {
    println!("\n| entities JSON | bytes | Rust ns | ours ns | ratio | MB/s |");
    println!("|---|---:|---:|---:|---:|---:|");
    for (name, texts) in texts(word) {
        row(&name, &texts);
    }
    println!("\n| is_json | bytes | ns | MB/s |\n|---|---:|---:|---:|");
    for (name, texts) in texts(word) {
        json_row(&name, &texts);
    }
}

/// The names of the kinds, for `tools/bench instructions`.
pub fn names() {
    KINDS.iter().for_each(|kind| println!("{}", kind.name));
}

/// Calls one side on one text, for callgrind. Prints how many texts that is.
pub fn once(name: &str, side: &str) {
    let kind = KINDS.iter().find(|kind| kind.name == name);
    let text = (kind.expect("a kind of text").text)(LIMIT, 1);
    let mut tables = Tables::new();
    black_box(match side {
        "rust" => rust_read(text.as_bytes()),
        "ours" => our_read(&mut tables, text.as_bytes()),
        "is_json" => u64::from(ours::is_json(&mut tables.texts, text.as_bytes())),
        _ => panic!("rust, ours or is_json"),
    });
    println!("1");
}
