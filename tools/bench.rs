//! Times the product's functions beside the Rust's, both in this process and on the same inputs.
//! Each row is first checked: both sides must give the same answer. Then they run in turns, and the least time of each counts,
//! since the machine is shared. Prints a Markdown table; a ratio above 1 means that ours is faster.

#[path = "bench_cells.rs"]
mod cells;
#[path = "bench_logs.rs"]
mod logs;
#[path = "bench_merges.rs"]
mod merges;
#[path = "bench_peer.rs"]
mod peer;

use oracle::pack::Pack;
use oracle::reader;
use oracle::scans;
use oracle::value::entity_uid_string;
use std::hint::black_box;
use std::time::{Duration, Instant};

/// The entry points, and inner functions that are exported for measuring alone (`bench_inner.rt.txt`).
mod ours {
    mod c {
        unsafe extern "C" {
            pub fn lulzhemor_is_utf8(s: *const u8, n: usize) -> bool;
            pub fn lulzhemor_decode(out: *mut u8, m: usize, s: *const u8, n: usize) -> u64;
            pub fn lulzhemor_spell_key(
                out: *mut u8,
                m: usize,
                ty: *const u8,
                k: usize,
                id: *const u8,
                n: usize,
            ) -> u64;
            pub fn lulzhemor_cut_body(out: *mut u64, m: usize, s: *const u8, n: usize) -> u64;
            pub fn lulzhemor_judge(
                kinds: *mut u8,
                k: usize,
                numbers: *mut u64,
                m: usize,
                texts: *mut u8,
                l: usize,
                log: *const u8,
                n: usize,
            ) -> u64;
            pub fn lulzhemor_merge(
                kinds: *mut u8,
                k: usize,
                numbers: *mut u64,
                m: usize,
                texts: *mut u8,
                l: usize,
                out: *mut u8,
                j: usize,
                first: *const u8,
                n: usize,
                second: *const u8,
                o: usize,
            ) -> u64;
            pub fn lulzhemor_read_entities(
                kinds: *mut u8,
                k: usize,
                numbers: *mut u64,
                m: usize,
                texts: *mut u8,
                l: usize,
                sizes: *mut [u64; 2],
                text: *const u8,
                n: usize,
            ) -> u64;
            pub fn bench_is_json(nesting: *mut u8, m: usize, s: *const u8, n: usize) -> bool;
            pub fn lulzhemor_list_line(
                kinds: *mut u8,
                k: usize,
                numbers: *mut u64,
                m: usize,
                texts: *mut u8,
                l: usize,
                out: *mut u8,
                j: usize,
                line: *const u8,
                n: usize,
                number: u64,
            ) -> u64;
            pub fn bench_split_top_level(s: *const u8, n: usize) -> usize;
            pub fn bench_link(links: *mut u16, m: usize, s: *const u8, n: usize);
            pub fn bench_next_cut(
                links: *const u16,
                m: usize,
                t: *const u8,
                n: usize,
                at: usize,
            ) -> usize;
            pub fn bench_parse_value(
                kinds: *mut u8,
                k: usize,
                numbers: *mut u64,
                m: usize,
                texts: *mut u8,
                l: usize,
                links: *mut u16,
                j: usize,
                s: *const u8,
                n: usize,
            ) -> usize;
            pub fn bench_list_one(
                kinds: *mut u8,
                k: usize,
                numbers: *mut u64,
                m: usize,
                texts: *mut u8,
                l: usize,
                links: *mut u16,
                j: usize,
                scratch: *mut u8,
                i: usize,
                order: *mut u16,
                h: usize,
                spare: *mut u16,
                g: usize,
                out: *mut u8,
                f: usize,
                line: *const u8,
                n: usize,
                number: u64,
            ) -> usize;
        }
    }

    // SAFETY, of each call: pointer and length are those of a slice that is borrowed for the call.
    pub fn is_utf8(s: &[u8]) -> bool {
        unsafe { c::lulzhemor_is_utf8(s.as_ptr(), s.len()) }
    }

    pub fn decode(out: &mut [u8], s: &[u8]) -> u64 {
        unsafe { c::lulzhemor_decode(out.as_mut_ptr(), out.len(), s.as_ptr(), s.len()) }
    }

    pub fn spell_key(out: &mut [u8], ty: &[u8], id: &[u8]) -> u64 {
        unsafe {
            c::lulzhemor_spell_key(
                out.as_mut_ptr(),
                out.len(),
                ty.as_ptr(),
                ty.len(),
                id.as_ptr(),
                id.len(),
            )
        }
    }

    pub fn cut_body(out: &mut [u64], s: &[u8]) -> u64 {
        unsafe { c::lulzhemor_cut_body(out.as_mut_ptr(), out.len(), s.as_ptr(), s.len()) }
    }

    pub fn judge(tables: &mut super::Tables, log: &[u8]) -> u64 {
        unsafe {
            c::lulzhemor_judge(
                tables.kinds.as_mut_ptr(),
                tables.kinds.len(),
                tables.numbers.as_mut_ptr(),
                tables.numbers.len(),
                tables.texts.as_mut_ptr(),
                tables.texts.len(),
                log.as_ptr(),
                log.len(),
            )
        }
    }

    pub fn merge(tables: &mut super::Tables, out: &mut [u8], first: &[u8], second: &[u8]) -> u64 {
        unsafe {
            c::lulzhemor_merge(
                tables.kinds.as_mut_ptr(),
                tables.kinds.len(),
                tables.numbers.as_mut_ptr(),
                tables.numbers.len(),
                tables.texts.as_mut_ptr(),
                tables.texts.len(),
                out.as_mut_ptr(),
                out.len(),
                first.as_ptr(),
                first.len(),
                second.as_ptr(),
                second.len(),
            )
        }
    }

    /// Refusal n is this number and n.
    pub const REFUSED: u64 = 1 << 32;

    pub fn read_entities(tables: &mut super::Tables, sizes: &mut [u64; 2], text: &[u8]) -> u64 {
        unsafe {
            c::lulzhemor_read_entities(
                tables.kinds.as_mut_ptr(),
                tables.kinds.len(),
                tables.numbers.as_mut_ptr(),
                tables.numbers.len(),
                tables.texts.as_mut_ptr(),
                tables.texts.len(),
                sizes,
                text.as_ptr(),
                text.len(),
            )
        }
    }

    /// Each byte may open a bracket, for which `is_json` requires room.
    pub fn is_json(nesting: &mut [u8], s: &[u8]) -> bool {
        assert!(s.len() <= nesting.len());
        unsafe { c::bench_is_json(nesting.as_mut_ptr(), nesting.len(), s.as_ptr(), s.len()) }
    }

    pub fn list_line(tables: &mut super::Tables, out: &mut [u8], line: &[u8], number: u64) -> u64 {
        unsafe {
            c::lulzhemor_list_line(
                tables.kinds.as_mut_ptr(),
                tables.kinds.len(),
                tables.numbers.as_mut_ptr(),
                tables.numbers.len(),
                tables.texts.as_mut_ptr(),
                tables.texts.len(),
                out.as_mut_ptr(),
                out.len(),
                line.as_ptr(),
                line.len(),
                number,
            )
        }
    }

    pub fn split_top_level(s: &[u8]) -> usize {
        unsafe { c::bench_split_top_level(s.as_ptr(), s.len()) }
    }

    /// The linked text is shorter than the table, as `link` requires.
    pub fn link(links: &mut [u16; 4097], s: &[u8]) {
        assert!(s.len() < links.len());
        unsafe { c::bench_link(links.as_mut_ptr(), links.len(), s.as_ptr(), s.len()) }
    }

    /// `t` is a piece that stands at the place `at` of the linked text, as `next_cut` requires.
    pub fn next_cut(links: &[u16; 4097], t: &[u8], at: usize) -> usize {
        unsafe { c::bench_next_cut(links.as_ptr(), links.len(), t.as_ptr(), t.len(), at) }
    }

    /// How many nodes the value has, 0 where it is refused. The tables have room, as `parse_value` requires.
    pub fn parse_value(tables: &mut super::Tables, s: &[u8]) -> usize {
        assert!(s.len() < tables.links.len());
        unsafe {
            c::bench_parse_value(
                tables.kinds.as_mut_ptr(),
                tables.kinds.len(),
                tables.numbers.as_mut_ptr(),
                tables.numbers.len(),
                tables.texts.as_mut_ptr(),
                tables.texts.len(),
                tables.links.as_mut_ptr(),
                tables.links.len(),
                s.as_ptr(),
                s.len(),
            )
        }
    }

    /// How many bytes the event of a line lists in, 0 where there is none. The tables have the lengths that `list_one` requires.
    pub fn list_one(tables: &mut super::Tables, out: &mut [u8], line: &[u8], number: u64) -> u64 {
        unsafe {
            c::bench_list_one(
                tables.kinds.as_mut_ptr(),
                tables.kinds.len(),
                tables.numbers.as_mut_ptr(),
                tables.numbers.len(),
                tables.texts.as_mut_ptr(),
                tables.texts.len(),
                tables.links.as_mut_ptr(),
                tables.links.len(),
                tables.scratch.as_mut_ptr(),
                tables.scratch.len(),
                tables.order.as_mut_ptr(),
                tables.order.len(),
                tables.spare.as_mut_ptr(),
                tables.spare.len(),
                out.as_mut_ptr(),
                out.len(),
                line.as_ptr(),
                line.len(),
                number,
            ) as u64
        }
    }
}

/// Tables for a value or a line of at most 4,096 bytes, as a caller lends them.
struct Tables {
    kinds: Vec<u8>,
    numbers: Vec<u64>,
    texts: Vec<u8>,
    links: Vec<u16>,
    scratch: Vec<u8>,
    order: Vec<u16>,
    spare: Vec<u16>,
}

impl Tables {
    fn new() -> Tables {
        Tables {
            kinds: vec![0; 8192],
            numbers: vec![0; 8192],
            texts: vec![0; 32768],
            links: vec![0; 4097],
            scratch: vec![0; 4096],
            order: vec![0; 4096],
            spare: vec![0; 4096],
        }
    }
}

const ROUNDS: usize = 120;
const TURN: Duration = Duration::from_micros(300);

fn time(runs: u32, f: &mut dyn FnMut() -> u64) -> f64 {
    let start = Instant::now();
    for _ in 0..runs {
        black_box(f());
    }
    start.elapsed().as_nanos() as f64 / f64::from(runs)
}

/// How many runs take about one turn.
fn runs_in_a_turn(f: &mut dyn FnMut() -> u64) -> u32 {
    let once = time(50, f).max(1.0);
    (TURN.as_nanos() as f64 / once).clamp(1.0, 1e6) as u32
}

fn row(what: &str, kind: &str, rust: &mut dyn FnMut() -> u64, ours: &mut dyn FnMut() -> u64) {
    if std::env::args()
        .nth(1)
        .is_some_and(|w| !format!("{what} {kind}").contains(&w))
    {
        return;
    }
    assert_eq!(rust(), ours(), "{what}, {kind}: the two sides differ");
    let (many, more) = (runs_in_a_turn(rust), runs_in_a_turn(ours));
    let (mut least, mut lesser) = (f64::MAX, f64::MAX);
    for _ in 0..ROUNDS {
        least = least.min(time(many, rust));
        lesser = lesser.min(time(more, ours));
    }
    println!(
        "| {what} | {kind} | {least:.0} | {lesser:.0} | {:.2} |",
        least / lesser
    );
}

/// As many copies of the text as fit into n bytes.
fn repeat(text: &str, n: usize) -> String {
    text.repeat(n / text.len())
}

fn utf8_rows() {
    let kinds = [
        (
            "ASCII, 64 KB",
            repeat(
                "@40 scope(principal: Planner::\"night\") Dig::Action::\"release\"::request(depth: 12.50)\n",
                65536,
            ),
        ),
        (
            "ASCII, 4 KB",
            repeat("principal: Planner::\"night\", ", 4096),
        ),
        ("ASCII, 40 bytes", repeat("0123456789", 40)),
        ("ASCII, 12 bytes", repeat("0123456789ab", 12)),
        (
            "Cyrillic with ASCII punctuation, 64 KB",
            repeat(
                "Съешь же ещё этих мягких французских булок, да выпей чаю. ",
                65536,
            ),
        ),
        (
            "Cyrillic with ASCII punctuation, 60 bytes",
            "Съешь же ещё этих мягких булок, чаю. ".to_string(),
        ),
        (
            "ASCII with a few accents, 64 KB",
            repeat(
                "Le vélo était posé contre le mur du café, où dînait Zoë. ",
                65536,
            ),
        ),
        (
            "ASCII with one accent in 300 bytes, 64 KB",
            repeat(&format!("{}é", "principal: Planner, ".repeat(15)), 65536),
        ),
        (
            "Chinese, 64 KB",
            repeat("天地玄黃宇宙洪荒日月盈昃辰宿列張", 65536),
        ),
        (
            "Japanese with ASCII, 64 KB",
            repeat("これはtestです、log 12行目。", 65536),
        ),
        ("emoji, 64 KB", repeat("😀🚀🎉", 65536)),
    ];
    for (kind, text) in &kinds {
        let bytes = text.as_bytes();
        row(
            "is_utf8",
            kind,
            &mut || u64::from(std::str::from_utf8(black_box(bytes)).is_ok()),
            &mut || u64::from(ours::is_utf8(black_box(bytes))),
        );
    }
}

fn decode_rows() {
    let mixed = r#"Café \"Zoë\" am Straßenende, 3\tKilometer: größer\n"#;
    let escapes = r#"\u{41}\n\'\"\\\t\u{1F600}\x7f\r\0\u{4_1}"#;
    let kinds = [
        (
            "plain ASCII id, 24 bytes",
            "night-watch-0042-deck-07".to_string(),
        ),
        (
            "plain ASCII, 1 KB",
            repeat("night-watch-0042-deck-07", 1024),
        ),
        ("mixed, 50 bytes", mixed.to_string()),
        ("mixed, 1 KB", repeat(mixed, 1024)),
        ("all escapes, 40 bytes", escapes.to_string()),
        ("all escapes, 1 KB", repeat(escapes, 1024)),
        ("short escapes, 1 KB", repeat(r#"\n\'\"\\\t\r\0"#, 1024)),
        (
            "`\\u{..}` alone, 1 KB",
            repeat(r"\u{41}\u{e9}\u{4e00}", 1024),
        ),
    ];
    let mut out = vec![0u8; 65536];
    for (kind, text) in &kinds {
        let answer = scans::unescape(text);
        let n = ours::decode(&mut out, text.as_bytes()) as usize;
        assert_eq!(answer.as_bytes(), &out[..n]);
        row(
            "decode",
            kind,
            &mut || black_box(scans::unescape(black_box(text))).len() as u64,
            &mut || ours::decode(black_box(&mut out), black_box(text.as_bytes())),
        );
    }
}

fn spell_rows() {
    let ty = "Dig::Cell";
    let mixed = "Café \"Zoë\" am Straßenende, 3\tKilometer: größer\n";
    let kinds = [
        (
            "plain ASCII id, 24 bytes",
            "night-watch-0042-deck-07".to_string(),
        ),
        (
            "plain ASCII id, 1 KB",
            repeat("night-watch-0042-deck-07", 1024),
        ),
        ("mixed, 50 bytes", mixed.to_string()),
        ("mixed, 1 KB", repeat(mixed, 1024)),
        ("Cyrillic, 1 KB", repeat("Съешь же ещё этих булок, ", 1024)),
        ("Chinese, 1 KB", repeat("天地玄黃宇宙洪荒", 1024)),
        (
            "all escapes, 40 bytes",
            repeat("\n'\"\\\t\r\0\u{1}\u{7f}\u{ad}", 40),
        ),
        (
            "all escapes, 1 KB",
            repeat("\n'\"\\\t\r\0\u{1}\u{7f}\u{ad}", 1024),
        ),
        ("short escapes, 1 KB", repeat("\n'\"\\\t\r\0", 1024)),
        (
            "`\\u{..}` alone, 1 KB",
            repeat("\u{200b}\u{e000}\u{1}\u{85}", 1024),
        ),
    ];
    let mut out = vec![0u8; 65536];
    for (kind, id) in &kinds {
        let answer = entity_uid_string(ty, id);
        let n = ours::spell_key(&mut out, ty.as_bytes(), id.as_bytes()) as usize;
        assert_eq!(answer.as_bytes(), &out[..n]);
        row(
            "spell_key",
            kind,
            &mut || black_box(entity_uid_string(black_box(ty), black_box(id))).len() as u64,
            &mut || {
                ours::spell_key(
                    black_box(&mut out),
                    black_box(ty.as_bytes()),
                    black_box(id.as_bytes()),
                )
            },
        );
        let bare = |id: &str| black_box(black_box(id).escape_debug().to_string()).len() as u64;
        row(
            "spell_key, beside `escape_debug` of the id alone",
            kind,
            &mut || bare(id) + ty.len() as u64 + 4,
            &mut || {
                ours::spell_key(
                    black_box(&mut out),
                    black_box(ty.as_bytes()),
                    black_box(id.as_bytes()),
                )
            },
        );
    }
}

/// Argument lists of 3 to 12 fields: strings, entities, numbers and one nested record each.
fn argument_lists() -> Vec<String> {
    let fields = [
        r#"cell: Cell::"K'7""#,
        r#" depth: 12.50"#,
        r#" by: Crew::Member::"anna-petrova""#,
        r#" note: "all clear, nothing found""#,
        r#" count: 42"#,
        r#" urgent: false"#,
        r#" tool: "dredge \"B\"""#,
        r#" next: Cell::"K8""#,
        r#" tags: ["night", "wet"]"#,
        r#" started: 1718000000"#,
        r#" pump: Pump::"p-3""#,
    ];
    (2..=11)
        .map(|n| {
            let mut list: Vec<&str> = fields[..n].to_vec();
            list.insert(n / 2, r#" at: {x: 10, y: -3, zone: Zone::"north"}"#);
            list.join(",")
        })
        .collect()
}

/// What walking all pieces of a text gives: their number and the sum of their lengths.
fn rust_pieces(s: &str) -> u64 {
    let pieces = scans::split_top_level(s, ',');
    black_box(&pieces)
        .iter()
        .map(|p| 65536 + p.len() as u64)
        .sum()
}

fn our_pieces(s: &[u8]) -> u64 {
    let mut t = s;
    let mut total = 0;
    loop {
        let e = ours::split_top_level(t);
        total += 65536 + e as u64;
        if e == t.len() {
            return total;
        }
        t = &t[e + 1..];
    }
}

fn cut_rows() {
    let lists = argument_lists();
    row(
        "split_top_level, all pieces",
        "10 argument lists of 3 to 12 fields",
        &mut || lists.iter().map(|s| rust_pieces(black_box(s))).sum(),
        &mut || {
            lists
                .iter()
                .map(|s| our_pieces(black_box(s.as_bytes())))
                .sum()
        },
    );
    for s in [&lists[0], &lists[9]] {
        row(
            "split_top_level, all pieces",
            &format!(
                "{} bytes, {} fields",
                s.len(),
                scans::split_top_level(s, ',').len()
            ),
            &mut || rust_pieces(black_box(s)),
            &mut || our_pieces(black_box(s.as_bytes())),
        );
    }
    let mut places = vec![0u64; 4096];
    row(
        "cut_body",
        "10 argument lists of 3 to 12 fields",
        &mut || {
            lists
                .iter()
                .map(|s| black_box(scans::split_top_level(black_box(s), ',')).len() as u64 - 1)
                .sum()
        },
        &mut || {
            lists
                .iter()
                .map(|s| ours::cut_body(black_box(&mut places), black_box(s.as_bytes())))
                .sum()
        },
    );
}

fn bracketed(s: &[u8]) -> bool {
    matches!(
        (s.first(), s.last()),
        (Some(b'['), Some(b']')) | (Some(b'{'), Some(b'}'))
    ) && s.len() > 1
}

/// Cuts a text at all its levels as `parse_value_depth` does: every bracketed piece again. A field's name is passed by `skip` bytes.
fn rust_levels(s: &str, skip: usize) -> u64 {
    scans::split_top_level(s, ',')
        .iter()
        .map(|part| {
            let value = part.trim().get(skip..).unwrap_or("");
            let inner = if bracketed(value.as_bytes()) {
                rust_levels(&value[1..value.len() - 1], skip)
            } else {
                0
            };
            65536 + part.len() as u64 + inner
        })
        .sum()
}

/// The same over a linked text, at whose place `at` the piece t stands.
fn our_levels(links: &[u16; 4097], t: &[u8], at: usize, skip: usize) -> u64 {
    let (mut t, mut at, mut total) = (t, at, 0);
    loop {
        let e = ours::next_cut(links, t, at);
        let part = &t[..e];
        let start = part.len() - part.trim_ascii_start().len();
        let value = part.trim_ascii().get(skip..).unwrap_or(b"");
        if bracketed(value) {
            total += our_levels(
                links,
                &value[1..value.len() - 1],
                at + start + skip + 1,
                skip,
            );
        }
        total += 65536 + e as u64;
        if e == t.len() {
            return total;
        }
        t = &t[e + 1..];
        at += e + 1;
    }
}

fn level_rows() {
    let nest = |open: &str, close: &str| format!("{}{}", open.repeat(128), close.repeat(128));
    let kinds = [
        ("arrays nested 128 deep, nothing else", nest("[", "]"), 0),
        (
            "arrays nested 128 deep, 3 items beside",
            nest("[1, \"a,b\", ", ", 2]"),
            0,
        ),
        (
            "records nested 128 deep",
            nest("{a: ", "}").replace("{a: }", "{a: 1}"),
            3,
        ),
        (
            "records nested 128 deep, 2 fields beside",
            nest("{b: \"x,y\", a: ", ", c: 7}").replace("a: ,", "a: 1,"),
            3,
        ),
    ];
    let mut links = Box::new([0u16; 4097]);
    for (kind, text, skip) in &kinds {
        let body = format!("{}{text}", &"a: "[..*skip]);
        row(
            "cutting all levels",
            &format!("{kind}, {} bytes", body.len()),
            &mut || rust_levels(black_box(&body), *skip),
            &mut || {
                let s = black_box(body.as_bytes());
                ours::link(&mut links, s);
                our_levels(black_box(&links), s, 0, *skip)
            },
        );
    }
    let lists = argument_lists();
    row(
        "cutting all levels",
        "10 argument lists of 3 to 12 fields",
        &mut || lists.iter().map(|s| rust_levels(black_box(s), 0)).sum(),
        &mut || {
            lists
                .iter()
                .map(|s| {
                    ours::link(&mut links, black_box(s.as_bytes()));
                    our_levels(black_box(&links), s.as_bytes(), 0, 0)
                })
                .sum()
        },
    );
}

fn value_rows() {
    let nest = |open: &str, inside: &str, close: &str| {
        format!("{}{inside}{}", open.repeat(128), close.repeat(128))
    };
    let list = |item: &str, n: usize| format!("[{}]", vec![item; n].join(", "));
    let record = |n: usize| {
        let fields: Vec<String> = (0..n)
            .map(|i| {
                format!(
                    "field_{i}: {}",
                    ["17", "\"some text\"", "Cell::\"K7\"", "12.50"][i % 4]
                )
            })
            .collect();
        format!("{{{}}}", fields.join(", "))
    };
    let kinds = [
        ("an integer", "1718000000".to_string()),
        ("a decimal", "12.50".to_string()),
        (
            "a quoted string",
            "\"all clear, nothing found\"".to_string(),
        ),
        (
            "a string with escapes",
            r#""dredge \"B\", deck\t7\n""#.to_string(),
        ),
        ("an entity", r#"Crew::Member::"anna-petrova""#.to_string()),
        ("a bare word", "released".to_string()),
        ("a flat list of 8 integers", list("42", 8)),
        ("a flat list of 200 integers", list("42", 200)),
        ("a flat list of 100 strings", list("\"night watch\"", 100)),
        ("a record of 4 fields", record(4)),
        ("a record of 12 fields", record(12)),
        ("a record of 48 fields", record(48)),
        ("a record of 100 fields", record(100)),
        ("arrays nested 128 deep", nest("[", "1", "]")),
        ("records nested 128 deep", nest("{a: ", "1", "}")),
        (
            "arrays nested 128 deep, 3 items beside",
            nest("[1, \"a,b\", ", "1", ", 2]"),
        ),
    ];
    let mut tables = Tables::new();
    for (kind, text) in &kinds {
        let pack = Pack::of_value(text, &reader::value(text).expect("a value"));
        let (nodes, bytes) = (pack.kinds.len(), pack.texts.len());
        assert_eq!(ours::parse_value(&mut tables, text.as_bytes()), nodes);
        assert_eq!(pack.kinds, tables.kinds[..nodes]);
        assert_eq!(pack.numbers, tables.numbers[..nodes]);
        assert_eq!(pack.texts, tables.texts[..bytes]);
        row(
            "parse_value",
            &format!("{kind}, {} bytes", text.len()),
            &mut || u64::from(black_box(scans::parse_value(black_box(text))).is_ok()),
            &mut || {
                u64::from(ours::parse_value(black_box(&mut tables), black_box(text.as_bytes())) > 0)
            },
        );
    }
}

fn main() {
    let words: Vec<String> = std::env::args().skip(1).collect();
    match words.iter().map(String::as_str).collect::<Vec<_>>()[..] {
        ["kinds"] => logs::names(),
        ["once", kind, side] => logs::once(kind, side),
        ["cells kinds"] => cells::names(),
        ["cells once", kind, side] => cells::once(kind, side),
        ["merged kinds"] => merges::names(),
        ["merged once", kind, side] => merges::once(kind, side),
        _ => tables(words.first().map_or("", String::as_str)),
    }
}

fn tables(word: &str) {
    println!("| what | input | Rust ns | ours ns | ratio |");
    println!("|---|---|---:|---:|---:|");
    utf8_rows();
    decode_rows();
    spell_rows();
    cut_rows();
    level_rows();
    value_rows();
    logs::rows(word);
    merges::rows(word);
    cells::rows(word);
}
