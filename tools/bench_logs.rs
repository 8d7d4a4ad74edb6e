//! Whole logs: `judge` beside `parse_trace`, and the listing of every line beside the oracle's: as the program lists a judged log, and
//! each line alone, through the entry point, which tests and clears for every line. A log has nearly 65,536 bytes.
//! Both sides take turns, and the row has the median of the turns' ratios. What counts is the time that this thread had a processor, since
//! the machine is shared.

use crate::{Tables, ours};
use oracle::{listing, parse_trace};
use std::hint::black_box;

pub const ROUNDS: usize = 151;
/// A turn in nanoseconds.
pub const TURN: f64 = 1e6;

/// C's `struct timespec`.
#[repr(C)]
struct Timespec {
    seconds: i64,
    nanoseconds: i64,
}

unsafe extern "C" {
    fn clock_gettime(clock: i32, time: *mut Timespec) -> i32;
}

/// The processor time of this thread, in nanoseconds.
fn thread_time() -> f64 {
    const CLOCK_THREAD_CPUTIME_ID: i32 = 3;
    let mut time = Timespec {
        seconds: 0,
        nanoseconds: 0,
    };
    // SAFETY: the pointer is that of a timespec, which lives through the call.
    assert_eq!(
        unsafe { clock_gettime(CLOCK_THREAD_CPUTIME_ID, &mut time) },
        0
    );
    time.seconds as f64 * 1e9 + time.nanoseconds as f64
}

/// The time of one run, of so many.
pub fn time(runs: u32, f: &mut dyn FnMut() -> u64) -> f64 {
    let start = thread_time();
    for _ in 0..runs {
        black_box(f());
    }
    (thread_time() - start) / f64::from(runs)
}

/// A kind of log: what it is called, and its lines.
pub struct Kind {
    pub name: &'static str,
    line: fn(usize) -> String,
}

pub const KINDS: [Kind; 11] = [
    Kind {
        name: "typical",
        line: typical,
    },
    Kind {
        name: "short lines",
        line: short,
    },
    Kind {
        name: "flat lists",
        line: flat,
    },
    Kind {
        name: "arrays nested 128 deep",
        line: nested_arrays,
    },
    Kind {
        name: "records nested 128 deep",
        line: nested_records,
    },
    Kind {
        name: "many fields",
        line: many_fields,
    },
    Kind {
        name: "a thousand arguments",
        line: |i| format!("@{i} D::\"s\"::r({})", thousand_fields()),
    },
    Kind {
        name: "a record of a thousand fields",
        line: |i| format!("@{i} D::\"s\"::r(a:{{{}}})", thousand_fields()),
    },
    Kind {
        name: "long strings",
        line: long_strings,
    },
    Kind {
        name: "blank",
        line: |_| String::new(),
    },
    Kind {
        name: "blank, 40 spaces",
        line: |_| " ".repeat(40),
    },
];

/// About 190 bytes, with scope, entities and arguments.
fn typical(i: usize) -> String {
    let action = ["release", "reserve", "inspect"][i % 3];
    let cell = format!("K{}", i % 40);
    format!(
        "@{} scope(principal: Planner::\"night-{}\", resource: Site::\"north\") \
         entities(Cell::\"{cell}\": {{dug: true, depth: {}}}) \
         Dig::Action::\"{action}\"::request(cell: Cell::\"{cell}\", depth: {}.50, by: \"deck {}\")",
        1_718_000_000 + i,
        i % 7,
        i % 9,
        i % 30,
        i % 12,
    )
}

fn short(i: usize) -> String {
    format!("@{i} Dig::\"stop\"::request(n: {})", i % 100)
}

fn flat(i: usize) -> String {
    let items: Vec<String> = (0..200).map(|n| ((n * 7 + i) % 100).to_string()).collect();
    format!(
        "@{i} Dig::\"scan\"::request(depths: [{}])",
        items.join(", ")
    )
}

fn nested(i: usize, open: &str, close: &str) -> String {
    format!(
        "@{i} Dig::\"scan\"::request(tree: {}{}{})",
        open.repeat(128),
        i % 10,
        close.repeat(128)
    )
}

fn nested_arrays(i: usize) -> String {
    nested(i, "[", "]")
}

fn nested_records(i: usize) -> String {
    nested(i, "{a: ", "}")
}

fn many_fields(i: usize) -> String {
    let fields: Vec<String> = (0..200)
        .map(|n| format!("field_{n}: {}", (n + i) % 50))
        .collect();
    format!("@{i} Dig::\"scan\"::request({})", fields.join(", "))
}

/// A thousand names of two letters or digits, in no order, without values: as many as a line has room for.
fn thousand_fields() -> String {
    let letter = |n: usize| char::from_digit(n as u32, 36).expect("below 36");
    (0..1000)
        .map(|n| n * 389 % 1000)
        .map(|n| format!("{}{}:,", letter(n / 36), letter(n % 36)))
        .collect()
}

fn long_strings(i: usize) -> String {
    let text = "all clear, nothing found at the north wall; ".repeat(40);
    format!("@{i} Dig::\"note\"::request(first: \"{text}\", second: \"{text}\")")
}

/// As many lines as so many bytes have room for.
pub fn log_of(kind: &Kind, bytes: usize) -> String {
    let mut log = String::new();
    for i in 0.. {
        let line = (kind.line)(i);
        if log.len() + line.len() + 1 > bytes {
            break;
        }
        log += &line;
        log.push('\n');
    }
    log
}

/// What the Rust read is dropped here. Not inlined, so that callgrind sees it, as the next one.
#[inline(never)]
fn rust_judge(log: &str) -> u64 {
    black_box(parse_trace(black_box(log)))
        .expect("an accepted log")
        .points
        .len() as u64
}

/// The bytes of all listings.
#[inline(never)]
fn rust_list(log: &str) -> u64 {
    let trace = parse_trace(black_box(log)).expect("an accepted log");
    let events = trace.points.iter().enumerate();
    events
        .map(|(i, event)| black_box(listing::event(i as u64 + 1, event)).len() as u64)
        .sum()
}

/// Lists one line's event with the number that is handed in: how many bytes it has, 0 where the line is blank.
type ListLine = fn(&mut Tables, &mut [u8], &[u8], u64) -> u64;

/// The same from the tables, a call for each line.
fn our_list(list: ListLine, tables: &mut Tables, out: &mut [u8], log: &str) -> u64 {
    let (mut total, mut number) = (0, 1);
    for line in black_box(log).lines() {
        let count = list(tables, out, line.as_bytes(), number);
        assert!(count < 1 << 32, "an accepted line");
        total += count;
        number += u64::from(count > 0);
    }
    total
}

pub fn median(mut numbers: Vec<f64>) -> f64 {
    numbers.sort_by(f64::total_cmp);
    numbers[numbers.len() / 2]
}

fn row(
    what: &str,
    kind: &str,
    log: &str,
    rust: &mut dyn FnMut() -> u64,
    ours: &mut dyn FnMut() -> u64,
) {
    assert_eq!(rust(), ours(), "{what}, {kind}: the two sides differ");
    let lines = log.lines().count() as f64;
    let runs = |once: f64| (TURN / once).clamp(1.0, 1e4) as u32;
    let (many, more) = (runs(time(3, rust)), runs(time(3, ours)));
    let turns: Vec<(f64, f64)> = (0..ROUNDS)
        .map(|_| (time(many, rust), time(more, ours)))
        .collect();
    let ratio = median(turns.iter().map(|(r, o)| r / o).collect());
    let (rust_time, our_time) = (
        median(turns.iter().map(|t| t.0).collect()),
        median(turns.iter().map(|t| t.1).collect()),
    );
    println!(
        "| {what} | {kind} | {lines} | {:.0} | {:.0} | {:.0} | {ratio:.2} |",
        log.len() as f64 / lines - 1.0,
        rust_time / lines,
        our_time / lines,
    );
}

/// How long the output of a listing is.
fn room() -> usize {
    std::env::var("ROOM").map_or(65_536, |room| room.parse().expect("ROOM is a number"))
}

/// The rows that contain the word.
pub fn rows(word: &str) {
    println!("\n| what | log | lines | bytes to a line | Rust ns to a line | ours | ratio |");
    println!("|---|---|---:|---:|---:|---:|---:|");
    let mut tables = Tables::new();
    let mut out = vec![0u8; room()];
    for kind in &KINDS {
        let log = log_of(kind, 65_536);
        if format!("judge log {}", kind.name).contains(word) {
            let (rust, ours) = (&mut || rust_judge(&log), &mut || {
                ours::judge(&mut tables, black_box(log.as_bytes()))
            });
            row("judge", kind.name, &log, rust, ours);
        }
        if format!("list log {}", kind.name).contains(word) {
            let (rust, ours) = (&mut || rust_list(&log), &mut || {
                our_list(ours::list_one, &mut tables, &mut out, &log)
            });
            row("list", kind.name, &log, rust, ours);
        }
        if format!("list alone log {}", kind.name).contains(word) {
            let (rust, ours) = (&mut || rust_list(&log), &mut || {
                our_list(ours::list_line, &mut tables, &mut out, &log)
            });
            row("list alone", kind.name, &log, rust, ours);
        }
    }
}

/// The names of the kinds, for `tools/bench instructions`.
pub fn names() {
    KINDS.iter().for_each(|kind| println!("{}", kind.name));
}

/// Calls one side on one log, for callgrind, which is slow: a listing has 256 lines at most. Prints how many lines the log has.
pub fn once(name: &str, side: &str) {
    let kind = KINDS
        .iter()
        .find(|kind| kind.name == name)
        .expect("a kind of log");
    let mut log = log_of(kind, 65_536);
    if side.contains("list") {
        log = log.split_inclusive('\n').take(256).collect();
    }
    let mut tables = Tables::new();
    let mut out = vec![0u8; room()];
    black_box(match side {
        "rust_judge" => rust_judge(&log),
        "rust_list" => rust_list(&log),
        "judge" => ours::judge(&mut tables, log.as_bytes()),
        "list" => our_list(ours::list_one, &mut tables, &mut out, &log),
        "list_alone" => our_list(ours::list_line, &mut tables, &mut out, &log),
        _ => panic!("rust_judge, rust_list, judge, list or list_alone"),
    });
    println!("{}", log.lines().count());
}
