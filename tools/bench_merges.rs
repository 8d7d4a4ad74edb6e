//! Two logs merged: `merge` beside two calls of `judge` and a copy of the result, than which merging could hardly take less, and beside the
//! Rust, which reads both logs by `parse_trace` and merges their lines as the oracle does. The lines of one log are dealt to two by chance, so
//! that a line of either may be next. Turns and times as for whole logs.

use crate::logs::{KINDS, ROUNDS, TURN, log_of, median, time};
use crate::{Tables, ours};
use oracle::merge::{self, EventLine};
use oracle::parse_trace;
use std::hint::black_box;

/// The kinds of logs, and how many bytes both have together.
const MERGED: [(&str, &[usize]); 6] = [
    ("typical", &[16_384, 65_536]),
    ("short lines", &[16_384, 65_536]),
    ("arrays nested 128 deep", &[65_536]),
    ("long strings", &[65_536]),
    ("blank", &[16_384, 65_536]),
    ("blank, 40 spaces", &[65_536]),
];

/// Two logs, and the result.
struct Pair {
    first: String,
    second: String,
    merged: Vec<u8>,
    lines: usize,
}

impl Pair {
    fn of(name: &str, bytes: usize) -> Pair {
        let kind = KINDS.iter().find(|kind| kind.name == name);
        let log = log_of(kind.expect("a kind of log"), bytes);
        let mut logs = [String::new(), String::new()];
        let mut chance: u64 = 0;
        for line in log.split_inclusive('\n') {
            chance = chance
                .wrapping_mul(6_364_136_223_846_793_005)
                .wrapping_add(1);
            logs[(chance >> 63) as usize] += line;
        }
        let [first, second] = logs;
        let merged = merge::logs(first.as_bytes(), second.as_bytes(), 65_536);
        Pair {
            lines: log.lines().count(),
            merged: merged.expect("logs that merge").into_bytes(),
            first,
            second,
        }
    }

    fn bytes(&self) -> usize {
        self.first.len() + self.second.len()
    }
}

/// The lines of a log with the times that the Rust read, which is dropped here.
fn read_lines(log: &str) -> Vec<EventLine<'_>> {
    let trace = parse_trace(black_box(log)).expect("an accepted log");
    merge::event_lines(log, trace.points.iter().map(|event| event.ts))
}

/// Not inlined, so that callgrind sees it, as the next one.
#[inline(never)]
fn rust_merge(pair: &Pair) -> u64 {
    let (first, second) = (read_lines(&pair.first), read_lines(&pair.second));
    let merged = merge::merged(first, second, 65_536);
    black_box(merged).expect("logs that merge").len() as u64
}

/// Both logs judged, and the result copied.
#[inline(never)]
fn judge_and_copy(tables: &mut Tables, out: &mut [u8], pair: &Pair) -> u64 {
    for log in [&pair.first, &pair.second] {
        let events = ours::judge(tables, black_box(log.as_bytes()));
        assert!(events < 1 << 32, "an accepted log");
    }
    let count = pair.merged.len();
    black_box(&mut out[..count]).copy_from_slice(black_box(&pair.merged));
    count as u64
}

fn our_merge(tables: &mut Tables, out: &mut [u8], pair: &Pair) -> u64 {
    ours::merge(
        tables,
        black_box(out),
        black_box(pair.first.as_bytes()),
        black_box(pair.second.as_bytes()),
    )
}

/// The times of both sides and of judging, turn by turn. Both sides must write the same.
fn turns(name: &str, pair: &Pair) -> Vec<[f64; 3]> {
    let mut tables = Tables::new();
    let mut out = vec![0u8; 65_536];
    let count = our_merge(&mut tables, &mut out, pair);
    assert_eq!(
        count as usize,
        pair.merged.len(),
        "{name}: both sides differ"
    );
    assert_eq!(
        &out[..count as usize],
        pair.merged,
        "{name}: both sides differ"
    );
    let runs = |f: &mut dyn FnMut() -> u64| (TURN / time(3, f)).clamp(1.0, 1e4) as u32;
    let (few, many) = (
        runs(&mut || rust_merge(pair)),
        runs(&mut || our_merge(&mut tables, &mut out, pair)),
    );
    (0..ROUNDS)
        .map(|_| {
            [
                time(few, &mut || rust_merge(pair)),
                time(many, &mut || judge_and_copy(&mut tables, &mut out, pair)),
                time(many, &mut || our_merge(&mut tables, &mut out, pair)),
            ]
        })
        .collect()
}

fn row(name: &str, pair: &Pair) {
    let turns = turns(name, pair);
    let run = |side: usize| median(turns.iter().map(|turn| turn[side]).collect());
    let line = |side: usize| run(side) / pair.lines as f64;
    let ratio = |over: usize, under: usize| {
        median(turns.iter().map(|turn| turn[over] / turn[under]).collect())
    };
    println!(
        "| {name} | {} | {} | {:.1} | {:.1} | {:.1} | {:.2} | {:.2} | {:.2} |",
        pair.lines,
        pair.bytes(),
        line(0),
        line(1),
        line(2),
        ratio(2, 1),
        ratio(0, 2),
        run(2) / pair.bytes() as f64,
    );
}

/// The rows that contain the word.
pub fn rows(word: &str) {
    println!(
        "\n| merge | lines | bytes | Rust ns to a line | judge twice and copy | merge | by judge and copy | Rust by merge | merge ns to a byte |"
    );
    println!("|---|---:|---:|---:|---:|---:|---:|---:|---:|");
    let named = MERGED
        .iter()
        .filter(|(name, _)| format!("merge log {name}").contains(word));
    let pairs = named.flat_map(|(name, sizes)| sizes.iter().map(move |bytes| (name, *bytes)));
    for (name, bytes) in pairs {
        row(name, &Pair::of(name, bytes));
    }
}

/// The names of the kinds, for `tools/bench instructions`.
pub fn names() {
    MERGED.iter().for_each(|(name, _)| println!("{name}"));
}

/// Calls one side on one pair of logs, for callgrind. Prints how many lines they have.
pub fn once(name: &str, side: &str) {
    let pair = Pair::of(name, 65_536);
    let mut tables = Tables::new();
    let mut out = vec![0u8; 65_536];
    black_box(match side {
        "rust" => rust_merge(&pair),
        "judge" => judge_and_copy(&mut tables, &mut out, &pair),
        "merge" => our_merge(&mut tables, &mut out, &pair),
        _ => panic!("rust, judge or merge"),
    });
    println!("{}", pair.lines);
}
