//! The manual's examples: it says what the program and the Rust give.

use crate::logs::LOG;
use crate::merges::whole_log;
use crate::tester::{Case, Tester};
use oracle::answers;

/// The rows of a table below this head, as cells. Code loses its backticks.
pub fn rows(manual: &str, head: &str) -> Vec<Vec<String>> {
    let below = manual.split(head).skip(1);
    let tables = below.map(|text| text.lines().skip(1).take_while(|row| row.starts_with('|')));
    let cells = |row: &str| {
        row.trim_matches('|')
            .split('|')
            .map(|cell| cell.trim().to_string())
            .collect()
    };
    tables.flatten().map(cells).collect()
}

/// What a cell has as code, where it is nothing but that.
pub fn code(cell: &str) -> Option<&str> {
    cell.strip_prefix('`')?
        .strip_suffix('`')
        .filter(|code| !code.contains('`'))
}

/// Each piece of code in a cell.
pub fn codes(cell: &str) -> Vec<&str> {
    cell.split('`').skip(1).step_by(2).collect()
}

/// The text of the first block of this language.
pub fn block<'a>(manual: &'a str, language: &str) -> &'a str {
    let text = manual
        .split(&format!("```{language}\n"))
        .nth(1)
        .expect("a block");
    text.split("```").next().expect("its end")
}

/// A node's number as the manual writes it.
fn node_number(cell: &str) -> u64 {
    let number = |text: &str| text.parse::<u64>().expect("a number");
    match cell.split_once("·2^32 + ") {
        Some((start, length)) => number(start) << 32 | number(length),
        None if cell == "2^64 - 1" => u64::MAX,
        None => number(cell),
    }
}

/// The tables of values and escapes, of the manual and of the format: each value as it is listed.
pub fn values(t: &mut Tester, manual: &str) {
    let table = rows(manual, "| Listed |\n");
    assert!(table.len() > 20);
    for row in &table {
        let (written, listed) = (code(&row[0]).expect("code"), code(&row[2]).expect("code"));
        let log = format!("@0 ::\"\"::k(v: {written})");
        let line = format!("\nlogged {{\"v\":{listed}}}\n");
        assert!(
            answers::night_listing(log.as_bytes()).contains(&line),
            "value: {written}"
        );
        t.whole(&format!("value: {written}"), log.as_bytes());
    }
}

/// The table of refusals: each example is refused for its reason, and for another or none where a byte is left out.
pub fn refusals(t: &mut Tester, manual: &str) {
    let table = rows(manual, "| Remedy |\n");
    let examples = table
        .iter()
        .filter_map(|row| Some((&row[0], code(&row[2])?)));
    let examples: Vec<_> = examples.collect();
    assert!(table.len() == 36 && examples.len() == 24);
    for (number, example) in examples {
        let start = format!("refused {number} ");
        let refused = |log: &str| answers::night_listing(log.as_bytes()).starts_with(&start);
        let without = |at: usize| format!("{}{}", &example[..at], &example[at + 1..]);
        assert!(refused(example), "manual: {number}");
        assert!(
            !(0..example.len()).any(|at| refused(&without(at))),
            "manual: {number}"
        );
        t.whole(&format!("manual: refusal {number}"), example.as_bytes());
    }
}

/// The listing, and the nodes of a pack.
pub fn event(t: &mut Tester, manual: &str) {
    let log = block(manual, "log");
    assert_eq!(
        answers::night_listing(log.as_bytes()),
        block(manual, "listing")
    );
    t.whole("manual: the listing", log.as_bytes());
    let line = manual.split("\nThe line `").nth(1).expect("a line");
    let line = line.split('`').next().expect("its end");
    let mut printed = String::new();
    for row in rows(manual, "| Node | Kind | Number | |\n") {
        printed += &format!("{} {}\n", row[1], node_number(&row[2]));
    }
    let pack = answers::pack(line.as_bytes());
    assert!(
        pack.starts_with(&format!("nodes 21 texts 24\n{printed}")),
        "manual: the pack"
    );
}

/// The export, node by node, and the refusals that entities JSON alone meets: where a byte of the example is left out, another is met.
pub fn cells(manual: &str) {
    let mut printed = "nodes 26 texts 43\n0 0\n0 0\n0 0\n8 0\n10 0\n10 0\n9 0\n9 0\n".to_string();
    for row in rows(manual, "| Node | Kind | Number | Of the export |\n") {
        printed += &format!("{} {}\n", row[1], node_number(&row[2]));
    }
    let pack = answers::cells(block(manual, "json").as_bytes());
    assert!(pack.starts_with(&printed), "manual: the export");
    for row in rows(manual, "| Remedy |\n") {
        if row[0] != "36" && row[0] != "37" {
            continue;
        }
        let example = codes(&row[2]).concat();
        let refused =
            |text: &str| answers::cells(text.as_bytes()) == format!("refused {}\n", row[0]);
        let without = |at: usize| format!("{}{}", &example[..at], &example[at + 1..]);
        assert!(refused(&example), "manual: {}", row[0]);
        assert!(
            !(0..example.len()).any(|at| refused(&without(at))),
            "manual: {}",
            row[0]
        );
    }
}

/// The example of merging, and the refusals that it alone meets: the lines of their examples are a log, which is merged with an empty one.
pub fn merging(t: &mut Tester, manual: &str) {
    let [first, second] = ["first", "second"].map(|log| block(manual, log).as_bytes());
    assert_eq!(answers::merge(first, second), block(manual, "merged"));
    let case = Case::merge(t, first, second);
    t.answered("manual: the merged log", &case);
    for row in rows(manual, "| Remedy |\n") {
        let log = match row[0].as_str() {
            "45" | "46" => codes(&row[2]).join("\n").into_bytes(),
            "47" => whole_log(LOG + 1).trim_end().as_bytes().to_vec(),
            _ => continue,
        };
        let logs = |log: &[u8]| {
            if row[0] == "46" {
                [vec![], log.to_vec()]
            } else {
                [log.to_vec(), vec![]]
            }
        };
        let start = format!("refused {} ", row[0]);
        let refused = |log: &[u8]| {
            let [first, second] = logs(log);
            answers::merge(&first, &second).starts_with(&start)
        };
        let without = |at: usize| [&log[..at], &log[at + 1..]].concat();
        assert!(refused(&log), "manual: {}", row[0]);
        assert!(
            !(0..log.len().min(50)).any(|at| refused(&without(at))),
            "manual: {}",
            row[0]
        );
        let [first, second] = logs(&log);
        let case = Case::merge(t, &first, &second);
        t.answered(&format!("manual: refusal {}", row[0]), &case);
    }
}
