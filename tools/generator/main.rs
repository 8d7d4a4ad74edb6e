//! Writes the vectors: generator HAND_DIR OUT_DIR. The format is said in vectors/README.md.

mod cases;
mod cells;
mod cells_grammar;
mod chars;
mod control;
mod cuts;
mod damage;
mod escapes;
mod grammar;
mod hand;
mod lines;
mod listings;
mod logs;
mod merges;
mod nights;
mod numbers;
mod pieces;
mod random;
mod traps;
mod values;

use cases::Cases;
use hand::Hand;
use std::collections::BTreeMap;
use std::process::exit;

type Maker = fn(&mut Cases, &Hand);

/// Each with its group's number in the program `vectors`, which does not ask the last.
const FILES: [(&str, u8, Maker); 11] = [
    ("chars", 1, chars::make),
    ("escapes", 4, escapes::make),
    ("cuts", 3, cuts::make),
    ("numbers", 2, numbers::make),
    ("values", 5, values::make),
    ("lines", 6, lines::make),
    ("logs", 7, logs::make),
    ("listings", 8, listings::make),
    ("merges", 9, merges::make),
    ("cells", 10, cells::make),
    ("nights", 0, nights::make),
];

fn main() {
    let args: Vec<String> = std::env::args().skip(1).collect();
    let [hand_dir, out_dir] = args.as_slice() else {
        eprintln!("usage: generator HAND_DIR OUT_DIR");
        exit(2);
    };
    let hand = Hand::in_folder(hand_dir);
    let mut groups = BTreeMap::new();
    for (name, group, make) in FILES {
        let mut cases = Cases::default();
        make(&mut cases, &hand);
        write(out_dir, name, &cases);
        groups.insert(group, cases);
    }
    let mut cases = Cases::default();
    control::make(&mut cases, &groups);
    write(out_dir, "control", &cases);
}

fn write(out_dir: &str, name: &str, cases: &Cases) {
    let path = format!("{out_dir}/{name}.bin");
    if let Err(error) = std::fs::write(&path, cases.bytes()) {
        eprintln!("generator: {path}: {error}");
        exit(1);
    }
    println!("{name}: {}", cases.summary());
}
