//! The hand-written inputs: one to a line, `%XX` for a byte, lines that begin with `#` are
//! comments, empty lines are skipped.

use std::collections::BTreeMap;
use std::process::exit;

pub struct Hand {
    lists: BTreeMap<String, Vec<Vec<u8>>>,
}

const NAMES: [&str; 10] =
    ["chars", "escapes", "keys", "cuts", "numbers", "values", "lines", "logs", "listings", "cells"];

impl Hand {
    pub fn in_folder(folder: &str) -> Hand {
        let list = |name: &str| {
            let path = format!("{folder}/{name}.txt");
            let text =
                std::fs::read_to_string(&path).unwrap_or_else(|e| fail(&path, &e.to_string()));
            let wanted = text.lines().filter(|l| !l.is_empty() && !l.starts_with('#'));
            let read = |line: &str| bytes(line).unwrap_or_else(|| fail(&path, line));
            wanted.map(read).collect()
        };
        Hand { lists: NAMES.iter().map(|name| (name.to_string(), list(name))).collect() }
    }

    pub fn list(&self, name: &str) -> &[Vec<u8>] {
        &self.lists[name]
    }
}

fn fail(path: &str, why: &str) -> ! {
    eprintln!("generator: {path}: {why}");
    exit(1);
}

fn bytes(line: &str) -> Option<Vec<u8>> {
    let mut out = Vec::new();
    let mut rest = line.as_bytes();
    while let Some((first, behind)) = rest.split_first() {
        rest = behind;
        if *first != b'%' {
            out.push(*first);
            continue;
        }
        let digits = std::str::from_utf8(rest.get(..2)?).ok()?;
        out.push(u8::from_str_radix(digits, 16).ok()?);
        rest = &rest[2..];
    }
    Some(out)
}
