//! Merges two logs into one: merge FIRST SECOND prints it, or the first refusal with its log and line.
//! Exit status: 0 merged, 1 refused, 2 called in a wrong way, 3 reading or writing failed.
use std::ffi::{OsStr, OsString};
use std::fmt::Display;
use std::fs::File;
use std::io::{Read, Write};
use std::process::exit;

/// Says why there is no merged log, and ends with this status.
fn fail(status: i32, why: impl Display) -> ! {
    eprintln!("{why}");
    exit(status)
}

/// Reads no further than shows that a log is too long, since a file may never end.
fn read(name: &OsStr) -> Vec<u8> {
    let most = lulzhemor::TEXT_LIMIT as u64 + 1;
    let mut log = Vec::new();
    match File::open(name).and_then(|file| file.take(most).read_to_end(&mut log)) {
        Ok(_) => log,
        Err(why) => fail(3, format!("{}: {why}", name.display())),
    }
}

fn main() {
    let names: Vec<OsString> = std::env::args_os().skip(1).collect();
    let [first, second] = names.as_slice() else {
        fail(2, "usage: merge FIRST SECOND");
    };
    let (first, second) = (read(first), read(second));
    let mut merged = vec![0; lulzhemor::TEXT_LIMIT];
    let answer = lulzhemor::Tables::new().merge(&first, &second, &mut merged);
    let count = answer.unwrap_or_else(|refusal| fail(1, refusal));
    let mut output = std::io::stdout();
    let written = output.write_all(&merged[..count]);
    if let Err(why) = written.and_then(|()| output.flush()) {
        fail(3, format!("standard output: {why}"));
    }
}
