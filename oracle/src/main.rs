//! The oracle's command. Input is standard input, as bytes, unless said otherwise.
//!
//!     oracle listing            a log's night listing, or `refused N line L`
//!     oracle judge              `events N`, or `refused N line L`
//!     oracle merge SECOND       the log merged with another, which is given in hex, or
//!                               `refused N log G line L`
//!     oracle line NUMBER        one line's listing as event NUMBER; nothing for a blank line
//!     oracle pack               one line's pack (counts, `kind number` of each node, texts in
//!                               hex), or `blank`
//!     oracle cells              the pack of a text of entities JSON
//!     oracle value              the pack of one value, read at depth 0
//!     oracle decode             the text with its escapes decoded, in hex
//!     oracle cuts               the byte places of the commas that cut the text
//!     oracle key TYPE ID        the key of a type and a decoded id, all three in hex
//!     oracle trim               the trimmed text in hex, or `bad` where it is not UTF-8
//!     oracle utf8               `valid` or `bad`
//!     oracle ranges             rustc's name, then the ranges of both escape lists, ends not in
//!     oracle selftest           checks what is said of the Rust, fact by fact
//!     oracle batch              one request on each line: SUBCOMMAND HEX [ARGUMENT];
//!                               one answer on each line: the hex of what the subcommand prints
//!
//! `refused N` stands for any other refusal. Hex of no bytes is `-`. Linux takes no argument of
//! over 131,071 bytes, so a second log of over 65,535 bytes can be merged through `batch` alone.

use oracle::{answers, facts, hex};
use std::io::{self, BufRead, Read, Write};
use std::process::exit;

fn usage() -> ! {
    eprintln!(
        "usage: oracle listing|judge|merge SECOND|line NUMBER|pack|cells|value|decode|cuts|key TYPE ID|trim|utf8|ranges|selftest|batch"
    );
    exit(2);
}

/// The answer to one request; `None` where it is no request.
fn answer(command: &str, input: &[u8], argument: Option<&str>) -> Option<String> {
    let answer = match command {
        "listing" => answers::night_listing(input),
        "judge" => answers::judge(input),
        "merge" => answers::merge(input, &hex::read(argument?)?),
        "line" => answers::line(input, argument?.parse().ok()?),
        "pack" => answers::pack(input),
        "cells" => answers::cells(input),
        "value" => answers::value(input),
        "decode" => answers::decode(input),
        "cuts" => answers::cuts(input),
        "key" => answers::key(input, &hex::read(argument?)?),
        "trim" => answers::trim(input),
        "utf8" => answers::utf8(input),
        _ => return None,
    };
    Some(answer)
}

fn batch() -> io::Result<()> {
    let mut out = io::BufWriter::new(io::stdout().lock());
    for request in io::stdin().lock().lines() {
        let request = request?;
        let words: Vec<&str> = request.split(' ').collect();
        let answered = match words.as_slice() {
            [command, input] => hex::read(input).and_then(|i| answer(command, &i, None)),
            [command, input, arg] => hex::read(input).and_then(|i| answer(command, &i, Some(arg))),
            _ => None,
        };
        let Some(text) = answered else {
            eprintln!("oracle batch: no request: {request}");
            exit(2);
        };
        writeln!(out, "{}", hex::spell(text.as_bytes()))?;
    }
    out.flush()
}

fn main() -> io::Result<()> {
    let args: Vec<String> = std::env::args().skip(1).collect();
    let words: Vec<&str> = args.iter().map(String::as_str).collect();
    let text = match words.as_slice() {
        ["batch"] => return batch(),
        ["ranges"] => answers::escape_ranges(),
        ["selftest"] => facts::report().unwrap_or_else(|failures| {
            eprint!("{failures}");
            exit(1);
        }),
        ["key", ty, id] => {
            let ty = hex::read(ty).unwrap_or_else(|| usage());
            answer("key", &ty, Some(id)).unwrap_or_else(|| usage())
        }
        [command, rest @ ..] if rest.len() < 2 => {
            let mut input = Vec::new();
            io::stdin().lock().read_to_end(&mut input)?;
            answer(command, &input, rest.first().copied()).unwrap_or_else(|| usage())
        }
        _ => usage(),
    };
    io::stdout().lock().write_all(text.as_bytes())
}
