//! Build step: writes two copies of log_parse.rs.
//!
//! `plain.rs` is the file with one line behind it that opens its private functions to the driver.
//! `tagged.rs` is the same with 01's refusal number put in front of each message, at the place
//! in the code where the message is made: messages quote the log, so a search in a finished
//! message could be misled by it.

use std::{env, fs, process};

/// Where each of 01's refusals is made: its number, and how its message begins in the source.
const SITES: [(u8, &str); 26] = [
    (10, r#""timepoint must start with "#),
    (11, r#""expected whitespace after timestamp""#),
    (12, r#""bad timestamp `{ts_str}`""#),
    (13, r#""scope missing `)`""#),
    (14, r#""entities missing `)`""#),
    (15, r#""request_context missing `)`""#),
    (16, r#""event missing `(`""#),
    (17, r#""event missing `)`""#),
    (18, r#""event group `(` and `)` are out of order""#),
    (19, r#""event head `{head}` is missing a quoted action id""#),
    (20, r#""event head `{head}` has an unterminated action id""#),
    (21, r#""event head `{head}` is missing a `::kind` segment""#),
    (22, r#""argument `{part}` missing `:`""#),
    (23, r#""duplicate field `{key}`""#),
    (24, r#""logged value nested deeper than the limit of {MAX_VALUE_DEPTH}""#),
    (25, r#""object field `{part}` missing `:`""#),
    (26, r#""record has a duplicate field `{k}`""#),
    (27, r#""entities entry `{entry}` missing an attribute record "#),
    (28, r#""entities entry `{entry}` missing `:` before "#),
    (29, r#""entities entry `{entry}` has an unterminated "#),
    (30, r#""entities entry `{uid}` has trailing text after its record;"#),
    (31, r#""entities entry `{uid}` parents must be a bracketed list "#),
    (32, r#""entities entry `{uid}` parent `{item}` is not an entity ref "#),
    (33, r#""entities entry `{uid}` key is not an entity ref "#),
    (34, r#""entities envelope has a duplicate uid "#),
    (35, r#""entities entry `{uid}` value is not a "#),
];

/// What makes an error in log_parse.rs. `line {}: ` of `parse_trace` is the one that carries no number.
const MAKERS: [&str; 4] = [".ok_or(", ".ok_or_else(", ".map_err(", "Err("];

const OPEN: &str = "\n#[path = \"../../oracle/src/open.rs\"]\npub mod open;\n";

fn fail(why: &str) -> ! {
    eprintln!("oracle tag: {why}");
    process::exit(1);
}

fn main() {
    let args: Vec<String> = env::args().collect();
    let [_, source, out] = args.as_slice() else { fail("usage: tag LOG_PARSE_RS OUTDIR") };
    let plain = fs::read_to_string(source).unwrap_or_else(|e| fail(&format!("{source}: {e}")));

    let makers: usize = MAKERS.iter().map(|m| plain.matches(m).count()).sum();
    if makers != SITES.len() + 1 {
        fail(&format!("{makers} places make an error, {} are known", SITES.len() + 1));
    }
    let mut tagged = plain.clone();
    for (number, begins) in SITES {
        let found = plain.matches(begins).count();
        if found != 1 {
            fail(&format!("the message of {number} is made {found} times, not once: {begins}"));
        }
        let with_number = format!("\"\\u{{1}}{number}\\u{{1}}{}", &begins[1..]);
        tagged = tagged.replacen(begins, &with_number, 1);
    }
    for (name, text) in [("plain.rs", plain), ("tagged.rs", tagged)] {
        let path = format!("{out}/{name}");
        fs::write(&path, text + OPEN).unwrap_or_else(|e| fail(&format!("{path}: {e}")));
    }
}
