//! Runs the two programs on inputs and outputs that a terminal seldom has: pieces of one byte, sizes at the limit, random bytes, files that
//! cannot be read, outputs that fail. In every case a program must end by itself, what it wrote must be the oracle's answer, or as much
//! of it as the output took, and on its error output may come what could not be done, and from the night listing nothing. The examples of
//! manual and format and the stored night listings are cases too. Takes the paths of the night listing, the merging program, the manual,
//! the format and `nights.bin`; prints each case that failed, and how many there were.

mod format;
mod logs;
mod manual;
mod merges;
mod nights;
mod tester;

use logs::{EXAMPLE, LINE, LOG, Random, crowded, is_listed, log_of, sketched, wide_log, widest};
use std::fs;
use std::os::unix::fs::PermissionsExt;
use std::path::Path;
use std::process::exit;
use std::time::Duration;
use tester::{Case, Tester};

fn inputs(t: &mut Tester) {
    t.whole("no input", b"");
    t.whole("the example", EXAMPLE.as_bytes());
    t.whole("no line feed at the end", EXAMPLE.trim_end().as_bytes());
    t.whole(
        "a refusal behind an event",
        format!("{EXAMPLE}\n@x\n{EXAMPLE}").as_bytes(),
    );
    t.whole("nothing but line feeds", &vec![b'\n'; LOG]);
    for size in [LOG - 1, LOG, LOG + 1, LOG + 2, 2 * LOG, 1_000_000] {
        t.whole(&format!("{size} bytes"), &log_of(size));
    }
    assert!(
        is_listed(&log_of(LOG))
            && is_listed(&widest(LINE))
            && is_listed(&crowded(LINE))
            && is_listed(&wide_log())
    );
    for size in [LINE, LINE + 1] {
        t.whole(&format!("the widest line of {size} bytes"), &widest(size));
        t.whole(&format!("a crowded line of {size} bytes"), &crowded(size));
    }
    t.whole("the widest lines, fifteen", &wide_log());
    let mut random = Random(1);
    for n in 0..100 {
        let size = random.below(70_000) as usize;
        let bytes = random.bytes(size);
        t.whole(&format!("random bytes {n}"), &bytes);
    }
    let logs: Vec<Vec<u8>> = (0..300).map(|_| sketched(&mut random)).collect();
    assert!(logs.iter().filter(|log| is_listed(log)).count() > 100);
    for (n, log) in logs.iter().enumerate() {
        t.whole(&format!("random log {n}"), log);
    }
}

/// Refused logs: one line, whatever events stand before, with the number of the line met first.
fn refused_logs(t: &mut Tester) {
    let event = EXAMPLE.trim_end();
    for (log, answer) in [
        ("x".to_string(), "refused 10 line 1\n"),
        (format!("{event}\n{event}\n@x"), "refused 11 line 3\n"),
        (
            format!("\u{feff}\n \t\r\n{event}\r\n@1 a"),
            "refused 16 line 4\n",
        ),
        (format!("{event}\n\u{feff}{event}"), "refused 10 line 2\n"),
        (format!("@+ {event}\n@"), "refused 12 line 1\n"),
        (
            format!("{event}\n@1 {}", "x".repeat(LINE)),
            "refused 4 line 2\n",
        ),
        ("\n".repeat(LOG + 1), "refused 2 line 0\n"),
    ] {
        t.listed(answer, log.as_bytes(), answer.as_bytes());
    }
    let damaged = [event.as_bytes(), b"\n\xff"].concat();
    t.listed("not UTF-8", &damaged, b"refused 3 line 0\n");
}

fn pieces(t: &mut Tester) {
    let short = Case::listing(&log_of(2_000));
    t.pipe_of_bytes("single bytes through a pipe", &short);
    let refused = Case::listing(b"@40 a::\"b\"::c(\n");
    t.pipe_of_bytes("single bytes, refused", &refused);
    t.datagrams("single bytes", EXAMPLE.as_bytes(), 1);
    for size in [LOG, LOG + 1] {
        t.datagrams(&format!("{size} single bytes"), &log_of(size), 1);
    }
    for piece in [2, 7, 4_095, 4_096, 4_097, 60_000] {
        t.datagrams(&format!("pieces of {piece}"), &log_of(LOG), piece);
    }
    t.unreadable("a closed input", "exec \"$0\" <&-");
    t.unreadable("a folder for input", "exec \"$0\" </");
}

/// Outputs that take nothing.
pub fn shut_outputs(t: &mut Tester, name: &str, case: &Case) {
    for (kind, shut) in [("a closed output", ">&-"), ("a full device", ">/dev/full")] {
        let script = format!("exec \"$0\" \"$@\" {shut}");
        t.shut(&format!("{name} to {kind}"), &script, case);
    }
    for ignored in [false, true] {
        let name = format!("{name} to a pipe closed at once, signal ignored: {ignored}");
        t.cut_off(&name, case, 0, ignored);
    }
}

/// A file that may grow so far.
pub fn limited_files(t: &mut Tester, case: &Case) {
    for ignored in [false, true] {
        for blocks in [0, 1, 2, 7, 100, 10_000] {
            let name = format!("a file of {blocks} blocks, signal ignored: {ignored}");
            t.limited_file(&name, case, blocks, ignored);
        }
    }
}

/// A pipe that is closed behind so many bytes.
fn closed_pipes(t: &mut Tester, case: &Case) {
    for ignored in [false, true] {
        for after in [1, 9_999] {
            let name = format!("a pipe closed behind {after} bytes, signal ignored: {ignored}");
            t.cut_off(&name, case, after, ignored);
        }
    }
}

/// Outputs that take all, or could, but not at once.
fn slow_outputs(t: &mut Tester) {
    let (long, wide) = (Case::listing(&log_of(LOG)), Case::listing(&wide_log()));
    for n in 0..20 {
        let pause = Duration::from_millis(2 * n);
        t.hasty_pipe(
            &format!("a pipe that does not wait, read behind {pause:?}"),
            &wide,
            0,
            pause,
        );
        t.hasty_pipe(
            &format!("the same, short events, read behind {pause:?}"),
            &long,
            0,
            pause,
        );
    }
    t.stopped("stopped while it writes", &wide);
    t.stopped("stopped while it writes short events", &long);
    t.slow_reader("a slow reader", &long);
}

fn listings(t: &mut Tester, manual: &str, format: &str, stored: &[u8]) {
    inputs(t);
    refused_logs(t);
    pieces(t);
    let long = Case::listing(&log_of(LOG));
    shut_outputs(t, "an event", &Case::listing(EXAMPLE.as_bytes()));
    shut_outputs(t, "a long log", &long);
    shut_outputs(t, "a refusal", &Case::listing(b"@"));
    shut_outputs(t, "no input", &Case::listing(b""));
    closed_pipes(t, &long);
    limited_files(t, &long);
    slow_outputs(t);
    manual::values(t, manual);
    manual::refusals(t, manual);
    manual::event(t, manual);
    manual::cells(manual);
    manual::values(t, format);
    format::listings(t, format);
    format::cells(format);
    nights::replay(t, stored);
}

/// Tests a program; whether all was as it should be.
fn tested(program: &str, scratch: &Path, tests: impl FnOnce(&mut Tester)) -> bool {
    let mut tester = Tester {
        program: program.to_string(),
        scratch: scratch.to_path_buf(),
        cases: 0,
        failed: 0,
    };
    tests(&mut tester);
    println!(
        "robustness of {}: {} cases, {} failed",
        tester.program, tester.cases, tester.failed
    );
    tester.failed == 0
}

fn main() {
    let args: Vec<String> = std::env::args().skip(1).collect();
    let [lister, merger, manual, format, nights] = args.as_slice() else {
        eprintln!("usage: robustness LISTER MERGER MANUAL FORMAT NIGHTS");
        exit(2);
    };
    let [manual, format] = [manual, format].map(|page| fs::read_to_string(page).expect("a page"));
    let stored = fs::read(nights).expect("the night listings");
    let scratch = std::env::temp_dir().join(format!("robustness-{}", std::process::id()));
    fs::create_dir_all(&scratch).expect("create_dir_all");
    fs::set_permissions(&scratch, fs::Permissions::from_mode(0o755)).expect("set_permissions");
    let listed = tested(lister, &scratch, |t| listings(t, &manual, &format, &stored));
    let merged = tested(merger, &scratch, |t| merges::all(t, &manual, &format));
    fs::remove_dir_all(&scratch).expect("remove_dir_all");
    if !(listed && merged) {
        exit(1);
    }
}
