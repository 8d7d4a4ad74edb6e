//! The program that merges two files.

use crate::logs::{LOG, Random, sketched};
use crate::tester::{Case, Tester};
use crate::{format, limited_files, manual, shut_outputs};
use oracle::answers;
use std::ffi::OsString;
use std::fs;
use std::os::unix::fs::PermissionsExt;
use std::path::PathBuf;
use std::time::Duration;

/// An event's line.
fn event(time: &str, kind: &str) -> String {
    format!("@{time} ::\"\"::{kind}()\n")
}

/// A log of so many bytes that merges into as many: short events, the last one longer.
pub fn whole_log(size: usize) -> String {
    let line = event("1", "k");
    let log = line.repeat(size / line.len() - 1);
    let last = event("1", &"k".repeat(1 + size - log.len() - line.len()));
    log + &last
}

/// Logs in files, and what is written of them.
fn in_files(t: &Tester, logs: [&[u8]; 2]) -> Case {
    let path = |name: &str| t.scratch.join(name);
    let paths = [path("a first, named 'log'"), path("-second\n")];
    for (path, log) in paths.iter().zip(logs) {
        fs::write(path, log).expect("write");
    }
    Case {
        args: paths.map(OsString::from).to_vec(),
        input: Vec::new(),
        ..Case::merge(t, logs[0], logs[1])
    }
}

/// Two logs, once through files alone and once with the first through a pipe.
fn merged(t: &mut Tester, name: &str, first: &[u8], second: &[u8]) {
    let case = in_files(t, [first, second]);
    t.answered(&format!("{name}, in files"), &case);
    let case = Case::merge(t, first, second);
    t.answered(&format!("{name}, through a pipe"), &case);
}

/// The same where the answer is known.
fn known(t: &mut Tester, first: &[u8], second: &[u8], answer: &str) {
    assert_eq!(answers::merge(first, second), answer);
    merged(t, answer.trim_end(), first, second);
}

fn known_merges(t: &mut Tester) {
    let [a, b] = ["a", "b"].map(|kind| event("5", kind));
    let whole = whole_log(LOG);
    known(t, b"", b"", "");
    known(t, "\u{feff}".as_bytes(), b" \n\t\n", "");
    known(t, b.as_bytes(), a.as_bytes(), &format!("{b}{a}"));
    known(
        t,
        b"\r\n @5 ::\"\"::a() tail\t",
        b"@-1 ::\"\"::b()",
        "@-1 ::\"\"::b()\n@5 ::\"\"::a() tail\n",
    );
    known(t, whole.as_bytes(), b"", &whole);
}

/// The refusals of one log: its own, and a fall.
fn known_refusals(t: &mut Tester) {
    let [a, b, falls] = ["a", "b", "falls"].map(|kind| event("5", kind));
    let falls = falls + &event("4", "k");
    let later = format!("{b}\n{falls}");
    let (a, falls, later) = (a.as_bytes(), falls.as_bytes(), later.as_bytes());
    known(t, falls, falls, "refused 45 log 1 line 2\n");
    known(t, a, later, "refused 46 log 2 line 4\n");
    known(t, falls, b"\n\nx", "refused 10 log 2 line 3\n");
    known(t, b"x", b"\xff", "refused 10 log 1 line 1\n");
    known(t, falls, b"\xff", "refused 3 log 2 line 0\n");
    known(t, b"\xff", b"", "refused 3 log 1 line 0\n");
}

/// Either file one byte too long for a log, and far too long; a merged log that is too long.
fn known_sizes(t: &mut Tester) {
    let one = event("5", "a");
    let (whole, unended) = (whole_log(LOG), whole_log(LOG + 1));
    for size in [LOG + 1, 1_000_000] {
        let long = vec![b'\n'; size];
        known(t, &long, b"\xff", "refused 2 log 1 line 0\n");
        known(t, one.as_bytes(), &long, "refused 2 log 2 line 0\n");
    }
    let too_long = "refused 47 log 0 line 0\n";
    known(t, b"", unended.trim_end().as_bytes(), too_long);
    known(t, &whole.as_bytes()[..LOG - 1], one.as_bytes(), too_long);
}

/// Two logs whose times rise, with blank lines and whitespace between.
fn dealt(random: &mut Random) -> [Vec<u8>; 2] {
    let mut logs = [(); 2].map(|_| random.of(&["", "", "\u{feff}"]).to_string());
    let mut time = random.below(9) as i64 - 5;
    for n in 0..random.below(40) {
        time += random.below(3) as i64;
        let sign = if time >= 0 { random.of(&["", "+"]) } else { "" };
        let line = event(&format!("{sign}{time}"), &format!("k{n}"));
        let log = &mut logs[random.below(2) as usize];
        *log += random.of(&["", "", " \u{3000}", "\n\t\r\n"]);
        *log += line.trim_end();
        *log += random.of(&["\n", "\n", "\r\n", " tail\n", "\u{a0}\n"]);
    }
    logs.map(String::into_bytes)
}

fn random_pairs(t: &mut Tester) {
    let mut random = Random(11);
    for n in 0..150 {
        let [first, second] = dealt(&mut random);
        assert!(!answers::merge(&first, &second).starts_with("refused"));
        merged(t, &format!("dealt logs {n}"), &first, &second);
        let (first, second) = (sketched(&mut random), sketched(&mut random));
        merged(t, &format!("random logs {n}"), &first, &second);
    }
}

/// A file that can be read.
fn readable(t: &Tester) -> PathBuf {
    let path = t.scratch.join("good");
    fs::write(&path, event("1", "k")).expect("write");
    path
}

/// Arguments of which one cannot be read, and what is said of it.
fn unreadable(t: &mut Tester) {
    let good = readable(t);
    let (folder, absent) = (t.scratch.clone(), t.scratch.join("absent\u{e9}"));
    let long = |size: usize| PathBuf::from("x".repeat(size));
    let said = |path: &PathBuf, why: &str| format!("{}: {why}\n", path.display());
    for (path, line) in [
        (absent.clone(), said(&absent, "No such file or directory")),
        (folder.clone(), said(&folder, "Is a directory")),
        (PathBuf::new(), ": No such file or directory\n".to_string()),
        (
            PathBuf::from("/proc/self/mem"),
            "/proc/self/mem: Input/output error\n".to_string(),
        ),
        (long(4_096), said(&long(4_096), "File name too long")),
        (
            long(4_097),
            "a file's name: File name too long\n".to_string(),
        ),
    ] {
        let name: String = line.chars().take(40).collect();
        t.said(
            &format!("first: {name}"),
            &[path.clone().into(), good.clone().into()],
            &line,
        );
        t.said(
            &format!("second: {name}"),
            &[good.clone().into(), path.into()],
            &line,
        );
    }
}

/// Any number of arguments but two.
fn wrong_calls(t: &mut Tester) {
    let good = readable(t);
    let usage = "usage: merge_logs FIRST SECOND\n";
    for count in [0, 1, 3, 9] {
        let args = vec![OsString::from(&good); count];
        t.said(&format!("{count} arguments"), &args, usage);
    }
}

/// A file that its reader may not read.
fn forbidden(t: &mut Tester) {
    let secret = t.scratch.join("secret");
    fs::write(&secret, "").expect("write");
    fs::set_permissions(&secret, fs::Permissions::from_mode(0o000)).expect("set_permissions");
    let line = format!("{}: Permission denied\n", secret.display());
    let [good, secret] = [readable(t), secret].map(OsString::from);
    let both = [good.clone(), good.clone()];
    t.forbidden(
        "first: may not be read",
        &[secret.clone(), good.clone()],
        &both,
        &line,
    );
    t.forbidden("second: may not be read", &[good, secret], &both, &line);
}

/// Files that never end, and descriptors that are closed: a file that is opened may then have the number of one of them.
fn odd_inputs(t: &mut Tester) {
    let zero = OsString::from("/dev/zero");
    for (place, log) in [(0, 1), (1, 2)] {
        let mut case = in_files(t, [b"", b""]);
        case.args[place] = zero.clone();
        case.expected = format!("refused 2 log {log} line 0\n").into_bytes();
        t.answered(&format!("log {log} is endless"), &case);
    }
    let [first, second] = [event("2", "k"), event("1", "k")].map(String::into_bytes);
    let case = Case::merge(t, &first, &second);
    t.pipe_of_bytes("single bytes", &case);
    let long = Case::merge(t, whole_log(2_000).as_bytes(), &second);
    t.pipe_of_bytes("single bytes, many", &long);
    let case = in_files(t, [&first, &second]);
    t.redirected("a closed input", "<&-", &case);
    t.redirected("a closed error output", "2>&-", &case);
    t.redirected("both closed", "<&- 2>&-", &case);
}

fn outputs(t: &mut Tester) {
    let (long, one) = (whole_log(LOG), event("1", "k"));
    let refused = Case::merge(t, b"x", b"");
    shut_outputs(t, "a refusal", &refused);
    let short = Case::merge(t, one.as_bytes(), one.as_bytes());
    shut_outputs(t, "two events", &short);
    let none = Case::merge(t, b"", b"\n");
    t.shut(
        "no events to a closed output",
        "exec \"$0\" \"$@\" >&-",
        &none,
    );
    t.shut(
        "no events to a full device",
        "exec \"$0\" \"$@\" >/dev/full",
        &none,
    );
    let whole = Case::merge(t, long.as_bytes(), b"");
    shut_outputs(t, "a long log", &whole);
    limited_files(t, &whole);
    for n in 0..10 {
        let pause = Duration::from_millis(2 * n);
        let name = format!("a pipe that does not wait and is half full, read behind {pause:?}");
        t.hasty_pipe(&name, &whole, 40_000, pause);
    }
    t.slow_reader("a slow reader", &whole);
    let kept = Case::merge(t, one.as_bytes(), long.as_bytes());
    t.shut(
        "a closed output and a long file",
        "exec \"$0\" \"$@\" >&-",
        &kept,
    );
    let file = fs::read(&kept.args[1]).expect("read");
    assert!(
        file == long.as_bytes(),
        "a file that is read stays as it was"
    );
}

pub fn all(t: &mut Tester, manual: &str, format: &str) {
    known_merges(t);
    known_refusals(t);
    known_sizes(t);
    random_pairs(t);
    unreadable(t);
    forbidden(t);
    wrong_calls(t);
    odd_inputs(t);
    outputs(t);
    manual::merging(t, manual);
    format::merges(t, format);
}
