//! Two logs to be merged: mostly logs whose times rise, so that they merge; falls, faults, texts at the limits, and logs of any kind.

use crate::answer::{Ask, Lent, NODES, Question, TEXTS};
use crate::grammar::with_time;
use crate::maker::Maker;
use crate::questions;
use crate::random::Random;
use crate::words::*;
use oracle::limits::{self, TEXT};
use oracle::merge;

/// Apart from the logs of the same seed.
const SEED: u64 = 0x6d65_7267_6564;
/// A merged log is judged and merged again once in so many.
const AGAIN: usize = 8;

pub struct Pair {
    pub first: Vec<u8>,
    pub second: Vec<u8>,
    /// The merged log, where it is to be asked about.
    merged: Option<Vec<u8>>,
    random: Random,
}

impl Pair {
    /// The pair of this number.
    pub fn new(seed: u64, index: u64) -> Pair {
        let mut maker = Maker::new(seed ^ SEED, index);
        let (first, second) = maker.pair();
        let mut random = maker.random;
        let merged = random.once_in(AGAIN).then(|| merge::logs(&first, &second, TEXT));
        let merged = merged.and_then(Result::ok).map(String::into_bytes);
        Pair { first, second, merged, random }
    }

    /// What is asked: the merged log, and about that log how many events it has and what it merges into with no other.
    pub fn questions(&mut self) -> Vec<Question<'_>> {
        let question = questions::question(&mut self.random, Ask::Merge, &self.first);
        let lent = any_tables(&mut self.random).unwrap_or(question.lent);
        let asked = Question { other: &self.second, lent, ..question };
        let mut out = vec![asked];
        if questions::is_short(&asked) {
            out.push(questions::fitting(&asked));
        }
        if let Some(merged) = &self.merged {
            let random = &mut self.random;
            out.push(questions::question(random, Ask::Judge, merged));
            out.push(questions::question(random, Ask::Merge, merged));
            out.push(Question { other: merged, ..questions::question(random, Ask::Merge, b"") });
        }
        out
    }
}

/// Tables of any lengths, rarely: most are too short.
fn any_tables(random: &mut Random) -> Option<Lent> {
    random.once_in(100).then(|| {
        Lent::Any([NODES, NODES, TEXTS].map(|used| match random.below(4) {
            0 => random.below(used),
            1 => 0,
            _ => used + random.below(9),
        }))
    })
}

impl Maker {
    fn pair(&mut self) -> (Vec<u8>, Vec<u8>) {
        self.tame |= !self.random.once_in(4);
        match self.random.below(400) {
            0..=5 => self.pair_at_limit(),
            6..=23 => (self.log(), self.log()),
            24..=33 => {
                let rising = self.rising_log();
                let any = self.log();
                if self.random.once_in(2) { (rising, any) } else { (any, rising) }
            }
            _ => (self.rising_log(), self.rising_log()),
        }
    }

    /// A log whose times rise, mostly: from few of them, so that those of two logs meet, or from the ends of all.
    fn rising_log(&mut self) -> Vec<u8> {
        let count = *self.random.pick(&[0, 1, 1, 2, 2, 3, 3, 4, 5, 8]);
        let mut time =
            *self.random.pick(&[-2, -1, 0, 0, 1, 3, i64::MIN, i64::MIN + 1, i64::MAX - 2]);
        let mut log = String::new();
        for index in 0..count {
            let step = *self.random.pick(&[0, 0, 0, 1, 1, 2, 5]);
            time = time.saturating_add(step);
            if self.random.once_in(40) {
                time = *self.random.pick(&[
                    time.saturating_sub(1),
                    i64::MIN,
                    i64::MAX,
                    -time.max(1 - i64::MAX),
                ]);
            }
            log += &self.line_at(time);
            if index + 1 < count || self.random.once_in(2) {
                log += *self.random.pick(&PAIR_ENDS);
            }
        }
        let mut log = self.marked(log.into_bytes());
        if self.random.once_in(16) {
            self.damage_bytes(&mut log);
        }
        if self.random.once_in(80) {
            let bytes = *self.random.pick(&BYTES);
            let at = self.random.below(log.len() + 1);
            log.splice(at..at, bytes.iter().copied());
        }
        log
    }

    /// A line with this time, in one of its spellings. Most are read.
    fn line_at(&mut self, time: i64) -> String {
        let sign = if time < 0 { "-" } else { *self.random.pick(&["", "", "", "+"]) };
        let sign = if time == 0 && self.random.once_in(4) { "-" } else { sign };
        let zeros = *self.random.pick(&["", "", "", "", "0", "000"]);
        let spelled = format!("{sign}{zeros}{}", time.unsigned_abs());
        if self.random.once_in(2) {
            // Which line it is shows in its kind.
            let kind = self.random.below(1_000);
            let behind = *self.random.pick(&TAILS);
            let line = format!("@{spelled} ::\"\"::k{kind}(){behind}");
            return self.spaced(&line);
        }
        let any = self.random.once_in(60);
        loop {
            let line = if any { self.any_line() } else { self.line() };
            let line = with_time(&line, &spelled);
            if any || limits::line(line.as_bytes()).is_ok_and(|event| event.is_some()) {
                return line;
            }
        }
    }

    /// Two logs that merge into about 65,536 bytes, or have about so many.
    fn pair_at_limit(&mut self) -> (Vec<u8>, Vec<u8>) {
        let total = TEXT - 2 + self.random.below(5);
        let part = match self.random.below(4) {
            0 => 0,
            1 => total,
            2 => 100,
            _ => 100 + self.random.below(total - 200),
        };
        let apart = self.random.once_in(4);
        let mut logs = [part, total - part].map(|bytes| self.sized(bytes, apart));
        for log in &mut logs {
            if self.random.once_in(3) {
                log.pop();
            }
            // The last time falls.
            if let (true, Some(at)) = (self.random.once_in(8), log.rfind("@0")) {
                log.replace_range(at..at + 2, "@-");
            }
            match self.random.below(6) {
                0 => *log = log.replace('\n', "\r\n\n"),
                1 => {
                    let length = TEXT - 2 + self.random.below(5);
                    let fill = *self.random.pick(&["\n", " "]);
                    log.push('\n');
                    *log += &fill.repeat(length.saturating_sub(log.len()));
                }
                2 => log.insert(0, '\u{feff}'),
                _ => {}
            }
        }
        if self.random.once_in(2) {
            logs.reverse();
        }
        let [first, second] = logs.map(String::into_bytes);
        (first, second)
    }

    /// Lines that have so many bytes together, each with its line feed: none, or 100 at least.
    fn sized(&mut self, bytes: usize, apart: bool) -> String {
        let front = |time: usize| format!("@{:06} ::\"\"::k(v:", if apart { time } else { 7 });
        let each = *self.random.pick(&[40, 700, 4_097, 4_097]);
        let mut time = self.random.below(3);
        let mut log = String::new();
        while log.len() < bytes {
            let left = bytes - log.len();
            // What is left behind a line has room for another, and none is too long.
            let last = if left > 4_097 { left / 2 } else { left };
            let length = if left >= each + 40 { each } else { last };
            let fill = length - front(time).len() - 2;
            log += &format!("{}{})\n", front(time), "x".repeat(fill));
            time += self.random.below(3);
        }
        log
    }
}
