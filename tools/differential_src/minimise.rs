//! The smallest text that still shows a difference: lines are removed, then bytes.

use crate::answer::Question;
use std::time::{Duration, Instant};

/// A difference that needs a long text would take hours.
const LONGEST: Duration = Duration::from_secs(60);
/// Stretches so short are tried at every place: a character of several bytes goes as one.
const SHORT: usize = 8;

/// The text, and of a key the type, of two logs the second, that are left.
pub fn minimised(question: &Question, differs: &dyn Fn(&Question) -> bool) -> (Vec<u8>, Vec<u8>) {
    let end = Instant::now() + LONGEST;
    let text = smallest_text(question.text, &|text| differs(&Question { text, ..*question }), end);
    let with = |other: &[u8]| differs(&Question { text: &text, other, ..*question });
    let other = smallest_text(question.other, &with, end);
    (text, other)
}

fn smallest_text(text: &[u8], differs: &dyn Fn(&[u8]) -> bool, end: Instant) -> Vec<u8> {
    let lines: Vec<Vec<u8>> = text.split_inclusive(|b| *b == b'\n').map(<[u8]>::to_vec).collect();
    let lines = smallest(lines, &|lines| differs(&lines.concat()), end);
    smallest(lines.concat(), differs, end)
}

/// Removes stretches, long ones first, until none can go.
fn smallest<T: Clone>(mut whole: Vec<T>, differs: &dyn Fn(&[T]) -> bool, end: Instant) -> Vec<T> {
    let mut before = usize::MAX;
    while whole.len() < before {
        before = whole.len();
        let mut size = whole.len();
        while size > 0 {
            whole = without(whole, size, differs, end);
            size = if size > SHORT { size / 2 } else { size - 1 };
        }
    }
    whole
}

/// Removes every stretch of this size that can go.
fn without<T: Clone>(
    mut whole: Vec<T>,
    size: usize,
    differs: &dyn Fn(&[T]) -> bool,
    end: Instant,
) -> Vec<T> {
    let mut at = 0;
    while at + size <= whole.len() && Instant::now() < end {
        let less = [&whole[..at], &whole[at + size..]].concat();
        if differs(&less) {
            whole = less;
        } else {
            at += if size > SHORT { size } else { 1 };
        }
    }
    whole
}
