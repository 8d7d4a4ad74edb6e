//! Reading with 01's refusal numbers. Every text goes through the plain and through the tagged
//! reader; where they do not agree, the oracle stops rather than answer.

use crate::value::{Event, Value};
use crate::{plain, tagged};
use std::fmt::Debug;

/// 01's number of a tagged message, and the message as the Rust wrote it.
fn untag(message: &str) -> (u8, &str) {
    let tag = message.strip_prefix('\u{1}').and_then(|rest| rest.split_once('\u{1}'));
    let (number, text) = tag.unwrap_or_else(|| panic!("a refusal without a number: {message}"));
    (number.parse().expect("a refusal number"), text)
}

fn agreed<T: PartialEq + Debug>(
    plain: Result<T, String>,
    tagged: Result<T, String>,
) -> Result<T, u8> {
    match (plain, tagged) {
        (Ok(a), Ok(b)) => {
            assert_eq!(a, b, "the tagged reader reads otherwise");
            Ok(a)
        }
        (Err(a), Err(b)) => {
            let (number, text) = untag(&b);
            assert_eq!(a, text, "the tagged reader refuses otherwise");
            Err(number)
        }
        (a, b) => panic!("the readers differ: {a:?} and {b:?}"),
    }
}

/// `parse_line` of a trimmed line.
pub fn line(text: &str) -> Result<Event, u8> {
    agreed(plain::open::parse_line(text), tagged::open::parse_line(text))
}

/// `parse_value`, at depth 0.
pub fn value(text: &str) -> Result<Value, u8> {
    agreed(plain::open::parse_value(text), tagged::open::parse_value(text))
}

/// `parse_trace`: its events, or the refusal and its line.
pub fn trace(text: &str) -> Result<Vec<Event>, (u8, usize)> {
    match (plain::parse_trace(text), tagged::parse_trace(text)) {
        (Ok(a), Ok(b)) => {
            assert_eq!(a.points, b.points, "the tagged reader reads otherwise");
            Ok(a.points)
        }
        (Err(a), Err(b)) => {
            // `line N: ` stands in front, so nothing of the log comes before the tag.
            let (front, tagged) = b.split_at(b.find('\u{1}').expect("a refusal without a number"));
            let (number, message) = untag(tagged);
            assert_eq!(a, format!("{front}{message}"), "the tagged reader refuses otherwise");
            let line = front.strip_prefix("line ").and_then(|f| f.strip_suffix(": "));
            Err((number, line.expect("a line number").parse().expect("a line number")))
        }
        (a, b) => panic!("the readers differ: {a:?} and {b:?}"),
    }
}
