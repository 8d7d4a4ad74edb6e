//! Opens the private functions of the reader that this module is a child of. Adds nothing.

use crate::value::{Event, Value};
use std::collections::BTreeMap;

pub fn parse_line(line: &str) -> Result<Event, String> {
    super::parse_line(line)
}

pub fn parse_value(s: &str) -> Result<Value, String> {
    super::parse_value(s)
}

pub fn parse_args(src: &str) -> Result<BTreeMap<String, Value>, String> {
    super::parse_args(src)
}

pub fn unquote(s: &str) -> String {
    super::unquote(s)
}

pub fn unescape(s: &str) -> String {
    super::unescape(s)
}

pub fn find_unescaped_quote(s: &str) -> Option<usize> {
    super::find_unescaped_quote(s)
}

pub fn split_top_level(s: &str, delim: char) -> Vec<String> {
    super::split_top_level(s, delim)
}

pub fn split_top_level_once(s: &str, delim: char) -> Option<(&str, &str)> {
    super::split_top_level_once(s, delim)
}

pub fn matching_paren(s: &str) -> Option<usize> {
    super::matching_paren(s)
}

pub fn matching_brace(s: &str) -> Option<usize> {
    super::matching_brace(s)
}

pub fn top_level_char(s: &str, target: char) -> Option<usize> {
    super::top_level_char(s, target)
}
