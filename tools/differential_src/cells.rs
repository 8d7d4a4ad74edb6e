//! Entities JSON of a seed, and what is asked about it.

use crate::answer::{Ask, Lent, Question};
use crate::cells_grammar::CellsGrammar;
use crate::maker;
use crate::questions;
use crate::random::Random;
use crate::words::BYTES;
use oracle::cells;
use oracle::limits;
use oracle::order::{Entry, Fields, Tree};
use oracle::pack::Pack;
use oracle::value::{Value, entity_uid_string};

/// Apart from the logs of the same seed.
const SEED: u64 = 0x6a73_6f6e;

pub struct Cells {
    pub text: Vec<u8>,
    /// A log's line with the same entities, where one is spelled here.
    pub line: Option<Vec<u8>>,
    random: Random,
}

impl Cells {
    /// The text of this number.
    pub fn new(seed: u64, index: u64) -> Cells {
        let mut grammar = CellsGrammar::new(maker::random(seed ^ SEED, index));
        let mut text = grammar.text().into_bytes();
        let mut random = grammar.random;
        match random.below(80) {
            0 | 1 => {
                let at = random.below(text.len() + 1);
                let bytes = *random.pick(&BYTES);
                text.splice(at..at, bytes.iter().copied());
            }
            2 if !text.is_empty() => {
                let at = random.below(text.len());
                text[at] ^= 1 << random.below(8);
            }
            3 => text.splice(..0, "\u{feff}".bytes()).for_each(drop),
            4 if random.once_in(4) => {
                let length = 65_535 + random.below(3);
                text.resize(length, b' ');
            }
            _ => {}
        }
        let line = same_entities(&text);
        Cells { text, line, random }
    }

    /// What is asked: its pack, with tables that are mostly long enough; and that of the line.
    pub fn questions(&mut self) -> Vec<Question<'_>> {
        let asked = questions::question(&mut self.random, Ask::Cells, &self.text);
        let mut out = vec![Question { slack: 0, ..asked }];
        if !asked.lent.is_enough() {
            out.push(Question { lent: Lent::Exact, slack: 0, ..asked });
        }
        if let Some(line) = &self.line {
            out.push(Question { ask: Ask::Read, text: line, lent: Lent::Exact, slack: 0, ..asked });
        }
        out
    }
}

/// A line of the entities that the oracle read, where their types need no care. The Rust must read the same entities there.
fn same_entities(text: &[u8]) -> Option<Vec<u8>> {
    let entries = cells::entries(text).ok()?;
    let spelled: Option<Vec<String>> = entries.iter().map(spelled_entry).collect();
    let line = format!("@0 entities({})::\"\"::k()", spelled?.join(","));
    if line.len() > limits::LINE {
        return None;
    }
    let (trimmed, event) = limits::line(line.as_bytes()).expect("no refusal").expect("an event");
    let (ours, theirs) = (Pack::of_entities(&entries), Pack::of_event(trimmed, &event));
    assert_eq!(ours.entities_alone(), theirs.entities_alone(), "the entities of {line}");
    Some(line.into_bytes())
}

/// A type that is a log's whatever stands around it.
fn is_plain(ty: &str) -> bool {
    ty.chars().all(|c| c.is_alphanumeric() || c == ':')
}

fn spelled_entry(entry: &Entry) -> Option<String> {
    let (ty, _) = entry.key.rsplit_once("::\"")?;
    let parents: Option<Vec<String>> = entry.parents.iter().map(spelled_scalar).collect();
    let record = spelled_record(&entry.record)?;
    is_plain(ty).then_some(format!("{}:{record} in [{}]", entry.key, parents?.join(",")))
}

fn spelled_record(fields: &Fields) -> Option<String> {
    let field =
        |(name, tree): &(String, Tree)| Some(format!("{}:{}", quoted(name), spelled(tree)?));
    let fields: Option<Vec<String>> = fields.iter().map(field).collect();
    Some(format!("{{{}}}", fields?.join(",")))
}

fn spelled(tree: &Tree) -> Option<String> {
    match tree {
        Tree::Scalar(value) => spelled_scalar(value),
        Tree::Array(items) => {
            let items: Option<Vec<String>> = items.iter().map(spelled).collect();
            Some(format!("[{}]", items?.join(",")))
        }
        Tree::Record(fields) => spelled_record(fields),
    }
}

fn spelled_scalar(value: &Value) -> Option<String> {
    match value {
        Value::Null => Some("null".to_string()),
        Value::Bool(bool) => Some(bool.to_string()),
        Value::Int(number) => Some(number.to_string()),
        Value::String(text) => Some(quoted(text)),
        Value::Entity { ty, id } => is_plain(ty).then(|| entity_uid_string(ty, id)),
        _ => None,
    }
}

fn quoted(text: &str) -> String {
    let char = |c: char| match c {
        'a'..='z' | ' ' => c.to_string(),
        c => format!("\\u{{{:x}}}", c as u32),
    };
    format!("\"{}\"", text.chars().map(char).collect::<String>())
}
