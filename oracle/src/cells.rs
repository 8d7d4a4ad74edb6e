//! Entities JSON, as document 02 has it (A2): its entries in written order, or the first refusal by place. The Rust reads no JSON:
//! this is written from the document and from RFC 8259. A walk over the tree in written order meets refusals by place.

use crate::json::{self, Json, Members};
use crate::limits;
use crate::order::{Entry, Fields, Tree};
use crate::pack::Pack;
use crate::value::{Value, entity_uid_string};
use std::thread;

pub const TOO_DEEP: u8 = 24;
pub const DUPLICATE_NAME: u8 = 26;
pub const DUPLICATE_KEY: u8 = 34;
pub const NOT_JSON: u8 = 36;
pub const NOT_ENTITIES: u8 = 37;

/// The depth of the innermost value that is read; attrs itself has depth 0.
const LEVELS: usize = 128;
/// A text with more brackets is read on a thread of its own.
const BRACKETS: usize = 400;
/// Enough stack for as many levels as a text of 4,096 bytes can have.
const STACK: usize = 64 << 20;

const REFERENCE: &str = "__entity";
const EXTENSION: &str = "__extn";

/// The pack of a text.
pub fn pack(bytes: &[u8]) -> Result<Pack, u8> {
    let pack = Pack::of_entities(&entries(bytes)?);
    // 01's tables must be enough.
    assert!(pack.kinds.len() <= bytes.len() + 9, "more nodes than thought: {bytes:?}");
    assert!(pack.texts.len() <= 6 * bytes.len(), "more texts than thought: {bytes:?}");
    Ok(pack)
}

/// The entries of a text: refusals 2, 3 and 4, then 36 on the whole text, then the others by place.
pub fn entries(bytes: &[u8]) -> Result<Vec<Entry>, u8> {
    let text = limits::text(bytes)?;
    if text.len() > limits::JSON {
        return Err(limits::LINE_TOO_LONG);
    }
    let brackets = bytes.iter().filter(|b| matches!(b, b'[' | b'{')).count();
    if brackets <= BRACKETS {
        return read(text);
    }
    thread::scope(|scope| {
        let reading = thread::Builder::new().stack_size(STACK).spawn_scoped(scope, || read(text));
        reading.expect("a thread").join().expect("the text is read")
    })
}

fn read(text: &str) -> Result<Vec<Entry>, u8> {
    entities(json::read(text).ok_or(NOT_JSON)?)
}

fn entities(tree: Json) -> Result<Vec<Entry>, u8> {
    let Json::Array(items) = tree else { return Err(NOT_ENTITIES) };
    let mut entries: Vec<Entry> = Vec::new();
    for item in items {
        let entry = entry(item)?;
        if entries.iter().any(|earlier| earlier.key == entry.key) {
            return Err(DUPLICATE_KEY);
        }
        entries.push(entry);
    }
    Ok(entries)
}

/// Puts a part in its place, which must be free still.
fn set<T>(place: &mut Option<T>, part: impl FnOnce() -> Result<T, u8>) -> Result<(), u8> {
    if place.is_some() {
        return Err(NOT_ENTITIES);
    }
    *place = Some(part()?);
    Ok(())
}

/// One entity object: `uid`, `attrs` and `parents`, each once, in any order.
fn entry(object: Json) -> Result<Entry, u8> {
    let Json::Object(members) = object else { return Err(NOT_ENTITIES) };
    let (mut key, mut record, mut parents) = (None, None, None);
    for (name, value) in members {
        match name.as_str() {
            "uid" => set(&mut key, || uid(value))?,
            "attrs" => set(&mut record, || attrs(value))?,
            "parents" => set(&mut parents, || parent_list(value))?,
            _ => return Err(NOT_ENTITIES),
        }
    }
    let (Some((ty, id)), Some(record), Some(parents)) = (key, record, parents) else {
        return Err(NOT_ENTITIES);
    };
    Ok(Entry { key: entity_uid_string(&ty, &id), record, parents })
}

/// `type` and `id`, each once, in any order, both strings. The type does not begin with white space.
fn uid(object: Json) -> Result<(String, String), u8> {
    let Json::Object(members) = object else { return Err(NOT_ENTITIES) };
    let (mut ty, mut id) = (None, None);
    for (name, value) in members {
        let Json::String(text) = value else { return Err(NOT_ENTITIES) };
        match name.as_str() {
            "type" if text.starts_with(char::is_whitespace) => return Err(NOT_ENTITIES),
            "type" => set(&mut ty, || Ok(text))?,
            "id" => set(&mut id, || Ok(text))?,
            _ => return Err(NOT_ENTITIES),
        }
    }
    ty.zip(id).ok_or(NOT_ENTITIES)
}

fn reference(object: Json) -> Result<Value, u8> {
    let (ty, id) = uid(object)?;
    Ok(Value::Entity { ty, id })
}

fn parent_list(list: Json) -> Result<Vec<Value>, u8> {
    let Json::Array(items) = list else { return Err(NOT_ENTITIES) };
    items.into_iter().map(reference).collect()
}

fn attrs(object: Json) -> Result<Fields, u8> {
    let Json::Object(members) = object else { return Err(NOT_ENTITIES) };
    record(LEVELS, members)
}

/// The fields of a record whose values may have so many levels.
fn record(levels: usize, members: Members) -> Result<Fields, u8> {
    let mut fields: Fields = Vec::new();
    for (name, value) in members {
        if name == EXTENSION || name == REFERENCE {
            return Err(NOT_ENTITIES);
        }
        let tree = value_within(levels, value)?;
        if fields.iter().any(|(earlier, _)| *earlier == name) {
            return Err(DUPLICATE_NAME);
        }
        fields.push((name, tree));
    }
    Ok(fields)
}

fn value_within(levels: usize, value: Json) -> Result<Tree, u8> {
    let Some(inside) = levels.checked_sub(1) else { return Err(TOO_DEEP) };
    match value {
        Json::Null => Ok(Tree::Scalar(Value::Null)),
        Json::Bool(bool) => Ok(Tree::Scalar(Value::Bool(bool))),
        Json::Number(text) => {
            let integer = text.parse().map_err(|_| NOT_ENTITIES)?;
            Ok(Tree::Scalar(Value::Int(integer)))
        }
        Json::String(text) => Ok(Tree::Scalar(Value::String(text))),
        Json::Array(items) => {
            let trees = items.into_iter().map(|item| value_within(inside, item));
            Ok(Tree::Array(trees.collect::<Result<_, u8>>()?))
        }
        Json::Object(members) if members.first().is_some_and(|(name, _)| name == REFERENCE) => {
            let mut members = members.into_iter().map(|(_, value)| value);
            let entity = reference(members.next().expect("the member that was looked at"))?;
            if members.next().is_some() { Err(NOT_ENTITIES) } else { Ok(Tree::Scalar(entity)) }
        }
        Json::Object(members) => Ok(Tree::Record(record(inside, members)?)),
    }
}
