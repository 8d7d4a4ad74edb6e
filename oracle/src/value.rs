//! The types that log_parse.rs builds, taken from value.rs of dogwood (Apache-2.0, see NOTICE):
//! `Value`, `EntityRecord`, `EventData`, `Scope`, `Event`, `Trace`, `entity_uid_string` and
//! `value_uid_string`, word for word but for shortened comments and wider visibility.
//! Left out: equality of decimals, lookups by path, the event builder, `uid_to_value`, and all
//! that needs Cedar.

use std::collections::BTreeMap;

/// A runtime value (event field or literal). Equality is structural.
#[derive(Debug, Clone, PartialEq, Eq)]
pub enum Value {
    Null,
    Bool(bool),
    Int(i64),
    /// Decimal kept as text.
    Decimal(String),
    String(String),
    Entity {
        ty: String,
        id: String,
    },
    Array(Vec<Value>),
    Object(BTreeMap<String, Value>),
}

/// One entity's decision-time data: its attributes and its direct parents.
#[derive(Debug, Clone, Default, PartialEq, Eq)]
pub struct EntityRecord {
    pub attrs: BTreeMap<String, Value>,
    /// Direct parents as entity-refs (`Value::Entity { ty, id }`).
    pub parents: Vec<Value>,
}

/// One event: a structured identity (qualified action + kind) plus its named fields.
#[derive(Debug, Clone, PartialEq, Eq)]
pub struct EventData {
    /// Qualified action path, e.g. `["Drupe", "Action"]`.
    pub namespace: Vec<String>,
    /// The action id, e.g. `Login`.
    pub action: String,
    /// The event kind, e.g. `request` / `response`.
    pub kind: String,
    pub logged: BTreeMap<String, Value>,
    pub request_context: BTreeMap<String, Value>,
    /// Uid string (`Ns::Type::"id"`) -> its record.
    pub entities: BTreeMap<String, EntityRecord>,
}

/// The request scope of a trace point.
#[derive(Debug, Clone, Default, PartialEq, Eq)]
pub struct Scope {
    pub principal: Option<Value>,
    pub resource: Option<Value>,
}

/// A timestamped occurrence of an action.
#[derive(Debug, Clone, PartialEq, Eq)]
pub struct Event {
    pub ts: i64,
    pub scope: Scope,
    pub event: EventData,
}

/// A full event trace.
#[derive(Debug, Clone, Default)]
pub struct Trace {
    pub points: Vec<Event>,
}

/// Render an entity `(ty, id)` as a canonical Cedar uid literal `Ty::"id"`.
pub fn entity_uid_string(ty: &str, id: &str) -> String {
    format!("{ty}::\"{}\"", id.escape_debug())
}

/// Render an entity [`Value`] back to a canonical Cedar uid literal; `None` for a non-entity value.
pub fn value_uid_string(v: &Value) -> Option<String> {
    match v {
        Value::Entity { ty, id } => Some(entity_uid_string(ty, id)),
        _ => None,
    }
}
