//! The oracle: what the Rust's log reader answers, in the form of document 01.
//! `plain` and `tagged` are made by `oracle/build` from the unchanged log_parse.rs.

#[path = "../../target/oracle/plain.rs"]
#[allow(dead_code)]
mod plain;
#[path = "../../target/oracle/tagged.rs"]
#[allow(dead_code)]
mod tagged;

pub mod answers;
pub mod cells;
pub mod cells_traps;
pub mod facts;
pub mod hex;
pub mod json;
pub mod limits;
pub mod listing;
pub mod merge;
pub mod order;
pub mod pack;
pub mod ranges;
pub mod reader;
pub mod value;

/// The Rust's private scans, for the vectors.
pub use plain::open as scans;

/// The Rust's reader of a whole log, for the benchmark.
pub use plain::parse_trace;
