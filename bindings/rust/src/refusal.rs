//! Why a text is not read.

use std::error::Error;
use std::fmt;

/// A refusal's number, one of the constants below.
#[derive(Debug, Clone, Copy, PartialEq, Eq, Hash)]
pub struct Refusal(pub u8);

/// The first refusal of a log, and the line where it was met: lines count from 1, and 0 is the whole text.
#[derive(Debug, Clone, Copy, PartialEq, Eq, Hash)]
pub struct RefusedLine {
    pub refusal: Refusal,
    pub line: u64,
}

/// The first refusal of two logs that were to be merged: the log that has it, 1 or 2, and the line where it was met. Both are 0 where it
/// speaks of neither log (of the tables, of the merged log or of the output), and the line alone is 0 where it speaks of a whole log.
#[derive(Debug, Clone, Copy, PartialEq, Eq, Hash)]
pub struct MergeRefusal {
    pub refusal: Refusal,
    pub log: u8,
    pub line: u64,
}

macro_rules! refusals {
    ($($name:ident = $number:literal, $text:literal;)*) => {
        impl Refusal {
            $(#[doc = $text] pub const $name: Refusal = Refusal($number);)*

            /// What the number stands for, as the header for C and `docs/MANUAL.md` have it.
            pub fn message(self) -> &'static str {
                match self.0 {
                    $($number => $text,)*
                    _ => "unknown refusal",
                }
            }
        }
    };
}

refusals! {
    TABLE_TOO_SHORT = 1, "a pack table is too short";
    TEXT_TOO_LONG = 2, "the text has over 65,536 bytes";
    NOT_UTF8 = 3, "the text is not UTF-8";
    LINE_TOO_LONG = 4, "a trimmed line (or a body, id, type or entities JSON) has over 4,096 bytes";
    OUTPUT_TOO_SHORT = 5, "the output is too short for the answer";
    NO_AT = 10, "the line does not begin with @";
    NO_SPACE_AFTER_TIME = 11, "no whitespace behind the time";
    BAD_TIME = 12, "the time is no whole number within its bounds";
    SCOPE_UNCLOSED = 13, "scope( has no )";
    ENTITIES_UNCLOSED = 14, "entities( has no matching )";
    CONTEXT_UNCLOSED = 15, "request_context( has no matching )";
    EVENT_UNOPENED = 16, "the event has no (";
    EVENT_UNCLOSED = 17, "the event has no )";
    EVENT_OUT_OF_ORDER = 18, "the last ) stands before the first (";
    NO_ACTION = 19, "no quoted action";
    ACTION_UNTERMINATED = 20, "the action has no closing quote";
    NO_KIND = 21, "no kind";
    ARGUMENT_WITHOUT_COLON = 22, "a field of a group has no :";
    DUPLICATE_ARGUMENT = 23, "a group has a name twice";
    VALUE_TOO_DEEP = 24, "a value is more than 128 deep";
    FIELD_WITHOUT_COLON = 25, "a field of a record has no :";
    DUPLICATE_FIELD = 26, "a record has a name twice";
    ENTRY_WITHOUT_RECORD = 27, "an entry has no {";
    ENTRY_WITHOUT_COLON = 28, "no : directly before the entry's {";
    ENTRY_UNTERMINATED = 29, "the entry's { is not closed";
    TEXT_AFTER_RECORD = 30, "text behind the entry's record that does not begin with the word in";
    PARENTS_NOT_BRACKETED = 31, "the parents are not in brackets";
    PARENT_NO_ENTITY = 32, "a parent is no entity";
    KEY_NO_ENTITY = 33, "an entry's key is no entity";
    DUPLICATE_KEY = 34, "two entries have one key";
    ENTRY_NOT_A_RECORD = 35, "an entry's value is no record";
    NOT_JSON = 36, "the text is no JSON, or has a lone surrogate";
    NOT_ENTITIES = 37, "the JSON does not have the shape of entities, or a type begins with whitespace";
    TIMES_FALL_IN_FIRST = 45, "the first log's times fall";
    TIMES_FALL_IN_SECOND = 46, "the second log's times fall";
    MERGED_TOO_LONG = 47, "the merged log has over 65,536 bytes";
}

impl fmt::Display for Refusal {
    fn fmt(&self, f: &mut fmt::Formatter) -> fmt::Result {
        write!(f, "refused {}: {}", self.0, self.message())
    }
}

impl fmt::Display for RefusedLine {
    fn fmt(&self, f: &mut fmt::Formatter) -> fmt::Result {
        write!(
            f,
            "refused {} line {}: {}",
            self.refusal.0,
            self.line,
            self.refusal.message()
        )
    }
}

impl fmt::Display for MergeRefusal {
    fn fmt(&self, f: &mut fmt::Formatter) -> fmt::Result {
        write!(
            f,
            "refused {} log {} line {}: {}",
            self.refusal.0,
            self.log,
            self.line,
            self.refusal.message()
        )
    }
}

impl Error for Refusal {}
impl Error for RefusedLine {}
impl Error for MergeRefusal {}
