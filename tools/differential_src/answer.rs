//! What is asked of an entry point, and what it answers.

#[derive(Clone, Copy, PartialEq, Debug)]
pub enum Ask {
    Judge,
    Read,
    /// The listing of the event with this number.
    List(u64),
    Cut,
    Decode,
    Key,
    Merge,
    /// The pack of a text of entities JSON.
    Cells,
}

pub const ASKED: usize = 8;
pub const ASKS: [&str; ASKED] = [
    "judge",
    "read_line",
    "list_line",
    "cut_body",
    "decode",
    "spell_key",
    "merge",
    "read_entities",
];

impl Ask {
    pub fn index(self) -> usize {
        match self {
            Ask::Judge => 0,
            Ask::Read => 1,
            Ask::List(_) => 2,
            Ask::Cut => 3,
            Ask::Decode => 4,
            Ask::Key => 5,
            Ask::Merge => 6,
            Ask::Cells => 7,
        }
    }

    pub fn has_tables(self) -> bool {
        self.index() < 3 || matches!(self, Ask::Merge | Ask::Cells)
    }
}

/// The entries that 01 asks for, of kinds and of numbers, and of text bytes. A longer table is used this far.
pub const NODES: usize = 8_192;
pub const TEXTS: usize = 32_768;

/// Which pack tables are lent. A short one has one entry less than 01 asks for.
#[derive(Clone, Copy, PartialEq, Debug)]
pub enum Lent {
    Longer,
    Exact,
    ShortKinds,
    ShortNumbers,
    ShortTexts,
    /// So many entries.
    Any([usize; 3]),
}

impl Lent {
    /// Has each table the length that 01 asks for?
    pub fn is_enough(self) -> bool {
        match self {
            Lent::Longer | Lent::Exact => true,
            Lent::ShortKinds | Lent::ShortNumbers | Lent::ShortTexts => false,
            Lent::Any([kinds, numbers, texts]) => {
                kinds >= NODES && numbers >= NODES && texts >= TEXTS
            }
        }
    }
}

#[derive(Clone, Copy, PartialEq, Debug)]
pub struct Question<'a> {
    pub ask: Ask,
    /// The log, line, body or text; of a key, the id; of two logs, the first.
    pub text: &'a [u8],
    /// Of a key, the type; of two logs, the second.
    pub other: &'a [u8],
    pub lent: Lent,
    /// How many entries longer than the right answer the output is.
    pub slack: i32,
}

#[derive(Clone, PartialEq, Debug)]
pub enum Answer {
    Refused(u8),
    RefusedAt(u8, usize),
    /// The number, the log and the line.
    RefusedIn(u8, u8, usize),
    Events(usize),
    Blank,
    Pack(Tables),
    Text(Vec<u8>),
    Places(Vec<u64>),
    /// What a call did to the tables or to the output is not what 01 says of its answer.
    Broken(String),
}

#[derive(Clone, PartialEq, Debug, Default)]
pub struct Tables {
    pub kinds: Vec<u8>,
    pub numbers: Vec<u64>,
    pub texts: Vec<u8>,
}

impl Answer {
    /// How many entries of an output the answer takes.
    pub fn length(&self) -> usize {
        match self {
            Answer::Text(text) => text.len(),
            Answer::Places(places) => places.len(),
            _ => 0,
        }
    }

    pub fn refusal(&self) -> Option<u8> {
        match self {
            Answer::Refused(number)
            | Answer::RefusedAt(number, _)
            | Answer::RefusedIn(number, ..) => Some(*number),
            _ => None,
        }
    }

    pub fn print(&self) -> String {
        match self {
            Answer::Text(text) => format!("text {}", readable(text)),
            Answer::Pack(t) => {
                let texts = readable(&t.texts);
                format!("pack kinds {:?} numbers {:?} texts {texts}", t.kinds, t.numbers)
            }
            other => format!("{other:?}"),
        }
    }
}

/// Bytes as a person can read and paste them.
pub fn readable(bytes: &[u8]) -> String {
    format!("b\"{}\"", bytes.escape_ascii())
}

impl Question<'_> {
    pub fn print(&self) -> String {
        let mut out = format!("{:?}, tables {:?}, slack {}", self.ask, self.lent, self.slack);
        match self.ask {
            Ask::Key => out += &format!("\n  type {}", readable(self.other)),
            Ask::Merge => {
                let (length, second) = (self.other.len(), readable(self.other));
                out += &format!("\n  second log ({length} bytes) {second}");
            }
            _ => {}
        }
        out + &format!("\n  text ({} bytes) {}", self.text.len(), readable(self.text))
    }
}
