//! A plain reader of entities JSON, as a Rust program without this library would have it: by recursive descent over the bytes, first the whole
//! text by RFC 8259, then the entities into sorted maps. It refuses what `read_entities` refuses, with the same numbers, tables apart.

use oracle::value::entity_uid_string;
use std::borrow::Cow;
use std::collections::BTreeMap;

const TEXT_LIMIT: usize = 65_536;
const JSON_LIMIT: usize = 4_096;
const LEVELS: usize = 128;

const TEXT_TOO_LONG: u8 = 2;
const NOT_UTF8: u8 = 3;
const TOO_LONG: u8 = 4;
const TOO_DEEP: u8 = 24;
const DUPLICATE_NAME: u8 = 26;
const DUPLICATE_KEY: u8 = 34;
const NOT_JSON: u8 = 36;
const NOT_ENTITIES: u8 = 37;

#[derive(Debug, PartialEq)]
pub enum Value {
    Null,
    Bool(bool),
    Int(i64),
    String(String),
    Entity(Uid),
    Array(Vec<Value>),
    Record(BTreeMap<String, Value>),
}

#[derive(Debug, PartialEq)]
pub struct Uid {
    pub ty: String,
    pub id: String,
}

#[derive(Debug, PartialEq)]
pub struct Entry {
    pub attrs: BTreeMap<String, Value>,
    pub parents: Vec<Uid>,
}

/// The entries by their keys, or the refusal's number.
pub fn read(bytes: &[u8]) -> Result<BTreeMap<String, Entry>, u8> {
    if bytes.len() > TEXT_LIMIT {
        return Err(TEXT_TOO_LONG);
    }
    let text = std::str::from_utf8(bytes).map_err(|_| NOT_UTF8)?;
    if text.len() > JSON_LIMIT {
        return Err(TOO_LONG);
    }
    let mut cursor = Cursor::at_start(text);
    cursor.pass_value().ok_or(NOT_JSON)?;
    cursor.skip_white();
    if cursor.at < text.len() {
        return Err(NOT_JSON);
    }
    Cursor::at_start(text).entities()
}

/// A place in a text.
struct Cursor<'a> {
    text: &'a str,
    bytes: &'a [u8],
    at: usize,
}

// ---- JSON

impl<'a> Cursor<'a> {
    /// Before the value.
    fn at_start(text: &'a str) -> Cursor<'a> {
        let bytes = text.as_bytes();
        let mut cursor = Cursor { text, bytes, at: 0 };
        cursor.skip_white();
        cursor
    }

    fn peek(&self) -> Option<u8> {
        self.bytes.get(self.at).copied()
    }

    fn skip_white(&mut self) {
        while let Some(b' ' | b'\t' | b'\n' | b'\r') = self.peek() {
            self.at += 1;
        }
    }

    /// Whether this byte comes next, which is then passed.
    fn passes(&mut self, byte: u8) -> bool {
        let passes = self.peek() == Some(byte);
        self.at += usize::from(passes);
        passes
    }

    fn must_pass(&mut self, byte: u8) -> Option<()> {
        self.passes(byte).then_some(())
    }

    fn pass_value(&mut self) -> Option<()> {
        match self.peek()? {
            b'{' => self.pass_parts(b'}', |cursor| {
                cursor.pass_string()?;
                cursor.pass_colon()
            }),
            b'[' => self.pass_parts(b']', |_| Some(())),
            b'"' => self.pass_string(),
            b'n' => self.pass_word(b"null"),
            b't' => self.pass_word(b"true"),
            b'f' => self.pass_word(b"false"),
            _ => self.number().map(drop),
        }
    }

    /// From a bracket to the one that closes it; `front` passes what stands before each value.
    fn pass_parts(&mut self, close: u8, front: fn(&mut Self) -> Option<()>) -> Option<()> {
        let mut more = self.enters(close);
        while more {
            front(self)?;
            self.pass_value()?;
            more = self.goes_on(close)?;
        }
        Some(())
    }

    /// Behind an opening bracket: whether a part comes.
    fn enters(&mut self, close: u8) -> bool {
        self.at += 1;
        self.skip_white();
        !self.passes(close)
    }

    /// Behind a part: whether another comes.
    fn goes_on(&mut self, close: u8) -> Option<bool> {
        self.skip_white();
        if self.passes(close) {
            return Some(false);
        }
        self.must_pass(b',')?;
        self.skip_white();
        Some(true)
    }

    fn pass_colon(&mut self) -> Option<()> {
        self.skip_white();
        self.must_pass(b':')?;
        self.skip_white();
        Some(())
    }

    fn pass_word(&mut self, word: &[u8]) -> Option<()> {
        let found = self.bytes[self.at..].starts_with(word);
        self.at += word.len();
        found.then_some(())
    }

    fn pass_digits(&mut self) -> Option<()> {
        let start = self.at;
        while self.peek().is_some_and(|b| b.is_ascii_digit()) {
            self.at += 1;
        }
        (self.at > start).then_some(())
    }

    fn number(&mut self) -> Option<&'a str> {
        let start = self.at;
        self.passes(b'-');
        if !self.passes(b'0') {
            self.pass_digits()?;
        }
        if self.passes(b'.') {
            self.pass_digits()?;
        }
        if let Some(b'e' | b'E') = self.peek() {
            self.at += 1;
            if let Some(b'+' | b'-') = self.peek() {
                self.at += 1;
            }
            self.pass_digits()?;
        }
        Some(&self.text[start..self.at])
    }

    /// To the next byte that is no plain part of a string.
    fn plain(&mut self) -> &'a str {
        let start = self.at;
        let stops = |b: &u8| *b == b'"' || *b == b'\\' || *b < b' ';
        let rest = &self.bytes[start..];
        self.at += rest.iter().position(stops).unwrap_or(rest.len());
        &self.text[start..self.at]
    }

    fn pass_string(&mut self) -> Option<()> {
        self.must_pass(b'"')?;
        loop {
            self.plain();
            if self.passes(b'"') {
                return Some(());
            }
            self.escape()?;
        }
    }

    /// Lent from the text where no escape stands in it.
    fn string(&mut self) -> Option<Cow<'a, str>> {
        self.must_pass(b'"')?;
        let plain = self.plain();
        if self.passes(b'"') {
            return Some(Cow::Borrowed(plain));
        }
        let mut text = plain.to_string();
        while !self.passes(b'"') {
            text.push(self.escape()?);
            text.push_str(self.plain());
        }
        Some(Cow::Owned(text))
    }

    fn escape(&mut self) -> Option<char> {
        self.must_pass(b'\\')?;
        let byte = self.peek()?;
        self.at += 1;
        Some(match byte {
            b'"' | b'\\' | b'/' => char::from(byte),
            b'b' => '\u{8}',
            b'f' => '\u{c}',
            b'n' => '\n',
            b'r' => '\r',
            b't' => '\t',
            b'u' => return self.code_point(),
            _ => return None,
        })
    }

    fn code_point(&mut self) -> Option<char> {
        let first = self.four_digits()?;
        if !(0xd800..0xdc00).contains(&first) {
            return char::from_u32(first);
        }
        self.must_pass(b'\\')?;
        self.must_pass(b'u')?;
        let second = self.four_digits()?;
        if !(0xdc00..0xe000).contains(&second) {
            return None;
        }
        char::from_u32(0x10000 + ((first & 0x3ff) << 10) + (second & 0x3ff))
    }

    fn four_digits(&mut self) -> Option<u32> {
        let digits = self.bytes.get(self.at..self.at + 4)?;
        self.at += 4;
        digits.iter().try_fold(0, |number, b| {
            Some(number * 16 + char::from(*b).to_digit(16)?)
        })
    }
}

// ---- the entities of a text that is JSON

impl<'a> Cursor<'a> {
    /// Enters a value that must begin with this bracket: whether it has a part.
    fn must_enter(&mut self, open: u8, close: u8) -> Result<bool, u8> {
        if self.peek() == Some(open) {
            Ok(self.enters(close))
        } else {
            Err(NOT_ENTITIES)
        }
    }

    fn more(&mut self, close: u8) -> Result<bool, u8> {
        self.goes_on(close).ok_or(NOT_JSON)
    }

    /// A member's name, with the colon behind it.
    fn name(&mut self) -> Result<Cow<'a, str>, u8> {
        let name = self.string().ok_or(NOT_JSON)?;
        self.pass_colon().ok_or(NOT_JSON)?;
        Ok(name)
    }

    /// A value that must be a string.
    fn text(&mut self) -> Result<Cow<'a, str>, u8> {
        self.string().ok_or(NOT_ENTITIES)
    }

    fn entities(&mut self) -> Result<BTreeMap<String, Entry>, u8> {
        let mut entries = BTreeMap::new();
        let mut more = self.must_enter(b'[', b']')?;
        while more {
            let (key, entry) = self.entity()?;
            if entries.insert(key, entry).is_some() {
                return Err(DUPLICATE_KEY);
            }
            more = self.more(b']')?;
        }
        Ok(entries)
    }

    fn entity(&mut self) -> Result<(String, Entry), u8> {
        let (mut uid, mut attrs, mut parents) = (None, None, None);
        let mut more = self.must_enter(b'{', b'}')?;
        while more {
            match self.name()?.as_ref() {
                "uid" if uid.is_none() => uid = Some(self.uid()?),
                "attrs" if attrs.is_none() => attrs = Some(self.attrs()?),
                "parents" if parents.is_none() => parents = Some(self.parents()?),
                _ => return Err(NOT_ENTITIES),
            }
            more = self.more(b'}')?;
        }
        match (uid, attrs, parents) {
            (Some(uid), Some(attrs), Some(parents)) => {
                let key = entity_uid_string(&uid.ty, &uid.id);
                Ok((key, Entry { attrs, parents }))
            }
            _ => Err(NOT_ENTITIES),
        }
    }

    fn uid(&mut self) -> Result<Uid, u8> {
        let (mut ty, mut id) = (None, None);
        let mut more = self.must_enter(b'{', b'}')?;
        while more {
            let name = self.name()?;
            let text = self.text()?;
            match name.as_ref() {
                "type" if ty.is_none() && !text.starts_with(char::is_whitespace) => {
                    ty = Some(text.into_owned())
                }
                "id" if id.is_none() => id = Some(text.into_owned()),
                _ => return Err(NOT_ENTITIES),
            }
            more = self.more(b'}')?;
        }
        match (ty, id) {
            (Some(ty), Some(id)) => Ok(Uid { ty, id }),
            _ => Err(NOT_ENTITIES),
        }
    }

    fn parents(&mut self) -> Result<Vec<Uid>, u8> {
        let mut parents = Vec::new();
        let mut more = self.must_enter(b'[', b']')?;
        while more {
            parents.push(self.uid()?);
            more = self.more(b']')?;
        }
        Ok(parents)
    }

    fn attrs(&mut self) -> Result<BTreeMap<String, Value>, u8> {
        if !self.must_enter(b'{', b'}')? {
            return Ok(BTreeMap::new());
        }
        let first = self.name()?;
        self.record(first, LEVELS)
    }

    /// The fields from behind the first name on; in their values `levels` may be nested.
    fn record(
        &mut self,
        first: Cow<'a, str>,
        levels: usize,
    ) -> Result<BTreeMap<String, Value>, u8> {
        let mut fields = BTreeMap::new();
        let mut name = first;
        loop {
            if matches!(name.as_ref(), "__entity" | "__extn") {
                return Err(NOT_ENTITIES);
            }
            let value = self.value(levels)?;
            if fields.insert(name.into_owned(), value).is_some() {
                return Err(DUPLICATE_NAME);
            }
            if !self.more(b'}')? {
                return Ok(fields);
            }
            name = self.name()?;
        }
    }

    fn value(&mut self, levels: usize) -> Result<Value, u8> {
        if levels == 0 {
            return Err(TOO_DEEP);
        }
        let first = self.peek().ok_or(NOT_JSON)?;
        let word = |cursor: &mut Self, length: usize, value: Value| {
            cursor.at += length;
            Ok(value)
        };
        match first {
            b'n' => word(self, 4, Value::Null),
            b't' => word(self, 4, Value::Bool(true)),
            b'f' => word(self, 5, Value::Bool(false)),
            b'"' => Ok(Value::String(self.text()?.into_owned())),
            b'[' => self.array(levels - 1),
            b'{' => self.object(levels - 1),
            _ => {
                let number = self.number().ok_or(NOT_JSON)?;
                number.parse().map(Value::Int).map_err(|_| NOT_ENTITIES)
            }
        }
    }

    fn array(&mut self, levels: usize) -> Result<Value, u8> {
        let mut items = Vec::new();
        let mut more = self.enters(b']');
        while more {
            items.push(self.value(levels)?);
            more = self.more(b']')?;
        }
        Ok(Value::Array(items))
    }

    /// A reference or a record.
    fn object(&mut self, levels: usize) -> Result<Value, u8> {
        if !self.enters(b'}') {
            return Ok(Value::Record(BTreeMap::new()));
        }
        let first = self.name()?;
        if first != "__entity" {
            return self.record(first, levels).map(Value::Record);
        }
        let uid = self.uid()?;
        if self.more(b'}')? {
            Err(NOT_ENTITIES)
        } else {
            Ok(Value::Entity(uid))
        }
    }
}
