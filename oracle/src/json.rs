//! RFC 8259: a text to its tree, members in written order, by recursive descent. A lone surrogate escape is no JSON here, as
//! document 02 has it (A2). Each level takes stack: `cells` reads on a thread that has enough.

use std::iter::Peekable;
use std::str::Chars;

pub type Members = Vec<(String, Json)>;

#[derive(Debug, PartialEq)]
pub enum Json {
    Null,
    Bool(bool),
    /// As it is written.
    Number(String),
    /// Decoded.
    String(String),
    Array(Vec<Json>),
    Object(Members),
}

/// Section 2: `ws value ws`. `None` where the text is no JSON.
pub fn read(text: &str) -> Option<Json> {
    let mut reader = Reader { rest: text.chars().peekable() };
    let value = reader.element()?;
    reader.rest.next().is_none().then_some(value)
}

struct Reader<'a> {
    rest: Peekable<Chars<'a>>,
}

impl Reader<'_> {
    fn skip_white(&mut self) {
        while self.rest.next_if(|c| matches!(c, ' ' | '\t' | '\n' | '\r')).is_some() {}
    }

    /// Whether the next character is this one, which is then passed.
    fn passes(&mut self, wanted: char) -> bool {
        self.rest.next_if_eq(&wanted).is_some()
    }

    fn must_pass(&mut self, wanted: char) -> Option<()> {
        self.passes(wanted).then_some(())
    }

    /// A value with white space around it.
    fn element(&mut self) -> Option<Json> {
        self.skip_white();
        let value = self.value()?;
        self.skip_white();
        Some(value)
    }

    /// Section 3.
    fn value(&mut self) -> Option<Json> {
        match self.rest.peek()? {
            '{' => self.object(),
            '[' => self.array(),
            '"' => Some(Json::String(self.string()?)),
            'n' => self.word("null", Json::Null),
            't' => self.word("true", Json::Bool(true)),
            'f' => self.word("false", Json::Bool(false)),
            _ => self.number(),
        }
    }

    fn word(&mut self, word: &str, value: Json) -> Option<Json> {
        word.chars().all(|c| self.passes(c)).then_some(value)
    }

    /// Section 4.
    fn object(&mut self) -> Option<Json> {
        self.must_pass('{')?;
        self.skip_white();
        let mut members = Vec::new();
        if self.passes('}') {
            return Some(Json::Object(members));
        }
        loop {
            self.skip_white();
            let name = self.string()?;
            self.skip_white();
            self.must_pass(':')?;
            members.push((name, self.element()?));
            if self.passes('}') {
                return Some(Json::Object(members));
            }
            self.must_pass(',')?;
        }
    }

    /// Section 5.
    fn array(&mut self) -> Option<Json> {
        self.must_pass('[')?;
        self.skip_white();
        let mut items = Vec::new();
        if self.passes(']') {
            return Some(Json::Array(items));
        }
        loop {
            items.push(self.element()?);
            if self.passes(']') {
                return Some(Json::Array(items));
            }
            self.must_pass(',')?;
        }
    }

    /// Digits, one at least.
    fn digits(&mut self, number: &mut String) -> Option<()> {
        let before = number.len();
        while let Some(digit) = self.rest.next_if(char::is_ascii_digit) {
            number.push(digit);
        }
        (number.len() > before).then_some(())
    }

    /// Section 6. What stands behind is looked at by who asked: `01` is a number and a digit behind it.
    fn number(&mut self) -> Option<Json> {
        let mut number = String::new();
        number.extend(self.rest.next_if_eq(&'-'));
        match self.rest.next_if_eq(&'0') {
            Some(zero) => number.push(zero),
            None => self.digits(&mut number)?,
        }
        if let Some(point) = self.rest.next_if_eq(&'.') {
            number.push(point);
            self.digits(&mut number)?;
        }
        if let Some(e) = self.rest.next_if(|c| matches!(c, 'e' | 'E')) {
            number.push(e);
            number.extend(self.rest.next_if(|c| matches!(c, '+' | '-')));
            self.digits(&mut number)?;
        }
        Some(Json::Number(number))
    }

    /// Section 7.
    fn string(&mut self) -> Option<String> {
        self.must_pass('"')?;
        let mut text = String::new();
        loop {
            match self.rest.next()? {
                '"' => return Some(text),
                '\\' => text.push(self.escape()?),
                '\0'..='\x1f' => return None,
                c => text.push(c),
            }
        }
    }

    fn escape(&mut self) -> Option<char> {
        match self.rest.next()? {
            c @ ('"' | '\\' | '/') => Some(c),
            'b' => Some('\u{8}'),
            'f' => Some('\u{c}'),
            'n' => Some('\n'),
            'r' => Some('\r'),
            't' => Some('\t'),
            'u' => self.code_point(),
            _ => None,
        }
    }

    /// What stands behind `\u`: a code point, or the first half of one whose second half must follow.
    fn code_point(&mut self) -> Option<char> {
        let first = self.four_digits()?;
        if !(0xd800..0xdc00).contains(&first) {
            // `None` for a second half alone.
            return char::from_u32(first);
        }
        self.must_pass('\\')?;
        self.must_pass('u')?;
        let second = self.four_digits()?;
        let halves = (0xdc00..0xe000).contains(&second);
        halves.then(|| char::from_u32(0x10000 + (first - 0xd800) * 0x400 + (second - 0xdc00)))?
    }

    fn four_digits(&mut self) -> Option<u32> {
        let mut number = 0;
        for _ in 0..4 {
            number = number * 16 + self.rest.next()?.to_digit(16)?;
        }
        Some(number)
    }
}
