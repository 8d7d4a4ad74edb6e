//! JSON by the second reader, from RFC 8259: a text to its tokens, with a stack of open brackets and no recursion.

use crate::mutant::Mutant::*;
use crate::reader::Reader;

#[derive(Clone, PartialEq, Debug)]
pub enum Token<'a> {
    Null,
    Flag(bool),
    Number(&'a str),
    /// Decoded.
    Text(String),
    /// Decoded, and as it is written.
    Name(String, &'a str),
    OpenArray,
    OpenObject,
    Close,
}

/// What may come next.
#[derive(Clone, Copy, PartialEq)]
enum Wants {
    Value,
    ValueOrEnd,
    Name,
    NameOrEnd,
    /// A comma, an end, or the end of the text.
    Behind,
}

/// A mutant's limit of nesting.
const NESTING: usize = 512;

pub struct Scan<'a> {
    reader: &'a Reader,
    rest: &'a str,
    open: Vec<u8>,
    wants: Wants,
    tokens: Vec<Token<'a>>,
}

impl<'a> Scan<'a> {
    /// The tokens, and whether the text is JSON; where it is none, the tokens before its fault.
    pub fn of(reader: &'a Reader, text: &'a str) -> (Vec<Token<'a>>, bool) {
        let rest =
            if reader.is(JsonMark) { text.strip_prefix('\u{feff}').unwrap_or(text) } else { text };
        let mut scan =
            Scan { reader, rest, open: Vec::new(), wants: Wants::Value, tokens: Vec::new() };
        let whole = scan.all().is_some();
        (scan.tokens, whole)
    }

    fn all(&mut self) -> Option<()> {
        loop {
            self.skip_white();
            if self.rest.is_empty() {
                let ended = self.wants == Wants::Behind && self.open.is_empty();
                let unclosed = self.reader.is(JsonUnclosed) && self.wants == Wants::Behind;
                return (ended || unclosed).then_some(());
            }
            if self.reader.is(JsonBehind) && self.wants == Wants::Behind && self.open.is_empty() {
                return Some(());
            }
            self.step()?;
        }
    }

    fn skip_white(&mut self) {
        let white = |c: char| match c {
            ' ' | '\t' | '\n' => true,
            '\r' => !self.reader.is(JsonNoReturn),
            '\u{c}' => self.reader.is(JsonFormFeed),
            '\u{b}' => self.reader.is(JsonVerticalTab),
            '\u{feff}' => self.reader.is(JsonMarkWhite),
            _ => self.reader.is(JsonUnicodeWhite) && c.is_whitespace() && c > '\u{7f}',
        };
        self.rest = self.rest.trim_start_matches(white);
    }

    fn passes(&mut self, word: &str) -> bool {
        let rest = self.rest.strip_prefix(word);
        self.rest = rest.unwrap_or(self.rest);
        rest.is_some()
    }

    fn push(&mut self, token: Token<'a>) -> Option<()> {
        self.tokens.push(token);
        self.wants = Wants::Behind;
        Some(())
    }

    fn open(&mut self, bracket: u8) -> Option<()> {
        if self.reader.is(JsonNesting) && self.open.len() == NESTING {
            return None;
        }
        self.open.push(bracket);
        let (token, wants) = match bracket {
            b'[' => (Token::OpenArray, Wants::ValueOrEnd),
            _ => (Token::OpenObject, Wants::NameOrEnd),
        };
        self.push(token);
        self.wants = wants;
        Some(())
    }

    fn close(&mut self, bracket: u8) -> Option<()> {
        let opened = self.open.pop()?;
        let pairs = opened == b'[' && bracket == b']' || opened == b'{' && bracket == b'}';
        if !pairs && !self.reader.is(JsonBrackets) {
            return None;
        }
        self.push(Token::Close)
    }

    fn step(&mut self) -> Option<()> {
        let first = self.rest.as_bytes()[0];
        match (self.wants, first) {
            (Wants::ValueOrEnd, b']') | (Wants::NameOrEnd, b'}') | (Wants::Behind, b']' | b'}') => {
                self.rest = &self.rest[1..];
                self.close(first)
            }
            (Wants::Behind, b',') => {
                self.rest = &self.rest[1..];
                let comma_last = match self.open.last()? {
                    b'[' => JsonCommaArray,
                    _ => JsonCommaObject,
                };
                self.wants = match (self.open.last()?, self.reader.is(comma_last)) {
                    (b'[', false) => Wants::Value,
                    (b'[', true) => Wants::ValueOrEnd,
                    (_, false) => Wants::Name,
                    (_, true) => Wants::NameOrEnd,
                };
                Some(())
            }
            (Wants::Value | Wants::ValueOrEnd, _) => self.value(first),
            (Wants::Name | Wants::NameOrEnd, b'"') => self.name(),
            _ => None,
        }
    }

    fn name(&mut self) -> Option<()> {
        let before = self.rest;
        let name = self.string()?;
        let raw = &before[1..before.len() - self.rest.len() - 1];
        self.skip_white();
        if !self.passes(":") {
            return None;
        }
        self.push(Token::Name(name, raw));
        self.wants = Wants::Value;
        Some(())
    }

    fn value(&mut self, first: u8) -> Option<()> {
        if matches!(first, b'[' | b'{') {
            self.rest = &self.rest[1..];
            return self.open(first);
        }
        if self.reader.is(JsonNoScalars) && self.open.is_empty() {
            return None;
        }
        if first == b'"' {
            let text = self.string()?;
            return self.push(Token::Text(text));
        }
        let word = |scan: &mut Self, word: &str| {
            let capital = word[..1].to_uppercase() + &word[1..];
            scan.passes(word) || scan.reader.is(JsonCapitals) && scan.passes(&capital)
        };
        let token = match () {
            _ if word(self, "null") => Token::Null,
            _ if word(self, "true") => Token::Flag(true),
            _ if word(self, "false") => Token::Flag(false),
            _ if self.reader.is(JsonNotANumber) && word(self, "NaN") => Token::Null,
            _ => Token::Number(self.number()?),
        };
        self.push(token)
    }

    fn number(&mut self) -> Option<&'a str> {
        let reader = self.reader;
        let text = self.rest;
        let digits =
            |at: usize| at + text[at..].bytes().take_while(|b| reader.is_json_digit(*b)).count();
        let sign = text.starts_with('-') || reader.is(JsonPlus) && text.starts_with('+');
        let mut at = sign as usize;
        let whole = digits(at);
        let zeros = text[at..].starts_with('0') && whole > at + 1;
        let end = if zeros && !reader.is(JsonZeros) { at + 1 } else { whole };
        let bare = reader.is(JsonBarePoint) && text[at..].starts_with('.');
        if end == at && !bare && !(reader.is(JsonMinusAlone) && sign) {
            return None;
        }
        at = end;
        if text[at..].starts_with('.') {
            let end = digits(at + 1);
            if end == at + 1 && !reader.is(JsonPointLast) {
                return None;
            }
            at = end;
        }
        if text[at..].starts_with('e') || text[at..].starts_with('E') && !reader.is(JsonSmallE) {
            let signed = text[at + 1..].starts_with(['+', '-']);
            let from = at + 1 + signed as usize;
            let end = digits(from);
            if end == from && !reader.is(JsonExponentEmpty) {
                return None;
            }
            at = end;
        }
        self.rest = &text[at..];
        Some(&text[..at])
    }

    fn string(&mut self) -> Option<String> {
        let mut out = String::new();
        let mut rest = self.rest[1..].chars();
        loop {
            let c = rest.next()?;
            match c {
                '"' => break,
                '\\' => out.push(self.escape(&mut rest)?),
                '\t' if self.reader.is(JsonRawTab) => out.push(c),
                '\n' if self.reader.is(JsonRawFeed) => out.push(c),
                '\0'..='\x1f' if !self.reader.is(JsonRawControls) => return None,
                '\x7f' if self.reader.is(JsonNoDelete) => return None,
                c => out.push(c),
            }
        }
        self.rest = rest.as_str();
        Some(out)
    }

    fn escape(&self, rest: &mut std::str::Chars) -> Option<char> {
        let reader = self.reader;
        let c = match rest.next()? {
            c @ ('"' | '\\') => c,
            '/' if reader.is(JsonNoSlash) => return None,
            '/' => '/',
            'b' if reader.is(JsonBackspace) => 'b',
            'b' => '\u{8}',
            'f' if reader.is(JsonFormFeedOther) => '\u{b}',
            'f' => '\u{c}',
            'n' => '\n',
            'r' => '\r',
            't' => '\t',
            '\'' if reader.is(JsonApostrophe) => '\'',
            '0' if reader.is(JsonZeroEscape) => '\0',
            'v' if reader.is(JsonVerticalEscape) => '\u{b}',
            'U' if reader.is(JsonCapitalU) => return self.scalar(rest),
            'u' => return self.scalar(rest),
            c if reader.is(JsonUnknownEscape) => c,
            _ => return None,
        };
        Some(c)
    }

    fn unit(&self, rest: &mut std::str::Chars) -> Option<u32> {
        let text = rest.as_str();
        let most = if self.reader.is(JsonThreeDigits) { 3 } else { 4 };
        let digits = text.get(..4).filter(|four| four.bytes().all(|b| self.is_digit(b)));
        let digits = digits.or_else(|| {
            text.get(..most).filter(|some| most < 4 && some.bytes().all(|b| self.is_digit(b)))
        })?;
        *rest = text[digits.len()..].chars();
        u32::from_str_radix(digits, 16).ok()
    }

    fn is_digit(&self, b: u8) -> bool {
        match self.reader.mutant {
            JsonSmallHex => b.is_ascii_digit() || (b'a'..=b'f').contains(&b),
            JsonLargeHex => b.is_ascii_digit() || (b'A'..=b'F').contains(&b),
            _ => b.is_ascii_hexdigit(),
        }
    }

    /// What stands behind `\u`.
    fn scalar(&self, rest: &mut std::str::Chars) -> Option<char> {
        let reader = self.reader;
        let first = self.unit(rest)?;
        if (0xdc00..0xe000).contains(&first) {
            return reader.is(JsonLoneSecond).then_some('\u{fffd}');
        }
        if !(0xd800..0xdc00).contains(&first) {
            return char::from_u32(first);
        }
        if reader.is(JsonNoPairs) {
            return None;
        }
        let mut behind = rest.as_str().strip_prefix("\\u").map(str::chars);
        let second = behind.as_mut().and_then(|behind| self.unit(behind));
        let Some(second) = second.filter(|unit| (0xdc00..0xe000).contains(unit)) else {
            return reader.is(JsonLoneFirst).then_some('\u{fffd}');
        };
        *rest = behind.expect("the second half was read");
        if reader.is(JsonPairsLost) {
            return Some('\u{fffd}');
        }
        let first = if reader.is(JsonPairsLow) { first & 0x3f } else { first & 0x3ff };
        char::from_u32(0x10000 + (first << 10) + (second & 0x3ff))
    }
}

impl Reader {
    fn is_json_digit(&self, b: u8) -> bool {
        b.is_ascii_digit() || b == b'_' && self.is(JsonUnderscores)
    }
}
