//! Entities JSON by the second reader, from document 02's words (A2): it goes through the tokens of the text, and keeps no tree of them.

use crate::answer::{Answer, Question, Tables};
use crate::mutant::Mutant::{self, *};
use crate::reader::{Event, MARK, Reader, TEXT, Value, WHITE_SPACE};
use crate::tokens::{Scan, Token};

const JSON: usize = 4_096;
/// The deepest value that is read.
const DEPTH: usize = 128;
const OTHER: u8 = 37;

/// An entity's members, in the order of the pack.
const NAMES: [&str; 3] = ["uid", "attrs", "parents"];

/// What was read of an entity, and which members stood there, in the order of the text.
#[derive(Default)]
struct Members {
    uid: Option<Uid>,
    record: Option<Value>,
    parents: Option<Vec<Value>>,
    written: Vec<usize>,
}

/// A part of an entity, in its place in the pack.
enum Part {
    Key(String),
    Record(Value),
    Parents(Vec<Value>),
}

/// The parts in the order in which they are laid.
type Entry = Vec<Part>;

/// A type and an id, as they are decoded.
type Uid = (String, String);

impl Reader {
    pub fn cells(&self, question: &Question) -> Answer {
        match self.cells_read(question) {
            Ok(tables) => Answer::Pack(tables),
            Err(number) => Answer::Refused(number),
        }
    }

    fn cells_read(&self, question: &Question) -> Result<Tables, u8> {
        if !self.tables_fit(question.lent) {
            let late = self.is(CellsTablesLate) && std::str::from_utf8(question.text).is_err();
            return Err(if late && question.text.len() <= TEXT { 3 } else { 1 });
        }
        let limit = match self.mutant {
            CellsLimitLow => JSON - 1,
            CellsLimitHigh => JSON + 1,
            CellsLimitMark if question.text.starts_with(b"\xef\xbb\xbf") => JSON + 3,
            _ => JSON,
        };
        if self.is(CellsLimitFirst) && question.text.len() > limit && question.text.len() <= TEXT {
            return Err(4);
        }
        let text = self.text(question.text)?;
        let measured = if self.is(CellsLimitTrimmed) { text.trim() } else { text };
        let (tokens, whole) = Scan::of(self, text);
        if self.is(CellsJsonFirst) && !whole && text.len() <= JSON + 1_000 {
            return Err(36);
        }
        if measured.len() > limit {
            return Err(4);
        }
        if self.is(CellsEmptyShape) && text.trim().is_empty() {
            return Err(OTHER);
        }
        if self.is(CellsEmptyTaken) && text.is_empty() {
            return Ok(self.cells_pack(&[]));
        }
        if !whole && !self.is(CellsJsonLate) {
            return Err(36);
        }
        let entries = Shape { reader: self, tokens: &tokens, at: 0 }.entities()?;
        if !whole {
            return Err(36);
        }
        Ok(self.cells_pack(&entries))
    }

    fn cells_pack(&self, entries: &[Entry]) -> Tables {
        let empty = Event {
            time: 0,
            principal: None,
            resource: None,
            namespace: Vec::new(),
            action: String::new(),
            kind: String::new(),
            logged: Vec::new(),
            context: None,
            entities: Vec::new(),
        };
        let mut tables = self.pack(&empty);
        if !self.is(CellsTimeZero) {
            tables.kinds[0] = 0;
        }
        if self.is(CellsNamespaceEmpty) {
            tables.numbers[3] = 1;
        }
        *tables.numbers.last_mut().expect("the entities") = entries.len() as u64;
        for part in entries.iter().flatten() {
            self.part_nodes(&mut tables, part);
        }
        tables
    }

    fn part_nodes(&self, tables: &mut Tables, part: &Part) {
        match part {
            Part::Key(key) => self.text_node(tables, 10, key),
            Part::Record(record) => self.value_nodes(tables, record),
            Part::Parents(parents) => {
                self.node(tables, 8, parents.len() as u64);
                parents.iter().for_each(|parent| self.value_nodes(tables, parent));
            }
        }
    }

    /// Whether a type begins as none may.
    fn starts_white(&self, ty: &str) -> bool {
        let white = |c: char| match self.mutant {
            CellsWhiteNone => false,
            CellsWhiteAscii => c.is_ascii() && WHITE_SPACE.contains(&c),
            CellsWhiteJson => matches!(c, ' ' | '\t' | '\n' | '\r'),
            CellsWhiteMark if c == MARK => true,
            SpaceLess(index) if WHITE_SPACE[index] == c => false,
            SpaceMore(more) if more == c => true,
            _ => WHITE_SPACE.contains(&c),
        };
        ty.starts_with(white)
            || self.is(CellsWhiteEnd) && ty.ends_with(white)
            || self.is(CellsTypeEmpty) && ty.is_empty()
    }

    /// Kind 4 is an integer of 64 bits as JSON writes it.
    fn cells_number(&self, text: &str) -> Result<Value, u8> {
        let (sign, digits) = text.strip_prefix('-').map_or((1, text), |digits| (-1, digits));
        if !digits.bytes().all(|b| b.is_ascii_digit()) || digits.is_empty() {
            return match self.mutant {
                CellsDecimals => Ok(Value::Decimal(text.to_string())),
                CellsWholeDecimals if text.ends_with(".0") => {
                    self.cells_number(&text[..text.len() - 2])
                }
                CellsExponents => Ok(Value::Integer(text.parse::<f64>().unwrap_or(0.0) as i64)),
                _ => Err(OTHER),
            };
        }
        if self.is(CellsMinusZero) && text == "-0" {
            return Err(OTHER);
        }
        let magnitude = digits.parse::<u64>().ok().map(i128::from);
        let number = magnitude.map(|magnitude| sign * magnitude);
        let least = i128::from(i64::MIN) + i128::from(self.is(CellsLeast));
        match number {
            Some(number) if (least..=i128::from(i64::MAX)).contains(&number) => {
                Ok(Value::Integer(number as i64))
            }
            Some(number) if self.is(CellsWraps) => Ok(Value::Integer(number as i64)),
            _ if self.is(CellsSaturates) => {
                Ok(Value::Integer(if sign < 0 { i64::MIN } else { i64::MAX }))
            }
            _ if self.is(CellsLargeText) => Ok(Value::Text(text.to_string())),
            _ => Err(OTHER),
        }
    }
}

struct Shape<'a> {
    reader: &'a Reader,
    tokens: &'a [Token<'a>],
    at: usize,
}

impl<'a> Shape<'a> {
    fn is(&self, mutant: Mutant) -> bool {
        self.reader.is(mutant)
    }

    fn peek(&self) -> Result<&'a Token<'a>, u8> {
        self.tokens.get(self.at).ok_or(36)
    }

    fn next(&mut self) -> Result<&'a Token<'a>, u8> {
        let token = self.peek()?;
        self.at += 1;
        Ok(token)
    }

    fn must_open(&mut self, wanted: &Token) -> Result<(), u8> {
        if self.next()? == wanted { Ok(()) } else { Err(OTHER) }
    }

    /// Whether the bracket that is open ends here.
    fn ends(&mut self) -> Result<bool, u8> {
        let ends = *self.peek()? == Token::Close;
        self.at += ends as usize;
        Ok(ends)
    }

    /// A member's name, decoded; and as it is written.
    fn name(&mut self) -> Result<(&'a str, &'a str), u8> {
        match self.next()? {
            Token::Name(_, raw) if self.is(CellsNamesRaw) => Ok((raw, raw)),
            Token::Name(name, raw) => Ok((name, raw)),
            _ => Err(OTHER),
        }
    }

    /// Passes a value, whatever it is.
    fn skip(&mut self) -> Result<(), u8> {
        let mut open = 0;
        loop {
            match self.next()? {
                Token::OpenArray | Token::OpenObject => open += 1,
                Token::Close => open -= 1,
                _ => {}
            }
            if open == 0 && !matches!(self.tokens[self.at - 1], Token::Name(..)) {
                return Ok(());
            }
        }
    }

    fn entities(&mut self) -> Result<Vec<Entry>, u8> {
        let mut entries = Vec::new();
        let mut keys: Vec<(Uid, String)> = Vec::new();
        let single = self.is(CellsSingle) && *self.peek()? == Token::OpenObject;
        if !single {
            self.must_open(&Token::OpenArray)?;
        }
        while single && entries.is_empty() || !single && !self.ends()? {
            if self.is(CellsNullSkipped) && *self.peek()? == Token::Null {
                self.at += 1;
                continue;
            }
            let (entry, uid) = self.entry(&keys)?;
            let key = self.reader.key(&uid.0, &uid.1);
            let repeats = self.repeats(&keys, &uid, &key);
            if repeats && !self.is(CellsKeysLate) && !self.is(CellsKeysTaken) {
                return Err(34);
            }
            keys.push((uid, key));
            entries.push(entry);
        }
        let late = (0..keys.len()).any(|at| self.repeats(&keys[..at], &keys[at].0, &keys[at].1));
        if late && self.is(CellsKeysLate) { Err(34) } else { Ok(entries) }
    }

    fn repeats(&self, keys: &[(Uid, String)], uid: &Uid, key: &str) -> bool {
        keys.iter().any(|(earlier, spelled)| match self.reader.mutant {
            CellsKeysType => earlier.0 == uid.0,
            CellsKeysId => earlier.1 == uid.1,
            CellsKeysNeighbour => spelled == key && spelled == &keys[keys.len() - 1].1,
            _ => spelled == key,
        })
    }

    fn entry(&mut self, keys: &[(Uid, String)]) -> Result<(Entry, Uid), u8> {
        self.must_open(&Token::OpenObject)?;
        let start = self.at;
        if self.is(CellsMissingFirst) && !self.has_all()? {
            return Err(OTHER);
        }
        self.at = start;
        let mut members = Members::default();
        while !self.ends()? {
            let (name, _) = self.name()?;
            match NAMES.iter().position(|known| self.same_name(known, name)) {
                None => self.unknown()?,
                Some(place) if members.written.contains(&place) && !self.is(CellsTwice) => {
                    self.repeated()?;
                }
                Some(place) => {
                    if self.is(CellsInOrder) && place != members.written.len() {
                        return Err(OTHER);
                    }
                    members.written.push(place);
                    self.member(&mut members, place, keys)?;
                }
            }
        }
        self.whole_entry(members, keys)
    }

    /// The value of the member whose name has this place.
    fn member(
        &mut self,
        members: &mut Members,
        place: usize,
        keys: &[(Uid, String)],
    ) -> Result<(), u8> {
        match place {
            0 => {
                let uid = self.uid(CellsUidWhite)?;
                if self.is(CellsKeysFirst) && self.repeats_key(keys, &uid) {
                    return Err(34);
                }
                members.uid = Some(uid);
            }
            1 => members.record = Some(self.attrs()?),
            _ => members.parents = Some(self.parents()?),
        }
        Ok(())
    }

    fn repeats_key(&self, keys: &[(Uid, String)], uid: &Uid) -> bool {
        self.repeats(keys, uid, &self.reader.key(&uid.0, &uid.1))
    }

    /// At the closing brace.
    fn whole_entry(&self, members: Members, keys: &[(Uid, String)]) -> Result<(Entry, Uid), u8> {
        let Members { uid, mut record, mut parents, written } = members;
        let early = self.is(CellsKeysBeforeMissing);
        if early && uid.as_ref().is_some_and(|uid| self.repeats_key(keys, uid)) {
            return Err(34);
        }
        if self.is(CellsNoParents) {
            parents = parents.or(Some(Vec::new()));
        }
        if self.is(CellsNoAttrs) {
            record = record.or(Some(Value::Record(Vec::new())));
        }
        let (Some(uid), Some(record), Some(parents)) = (uid, record, parents) else {
            return Err(OTHER);
        };
        let key = self.reader.key(&uid.0, &uid.1);
        let mut parts =
            vec![(0, Part::Key(key)), (1, Part::Record(record)), (2, Part::Parents(parents))];
        if self.is(CellsAsWritten) {
            parts.sort_by_key(|(place, _)| written.iter().position(|other| other == place));
        }
        Ok((parts.into_iter().map(|(_, part)| part).collect(), uid))
    }

    fn same_name(&self, known: &str, name: &str) -> bool {
        known == name
            || self.is(CellsNamesCase) && known.eq_ignore_ascii_case(name)
            || self.is(CellsNamesTrimmed) && known == name.trim()
    }

    /// A member that was there before.
    fn repeated(&mut self) -> Result<(), u8> {
        if self.is(CellsTwiceFirst) {
            return self.skip();
        }
        self.late_member()?;
        Err(OTHER)
    }

    /// A member that an entity does not have.
    fn unknown(&mut self) -> Result<(), u8> {
        if self.is(CellsUnknownTaken) {
            return self.skip();
        }
        self.late_member()?;
        Err(OTHER)
    }

    /// Where a wrong member is met behind its value, what that value is refused for.
    fn late_member(&mut self) -> Result<(), u8> {
        if self.is(CellsMembersLate) { self.value(1).map(drop) } else { Ok(()) }
    }

    /// Looks ahead for the three members.
    fn has_all(&mut self) -> Result<bool, u8> {
        let mut names = Vec::new();
        while !self.ends()? {
            names.push(self.name()?.0);
            self.skip()?;
        }
        Ok(NAMES.iter().all(|name| names.contains(name)))
    }

    /// The mutant lets this uid's type begin with white space.
    fn uid(&mut self, let_white: Mutant) -> Result<Uid, u8> {
        if self.is(CellsUidDepth) {
            let start = self.at;
            if self.value(1) == Err(24) {
                return Err(24);
            }
            self.at = start;
        }
        if self.is(CellsUidTexts)
            && let Token::Text(text) = self.peek()?
            && let Some((ty, id)) = text.strip_suffix('"').and_then(|text| text.split_once("::\""))
        {
            self.at += 1;
            return Ok((ty.to_string(), id.to_string()));
        }
        self.must_open(&Token::OpenObject)?;
        let reference = matches!(self.peek()?, Token::Name(name, _) if name == "__entity");
        if reference && self.is(CellsUidReference) {
            self.at += 1;
            let uid = self.uid(let_white)?;
            return if self.ends()? { Ok(uid) } else { Err(OTHER) };
        }
        let (mut ty, mut id) = (None, None);
        while !self.ends()? {
            self.uid_member(let_white, &mut ty, &mut id)?;
        }
        if self.is(CellsNoType) {
            ty = ty.or(Some(String::new()));
        }
        ty.zip(id).ok_or(OTHER)
    }

    fn uid_member(
        &mut self,
        let_white: Mutant,
        ty: &mut Option<String>,
        id: &mut Option<String>,
    ) -> Result<(), u8> {
        let (name, _) = self.name()?;
        if self.is(CellsUidOrder) && name == "id" && ty.is_none() {
            return Err(OTHER);
        }
        let text = match self.next()? {
            Token::Text(text) => text.clone(),
            Token::Number(text) if self.is(CellsIdNumber) && name == "id" => text.to_string(),
            _ => return Err(OTHER),
        };
        let twice = self.is(CellsUidTwice);
        match name {
            "type" if ty.is_some() && !twice => return Err(OTHER),
            "type" if self.reader.starts_white(&text) && !self.is(let_white) => return Err(OTHER),
            "type" => *ty = Some(text),
            "id" if id.is_some() && !twice => return Err(OTHER),
            "id" if self.is(CellsIdWhite) && text.starts_with(char::is_whitespace) => {
                return Err(OTHER);
            }
            "id" => *id = Some(text),
            _ if self.is(CellsUidUnknown) => {}
            _ => return Err(OTHER),
        }
        Ok(())
    }

    fn parents(&mut self) -> Result<Vec<Value>, u8> {
        if self.is(CellsNullParents) && *self.peek()? == Token::Null {
            self.at += 1;
            return Ok(Vec::new());
        }
        self.must_open(&Token::OpenArray)?;
        let mut parents: Vec<Value> = Vec::new();
        while !self.ends()? {
            let (ty, id) = self.uid(CellsParentWhite)?;
            let parent = Value::Entity(ty, id);
            if self.is(CellsParentsDistinct) && parents.contains(&parent) {
                return Err(OTHER);
            }
            parents.push(parent);
        }
        Ok(parents)
    }

    fn attrs(&mut self) -> Result<Value, u8> {
        let reference = match (self.tokens.get(self.at), self.tokens.get(self.at + 1)) {
            (Some(Token::OpenObject), Some(Token::Name(name, _))) => name == "__entity",
            _ => false,
        };
        if reference && self.is(CellsAttrsReference) {
            return self.value(0);
        }
        self.must_open(&Token::OpenObject)?;
        self.record(0)
    }

    /// Whether a name is none of a record's own, of this depth, where it is the first or stands behind another.
    fn means_something(&self, name: &str, depth: usize, first: bool) -> bool {
        match (name, self.reader.mutant) {
            ("__extn", CellsExtensionNested) => depth == 0,
            ("__extn", CellsExtensionAttrs) => depth > 0,
            ("__extn", CellsExtensionFirst) => first,
            ("__extn", CellsExtensionTaken) => false,
            ("__entity", CellsReferenceBeside) => depth == 0 || first,
            ("__entity", CellsReferenceAttrs) => depth > 0,
            _ => matches!(name, "__extn" | "__entity"),
        }
    }

    /// The fields of a record of this depth.
    fn record(&mut self, depth: usize) -> Result<Value, u8> {
        let mut fields: Vec<(String, Value)> = Vec::new();
        let mut names: Vec<&str> = Vec::new();
        let mut repeated = false;
        while !self.ends()? {
            let (name, raw) = self.name()?;
            let name = if self.is(CellsFieldsRaw) { raw } else { name };
            let known = self.means_something(name, depth, fields.is_empty());
            if known {
                if self.is(CellsExtensionLate) {
                    self.value(depth + 1)?;
                }
                return Err(OTHER);
            }
            let compared = if self.is(CellsFieldsCompareRaw) { raw } else { name };
            let twice = names.contains(&compared) && !(self.is(CellsFieldsNested) && depth > 0);
            if twice && self.is(CellsFieldsFirst) {
                return Err(26);
            }
            let value = self.value(depth + 1)?;
            if twice && !self.is(CellsFieldsLate) && !self.is(CellsFieldsTaken) {
                return Err(26);
            }
            repeated |= twice;
            names.push(compared);
            fields.push((name.to_string(), value));
        }
        if repeated && self.is(CellsFieldsLate) {
            return Err(26);
        }
        Ok(Value::Record(fields))
    }

    fn deepest(&self) -> usize {
        match self.reader.mutant {
            CellsDepthLow => DEPTH - 1,
            CellsDepthHigh => DEPTH + 1,
            _ => DEPTH,
        }
    }

    fn value(&mut self, depth: usize) -> Result<Value, u8> {
        if depth > self.deepest() {
            let kind = self.peek()?;
            let late = match (self.reader.mutant, kind) {
                (CellsDepthLate, Token::Number(text)) => self.reader.cells_number(text).is_err(),
                (CellsDepthScalars, kind) => !matches!(kind, Token::OpenArray | Token::OpenObject),
                _ => false,
            };
            if self.is(CellsDepthScalars) && late {
                return self.shallow(depth);
            }
            return Err(if late { OTHER } else { 24 });
        }
        self.shallow(depth)
    }

    fn shallow(&mut self, depth: usize) -> Result<Value, u8> {
        match self.next()? {
            Token::Null if self.is(CellsNullRefused) => Err(OTHER),
            Token::Null => Ok(Value::Null),
            Token::Flag(flag) => Ok(Value::Flag(*flag)),
            Token::Number(text) => self.reader.cells_number(text),
            Token::Text(text) => Ok(self.text_value(text)),
            Token::OpenArray => {
                let mut items = Vec::new();
                while !self.ends()? {
                    let inside = depth + !self.is(CellsArraysFlat) as usize;
                    items.push(self.value(inside)?);
                }
                Ok(Value::Array(items))
            }
            _ => self.object(depth),
        }
    }

    /// Text is never looked into.
    fn text_value(&self, text: &str) -> Value {
        let inside = text.strip_suffix('"').and_then(|text| text.split_once("::\""));
        match inside {
            Some((ty, id)) if self.is(CellsTextEntity) => {
                Value::Entity(ty.to_string(), id.to_string())
            }
            _ => Value::Text(text.to_string()),
        }
    }

    /// A reference or a record.
    fn object(&mut self, depth: usize) -> Result<Value, u8> {
        let first = match self.peek()? {
            Token::Name(_, raw) if self.is(CellsReferenceRaw) || self.is(CellsNamesRaw) => raw,
            Token::Name(name, _) => name.as_str(),
            _ => "",
        };
        if first != "__entity" {
            return self.record(depth);
        }
        let start = self.at;
        self.at += 1;
        if self.is(CellsReferenceDepth) && depth == DEPTH {
            return Err(24);
        }
        let (ty, id) = match self.uid(CellsReferenceWhite) {
            Err(OTHER) if self.is(CellsReferenceRecord) => {
                self.at = start + 1;
                self.skip()?;
                return if self.ends()? { Ok(Value::Record(Vec::new())) } else { Err(OTHER) };
            }
            uid => uid?,
        };
        let mut members = 1;
        while !self.ends()? {
            let (name, _) = self.name()?;
            let taken = self.is(CellsReferenceFollowed)
                || self.is(CellsReferenceTwice) && name == "__entity";
            if !taken {
                if self.is(CellsReferenceLate) {
                    self.value(depth + 1)?;
                }
                return Err(OTHER);
            }
            self.skip()?;
            members += 1;
        }
        if self.is(CellsReferenceText) && members == 1 {
            return Ok(Value::Text(self.reader.key(&ty, &id)));
        }
        Ok(Value::Entity(ty, id))
    }
}
