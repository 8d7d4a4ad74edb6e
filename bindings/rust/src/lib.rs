//! Reads the `.log` format of the policy engine Dogwood, and Cedar's entities JSON. The work is done by functions that are proved to return, to
//! stay inside what they are lent and to answer what their definitions say, on every input; this crate lends them slices and takes their answers
//! apart.
//!
//! ```
//! let mut tables = lulzhemor::Tables::new();
//! let event = tables.read_line(br#"@40 Dig::Action::"release"::request(cell: Cell::"K\'7", depth: 12.50)"#)?;
//! let event = event.expect("the line is not blank");
//! assert_eq!(event.time(), 40);
//! assert_eq!(event.action(), "release");
//! for (name, value) in event.logged() {
//!     println!("{name}: {value:?}");
//! }
//! # Ok::<(), lulzhemor::Refusal>(())
//! ```

mod event;
mod ffi;
mod refusal;

pub use event::{Entities, Entity, Entry, Event, Fields, Items, Texts, Value};
pub use refusal::{MergeRefusal, Refusal, RefusedLine};

/// A log or any other text, in bytes: [`Refusal::TEXT_TOO_LONG`] above this, and [`Refusal::MERGED_TOO_LONG`] for a merged log. An output of so
/// many bytes is never too short for one.
pub const TEXT_LIMIT: usize = 65_536;
/// A trimmed line, a body, an id or a type, in bytes: [`Refusal::LINE_TOO_LONG`] above this.
pub const LINE_LIMIT: usize = 4_096;
/// Entities JSON, in bytes, nothing trimmed: [`Refusal::LINE_TOO_LONG`] above this.
pub const JSON_LIMIT: usize = 4_096;
/// An output of so many bytes holds every listing of [`Tables::list_line`]: [`Refusal::OUTPUT_TOO_SHORT`] is not met. No event lists in more
/// than seven bytes for each byte of its trimmed line, and one, which is proved.
pub const LISTING_ROOM: usize = 28_673;

/// Refusal n passes as this number and n; no success is as large.
const REFUSED: u64 = 1 << 32;
/// A line that has an event passes as this number, a blank one as 0.
const EVENT: u64 = 1;

/// A success, or the refusal's number.
fn answer(number: u64) -> Result<u64, Refusal> {
    if number < REFUSED {
        Ok(number)
    } else {
        Err(Refusal((number & 255) as u8))
    }
}

/// The line of a refusal: 256 times it stands above the number, and 2^26 times the log above both.
fn line_of(number: u64) -> u64 {
    number >> 8 & 0x3FFFF
}

/// What was written at the start of an output: UTF-8, as all that is read and written is.
fn written(out: &[u8], count: u64) -> &str {
    std::str::from_utf8(&out[..count as usize]).expect("an output is UTF-8")
}

/// The pack tables, which a call fills. One set serves any number of calls.
pub struct Tables {
    kinds: Vec<u8>,
    numbers: Vec<u64>,
    texts: Vec<u8>,
}

impl Tables {
    pub fn new() -> Tables {
        Tables {
            kinds: vec![0; 8_192],
            numbers: vec![0; 8_192],
            texts: vec![0; 32_768],
        }
    }

    /// Judges a log: how many events it has, or the first refusal and its line.
    pub fn judge(&mut self, log: &[u8]) -> Result<u64, RefusedLine> {
        let number = ffi::judge(&mut self.kinds, &mut self.numbers, &mut self.texts, log);
        answer(number).map_err(|refusal| RefusedLine {
            refusal,
            line: line_of(number),
        })
    }

    /// Writes two logs as one, in rising time: how many bytes it has, which are the output's first; or the first refusal. Each event's line
    /// stands there once, trimmed and with one line feed; at equal times the first log's come first. A refusal leaves the output as it was.
    ///
    /// ```
    /// let mut tables = lulzhemor::Tables::new();
    /// let mut out = vec![0; lulzhemor::TEXT_LIMIT];
    /// let (first, second) = (r#"@2 ::"a"::k()"#, r#"@1 ::"b"::k()"#);
    /// let count = tables.merge(first.as_bytes(), second.as_bytes(), &mut out)?;
    /// assert_eq!(out[..count], *format!("{second}\n{first}\n").as_bytes());
    /// # Ok::<(), lulzhemor::MergeRefusal>(())
    /// ```
    pub fn merge(
        &mut self,
        first: &[u8],
        second: &[u8],
        out: &mut [u8],
    ) -> Result<usize, MergeRefusal> {
        let (kinds, numbers, texts) = (&mut self.kinds, &mut self.numbers, &mut self.texts);
        let number = ffi::merge(kinds, numbers, texts, out, first, second);
        match answer(number) {
            Ok(count) => Ok(count as usize),
            Err(refusal) => Err(MergeRefusal {
                refusal,
                log: (number >> 26 & 3) as u8,
                line: line_of(number),
            }),
        }
    }

    /// Reads one line: its event, or `None` where it is blank. A line feed inside is whitespace.
    pub fn read_line(&mut self, line: &[u8]) -> Result<Option<Event<'_>>, Refusal> {
        let mut sizes = [0; ffi::FRONT];
        let (kinds, numbers, texts) = (&mut self.kinds, &mut self.numbers, &mut self.texts);
        if answer(ffi::read_line(kinds, numbers, texts, &mut sizes, line))? != EVENT {
            return Ok(None);
        }
        Ok(Some(self.pack(sizes)))
    }

    /// Reads Cedar's entities JSON: an array of objects with `uid`, `attrs` and `parents`. Its entries are seen as those of an event are, and an
    /// entity has the stored key that a line gives it.
    ///
    /// ```
    /// let mut tables = lulzhemor::Tables::new();
    /// let export = r#"[{"uid": {"type": "Cell", "id": "K'7"}, "attrs": {"dug": true}, "parents": []}]"#;
    /// let entry = tables.read_entities(export.as_bytes())?.next().expect("an entry");
    /// assert_eq!(entry.key, r#"Cell::"K\'7""#);
    /// assert!(matches!(entry.record.get("dug"), Some(lulzhemor::Value::Bool(true))));
    /// # Ok::<(), lulzhemor::Refusal>(())
    /// ```
    pub fn read_entities(&mut self, text: &[u8]) -> Result<Entities<'_>, Refusal> {
        let mut sizes = [0; ffi::FRONT];
        let (kinds, numbers, texts) = (&mut self.kinds, &mut self.numbers, &mut self.texts);
        answer(ffi::read_entities(kinds, numbers, texts, &mut sizes, text))?;
        Ok(self.pack(sizes).entities())
    }

    /// The pack of these sizes that a call left.
    fn pack(&self, sizes: [u64; ffi::FRONT]) -> Event<'_> {
        let [nodes, bytes] = sizes.map(|size| size as usize);
        Event::new(
            &self.kinds[..nodes],
            &self.numbers[..nodes],
            &self.texts[..bytes],
        )
    }

    /// Writes the night listing of one line's event, which has this number; `None` where the line is blank.
    ///
    /// ```
    /// let line = r#"@7 entities(Cell::"K'7": {}) Dig::"go"::ask(cell: Cell::"K'7")"#;
    /// let listing = r#"event 1 at 7
    /// name "Dig"
    /// action "go"
    /// kind "ask"
    /// logged {"cell":e"Cell" "K\'7"}
    /// context {}
    /// entity "Cell::\"K\\\'7\"" {} []
    /// "#;
    /// let mut out = [0; lulzhemor::LISTING_ROOM];
    /// assert_eq!(lulzhemor::Tables::new().list_line(&mut out, line.as_bytes(), 1)?, Some(listing));
    /// # Ok::<(), lulzhemor::Refusal>(())
    /// ```
    pub fn list_line<'o>(
        &mut self,
        out: &'o mut [u8],
        line: &[u8],
        number: u64,
    ) -> Result<Option<&'o str>, Refusal> {
        let (kinds, numbers, texts) = (&mut self.kinds, &mut self.numbers, &mut self.texts);
        let count = answer(ffi::list_line(kinds, numbers, texts, out, line, number))?;
        Ok((count > 0).then(|| written(out, count)))
    }
}

impl Default for Tables {
    fn default() -> Tables {
        Tables::new()
    }
}

/// The lines of a log as [`Tables::judge`] meets them: one U+FEFF at its start is dropped.
pub fn lines(log: &str) -> std::str::Lines<'_> {
    log.strip_prefix('\u{FEFF}').unwrap_or(log).lines()
}

/// Is the text UTF-8?
pub fn is_utf8(text: &[u8]) -> bool {
    ffi::is_utf8(text)
}

/// The places of the commas that cut a body, ascending.
pub fn cut_body<'o>(out: &'o mut [u64], body: &[u8]) -> Result<&'o [u64], Refusal> {
    let count = answer(ffi::cut_body(out, body))?;
    Ok(&out[..count as usize])
}

/// What an escaped text stands for.
pub fn decode<'o>(out: &'o mut [u8], text: &[u8]) -> Result<&'o str, Refusal> {
    let count = answer(ffi::decode(out, text))?;
    Ok(written(out, count))
}

/// The stored key of a type text and a decoded id. Two keys are equal exactly when types and ids are.
pub fn spell_key<'o>(out: &'o mut [u8], ty: &[u8], id: &[u8]) -> Result<&'o str, Refusal> {
    let count = answer(ffi::spell_key(out, ty, id))?;
    Ok(written(out, count))
}
