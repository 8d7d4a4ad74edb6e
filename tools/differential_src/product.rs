//! The product, linked as a static library (crate `lulzhemor`), with all that a call may do to what is lent to it.

use differential::answer::{Answer, Ask, Lent, NODES, Question, TEXTS, Tables};

#[rustfmt::skip]
mod c {
    use super::FRONT;

    unsafe extern "C" {
        pub fn lulzhemor_judge(
            kinds: *mut u8, kinds_len: usize, numbers: *mut u64, numbers_len: usize, texts: *mut u8, texts_len: usize,
            log: *const u8, log_len: usize,
        ) -> u64;
        pub fn lulzhemor_read_line(
            kinds: *mut u8, kinds_len: usize, numbers: *mut u64, numbers_len: usize, texts: *mut u8, texts_len: usize,
            sizes: *mut [u64; FRONT], line: *const u8, line_len: usize,
        ) -> u64;
        pub fn lulzhemor_list_line(
            kinds: *mut u8, kinds_len: usize, numbers: *mut u64, numbers_len: usize, texts: *mut u8, texts_len: usize,
            out: *mut u8, out_len: usize, line: *const u8, line_len: usize, number: u64,
        ) -> u64;
        pub fn lulzhemor_read_entities(
            kinds: *mut u8, kinds_len: usize, numbers: *mut u64, numbers_len: usize, texts: *mut u8, texts_len: usize,
            sizes: *mut [u64; FRONT], text: *const u8, text_len: usize,
        ) -> u64;
        pub fn lulzhemor_merge(
            kinds: *mut u8, kinds_len: usize, numbers: *mut u64, numbers_len: usize, texts: *mut u8, texts_len: usize,
            out: *mut u8, out_len: usize, first: *const u8, first_len: usize, second: *const u8, second_len: usize,
        ) -> u64;
        pub fn lulzhemor_cut_body(out: *mut u64, out_len: usize, body: *const u8, body_len: usize) -> u64;
        pub fn lulzhemor_decode(out: *mut u8, out_len: usize, text: *const u8, text_len: usize) -> u64;
        pub fn lulzhemor_spell_key(
            out: *mut u8, out_len: usize, ty: *const u8, ty_len: usize, id: *const u8, id_len: usize,
        ) -> u64;
    }
}

/// Entries behind a table or an output, which no call may touch.
const BEHIND: usize = 16;
/// What stands in tables and outputs before a call.
const OLD: u8 = 77;
const OLD_NUMBER: u64 = u64::from_ne_bytes([OLD; 8]);
const REFUSED: u64 = 1 << 32;
/// A pack's sizes: how many nodes, how many text bytes.
const FRONT: usize = 2;
const OLD_SIZES: [u64; FRONT] = [OLD_NUMBER; FRONT];
const EVENT: u64 = 1;

const ZEROS: [u8; TEXTS] = [0; TEXTS];
const ZERO_NUMBERS: [u64; NODES] = [0; NODES];

pub struct Product {
    kinds: Vec<u8>,
    numbers: Vec<u64>,
    texts: Vec<u8>,
    sizes: [u64; FRONT],
    out: Vec<u8>,
    places: Vec<u64>,
}

/// What a call says of the tables.
enum Left<'a> {
    Unchanged,
    Zeros,
    Pack(&'a Tables),
}

fn all_old(bytes: &[u8]) -> bool {
    bytes.iter().fold(true, |old, b| old & (*b == OLD))
}

fn all_old_numbers(numbers: &[u64]) -> bool {
    numbers.iter().fold(true, |old, n| old & (*n == OLD_NUMBER))
}

impl Product {
    pub fn new() -> Product {
        Product {
            kinds: vec![0; NODES + BEHIND],
            numbers: vec![0; NODES + BEHIND],
            texts: vec![0; TEXTS + BEHIND],
            sizes: OLD_SIZES,
            out: Vec::new(),
            places: Vec::new(),
        }
    }

    pub fn answer(&mut self, question: &Question, room: usize) -> Answer {
        let text = question.text;
        match question.ask {
            Ask::Cut => self.cut(text, room),
            Ask::Decode => self.text_answer(room, |out, len| {
                // SAFETY: both slices are borrowed for the call.
                unsafe { c::lulzhemor_decode(out, len, text.as_ptr(), text.len()) }
            }),
            Ask::Key => self.text_answer(room, |out, len| {
                let ty = question.other;
                // SAFETY: all slices are borrowed for the call.
                unsafe {
                    c::lulzhemor_spell_key(
                        out,
                        len,
                        ty.as_ptr(),
                        ty.len(),
                        text.as_ptr(),
                        text.len(),
                    )
                }
            }),
            Ask::Judge | Ask::Read | Ask::List(_) | Ask::Merge | Ask::Cells => {
                self.with_tables(question, room)
            }
        }
    }

    fn cut(&mut self, body: &[u8], room: usize) -> Answer {
        self.places.clear();
        self.places.resize(room + BEHIND, OLD_NUMBER);
        // SAFETY: both slices are borrowed for the call.
        let code = unsafe {
            c::lulzhemor_cut_body(self.places.as_mut_ptr(), room, body.as_ptr(), body.len())
        };
        let count = if code < REFUSED { code as usize } else { 0 };
        if count > room || !all_old_numbers(&self.places[count..]) {
            return Answer::Broken(format!("answer {code:#x}: the output is changed past it"));
        }
        if code >= REFUSED { refused(code) } else { Answer::Places(self.places[..count].to_vec()) }
    }

    fn text_answer(&mut self, room: usize, call: impl Fn(*mut u8, usize) -> u64) -> Answer {
        self.out.clear();
        self.out.resize(room + BEHIND, OLD);
        let code = call(self.out.as_mut_ptr(), room);
        self.text_of(code, room)
    }

    fn text_of(&self, code: u64, room: usize) -> Answer {
        let count = if code < REFUSED { code as usize } else { 0 };
        if count > room || !all_old(&self.out[count..]) {
            return Answer::Broken(format!("answer {code:#x}: the output is changed past it"));
        }
        if code >= REFUSED { refused(code) } else { Answer::Text(self.out[..count].to_vec()) }
    }

    fn with_tables(&mut self, question: &Question, room: usize) -> Answer {
        self.kinds.fill(OLD);
        self.numbers.fill(OLD_NUMBER);
        self.texts.fill(OLD);
        self.sizes = OLD_SIZES;
        let code = self.call(question, room);
        let answer = match question.ask {
            Ask::Judge if code < REFUSED => Answer::Events(code as usize),
            Ask::Judge => Answer::RefusedAt((code & 255) as u8, ((code - REFUSED) >> 8) as usize),
            Ask::Merge if code >= REFUSED => refused_in(code),
            Ask::Merge => self.text_of(code, room),
            _ if code >= REFUSED => refused(code),
            Ask::Read | Ask::Cells if code == EVENT => self.pack_of(),
            Ask::Cells => Answer::Broken(format!("answer {code:#x}")),
            _ if code == 0 => Answer::Blank,
            Ask::Read => Answer::Broken(format!("answer {code:#x}")),
            _ => self.text_of(code, room),
        };
        let unwritten = code == 0 || code >= REFUSED;
        if matches!(question.ask, Ask::List(_) | Ask::Merge) && unwritten && !all_old(&self.out) {
            return Answer::Broken(format!("answer {code:#x}: the output is changed"));
        }
        if unwritten && self.sizes != OLD_SIZES {
            return Answer::Broken(format!("answer {code:#x}: the sizes are changed"));
        }
        let left = match &answer {
            Answer::RefusedAt(1, _) | Answer::RefusedIn(1, ..) | Answer::Refused(1) => {
                Left::Unchanged
            }
            Answer::Pack(tables) => Left::Pack(tables),
            _ => Left::Zeros,
        };
        match self.fault(&left) {
            Some(fault) => Answer::Broken(format!("{}: {fault}", answer.print())),
            None => answer,
        }
    }

    #[rustfmt::skip]
    fn call(&mut self, question: &Question, room: usize) -> u64 {
        let (k, n, t) = match question.lent {
            Lent::Longer => (NODES + 1, NODES + 9, TEXTS + 5),
            Lent::Exact => (NODES, NODES, TEXTS),
            Lent::ShortKinds => (NODES - 1, NODES + 9, TEXTS),
            Lent::ShortNumbers => (NODES, NODES - 1, TEXTS + 5),
            Lent::ShortTexts => (NODES + 1, NODES, TEXTS - 1),
            Lent::Any([k, n, t]) => (k, n, t),
        };
        let (kinds, numbers, texts) = (self.kinds.as_mut_ptr(), self.numbers.as_mut_ptr(), self.texts.as_mut_ptr());
        let (text, len) = (question.text.as_ptr(), question.text.len());
        match question.ask {
            // SAFETY, of each call: pointer and length are those of a slice that is borrowed for the call.
            Ask::Judge => unsafe { c::lulzhemor_judge(kinds, k, numbers, n, texts, t, text, len) },
            Ask::List(number) => {
                self.out.clear();
                self.out.resize(room + BEHIND, OLD);
                let out = self.out.as_mut_ptr();
                unsafe { c::lulzhemor_list_line(kinds, k, numbers, n, texts, t, out, room, text, len, number) }
            }
            Ask::Merge => {
                self.out.clear();
                self.out.resize(room + BEHIND, OLD);
                let (out, other, size) = (self.out.as_mut_ptr(), question.other.as_ptr(), question.other.len());
                unsafe { c::lulzhemor_merge(kinds, k, numbers, n, texts, t, out, room, text, len, other, size) }
            }
            Ask::Cells => unsafe {
                c::lulzhemor_read_entities(kinds, k, numbers, n, texts, t, &mut self.sizes, text, len)
            },
            _ => unsafe { c::lulzhemor_read_line(kinds, k, numbers, n, texts, t, &mut self.sizes, text, len) },
        }
    }

    /// The pack in the tables; the sizes may not pass them.
    fn pack_of(&self) -> Answer {
        let [nodes, texts] = self.sizes.map(|size| size as usize);
        if nodes > NODES || texts > TEXTS {
            return Answer::Broken(format!("{nodes} nodes, {texts} text bytes"));
        }
        Answer::Pack(Tables {
            kinds: self.kinds[..nodes].to_vec(),
            numbers: self.numbers[..nodes].to_vec(),
            texts: self.texts[..texts].to_vec(),
        })
    }

    /// What is wrong with the tables: behind a pack the used entries are 0, and no other entry is touched.
    fn fault(&self, left: &Left) -> Option<&'static str> {
        let (nodes, texts) = match left {
            Left::Unchanged => {
                let old =
                    all_old(&self.kinds) && all_old_numbers(&self.numbers) && all_old(&self.texts);
                return (!old).then_some("a table is changed");
            }
            Left::Zeros => (0, 0),
            Left::Pack(tables) => (tables.kinds.len(), tables.texts.len()),
        };
        if self.kinds[nodes..NODES] != ZEROS[nodes..NODES] {
            return Some("kinds are not 0 behind the pack");
        }
        if self.numbers[nodes..NODES] != ZERO_NUMBERS[nodes..] {
            return Some("numbers are not 0 behind the pack");
        }
        if self.texts[texts..TEXTS] != ZEROS[texts..] {
            return Some("texts are not 0 behind the pack");
        }
        let old = all_old(&self.kinds[NODES..])
            && all_old_numbers(&self.numbers[NODES..])
            && all_old(&self.texts[TEXTS..]);
        (!old).then_some("a table is changed past its used length")
    }
}

fn refused(code: u64) -> Answer {
    match u8::try_from(code - REFUSED) {
        Ok(number) => Answer::Refused(number),
        Err(_) => Answer::Broken(format!("answer {code:#x}")),
    }
}

/// 256 times the line and 2^26 times the log stand beside the number.
fn refused_in(code: u64) -> Answer {
    let (number, rest) = (code as u8, (code - REFUSED) >> 8);
    match u8::try_from(rest >> 18) {
        Ok(log) => Answer::RefusedIn(number, log, (rest & 0x3_ffff) as usize),
        Err(_) => Answer::Broken(format!("answer {code:#x}")),
    }
}
