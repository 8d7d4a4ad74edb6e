//! One vector file being made.

use crate::pieces::pieces;
use std::collections::{BTreeMap, BTreeSet};

/// What a replaying program's buffers must hold.
pub const LONGEST: usize = 140_000;
/// What a vector file may reach.
const LARGEST: usize = 1_000_000;
/// A length from here on is that of a text in pieces, plus this.
const IN_PIECES: u32 = 1 << 31;
/// Shorter texts stand as they are.
const LONG: usize = 256;

pub struct Case {
    pub op: u8,
    pub input: Vec<u8>,
    pub answer: Vec<u8>,
}

#[derive(Default)]
pub struct Cases {
    seen: BTreeSet<(u8, Vec<u8>)>,
    list: Vec<Case>,
    body: Vec<u8>,
    longest: (usize, usize),
    /// How often each refusal number is an answer.
    refusals: BTreeMap<u8, usize>,
}

impl Cases {
    /// False where the case is there already: it is not written again.
    pub fn add(&mut self, op: u8, input: &[u8], answer: &[u8]) -> bool {
        let new = self.seen.insert((op, input.to_vec()));
        if new {
            self.push(op, input, answer);
        }
        new
    }

    /// One more case, be its input there already or not.
    pub fn push(&mut self, op: u8, input: &[u8], answer: &[u8]) {
        assert!(input.len() <= LONGEST && answer.len() <= LONGEST, "a case is too long");
        self.list.push(Case { op, input: input.to_vec(), answer: answer.to_vec() });
        self.longest = (self.longest.0.max(input.len()), self.longest.1.max(answer.len()));
        self.body.push(op);
        self.text(input);
        self.text(answer);
    }

    pub fn list(&self) -> &[Case] {
        &self.list
    }

    fn text(&mut self, text: &[u8]) {
        let length = text.len() as u32;
        if text.len() >= LONG {
            let pieces = pieces(text);
            if pieces.len() < text.len() {
                self.body.extend((IN_PIECES + length).to_le_bytes());
                self.body.extend(pieces);
                return;
            }
        }
        self.body.extend(length.to_le_bytes());
        self.body.extend(text);
    }

    /// A case whose answer is this refusal.
    pub fn refused(&mut self, op: u8, input: &[u8], number: u8, answer: &[u8]) {
        if self.add(op, input, answer) {
            *self.refusals.entry(number).or_default() += 1;
        }
    }

    /// Fails where one of these refusals is not met often enough to tell much.
    pub fn must_refuse(&self, numbers: impl IntoIterator<Item = u8>, times: usize) {
        for number in numbers {
            let met = self.refusals.get(&number).copied().unwrap_or(0);
            assert!(met >= times, "refusal {number} is met only {met} times");
        }
    }

    pub fn bytes(&self) -> Vec<u8> {
        let mut out = (self.list.len() as u32).to_le_bytes().to_vec();
        out.extend(&self.body);
        assert!(out.len() <= LARGEST, "a vector file of {} bytes is too large", out.len());
        out
    }

    pub fn summary(&self) -> String {
        let (input, answer) = self.longest;
        let size = self.body.len() + 4;
        let mut out = format!(
            "{} cases, {size} bytes, longest input {input}, longest answer {answer}",
            self.list.len()
        );
        for (number, times) in &self.refusals {
            out += &format!(", {number}: {times}");
        }
        out
    }
}
