//! The comparison at scale: generated logs and entities JSON, what is asked about them, the oracle's answers, and a second reader.

#[allow(dead_code)]
#[path = "../generator/cells_grammar.rs"]
mod cells_grammar;
#[allow(dead_code)]
#[path = "../generator/damage.rs"]
mod damage;
#[allow(dead_code)]
#[path = "../generator/grammar.rs"]
mod grammar;
#[path = "../generator/random.rs"]
pub mod random;

pub mod answer;
pub mod cells;
mod cells_reader;
pub mod expected;
pub mod maker;
mod merging;
pub mod minimise;
pub mod mutant;
pub mod pairs;
mod print;
pub mod questions;
pub mod reader;
mod scan;
mod tokens;
#[rustfmt::skip]
mod words;

use answer::Question;
use cells::Cells;
use pairs::Pair;
use random::Random;

/// What is asked about under one number: a log, a pair of logs, a text of entities JSON.
pub struct Subject {
    pub log: Vec<u8>,
    pub pair: Pair,
    pub cells: Cells,
    random: Random,
}

impl Subject {
    pub fn new(seed: u64, index: u64) -> Subject {
        let mut maker = maker::Maker::new(seed, index);
        let log = maker.log();
        let (pair, cells) = (Pair::new(seed, index), Cells::new(seed, index));
        Subject { log, pair, cells, random: maker.random }
    }

    pub fn questions(&mut self) -> Vec<Question<'_>> {
        let mut all = questions::about(&mut self.random, &self.log);
        all.extend(self.pair.questions());
        all.extend(self.cells.questions());
        all
    }

    pub fn bytes(&self) -> usize {
        self.log.len() + self.pair.first.len() + self.pair.second.len() + self.cells.text.len()
    }
}
