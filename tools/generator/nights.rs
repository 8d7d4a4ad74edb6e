//! Night listings: op 1, a log.

use crate::cases::Cases;
use crate::grammar::Grammar;
use crate::hand::Hand;
use crate::traps;
use oracle::answers;

pub fn make(cases: &mut Cases, hand: &Hand) {
    hand.list("logs").iter().for_each(|log| add(cases, log));
    for line in hand.list("lines").iter().chain(hand.list("listings")) {
        add(cases, &[b"\xef\xbb\xbf@0 ::\"\"::k()\n", &line[..]].concat());
    }
    add(cases, traps::lines().join("\n").as_bytes());
    let mut grammar = Grammar::new(9);
    for _ in 0..150 {
        let count = grammar.random.below(4);
        let lines: Vec<String> = (0..count).map(|_| grammar.line()).collect();
        add(cases, lines.join("\n").as_bytes());
    }
}

fn add(cases: &mut Cases, log: &[u8]) {
    cases.add(1, log, answers::night_listing(log).as_bytes());
}
