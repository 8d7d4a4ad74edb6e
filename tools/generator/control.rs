//! The control: true cases of the other groups with something made wrong, so that each must
//! differ. Op: what is wrong, 0 the answer, else the look at a table that is to expect another
//! value than it should: the table's number for its zeros, and four more for what was lent, or the
//! table of a cut that has another length. The group and the op that are asked stand before the
//! input.

use crate::cases::{Case, Cases};
use std::collections::BTreeMap;

const CHARS: u8 = 1;
const CUTS: u8 = 3;
const ESCAPES: u8 = 4;
const VALUES: u8 = 5;
const LINES: u8 = 6;
const LISTINGS: u8 = 8;
const MERGES: u8 = 9;
/// How many ops the groups have, from 1 on.
const OPS: [u8; 10] = [4, 2, 7, 4, 1, 5, 5, 5, 5, 5];

/// Kinds, numbers, texts; and the output.
const TABLES: [u8; 3] = [1, 2, 3];
const OUTPUT: u8 = 4;
const LENT: u8 = 4;
/// The tables of a cut that the places just fill, and that are an entry short.
const CUT_TABLES: [u8; 2] = [9, 10];
/// What is lent, as a byte and as a number.
const FILL: [u8; 8] = [77, 0, 0, 0, 0, 0, 0, 0];

/// Each of the groups stands behind its number.
pub fn make(cases: &mut Cases, groups: &BTreeMap<u8, Cases>) {
    for (group, ops) in (1..).zip(OPS) {
        for op in 1..=ops {
            let chosen = one_of_each_shape(group, op, &groups[&group]);
            assert!(!chosen.is_empty(), "group {group} has no case of op {op}");
            for case in &chosen {
                for answer in wrong_answers(case, &chosen) {
                    assert_ne!(answer, case.answer, "an answer of the control is true");
                    cases.push(0, &asked(group, case), &answer);
                }
                for look in looks(group, case) {
                    cases.push(look, &asked(group, case), &case.answer);
                }
                if let Some(question) = asked_as_refused(group, case) {
                    cases.push(0, &question, &[2]);
                }
            }
        }
    }
}

fn asked(group: u8, case: &Case) -> Vec<u8> {
    [&[group, case.op], &case.input[..]].concat()
}

/// The same input under the op of its group whose inputs are refused. The length of a type has two
/// more bytes there.
fn asked_as_refused(group: u8, case: &Case) -> Option<Vec<u8>> {
    let input = &case.input;
    match (group, case.op) {
        (CUTS, 1) => Some([&[group, 7], &input[..]].concat()),
        (ESCAPES, 1) => Some([&[group, 3], &input[..]].concat()),
        (ESCAPES, 2) => Some([&[group, 4], &input[..2], &[0, 0], &input[2..]].concat()),
        _ => None,
    }
}

/// Refused because a table is too short.
fn refuses_tables(group: u8, case: &Case) -> bool {
    group >= VALUES && case.answer.starts_with(&[0, 1])
}

/// What the program goes by in telling answers of one op apart.
fn shape(group: u8, case: &Case) -> (Option<u8>, bool) {
    if matches!((group, case.op), (CHARS, 2) | (CUTS, 1) | (ESCAPES, 1 | 2)) {
        return (None, case.answer.is_empty());
    }
    (Some(case.answer[0]), refuses_tables(group, case))
}

/// Of each shape the shortest case that is rich, or else the shortest that there is. An answer is
/// rich that has several bytes or places, or some of everything that a pack or a listing has.
fn one_of_each_shape(group: u8, op: u8, cases: &Cases) -> Vec<&Case> {
    let rich = if group < VALUES { 16 } else { 60 };
    let mut best: BTreeMap<(Option<u8>, bool), (bool, usize, &Case)> = BTreeMap::new();
    for case in cases.list().iter().filter(|case| case.op == op) {
        let length = case.input.len() + case.answer.len();
        let this = (case.answer.len() < rich, length, case);
        let known = best.entry(shape(group, case)).or_insert(this);
        if (this.0, this.1) < (known.0, known.1) {
            *known = this;
        }
    }
    best.into_values().map(|(_, _, case)| case).collect()
}

/// The answers of the other cases, and the true one with every byte changed in turn, a byte short,
/// and with more behind it: a zero, which leaves a number as it is, and a byte and a number of what
/// was lent, which a table holds behind the answer.
fn wrong_answers(case: &Case, others: &[&Case]) -> Vec<Vec<u8>> {
    let mut wrong: Vec<Vec<u8>> = others.iter().map(|other| other.answer.clone()).collect();
    for at in 0..case.answer.len() {
        let mut answer = case.answer.clone();
        answer[at] = answer[at].wrapping_add(1);
        wrong.push(answer);
    }
    wrong.extend(case.answer.split_last().map(|(_, rest)| rest.to_vec()));
    for more in [&[0][..], &FILL[..1], &FILL] {
        wrong.push([&case.answer, more].concat());
    }
    wrong.sort();
    wrong.dedup();
    wrong.retain(|answer| *answer != case.answer);
    wrong
}

/// The looks at tables and output that a case has.
fn looks(group: u8, case: &Case) -> Vec<u8> {
    let mut looks = Vec::new();
    if group >= LINES {
        looks.extend(TABLES.map(|table| table + LENT));
        if !refuses_tables(group, case) {
            looks.extend(TABLES);
        }
    }
    if matches!((group, case.op), (CUTS, 1 | 7) | (ESCAPES | LISTINGS | MERGES, _)) {
        looks.push(OUTPUT + LENT);
    }
    if (group, case.op) == (CUTS, 1) && !case.answer.is_empty() {
        looks.extend(CUT_TABLES);
    }
    looks
}
