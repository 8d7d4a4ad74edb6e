//! Measures the generated logs: mutants [N] [SEED]. The second reader must answer as the oracle does on each of N logs, and each of its
//! mutants must differ somewhere. Fails where one does not.

use differential::Subject;
use differential::answer::{ASKS, Question};
use differential::expected::Oracle;
use differential::minimise::minimised;
use differential::mutant::{self, Mutant};
use differential::reader::Reader;
use std::process::exit;

struct Candidate {
    reader: Reader,
    what: String,
    /// The log that caught it, and the entry point.
    caught: Option<(u64, &'static str)>,
}

fn differs(reader: &Reader, question: &Question) -> bool {
    let (answer, room) = Oracle::default().answer(question);
    reader.answer(question, room) != answer
}

/// The unmutated reader must not differ.
fn stop(seed: u64, index: u64, reader: &Reader, question: &Question) -> ! {
    let (text, other) = minimised(question, &|question| differs(reader, question));
    let small = Question { text: &text, other: &other, ..*question };
    let (answer, room) = Oracle::default().answer(&small);
    println!("the second reader differs, seed {seed}, log {index}: {}", small.print());
    println!("oracle: {}", answer.print());
    println!("reader: {}", reader.answer(&small, room).print());
    exit(1);
}

/// Asks the readers what is asked under one number: how many questions that is.
fn ask(seed: u64, index: u64, honest: &Reader, candidates: &mut [Candidate]) -> usize {
    let mut subject = Subject::new(seed, index);
    let mut oracle = Oracle::default();
    let questions = subject.questions();
    for question in &questions {
        let (answer, room) = oracle.answer(question);
        if honest.answer(question, room) != answer {
            stop(seed, index, honest, question);
        }
        let alive = candidates.iter_mut().filter(|candidate| candidate.caught.is_none());
        alive.filter(|candidate| candidate.reader.answer(question, room) != answer).for_each(
            |candidate| {
                candidate.caught = Some((index, ASKS[question.ask.index()]));
            },
        );
    }
    questions.len()
}

fn main() {
    let number = |at: usize, default: u64| match std::env::args().nth(at) {
        Some(word) => word.parse().unwrap_or_else(|_| {
            eprintln!("usage: mutants [N] [SEED]");
            exit(2);
        }),
        None => default,
    };
    let (count, seed) = (number(1, 100_000), number(2, 1));
    let honest = Reader { mutant: Mutant::Unchanged };
    let mut candidates: Vec<Candidate> = mutant::all()
        .into_iter()
        .map(|(mutant, what)| Candidate { reader: Reader { mutant }, what, caught: None })
        .collect();
    let asked: usize = (0..count).map(|index| ask(seed, index, &honest, &mut candidates)).sum();
    println!(
        "seed {seed}: {count} logs, {asked} questions; the second reader has no difference from the oracle"
    );
    report(&candidates);
}

fn report(candidates: &[Candidate]) {
    println!("| mutant | caught by log | in |\n|---|---|---|");
    for candidate in candidates {
        if let Some((log, ask)) = candidate.caught {
            println!("| {} | {log} | {ask} |", candidate.what);
        }
    }
    let survivors: Vec<&str> =
        candidates.iter().filter(|one| one.caught.is_none()).map(|one| one.what.as_str()).collect();
    let caught = candidates.len() - survivors.len();
    println!("{} mutants, {caught} caught, {} survive", candidates.len(), survivors.len());
    survivors.iter().for_each(|what| println!("survives: {what}"));
    if !survivors.is_empty() {
        exit(1);
    }
}
