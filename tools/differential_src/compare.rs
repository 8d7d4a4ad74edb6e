//! Compares the product with the oracle: compare N [SEED]. THREADS=2 takes two threads; the answers are the same.

mod product;

use differential::Subject;
use differential::answer::{ASKED, ASKS, Answer, Ask, Question};
use differential::expected::Oracle;
use differential::minimise::minimised;
use product::Product;
use std::collections::BTreeMap;
use std::process::exit;
use std::sync::Mutex;
use std::sync::atomic::{AtomicU64, Ordering};
use std::time::Instant;

/// How many of the entry points' questions had each answer.
#[derive(Default)]
struct Counts {
    asked: [u64; ASKED],
    refused: BTreeMap<u8, [u64; ASKED]>,
    blank: [u64; ASKED],
    bytes: u64,
}

impl Counts {
    fn add(&mut self, other: Counts) {
        for (refusal, times) in other.refused {
            let sums = self.refused.entry(refusal).or_default();
            sums.iter_mut().zip(times).for_each(|(sum, n)| *sum += n);
        }
        self.asked.iter_mut().zip(other.asked).for_each(|(sum, n)| *sum += n);
        self.blank.iter_mut().zip(other.blank).for_each(|(sum, n)| *sum += n);
        self.bytes += other.bytes;
    }

    fn print(&self) {
        println!("| | {} |", ASKS.join(" | "));
        println!("|---|{}", "--:|".repeat(ASKED));
        let row = |name: &str, numbers: &[u64; ASKED]| {
            let words: Vec<String> = numbers.iter().map(u64::to_string).collect();
            println!("| {name} | {} |", words.join(" | "));
        };
        row("asked", &self.asked);
        let mut answered = self.asked;
        answered.iter_mut().zip(self.blank).for_each(|(n, blank)| *n -= blank);
        for times in self.refused.values() {
            answered.iter_mut().zip(times).for_each(|(n, refused)| *n -= refused);
        }
        row("answered", &answered);
        row("blank", &self.blank);
        self.refused.iter().for_each(|(refusal, times)| row(&format!("refused {refusal}"), times));
    }

    /// The numbers that were not met. No log can meet 35, only entities JSON meets 36 and 37, and only merging those from 45 on.
    fn missing(&self, asked: impl Fn(Ask) -> bool) -> Vec<u8> {
        let all = (1..=5).chain(10..=34).chain(36..=37).chain(45..=47);
        let expected = all.filter(|number| match number {
            36 | 37 => asked(Ask::Cells),
            45.. => asked(Ask::Merge),
            _ => true,
        });
        expected.filter(|number| !self.refused.contains_key(number)).collect()
    }
}

struct Run {
    seed: u64,
    count: u64,
    threads: u64,
    /// Entry points that are left out, by index.
    skip: Vec<usize>,
    /// The first log with a difference, so far.
    first: AtomicU64,
    started: Instant,
}

impl Run {
    /// One thread's logs: every so-manieth, until a difference came before them.
    fn part(&self, thread: u64) -> Counts {
        let mut counts = Counts::default();
        let mut product = Product::new();
        let mut index = thread;
        while index < self.count && index < self.first.load(Ordering::Relaxed) {
            if !self.one(index, &mut product, &mut counts) {
                self.first.fetch_min(index, Ordering::Relaxed);
            }
            index += self.threads;
            if thread == 0 && index % 100_000 < self.threads && index >= 100_000 {
                eprintln!("{index} logs, {} s", self.started.elapsed().as_secs());
            }
        }
        counts
    }

    fn one(&self, index: u64, product: &mut Product, counts: &mut Counts) -> bool {
        let mut subject = Subject::new(self.seed, index);
        counts.bytes += subject.bytes() as u64;
        let mut oracle = Oracle::default();
        for question in subject.questions() {
            let ask = question.ask.index();
            if self.skip.contains(&ask) {
                continue;
            }
            let (answer, room) = oracle.answer(&question);
            counts.asked[ask] += 1;
            match answer.refusal() {
                Some(refusal) => counts.refused.entry(refusal).or_default()[ask] += 1,
                None => counts.blank[ask] += (answer == Answer::Blank) as u64,
            }
            if product.answer(&question, room) != answer {
                return false;
            }
        }
        true
    }

    /// Shows the first difference, as small as it gets.
    fn show(&self, index: u64) {
        let differs = |question: &Question| {
            let (answer, room) = Oracle::default().answer(question);
            !self.skip.contains(&question.ask.index())
                && Product::new().answer(question, room) != answer
        };
        let mut subject = Subject::new(self.seed, index);
        let all = subject.questions();
        let question =
            all.iter().find(|question| differs(question)).expect("a log with a difference");
        let (text, other) = minimised(question, &differs);
        let small = Question { text: &text, other: &other, ..*question };
        let (answer, room) = Oracle::default().answer(&small);
        println!("difference, seed {}, log {index}: {}", self.seed, small.print());
        if !matches!(small.ask, Ask::Judge | Ask::Read | Ask::Cells) {
            println!("  output of {room} entries");
        }
        println!("oracle:  {}", answer.print());
        println!("product: {}", Product::new().answer(&small, room).print());
    }
}

impl Run {
    /// True where nothing is to be looked at.
    fn report(&self, total: &Counts) -> bool {
        let first = self.first.load(Ordering::Relaxed);
        if first != u64::MAX {
            self.show(first);
            return false;
        }
        let asked: u64 = total.asked.iter().sum();
        let seconds = self.started.elapsed().as_secs();
        println!(
            "seed {}: {} logs, as many pairs of logs and entities JSON, {} bytes, {asked} questions, {seconds} s",
            self.seed, self.count, total.bytes
        );
        self.skip.iter().for_each(|index| println!("left out: {}", ASKS[*index]));
        total.print();
        let missing = total.missing(|ask| !self.skip.contains(&ask.index()));
        if !missing.is_empty() {
            println!("refusals that were not met: {missing:?}");
            return false;
        }
        println!("no difference");
        true
    }
}

fn usage() -> ! {
    eprintln!("usage: compare N [SEED], with THREADS=1 or 2 and SKIP=an entry point's name");
    exit(2);
}

fn main() {
    let args: Vec<String> = std::env::args().skip(1).collect();
    let number = |word: &String| word.parse::<u64>().unwrap_or_else(|_| usage());
    let (count, seed) = match args.as_slice() {
        [count] => (number(count), 1),
        [count, seed] => (number(count), number(seed)),
        _ => usage(),
    };
    let threads = std::env::var("THREADS").map_or(1, |word| number(&word)).clamp(1, 2);
    let skipped = std::env::var("SKIP").unwrap_or_default();
    let skip: Vec<usize> =
        (0..ASKED).filter(|index| skipped.split(',').any(|name| name == ASKS[*index])).collect();
    let run = Run {
        seed,
        count,
        threads,
        skip,
        first: AtomicU64::new(u64::MAX),
        started: Instant::now(),
    };
    let total = Mutex::new(Counts::default());
    std::thread::scope(|scope| {
        for thread in 0..threads {
            let (run, total) = (&run, &total);
            scope.spawn(move || {
                let counts = run.part(thread);
                total.lock().expect("no thread failed").add(counts);
            });
        }
    });
    let total = total.into_inner().expect("no thread failed");
    if !run.report(&total) {
        exit(1);
    }
}
