//! Prints generated entities JSON for another judge: texts N [SEED]. A line has the text in hex and the oracle's refusal, 0 where it is read.
//! Fails where no text has a log's line beside it: the oracle must read the same entities in both.

use differential::cells::Cells;
use oracle::{cells, hex};
use std::io::{self, BufWriter, Write};
use std::process::exit;

fn main() -> io::Result<()> {
    let args: Vec<String> = std::env::args().skip(1).collect();
    let numbers: Option<Vec<u64>> = args.iter().map(|word| word.parse().ok()).collect();
    let (count, seed) = match numbers.as_deref() {
        Some([count]) => (*count, 1),
        Some([count, seed]) => (*count, *seed),
        _ => {
            eprintln!("usage: texts N [SEED]");
            exit(2);
        }
    };
    let mut out = BufWriter::new(io::stdout().lock());
    let mut lines = 0;
    for index in 0..count {
        let subject = Cells::new(seed, index);
        lines += subject.line.is_some() as u64;
        let refusal = cells::pack(&subject.text).err().unwrap_or(0);
        writeln!(out, "{} {refusal}", hex::spell(&subject.text))?;
    }
    out.flush()?;
    eprintln!(
        "seed {seed}: {count} entities JSON, {lines} of them with a log's line of the same entities"
    );
    exit((lines == 0) as i32)
}
