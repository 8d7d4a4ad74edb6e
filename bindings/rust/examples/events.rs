//! Prints time, action and entities of each event of the log on standard input, or the first refusal with its line.
use std::error::Error;

fn print_events(log: &str) -> Result<(), Box<dyn Error>> {
    let mut tables = lulzhemor::Tables::new();
    tables.judge(log.as_bytes())?;
    for line in lulzhemor::lines(log) {
        let Some(event) = tables.read_line(line.as_bytes())? else {
            continue;
        };
        println!("{} {}", event.time(), event.action());
        for entry in event.entities() {
            println!("  {} {:?}", entry.key, entry.record);
        }
    }
    Ok(())
}

fn main() {
    let log = std::io::read_to_string(std::io::stdin()).expect("the log is UTF-8");
    if let Err(refusal) = print_events(&log) {
        eprintln!("{refusal}");
        std::process::exit(1);
    }
}
