//! Prints stored key, attributes and parents of each entity of the entities JSON on standard input, or the refusal.

fn print_cells(export: &[u8]) -> Result<(), lulzhemor::Refusal> {
    let mut tables = lulzhemor::Tables::new();
    for entry in tables.read_entities(export)? {
        println!("{} {:?} in {:?}", entry.key, entry.record, entry.parents);
    }
    Ok(())
}

fn main() {
    let export = std::io::read_to_string(std::io::stdin()).expect("the export is UTF-8");
    if let Err(refusal) = print_cells(export.as_bytes()) {
        eprintln!("{refusal}");
        std::process::exit(1);
    }
}
