//! Logs to test with.

use oracle::answers;

/// The longest log, and the longest line behind trimming.
pub const LOG: usize = 65_536;
pub const LINE: usize = 4_096;

/// A multiplicative generator; the seeds are fixed, so every run has the same cases.
pub struct Random(pub u64);

impl Random {
    pub fn below(&mut self, n: u64) -> u64 {
        self.0 = self
            .0
            .wrapping_mul(6_364_136_223_846_793_005)
            .wrapping_add(1_442_695_040_888_963_407);
        (self.0 >> 33) % n
    }

    pub fn bytes(&mut self, n: usize) -> Vec<u8> {
        (0..n).map(|_| self.below(256) as u8).collect()
    }

    pub fn of<'a>(&mut self, choices: &[&'a str]) -> &'a str {
        choices[self.below(choices.len() as u64) as usize]
    }
}

/// Document 01's example.
pub const EXAMPLE: &str = "@40 scope(principal: Planner::\"night\") entities(Cell::\"K'7\": {dug: true}) \
    Dig::Action::\"release\"::request(cell: Cell::\"K\\'7\", depth: 12.50)\n";

/// A log of so many bytes: the example again and again, and blanks.
pub fn log_of(size: usize) -> Vec<u8> {
    let mut log = EXAMPLE.repeat(size / EXAMPLE.len()).into_bytes();
    log.resize(size, b' ');
    log
}

/// A line of so many bytes whose one id has nothing but characters that print as seven bytes each: they are escaped in the stored key, and
/// the key is where it prints.
pub fn widest(size: usize) -> Vec<u8> {
    let (head, tail) = ("@1 entities(::\"", "\":{})::\"\"::k()");
    let mut line = head.as_bytes().to_vec();
    line.resize(size - tail.len(), 0x7F);
    line.extend_from_slice(tail.as_bytes());
    line
}

/// A log whose listing is nearly seven times as long.
pub fn wide_log() -> Vec<u8> {
    (0..15)
        .flat_map(|_| [widest(LINE), b"\n".to_vec()].concat())
        .collect()
}

/// A line of entries and fields, short and many, with bare values.
pub fn crowded(size: usize) -> Vec<u8> {
    let (head, tail) = ("@1 entities(", ") ::\"\"::k()");
    let mut line = head.to_string();
    let mut n = 0;
    loop {
        let entry = format!("::\"{n:x}\":{{{n:x}:,\u{7f}:[\u{7f}]}},");
        if line.len() + entry.len() + tail.len() > size {
            break;
        }
        line += &entry;
        n += 1;
    }
    line += &" ".repeat(size - line.len() - tail.len());
    (line + tail).into_bytes()
}

const VALUES: [&str; 14] = [
    "1",
    "-7",
    "12.50",
    "true",
    "false",
    "null",
    "\"a b\"",
    "Cell::\"K'7\"",
    "[1, [2, []], {a: 3}]",
    "{z: 1, a: {b: \"\\u{41}\"}}",
    "bare word",
    "\"\u{301}\u{e9}\u{0}\"",
    "+5",
    "[{b: [], a: \"\\x4\"}]",
];
const NAMES: [&str; 6] = ["a", "B", "ab", "\"q\"", "cell", "\u{e4}"];

/// A line of an event, with some of the envelopes.
fn event(random: &mut Random) -> String {
    let mut line = format!("@{} ", random.below(100));
    if random.below(2) == 0 {
        let name = random.of(&["principal", "resource", "other"]);
        line += &format!("scope({name}: {}) ", random.of(&VALUES));
    }
    if random.below(2) == 0 {
        let (id, name) = (random.of(&NAMES), random.of(&NAMES));
        line += &format!(
            "entities(Cell::\"{id}\": {{{name}: {}}}) ",
            random.of(&VALUES)
        );
    }
    let (name, value) = (random.of(&NAMES), random.of(&VALUES));
    line + &format!(
        "N::M::\"act\"::kind({name}: {value}, x: {})",
        random.of(&VALUES)
    )
}

/// A log of random lines, most of which are read.
pub fn sketched(random: &mut Random) -> Vec<u8> {
    let mut log = String::from(random.of(&["", "", "\u{feff}"]));
    for _ in 0..random.below(12) {
        log += &match random.below(5) {
            0 => random.of(&["", " ", "\t\r", "\u{3000}"]).to_string(),
            _ => event(random),
        };
        log += random.of(&["\n", "\n", "\r\n"]);
    }
    let mut bytes = log.into_bytes();
    // One log in three is damaged.
    if random.below(3) == 0 && !bytes.is_empty() {
        let at = random.below(bytes.len() as u64) as usize;
        bytes[at] = b"\"(){}[],:\\@\xff"[random.below(12) as usize];
    }
    bytes
}

/// Whether the log has events and no refusal: cases that are refused by mistake would show little.
pub fn is_listed(log: &[u8]) -> bool {
    answers::night_listing(log).starts_with("event ")
}
