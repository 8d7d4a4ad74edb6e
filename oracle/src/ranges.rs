//! The characters that `str::escape_debug` of this rustc writes as `\u{..}`, found by running it
//! on every scalar value.

/// A range holds its start and not its end.
pub type Range = (u32, u32);

/// The rustc that built this, as it names itself.
pub const RUSTC: &str = env!("ORACLE_RUSTC");

/// Escaped wherever they stand: behind another character too.
pub fn anywhere() -> Vec<Range> {
    ranges(escaped_later)
}

/// Escaped as the first character of a text, but not later.
pub fn first_only() -> Vec<Range> {
    ranges(|c| escaped_first(c) && !escaped_later(c))
}

fn by_number(c: char) -> String {
    format!("\\u{{{:x}}}", c as u32)
}

fn escaped_first(c: char) -> bool {
    c.to_string().escape_debug().to_string() == by_number(c)
}

fn escaped_later(c: char) -> bool {
    format!("a{c}").escape_debug().to_string()[1..] == by_number(c)
}

/// Surrogates are no characters, so a range never holds one.
fn ranges(belongs: impl Fn(char) -> bool) -> Vec<Range> {
    let mut out: Vec<Range> = Vec::new();
    for c in '\0'..=char::MAX {
        if !belongs(c) {
            continue;
        }
        let code = c as u32;
        match out.last_mut() {
            Some((_, end)) if *end == code => *end = code + 1,
            _ => out.push((code, code + 1)),
        }
    }
    out
}

/// The characters with an escape of another form, with that form.
pub fn short() -> Vec<(char, String)> {
    let escape = |c: char| (c, c.to_string().escape_debug().to_string());
    let all = ('\0'..=char::MAX).map(escape);
    all.filter(|(c, form)| *form != c.to_string() && *form != by_number(*c)).collect()
}
