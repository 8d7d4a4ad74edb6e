//! The answer to each subcommand, as text. What an answer means is said at the top of main.rs.

use crate::pack::Pack;
use crate::value::entity_uid_string;
use crate::{cells, hex, limits, listing, merge, ranges, reader, scans};

fn refused(number: u8) -> String {
    format!("refused {number}\n")
}

pub fn judge(log: &[u8]) -> String {
    match limits::log(log) {
        Ok(events) => format!("events {}\n", events.len()),
        Err((number, line)) => format!("refused {number} line {line}\n"),
    }
}

pub fn night_listing(log: &[u8]) -> String {
    let events = match limits::log(log) {
        Ok(events) => events,
        Err((number, line)) => return format!("refused {number} line {line}\n"),
    };
    let listed = events.iter().zip(1..).map(|((_, event), n)| listing::event(n, event));
    listed.collect::<String>() + &format!("events {}\n", events.len())
}

pub fn merge(first: &[u8], second: &[u8]) -> String {
    merge::logs(first, second, limits::TEXT)
        .unwrap_or_else(|(number, log, line)| format!("refused {number} log {log} line {line}\n"))
}

pub fn line(text: &[u8], number: u64) -> String {
    match limits::line(text) {
        Ok(Some((_, event))) => listing::event(number, &event),
        Ok(None) => String::new(),
        Err(refusal) => refused(refusal),
    }
}

pub fn pack(text: &[u8]) -> String {
    match limits::line(text) {
        Ok(Some((trimmed, event))) => Pack::of_event(trimmed, &event).print(),
        Ok(None) => "blank\n".to_string(),
        Err(refusal) => refused(refusal),
    }
}

pub fn cells(text: &[u8]) -> String {
    cells::pack(text).map_or_else(refused, |pack| pack.print())
}

pub fn value(text: &[u8]) -> String {
    let read = limits::text(text).and_then(|text| Ok((text, reader::value(text)?)));
    match read {
        Ok((text, value)) => Pack::of_value(text, &value).print(),
        Err(refusal) => refused(refusal),
    }
}

pub fn decoded(text: &[u8]) -> Result<String, u8> {
    Ok(scans::unescape(limits::text(text)?))
}

/// The byte places of the commas that cut: one less than where each further piece begins.
pub fn cut_places(body: &[u8]) -> Result<Vec<usize>, u8> {
    let body = limits::short(limits::text(body)?)?;
    let pieces = scans::split_top_level(body, ',');
    let mut places = Vec::new();
    let mut at = 0;
    for piece in &pieces[..pieces.len() - 1] {
        at += piece.len();
        places.push(at);
        at += 1;
    }
    Ok(places)
}

/// 01 does not say which of two texts is met first: each limit on either, before the next limit.
pub fn stored_key(ty: &[u8], id: &[u8]) -> Result<String, u8> {
    let both_fit = ty.len() <= limits::TEXT && id.len() <= limits::TEXT;
    if !both_fit {
        return Err(2);
    }
    let (ty, id) = (limits::text(ty)?, limits::text(id)?);
    Ok(entity_uid_string(limits::short(ty)?, limits::short(id)?))
}

fn in_hex(answer: Result<String, u8>) -> String {
    match answer {
        Ok(text) => hex::spell(text.as_bytes()) + "\n",
        Err(number) => refused(number),
    }
}

pub fn decode(text: &[u8]) -> String {
    in_hex(decoded(text))
}

pub fn key(ty: &[u8], id: &[u8]) -> String {
    in_hex(stored_key(ty, id))
}

pub fn cuts(body: &[u8]) -> String {
    match cut_places(body) {
        Ok(places) => {
            let words: Vec<String> = places.iter().map(usize::to_string).collect();
            words.join(" ") + "\n"
        }
        Err(number) => refused(number),
    }
}

pub fn trim(text: &[u8]) -> String {
    match std::str::from_utf8(text) {
        Ok(text) => hex::spell(text.trim().as_bytes()) + "\n",
        Err(_) => "bad\n".to_string(),
    }
}

pub fn utf8(text: &[u8]) -> String {
    if std::str::from_utf8(text).is_ok() { "valid\n" } else { "bad\n" }.to_string()
}

pub fn escape_ranges() -> String {
    let list = |name: &str, ranges: Vec<ranges::Range>| -> String {
        ranges.iter().map(|(start, end)| format!("{name} {start} {end}\n")).collect()
    };
    let rustc = format!("{}\n", ranges::RUSTC);
    rustc + &list("anywhere", ranges::anywhere()) + &list("first", ranges::first_only())
}
