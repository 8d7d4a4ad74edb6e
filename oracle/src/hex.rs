//! Bytes as hex digits. No bytes at all are `-`, so that a word always stands there.

pub fn spell(bytes: &[u8]) -> String {
    if bytes.is_empty() {
        return "-".to_string();
    }
    bytes.iter().map(|b| format!("{b:02x}")).collect()
}

pub fn read(word: &str) -> Option<Vec<u8>> {
    if word == "-" {
        return Some(Vec::new());
    }
    if word.len() % 2 == 1 || !word.bytes().all(|b| b.is_ascii_hexdigit()) {
        return None;
    }
    let byte = |at: usize| u8::from_str_radix(&word[at..at + 2], 16).ok();
    (0..word.len()).step_by(2).map(byte).collect()
}
