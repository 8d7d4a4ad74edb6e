//! The functions of liblulzhemor.a, whose declarations for C stand in `bindings/c/lulzhemor.h`.

/// How many sizes a pack has: its nodes, and its text bytes.
pub const FRONT: usize = 2;

mod c {
    use super::FRONT;

    unsafe extern "C" {
        pub fn lulzhemor_is_utf8(text: *const u8, text_len: usize) -> bool;
        pub fn lulzhemor_judge(
            kinds: *mut u8,
            kinds_len: usize,
            numbers: *mut u64,
            numbers_len: usize,
            texts: *mut u8,
            texts_len: usize,
            log: *const u8,
            log_len: usize,
        ) -> u64;
        pub fn lulzhemor_merge(
            kinds: *mut u8,
            kinds_len: usize,
            numbers: *mut u64,
            numbers_len: usize,
            texts: *mut u8,
            texts_len: usize,
            out: *mut u8,
            out_len: usize,
            first: *const u8,
            first_len: usize,
            second: *const u8,
            second_len: usize,
        ) -> u64;
        pub fn lulzhemor_read_line(
            kinds: *mut u8,
            kinds_len: usize,
            numbers: *mut u64,
            numbers_len: usize,
            texts: *mut u8,
            texts_len: usize,
            sizes: *mut [u64; FRONT],
            line: *const u8,
            line_len: usize,
        ) -> u64;
        pub fn lulzhemor_read_entities(
            kinds: *mut u8,
            kinds_len: usize,
            numbers: *mut u64,
            numbers_len: usize,
            texts: *mut u8,
            texts_len: usize,
            sizes: *mut [u64; FRONT],
            text: *const u8,
            text_len: usize,
        ) -> u64;
        pub fn lulzhemor_list_line(
            kinds: *mut u8,
            kinds_len: usize,
            numbers: *mut u64,
            numbers_len: usize,
            texts: *mut u8,
            texts_len: usize,
            out: *mut u8,
            out_len: usize,
            line: *const u8,
            line_len: usize,
            number: u64,
        ) -> u64;
        pub fn lulzhemor_cut_body(
            out: *mut u64,
            out_len: usize,
            body: *const u8,
            body_len: usize,
        ) -> u64;
        pub fn lulzhemor_decode(
            out: *mut u8,
            out_len: usize,
            text: *const u8,
            text_len: usize,
        ) -> u64;
        pub fn lulzhemor_spell_key(
            out: *mut u8,
            out_len: usize,
            ty: *const u8,
            ty_len: usize,
            id: *const u8,
            id_len: usize,
        ) -> u64;
    }
}

// SAFETY, of each call: every pointer with its length is that of a slice that is borrowed for the call, that of the sizes is of an array
// that is, and the borrows see to it that none overlaps one that is written.

pub fn is_utf8(text: &[u8]) -> bool {
    unsafe { c::lulzhemor_is_utf8(text.as_ptr(), text.len()) }
}

pub fn judge(kinds: &mut [u8], numbers: &mut [u64], texts: &mut [u8], log: &[u8]) -> u64 {
    unsafe {
        c::lulzhemor_judge(
            kinds.as_mut_ptr(),
            kinds.len(),
            numbers.as_mut_ptr(),
            numbers.len(),
            texts.as_mut_ptr(),
            texts.len(),
            log.as_ptr(),
            log.len(),
        )
    }
}

pub fn merge(
    kinds: &mut [u8],
    numbers: &mut [u64],
    texts: &mut [u8],
    out: &mut [u8],
    first: &[u8],
    second: &[u8],
) -> u64 {
    unsafe {
        c::lulzhemor_merge(
            kinds.as_mut_ptr(),
            kinds.len(),
            numbers.as_mut_ptr(),
            numbers.len(),
            texts.as_mut_ptr(),
            texts.len(),
            out.as_mut_ptr(),
            out.len(),
            first.as_ptr(),
            first.len(),
            second.as_ptr(),
            second.len(),
        )
    }
}

pub fn read_line(
    kinds: &mut [u8],
    numbers: &mut [u64],
    texts: &mut [u8],
    sizes: &mut [u64; FRONT],
    line: &[u8],
) -> u64 {
    unsafe {
        c::lulzhemor_read_line(
            kinds.as_mut_ptr(),
            kinds.len(),
            numbers.as_mut_ptr(),
            numbers.len(),
            texts.as_mut_ptr(),
            texts.len(),
            sizes,
            line.as_ptr(),
            line.len(),
        )
    }
}

pub fn read_entities(
    kinds: &mut [u8],
    numbers: &mut [u64],
    texts: &mut [u8],
    sizes: &mut [u64; FRONT],
    text: &[u8],
) -> u64 {
    unsafe {
        c::lulzhemor_read_entities(
            kinds.as_mut_ptr(),
            kinds.len(),
            numbers.as_mut_ptr(),
            numbers.len(),
            texts.as_mut_ptr(),
            texts.len(),
            sizes,
            text.as_ptr(),
            text.len(),
        )
    }
}

pub fn list_line(
    kinds: &mut [u8],
    numbers: &mut [u64],
    texts: &mut [u8],
    out: &mut [u8],
    line: &[u8],
    number: u64,
) -> u64 {
    unsafe {
        c::lulzhemor_list_line(
            kinds.as_mut_ptr(),
            kinds.len(),
            numbers.as_mut_ptr(),
            numbers.len(),
            texts.as_mut_ptr(),
            texts.len(),
            out.as_mut_ptr(),
            out.len(),
            line.as_ptr(),
            line.len(),
            number,
        )
    }
}

pub fn cut_body(out: &mut [u64], body: &[u8]) -> u64 {
    unsafe { c::lulzhemor_cut_body(out.as_mut_ptr(), out.len(), body.as_ptr(), body.len()) }
}

pub fn decode(out: &mut [u8], text: &[u8]) -> u64 {
    unsafe { c::lulzhemor_decode(out.as_mut_ptr(), out.len(), text.as_ptr(), text.len()) }
}

pub fn spell_key(out: &mut [u8], ty: &[u8], id: &[u8]) -> u64 {
    unsafe {
        c::lulzhemor_spell_key(
            out.as_mut_ptr(),
            out.len(),
            ty.as_ptr(),
            ty.len(),
            id.as_ptr(),
            id.len(),
        )
    }
}

#[cfg(test)]
mod tests {
    use super::{FRONT, read_entities, read_line};

    const OLD: u8 = 77;
    const REFUSED: u64 = 1 << 32;

    /// Tables of so many nodes and text bytes, full of what stood there before.
    struct Lent {
        kinds: Vec<u8>,
        numbers: Vec<u64>,
        texts: Vec<u8>,
        sizes: [u64; FRONT],
    }

    impl Lent {
        fn new(kinds: usize, numbers: usize, texts: usize) -> Lent {
            Lent {
                kinds: vec![OLD; kinds],
                numbers: vec![OLD.into(); numbers],
                texts: vec![OLD; texts],
                sizes: [OLD.into(); FRONT],
            }
        }

        fn entities(&mut self, text: &[u8]) -> u64 {
            read_entities(
                &mut self.kinds,
                &mut self.numbers,
                &mut self.texts,
                &mut self.sizes,
                text,
            )
        }

        fn line(&mut self, line: &[u8]) -> u64 {
            read_line(
                &mut self.kinds,
                &mut self.numbers,
                &mut self.texts,
                &mut self.sizes,
                line,
            )
        }

        /// From so many nodes and text bytes on each entry is this one.
        fn is_behind(&self, nodes: usize, bytes: usize, entry: u8) -> bool {
            self.kinds[nodes..].iter().all(|kind| *kind == entry)
                && self.numbers[nodes..].iter().all(|n| *n == entry.into())
                && self.texts[bytes..].iter().all(|byte| *byte == entry)
        }
    }

    fn lent() -> Lent {
        Lent::new(8_192, 8_192, 32_768)
    }

    /// The answer of a line, and the sizes that it leaves.
    fn read(nodes: usize, line: &[u8]) -> (u64, [u64; FRONT]) {
        let mut lent = Lent::new(nodes, nodes, 32_768);
        (lent.line(line), lent.sizes)
    }

    #[test]
    fn only_an_event_writes_the_sizes() {
        let event = br#"@40 Dig::"go"::ask(m: 1)"#;
        let old = [OLD.into(); FRONT];
        assert_eq!(read(8_192, event), (1, [12, 9]));
        assert_eq!(read(8_192, b" \r\n"), (0, old));
        assert_eq!(read(8_192, b"@0 )("), (REFUSED + 18, old));
        assert_eq!(read(8_191, event), (REFUSED + 1, old));
    }

    #[test]
    fn entities_are_a_pack_and_zeros() {
        let mut lent = lent();
        assert_eq!(lent.entities(b"[]"), 1);
        assert_eq!(lent.sizes, [9, 0]);
        assert_eq!(lent.kinds[..9], [0, 0, 0, 8, 10, 10, 9, 9, 9]);
        assert!(lent.numbers[..9].iter().all(|number| *number == 0));
        assert!(lent.is_behind(9, 0, 0));
        let one = br#"[{"parents":[],"attrs":{"n":-1},"uid":{"id":"b","type":"A"}}]"#;
        assert_eq!(lent.entities(one), 1);
        assert_eq!(lent.sizes, [14, 7]);
        assert_eq!(lent.kinds[8..14], [9, 10, 9, 10, 4, 8]);
        assert_eq!(lent.numbers[8..14], [1, 6, 1, 6 << 32 | 1, u64::MAX, 0]);
        assert_eq!(&lent.texts[..7], br#"A::"b"n"#);
        assert!(lent.is_behind(14, 7, 0));
    }

    /// After any refusal but 1 the tables are zeros; 1 changes nothing, and no refusal changes the sizes.
    #[test]
    fn refused_entities_leave_zeros_and_the_sizes() {
        let two = br#"[{"uid":{"type":"A","id":"b"},"attrs":{},"parents":[]},{"uid":{"type":"A","id":"\u0062"},"attrs":{},"parents":[]}]"#;
        let (long, longer) = (vec![b' '; 4_097], vec![b' '; 65_537]);
        for (number, text) in [
            (2, longer.as_slice()),
            (3, b"\xff"),
            (4, &long),
            (34, two),
            (36, b"[nul]"),
            (37, b"[null]"),
        ] {
            let mut lent = lent();
            assert_eq!(lent.entities(text), REFUSED + number);
            assert!(lent.is_behind(0, 0, 0), "{number}");
            assert_eq!(lent.sizes, [OLD.into(); FRONT], "{number}");
        }
        for [kinds, numbers, texts] in [
            [8_191, 8_192, 32_768],
            [8_192, 8_191, 32_768],
            [8_192, 8_192, 32_767],
        ] {
            let mut lent = Lent::new(kinds, numbers, texts);
            assert_eq!(lent.entities(b"\xff"), REFUSED + 1);
            assert!(lent.is_behind(0, 0, OLD));
            assert_eq!(lent.sizes, [OLD.into(); FRONT]);
        }
    }

    #[test]
    fn the_sizes_are_as_many_as_in_the_header() {
        let header = include_str!("../../c/lulzhemor.h");
        assert!(header.contains(&format!("#define LULZHEMOR_FRONT {FRONT}\n")));
    }
}
