//! The night listings of `nights.bin`, whose format `vectors/README.md` says.

use crate::tester::Tester;

/// A length from here on is that of a text in pieces, plus this.
const IN_PIECES: usize = 1 << 31;

/// What is left of the file.
struct Rest<'a>(&'a [u8]);

impl<'a> Rest<'a> {
    fn take(&mut self, count: usize) -> &'a [u8] {
        let (taken, rest) = self.0.split_at(count);
        self.0 = rest;
        taken
    }

    /// A number of so many bytes.
    fn number(&mut self, bytes: usize) -> usize {
        let digits = self.take(bytes).iter().rev();
        digits.fold(0, |n, digit| n << 8 | *digit as usize)
    }

    fn text(&mut self) -> Vec<u8> {
        let length = self.number(4);
        if length < IN_PIECES {
            return self.take(length).to_vec();
        }
        let mut text = Vec::new();
        while text.len() < length - IN_PIECES {
            let plain = self.number(2);
            text.extend(self.take(plain));
            let (count, distance) = (self.number(2), self.number(2));
            for _ in 0..count {
                text.push(text[text.len() - distance]);
            }
        }
        text
    }
}

/// Each log is listed as it is stored, byte for byte.
pub fn replay(t: &mut Tester, file: &[u8]) {
    let mut rest = Rest(file);
    let count = rest.number(4);
    assert!(count > 500);
    for n in 0..count {
        assert_eq!(rest.number(1), 1, "the op");
        let (log, listing) = (rest.text(), rest.text());
        t.listed(&format!("night {n}"), &log, &listing);
    }
    assert!(rest.0.is_empty());
}
