//! Reading texts: refusals 1, 2 and 3, and lists of choices.

use crate::frame::Frame;
use crate::verdict::Verdict;

/// Bytes of a line of a program: 16 digits and a line feed.
pub const LINE: usize = 17;
/// Lines of a program, at most.
pub const PROGRAM_LINES: usize = 1024;
pub const PROGRAM_LIMIT: usize = LINE * PROGRAM_LINES;
/// Bytes of a line of a list of choices: two digits and a line feed.
pub const CHOICE_LINE: usize = 3;
pub const CHOICES_LIMIT: usize = 49_152;

const NO_DIGIT: u8 = 255;

/// The value of each byte as a digit, or 255.
static DIGITS: [u8; 256] = digits();

const fn digits() -> [u8; 256] {
    let mut table = [NO_DIGIT; 256];
    let mut value = 0;
    while value < 16 {
        table[DIGIT_BYTES[value] as usize] = value as u8;
        value += 1;
    }
    table
}

/// The byte of each digit.
pub const DIGIT_BYTES: &[u8; 16] = b"0123456789ABCDEF";

/// The four digits of a word.
pub fn word_digits(word: u16) -> [u8; 4] {
    [12, 8, 4, 0].map(|shift| DIGIT_BYTES[usize::from(word >> shift & 15)])
}

/// The number that the digits write; none if a byte is no digit. Values are
/// joined by `or`, so one test at the end finds any 255.
#[inline]
fn number(digits: &[u8]) -> Option<u64> {
    let mut all = 0;
    let mut number = 0;
    for &byte in digits {
        let value = DIGITS[usize::from(byte)];
        all |= value;
        number = number << 4 | u64::from(value & 15);
    }
    (all < 16).then_some(number)
}

/// One line: its digits, then a line feed.
#[inline]
fn line(bytes: &[u8]) -> Option<u64> {
    match bytes.split_last() {
        Some((b'\n', digits)) => number(digits),
        _ => None,
    }
}

fn frame(bytes: &[u8]) -> Option<Frame> {
    line(bytes).map(|word| Frame {
        kind: (word >> 56) as u8,
        s: (word >> 48) as u8,
        a: (word >> 32) as u16,
        b: (word >> 16) as u16,
        c: word as u16,
    })
}

/// All lines of the text, or the number of the first wrong one. The position
/// of a wrong or missing byte, divided by the line's length, is its line.
fn lines<T>(text: &[u8], size: usize, read: impl Fn(&[u8]) -> Option<T>) -> Result<Vec<T>, usize> {
    let mut items = Vec::with_capacity(text.len() / size);
    let whole = text.chunks_exact(size);
    let rest = whole.remainder();
    for bytes in whole {
        items.push(read(bytes).ok_or(items.len())?);
    }
    if rest.is_empty() {
        Ok(items)
    } else {
        Err(items.len())
    }
}

/// The frames of a program's text.
pub fn frames(text: &[u8]) -> Result<Vec<Frame>, Verdict> {
    if text.is_empty() {
        return Err(Verdict::rejected(1, 0));
    }
    if text.len() > PROGRAM_LIMIT {
        return Err(Verdict::rejected(2, 0));
    }
    lines(text, LINE, frame).map_err(|line| Verdict::rejected(3, line))
}

/// The parties of a list of choices.
pub fn choices(text: &[u8]) -> Result<Vec<u8>, Verdict> {
    if text.len() > CHOICES_LIMIT {
        return Err(Verdict::rejected(2, 0));
    }
    lines(text, CHOICE_LINE, |bytes| line(bytes).map(|n| n as u8))
        .map_err(|line| Verdict::rejected(3, line))
}

#[cfg(test)]
mod tests {
    use super::*;

    #[test]
    fn every_byte_is_a_digit_or_not() {
        for byte in 0..=255u8 {
            let value = DIGIT_BYTES.iter().position(|&digit| digit == byte);
            assert_eq!(
                DIGITS[usize::from(byte)],
                value.map_or(NO_DIGIT, |v| v as u8)
            );
        }
    }

    #[test]
    fn wrong_and_missing_bytes_name_their_line() {
        let good = b"0001000000010000\n1000000000000000\n";
        assert_eq!(frames(good).unwrap().len(), 2);
        for length in 1..good.len() {
            let expected = (length % LINE != 0).then(|| Verdict::rejected(3, length / LINE));
            assert_eq!(frames(&good[..length]).err(), expected);
        }
        for position in 0..good.len() {
            for byte in [b'a', b'\r', b' ', b'G', 0, 255] {
                let mut text = good.to_vec();
                text[position] = byte;
                assert_eq!(frames(&text), Err(Verdict::rejected(3, position / LINE)));
            }
        }
    }

    #[test]
    fn limits() {
        assert_eq!(frames(b""), Err(Verdict::rejected(1, 0)));
        let full = b"1000000000000000\n".repeat(1024);
        assert_eq!(frames(&full).unwrap().len(), 1024);
        assert_eq!(
            frames(&[&full[..], b"x"].concat()),
            Err(Verdict::rejected(2, 0))
        );
        assert_eq!(choices(b""), Ok(vec![]));
        assert_eq!(choices(b"02\n1F\n"), Ok(vec![2, 31]));
        assert_eq!(choices(b"02\n1F"), Err(Verdict::rejected(3, 1)));
        assert_eq!(choices(b"02\n1f\n"), Err(Verdict::rejected(3, 1)));
        assert_eq!(choices(&b"02\n".repeat(16_384)).unwrap().len(), 16_384);
        assert_eq!(choices(&[b'x'; 49_153]), Err(Verdict::rejected(2, 0)));
    }
}
