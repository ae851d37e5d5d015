//! What `check`, `run` and `arrange` print.

use crate::arrange;
use crate::layout::Program;
use crate::rules;
use crate::state::State;
use crate::step::Outcome;
use crate::text::{self, DIGIT_BYTES};
use crate::verdict::Verdict;

/// Bytes of a choice's line: choice, answer, acting thread, cells in use and
/// accesses, as 2, 2, 2, 4 and 4 digits, each with a blank or the line feed.
const CHOICE_LINE: usize = 3 + 3 + 3 + 5 + 5;
/// Bytes of the last line: 4 digits and the line feed.
const COUNT_LINE: usize = 5;

/// A file, as far as it can be read.
pub enum Reading {
    /// Rejected with 1 to 7.
    Unreadable(Verdict),
    /// Accepted, or rejected with 8 to 13; can be stepped.
    Readable(Program, Verdict),
}

impl Reading {
    pub fn new(text: &[u8]) -> Reading {
        match text::frames(text).and_then(Program::new) {
            Err(verdict) => Reading::Unreadable(verdict),
            Ok(program) => {
                let verdict = rules::check(&program);
                Reading::Readable(program, verdict)
            }
        }
    }

    pub fn verdict(&self) -> Verdict {
        match self {
            Reading::Unreadable(verdict) | Reading::Readable(_, verdict) => *verdict,
        }
    }
}

/// The listing of `check`.
pub fn check(text: &[u8]) -> Vec<u8> {
    let mut listing = Vec::with_capacity(8);
    verdict_line(&mut listing, Reading::new(text).verdict());
    listing
}

/// The listing of `run`.
pub fn run(text: &[u8], choices: &[u8]) -> Vec<u8> {
    let reading = Reading::new(text);
    let mut listing = Vec::new();
    verdict_line(&mut listing, reading.verdict());
    if let Reading::Readable(program, _) = reading {
        match text::choices(choices) {
            Err(verdict) => verdict_line(&mut listing, verdict),
            Ok(choices) => run_lines(&mut listing, &program, &choices),
        }
    }
    listing
}

/// The lines of `arrange`, or its refusal as `check` prints one.
pub fn arrange(text: &[u8]) -> Vec<u8> {
    let mut lines = vec![0; text.len()];
    let verdict = arrange::arrange(text, &mut lines);
    if verdict != Verdict::ACCEPTED {
        lines.clear();
        verdict_line(&mut lines, verdict);
    }
    lines
}

/// The choices that a run uses: those within the allowance.
pub fn used<'c>(program: &Program, choices: &'c [u8]) -> &'c [u8] {
    &choices[..choices.len().min(program.allowance)]
}

fn run_lines(listing: &mut Vec<u8>, program: &Program, choices: &[u8]) {
    let used = used(program, choices);
    listing.reserve(CHOICE_LINE * used.len() + COUNT_LINE);
    let mut state = State::new(program);
    for &choice in used {
        let outcome = state.step(program, choice, &mut ());
        choice_line(listing, choice, outcome, state.cells.len());
    }
    word(listing, used.len() as u16);
    listing.push(b'\n');
}

fn choice_line(listing: &mut Vec<u8>, choice: u8, outcome: Outcome, cells: usize) {
    for number in [choice, outcome.answer, outcome.thread] {
        byte(listing, number);
        listing.push(b' ');
    }
    word(listing, cells as u16);
    listing.push(b' ');
    word(listing, outcome.accesses);
    listing.push(b'\n');
}

fn verdict_line(listing: &mut Vec<u8>, verdict: Verdict) {
    byte(listing, verdict.number);
    listing.push(b' ');
    word(listing, verdict.frame);
    listing.push(b'\n');
}

/// Two hexadecimal digits.
pub fn byte(listing: &mut Vec<u8>, number: u8) {
    let digits = [number >> 4, number & 15].map(|digit| DIGIT_BYTES[usize::from(digit)]);
    listing.extend_from_slice(&digits);
}

/// Four hexadecimal digits.
pub fn word(listing: &mut Vec<u8>, number: u16) {
    let [high, low] = number.to_be_bytes();
    byte(listing, high);
    byte(listing, low);
}

#[cfg(test)]
mod tests {
    use super::*;

    /// How many of `count` choices a run with this allowance uses: its last
    /// line, which the number of its lines and `used` bear out. The list is
    /// no text, so it can be longer than any file holds.
    fn used_of(allowance: u16, count: usize) -> usize {
        let program = format!("0001{allowance:04X}00010000\n1000000000000000\n0200000100000000\n");
        let Reading::Readable(program, _) = Reading::new(program.as_bytes()) else {
            panic!("readable");
        };
        let choices = vec![2; count];
        let mut listing = Vec::new();
        run_lines(&mut listing, &program, &choices);
        let listing = String::from_utf8(listing).unwrap();
        let lines: Vec<&str> = listing.lines().collect();
        let printed = usize::from_str_radix(lines[lines.len() - 1], 16).unwrap();
        assert_eq!(lines.len(), printed + 1);
        assert_eq!(used(&program, &choices), &choices[..printed]);
        printed
    }

    #[test]
    fn a_list_longer_than_a_file_is_cut_by_a_0() {
        assert_eq!(used_of(0, 16_383), 16_383);
        assert_eq!(used_of(0, 16_384), 16_384);
        assert_eq!(used_of(0, 16_385), 16_384);
        assert_eq!(used_of(0, 70_000), 16_384);
    }

    #[test]
    fn a_list_longer_than_a_file_is_cut_by_an_explicit_allowance() {
        assert_eq!(used_of(0x1000, 16_385), 4096);
        assert_eq!(used_of(0x4000, 16_385), 16_384);
        assert_eq!(used_of(0x4001, 16_385), 16_385);
        assert_eq!(used_of(0xFFFF, 16_385), 16_385);
        assert_eq!(used_of(0xFFFF, 70_000), 65_535);
    }
}
