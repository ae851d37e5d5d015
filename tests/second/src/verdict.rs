//! What the check and the writer say of a file.

/// A refusal number (1 to 13; the writer's 14 and 21) with its frame, or accepted. A file with a
/// number other than 0 is rejected (01: "refused by the check").
#[derive(Clone, Copy, PartialEq, Eq, Debug)]
pub struct Verdict {
    pub number: u8,
    pub frame: u16,
}

impl Verdict {
    pub const ACCEPTED: Verdict = Verdict {
        number: 0,
        frame: 0,
    };

    /// Frame numbers fit 16 bits: a text has at most 1,024 lines.
    pub fn rejected(number: u8, frame: usize) -> Verdict {
        Verdict {
            number,
            frame: frame as u16,
        }
    }
}
