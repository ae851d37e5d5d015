//! The proved archive, called by safe functions.

extern "C" {
    fn purkvaldi_check(text: *const u8, length: usize) -> u32;
    fn purkvaldi_arrange(text: *const u8, length: usize, out: *mut u8, out_length: usize) -> u32;
    fn purkvaldi_state_length() -> usize;
    fn purkvaldi_fresh(text: *const u8, length: usize, state: *mut u64, words: usize) -> u32;
    fn purkvaldi_step(
        text: *const u8,
        length: usize,
        state: *mut u64,
        words: usize,
        choice: u64,
    ) -> u64;
    fn purkvaldi_steps(
        text: *const u8,
        length: usize,
        state: *mut u64,
        words: usize,
        choices: *const u8,
        choices_length: usize,
        answers: *mut u64,
        answers_length: usize,
    ) -> u32;
    fn purkvaldi_listing_length() -> usize;
    fn purkvaldi_run(
        text: *const u8,
        length: usize,
        choices: *const u8,
        choices_length: usize,
        state: *mut u64,
        words: usize,
        out: *mut u8,
        out_length: usize,
    ) -> u64;
}

/// How many bytes a listing's buffer has.
pub fn listing_length() -> usize {
    unsafe { purkvaldi_listing_length() }
}

/// What a listing gives: the text's refusal 1 to 7, else 14 where a buffer has another length than
/// the listing needs, else 0; and the bytes that were written.
#[derive(Clone, Copy, PartialEq, Eq, Debug)]
pub struct Listing<'o> {
    pub answer: Answer,
    pub bytes: &'o [u8],
}

/// The listing of a run of the bytes of a choices.txt, in the first bytes of `out`.
pub fn run<'o>(text: &[u8], choices: &[u8], state: &mut [u64], out: &'o mut [u8]) -> Listing<'o> {
    let result = unsafe {
        purkvaldi_run(
            text.as_ptr(),
            text.len(),
            choices.as_ptr(),
            choices.len(),
            state.as_mut_ptr(),
            state.len(),
            out.as_mut_ptr(),
            out.len(),
        )
    };
    Listing {
        answer: Answer::of_code(result >> 32),
        bytes: &out[..result as u32 as usize],
    }
}

/// What a call of the stepper answers: the number, 0 where it is done; the frame of a refusal 1 to
/// 7, else the acting thread; and how many cells a step read, stored in and made.
#[derive(Clone, Copy, PartialEq, Eq, Debug)]
pub struct Answer {
    pub number: u8,
    pub detail: u16,
    pub accesses: u16,
}

impl Answer {
    /// An answer without accesses, as every refusal is.
    pub fn new(number: u8, detail: u16) -> Answer {
        Answer {
            number,
            detail,
            accesses: 0,
        }
    }

    /// The answer of a code, as `steps` writes it.
    pub fn of_code(code: u64) -> Answer {
        Answer {
            number: (code >> 16) as u8,
            detail: code as u16,
            accesses: (code >> 32) as u16,
        }
    }
}

/// How many words a state is.
pub fn state_length() -> usize {
    unsafe { purkvaldi_state_length() }
}

/// Writes the fresh state of a text.
pub fn fresh(text: &[u8], state: &mut [u64]) -> Answer {
    // Any bytes and any words may be lent.
    let code =
        unsafe { purkvaldi_fresh(text.as_ptr(), text.len(), state.as_mut_ptr(), state.len()) };
    Answer::of_code(u64::from(code))
}

/// One choice on a state of any words.
pub fn step(text: &[u8], state: &mut [u64], choice: u64) -> Answer {
    Answer::of_code(unsafe {
        purkvaldi_step(
            text.as_ptr(),
            text.len(),
            state.as_mut_ptr(),
            state.len(),
            choice,
        )
    })
}

/// Many choices on a state of any words, in one call; `answers` takes a code for each, which
/// `Answer::of_code` reads.
pub fn steps(text: &[u8], state: &mut [u64], choices: &[u8], answers: &mut [u64]) -> Answer {
    let code = unsafe {
        purkvaldi_steps(
            text.as_ptr(),
            text.len(),
            state.as_mut_ptr(),
            state.len(),
            choices.as_ptr(),
            choices.len(),
            answers.as_mut_ptr(),
            answers.len(),
        )
    };
    Answer::of_code(u64::from(code))
}

/// The number of the refusal and the frame; (0, 0) where the text is accepted.
pub fn check(text: &[u8]) -> (u8, u16) {
    // The function has no precondition but that the bytes are there to read.
    let code = unsafe { purkvaldi_check(text.as_ptr(), text.len()) };
    ((code >> 16) as u8, code as u16)
}

/// The same by the second program.
pub fn second_check(text: &[u8]) -> (u8, u16) {
    let line = second::listing::check(text);
    let hex = |part: &[u8]| u16::from_str_radix(std::str::from_utf8(part).unwrap(), 16).unwrap();
    (hex(&line[0..2]) as u8, hex(&line[3..7]))
}

/// Lays out a text whose frames stand in any order: (0, 0) where `out` has the lines; else the
/// number of the refusal (1 to 7, 14 or 21) and the frame, and `out` is as it was.
pub fn arrange(text: &[u8], out: &mut [u8]) -> (u8, u16) {
    // Any bytes may be lent, of any lengths.
    let code = unsafe { purkvaldi_arrange(text.as_ptr(), text.len(), out.as_mut_ptr(), out.len()) };
    ((code >> 16) as u8, code as u16)
}

/// The same by the second program.
pub fn second_arrange(text: &[u8], out: &mut [u8]) -> (u8, u16) {
    let verdict = second::arrange::arrange(text, out);
    (verdict.number, verdict.frame)
}
