//! States of a caller's own, word by word (docs/STATE.md), and files to step them in.
use purkvaldi::Answer;

/// How many words a state is, and where the events begin: a flag each, 1 where it is present.
pub const WORDS: usize = 4834;
pub const EVENTS: usize = 4562;

/// The most threads of a list, and of a state.
pub const MOST: usize = 64;

pub fn answer(number: u8, detail: u16) -> Answer {
    Answer::new(number, detail)
}

pub fn active_at(scheduler: usize) -> usize {
    2 + 130 * (scheduler - 2)
}

pub fn next_at(scheduler: usize) -> usize {
    active_at(scheduler) + 65
}

pub fn thread_at(thread: usize) -> usize {
    1042 + 55 * (thread - 1)
}

/// The entry of a thread that waits for another.
pub fn waiting(awaited: u64, thread: u64) -> u64 {
    128 * awaited + thread
}

/// The entry of a thread that awaits an event.
pub fn awaiting(event: u64, thread: u64) -> u64 {
    16384 + 128 * event + thread
}

pub fn generate(event: usize) -> String {
    format!("1A{event:02X}000000000000")
}

pub fn await_event(event: usize) -> String {
    format!("1B{event:02X}000000000000")
}

/// A text of so many schedulers, with an event for each owner and a link for each pair, whose main
/// does these statements one after the other. Statement i is frame 1 + the number of events + that
/// of links + i.
pub fn file_in_step(
    schedulers: usize,
    owners: &[usize],
    links: &[(usize, usize)],
    statements: &[String],
) -> Vec<u8> {
    let mut frames = vec![format!("00010000{schedulers:04X}{:04X}", owners.len())];
    frames.extend(
        owners
            .iter()
            .map(|owner| format!("03{owner:02X}000000000000")),
    );
    frames.extend(
        links
            .iter()
            .map(|(upper, lower)| format!("04{upper:02X}{lower:04X}00000000")),
    );
    let first = frames.len();
    frames.extend_from_slice(statements);
    let mut last = frames.len() - 1;
    for i in (first..last).rev() {
        frames.push(format!("1100{i:04X}{last:04X}0000"));
        last = frames.len() - 1;
    }
    frames.push(format!("0200{last:04X}00000000"));
    frames
        .iter()
        .flat_map(|frame| format!("{frame}\n").into_bytes())
        .collect()
}

/// A list's members, at the place of its length.
pub fn list(state: &[u64], at: usize) -> &[u64] {
    &state[at + 1..at + 1 + state[at] as usize]
}

/// Writes a list, and zeros in the rest of its space.
pub fn put_list(state: &mut [u64], at: usize, members: &[u64]) {
    state[at..at + 65].fill(0);
    state[at] = members.len() as u64;
    state[at + 1..at + 1 + members.len()].copy_from_slice(members);
}

/// The next thread, which lives on that place and has one item to do.
pub fn add_thread(state: &mut [u64], place: u64, frame: usize) {
    state[0] += 1;
    let at = thread_at(state[0] as usize);
    state[at] = place;
    state[at + 2] = 1;
    state[at + 3..at + 5].copy_from_slice(&[1, frame as u64]);
}

/// The thread's top item is used up.
pub fn take_item(state: &mut [u64], thread: usize) {
    let at = thread_at(thread) + 3;
    let top = at + state[at] as usize;
    state[top] = 0;
    state[at] -= 1;
}

/// What a step answers, by the call for one choice and by that for many: the same answer and the
/// same words, and a refusal leaves every word as it was.
pub fn step(text: &[u8], state: &mut [u64], choice: u8) -> Answer {
    let before = state.to_vec();
    let answer = purkvaldi::step(text, state, u64::from(choice));
    assert!(answer.number == 0 || state == before, "a refusal wrote");
    let mut at_once = before;
    let mut codes = [u64::MAX];
    let call = purkvaldi::steps(text, &mut at_once, &[choice], &mut codes);
    if answer.number == 14 {
        assert_eq!((call, codes), (answer, [u64::MAX]));
    } else {
        assert_eq!((call.number, Answer::of_code(codes[0])), (0, answer));
    }
    assert!(state == at_once, "many choices wrote other words");
    answer
}

/// The next number of a row that looks random, below `most`.
pub fn below(seed: &mut u64, most: u64) -> u64 {
    *seed = seed
        .wrapping_mul(6364136223846793005)
        .wrapping_add(1442695040888963407);
    (*seed >> 33) % most
}
