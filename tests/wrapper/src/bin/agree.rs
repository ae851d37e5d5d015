//! agree SECONDS SEED: the proved check, stepper and writer and the second program in one process,
//! on random texts and choices, on drawn files, and on lent words that are garbage. Not 0 on a
//! difference.
use purkvaldi::Answer;
use second::evaluate::{Access, Actor, EventUse, Observer};
use second::generate::Case;
use second::listing::{used, Reading};
use second::state::{Item, State, Until, Value};
use second::tally::Arranged;
use std::time::{Duration, Instant};

/// A list as it stands in a state: its length, then its members.
fn put_list(words: &mut [u64], at: usize, members: impl Iterator<Item = u64>) {
    for member in members {
        words[at] += 1;
        words[at + words[at] as usize] = member;
    }
}

fn value_word(value: Value) -> u64 {
    match value {
        Value::Number(number) => u64::from(number),
        Value::Truth(truth) => (1 << 32) + u64::from(truth),
        Value::Cell(cell) => (2 << 32) + u64::from(cell),
    }
}

fn item_word(item: Item) -> u64 {
    match item {
        Item::Run(frame) => u64::from(frame),
        Item::Back(place) => 1024 + u64::from(place),
        Item::Drop => 2048,
    }
}

/// The second program's state in the words that docs/STATE.md describes.
fn words_of(state: &State, length: usize) -> Vec<u64> {
    let mut words = vec![0; length];
    words[0] = state.threads.len() as u64;
    words[1] = state.cells.len() as u64;
    for (k, lists) in state.schedulers.iter().enumerate() {
        let at = 2 + 130 * k;
        put_list(&mut words, at, lists.active.iter().map(|&t| u64::from(t)));
        let entries = lists.next.iter().map(|entry| {
            u64::from(entry.thread)
                + match entry.until {
                    Until::Instant => 0,
                    Until::Family(root) => 128 * u64::from(root),
                    Until::Event(event) => 16384 + 128 * u64::from(event),
                }
        });
        put_list(&mut words, at + 65, entries);
    }
    for (k, thread) in state.threads.iter().enumerate() {
        let at = 1042 + 55 * k;
        words[at] = u64::from(thread.place);
        words[at + 1] = thread.starter.map_or(0, u64::from);
        words[at + 2] = u64::from(!thread.ended);
        let items = thread.continuation.iter().map(|&item| item_word(item));
        put_list(&mut words, at + 3, items);
        let variables = thread.variables.iter().map(|&value| value_word(value));
        put_list(&mut words, at + 29, variables);
    }
    for (flag, &present) in words[4562..].iter_mut().zip(&state.present) {
        *flag = u64::from(present);
    }
    for (word, cell) in words[4578..].iter_mut().zip(&state.cells) {
        *word = (u64::from(cell.owner) << 34) + value_word(cell.content);
    }
    words
}

/// The choices of a case whose choices.txt is well formed.
fn choices_of(case: &Case) -> Vec<u8> {
    second::text::choices(&case.choices).unwrap_or_default()
}

/// Counts the generations and the awaits, to see that the texts have some.
#[derive(Default)]
struct Uses {
    generations: u64,
    awaits: u64,
}

impl Observer for Uses {
    fn access(&mut self, _: Actor, _: Access, _: u8) {}

    fn event(&mut self, _: Actor, event_use: EventUse, _: u8) {
        match event_use {
            EventUse::Generation => self.generations += 1,
            EventUse::Await => self.awaits += 1,
        }
    }
}

/// Steps both through at most 200 choices, and compares every word of the states; counts the
/// answers and the uses of events. None where the first difference is.
fn run(case: &Case, state: &mut [u64], answers: &mut [u64; 21], uses: &mut Uses) -> Option<()> {
    let text = &case.program;
    let fresh = purkvaldi::fresh(text, state);
    let Reading::Readable(program, _) = Reading::new(text) else {
        let (number, frame) = purkvaldi::second_check(text);
        return (fresh == Answer::new(number, frame)).then_some(());
    };
    (fresh == Answer::new(0, 0)).then_some(())?;
    let choices = choices_of(case);
    let mut theirs = State::new(&program);
    for &choice in used(&program, &choices).iter().take(200) {
        let before = state.to_vec();
        let ours = purkvaldi::step(text, state, u64::from(choice));
        let outcome = theirs.step(&program, choice, uses);
        answers[usize::from(outcome.answer)] += 1;
        let same = ours.number == outcome.answer
            && ours.detail == u16::from(outcome.thread)
            && ours.accesses == outcome.accesses;
        let kept = ours.number == 0 || state == &before[..];
        (same && kept && state == words_of(&theirs, state.len())).then_some(())?;
    }
    Some(())
}

/// All choices of a case in one call, beside a call for each: the same answers, the same words.
fn at_once(case: &Case, state: &mut [u64]) -> bool {
    let text = &case.program;
    let mut choices = choices_of(case);
    choices.truncate(200);
    let refused = purkvaldi::fresh(text, state);
    let mut words = state.to_vec();
    let mut codes = vec![u64::MAX; choices.len()];
    let answer = purkvaldi::steps(text, &mut words, &choices, &mut codes);
    if refused.number != 0 {
        return answer == refused && words == state && codes.iter().all(|&code| code == u64::MAX);
    }
    let same = choices.iter().zip(codes).all(|(&choice, code)| {
        purkvaldi::step(text, state, u64::from(choice)) == Answer::of_code(code)
    });
    answer.number == 0 && same && words == state
}

/// Words that no caller should lend: an answer, and nothing written where it is a refusal.
fn garbage(text: &[u8], state: &mut [u64], seed: u64) -> bool {
    let mut random = seed.wrapping_mul(0x9E37_79B9_7F4A_7C15) | 1;
    let mut next = || {
        random ^= random << 13;
        random ^= random >> 7;
        random ^= random << 17;
        random
    };
    let mut fine = true;
    let mut trial = |words: &mut [u64], choice: u64| {
        let before = words.to_vec();
        let answer = purkvaldi::step(text, words, choice);
        fine &= answer.number == 0 || words == &before[..];
    };
    trial(&mut [], next() % 90);
    let length = state.len();
    trial(&mut vec![u64::MAX; length], next() % 90);
    trial(&mut vec![0; length], next() % 90);
    trial(&mut vec![0; length - 1], next());
    let at = next() as usize % length;
    let mut changed = state.to_vec();
    changed[at] = match next() % 3 {
        0 => next(),
        1 => next() % 80,
        // an entry that awaits an event
        _ => 16384 + next() % 2200,
    };
    for _ in 0..4 {
        trial(&mut changed, next() % 90);
    }
    fine
}

fn hexadecimal(digits: &[u8]) -> usize {
    usize::from_str_radix(std::str::from_utf8(digits).unwrap(), 16).unwrap()
}

/// What a writer answers with an output of this length, and the output, full of a byte before.
fn arranged(
    arrange: fn(&[u8], &mut [u8]) -> (u8, u16),
    text: &[u8],
    length: usize,
    before: u8,
) -> ((u8, u16), Vec<u8>) {
    let mut out = vec![before; length];
    (arrange(text, &mut out), out)
}

/// Both writers on a text: the same answers and bytes, with an output as long and with others. A
/// refusal leaves every byte, which the second program's output shows.
fn arranged_alike(text: &[u8]) -> bool {
    let length = text.len();
    let lengths = [length, length + 1, length.saturating_sub(1), 0];
    lengths
        .into_iter()
        .zip([b'?', 0, 255, 10])
        .all(|(length, before)| {
            arranged(purkvaldi::arrange, text, length, before)
                == arranged(purkvaldi::second_arrange, text, length, before)
        })
}

fn main() {
    let mut args = std::env::args()
        .skip(1)
        .map(|a| a.parse::<u64>().expect("agree SECONDS SEED"));
    let (seconds, seed) = (args.next().expect("SECONDS"), args.next().expect("SEED"));
    let end = Instant::now() + Duration::from_secs(seconds);
    let mut state = vec![0u64; purkvaldi::state_length()];
    let mut out = vec![0u8; purkvaldi::listing_length()];
    let mut verdicts = [0u64; 14];
    let mut answers = [0u64; 21];
    let mut uses = Uses::default();
    let mut listed = [0u64; 21];
    let mut most = 0;
    let mut arranged = Arranged::default();
    let (mut cases, mut differences) = (0u64, 0u64);
    while Instant::now() < end {
        for _ in 0..100 {
            let case = second::generate::case(seed, cases);
            let (ours, theirs) = (
                purkvaldi::check(&case.program),
                purkvaldi::second_check(&case.program),
            );
            verdicts[usize::from(ours.0) % 14] += 1;
            // A listing answers the text's refusal 1 to 7; 8 to 13 stop none.
            let (number, detail) = if theirs.0 <= 7 { theirs } else { (0, 0) };
            let answer = Answer::new(number, detail);
            if ours != theirs {
                differences += 1;
                println!("seed {seed} case {cases}: {ours:?}, the second program {theirs:?}");
            }
            let theirs = second::listing::run(&case.program, &case.choices);
            let ours = purkvaldi::run(&case.program, &case.choices, &mut state, &mut out);
            if ours.answer != answer || ours.bytes != theirs {
                differences += 1;
                println!("seed {seed} case {cases}: another listing");
            }
            for line in theirs.split(|b| *b == b'\n') {
                let fields: Vec<&[u8]> = line.split(|b| *b == b' ').collect();
                // Only a choice's line has five fields; the last is its accesses.
                if let [_, answer, _, _, accesses] = fields[..] {
                    listed[hexadecimal(answer)] += 1;
                    most = most.max(hexadecimal(accesses));
                }
            }
            let drawn = second::generate::drawn(seed, cases);
            arranged.add(&second::listing::arrange(&drawn.program));
            for (what, text) in [("case", &case.program), ("drawn", &drawn.program)] {
                if !arranged_alike(text) {
                    differences += 1;
                    println!("seed {seed} {what} {cases}: arranged in another way");
                }
            }
            // Each public step reads and validates anew, so the stepper sees one case in ten.
            if cases % 10 == 0 {
                if run(&case, &mut state, &mut answers, &mut uses).is_none() {
                    differences += 1;
                    println!("seed {seed} case {cases}: a step differs");
                }
                if !at_once(&case, &mut state) {
                    differences += 1;
                    println!("seed {seed} case {cases}: many choices differ from one by one");
                }
                if !garbage(&case.program, &mut state, cases) {
                    differences += 1;
                    println!("seed {seed} case {cases}: a refused step wrote");
                }
            }
            cases += 1;
        }
    }
    println!("{cases} texts, {differences} differences; verdicts 0 to 13: {verdicts:?}");
    println!("drawn files, {arranged}");
    println!(
        "answers in the listings of runs, 0 and 15 to 20: {} {:?}",
        listed[0],
        &listed[15..]
    );
    println!("at most {most} accesses in a step");
    println!(
        "answers of steps 0 and 15 to 20: {} {:?}",
        answers[0],
        &answers[15..]
    );
    let Uses {
        generations,
        awaits,
    } = uses;
    println!("in those steps {generations} generations and {awaits} awaits of an event");
    if differences > 0 {
        std::process::exit(1);
    }
}
