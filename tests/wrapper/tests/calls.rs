//! The wrapper tried on wrong lengths, empty buffers and garbage states; the end of an instant
//! tried on states of a caller's own (events.rs has those with events, groups.rs those with links);
//! demand 3 tried on the accepted vectors; the writer tried on drawn files.
use purkvaldi::{Answer, Listing};
use std::path::Path;

/// How many words a state is (docs/STATE.md).
const WORDS: usize = 4834;

const THREE: &[u8] = b"0001000000010000\n1000000000000000\n0200000100000000\n";

fn answer(number: u8, detail: u16) -> Answer {
    Answer::new(number, detail)
}

fn fresh() -> Vec<u64> {
    let mut state = vec![0; purkvaldi::state_length()];
    assert_eq!(purkvaldi::fresh(THREE, &mut state), answer(0, 0));
    state
}

#[test]
fn the_three_line_file_answers_0_0_16() {
    let mut state = fresh();
    let answers: Vec<u8> = (0..3)
        .map(|_| purkvaldi::step(THREE, &mut state, 2).number)
        .collect();
    assert_eq!(answers, [0, 0, 16]);
}

#[test]
fn a_buffer_of_another_length_is_14_and_stays() {
    for words in [0, 1, WORDS - 1, WORDS + 1] {
        let mut state = vec![7; words];
        assert_eq!(purkvaldi::fresh(THREE, &mut state), answer(14, 0));
        assert_eq!(purkvaldi::step(THREE, &mut state, 2), answer(14, 0));
        assert_eq!(state, vec![7; words]);
    }
}

#[test]
fn the_texts_refusals_come_first() {
    assert_eq!(purkvaldi::fresh(&[], &mut []), answer(1, 0));
    assert_eq!(purkvaldi::step(&THREE[..40], &mut [], 2), answer(3, 2));
}

#[test]
fn garbage_states_are_14_and_stay() {
    for word in [u64::MAX, 1 << 63, 300] {
        let mut state = vec![word; WORDS];
        assert_eq!(purkvaldi::step(THREE, &mut state, 2), answer(14, 0));
        assert_eq!(state, vec![word; WORDS]);
    }
    let state = fresh();
    for at in 0..WORDS {
        let mut changed = state.clone();
        changed[at] = u64::MAX;
        let kept = changed.clone();
        assert_eq!(
            purkvaldi::step(THREE, &mut changed, 2),
            answer(14, 0),
            "word {at}"
        );
        assert_eq!(changed, kept);
    }
}

/// The next number of a row that looks random, below `most`.
fn below(seed: &mut u64, most: u64) -> u64 {
    *seed = seed
        .wrapping_mul(6364136223846793005)
        .wrapping_add(1442695040888963407);
    (*seed >> 33) % most
}

/// In a caller's own state anybody may have begun anybody: families are gathered from the starters
/// until nothing is new, and an entry is ready where all of the awaited family have ended.
/// (Document 02, change 3; docs/STATE.md has the words.)
#[test]
fn waits_end_with_the_family_whatever_the_starters() {
    const ACTIVE: usize = 2;
    const NEXT: usize = ACTIVE + 65;
    let thread_at = |t: usize| 1042 + 55 * (t - 1);
    let mut seed = 3;
    let (mut held_up, mut circles) = (0, 0);
    for round in 0..20_000 {
        let mut state = vec![0; purkvaldi::state_length()];
        let threads = 1 + below(&mut seed, 64) as usize;
        let living = 1 + below(&mut seed, 40);
        state[0] = threads as u64;
        for t in 1..=threads {
            // Most starters are threads; some are none, and some are over the count.
            let most = if below(&mut seed, 20) == 0 {
                65
            } else {
                threads as u64 + 1
            };
            state[thread_at(t)] = 2;
            state[thread_at(t) + 1] = below(&mut seed, most);
            state[thread_at(t) + 2] = u64::from(below(&mut seed, living) == 0);
        }
        let family = |root: usize, state: &[u64]| {
            let mut family = [false; 65];
            family[root] = true;
            for _ in 0..64 {
                for t in 1..=threads {
                    family[t] = family[t] || family[state[thread_at(t) + 1] as usize];
                }
            }
            family
        };
        let (mut ready, mut waiting) = (Vec::new(), Vec::new());
        let entries = below(&mut seed, 65) as usize;
        state[NEXT] = entries as u64;
        for i in 0..entries {
            let (t, u) = (1 + below(&mut seed, 64), below(&mut seed, 65));
            let entry = 128 * u + t;
            state[NEXT + 1 + i] = entry;
            let awaited = family(u as usize, &state);
            let lives = |x: usize| state[thread_at(x) + 2] == 1;
            if u > 0 && (1..=threads).any(|x| awaited[x] && lives(x)) {
                waiting.push(entry);
                held_up += usize::from(u as usize > threads || !lives(u as usize));
                circles += usize::from(awaited[state[thread_at(u as usize) + 1] as usize]);
            } else {
                ready.push(t);
            }
        }
        let mut wanted = state.clone();
        if !ready.is_empty() {
            wanted[ACTIVE..NEXT + 65].fill(0);
            for (at, list) in [(ACTIVE, &ready), (NEXT, &waiting)] {
                wanted[at] = list.len() as u64;
                wanted[at + 1..at + 1 + list.len()].copy_from_slice(list);
            }
        }
        let number = if ready.is_empty() { 16 } else { 0 };
        assert_eq!(
            purkvaldi::step(THREE, &mut state, 2),
            answer(number, 0),
            "round {round}"
        );
        assert_eq!(state, wanted, "round {round}");
    }
    assert!(
        held_up > 10_000,
        "{held_up} waits only for threads further down"
    );
    assert!(circles > 10_000, "{circles} waits for a thread in a circle");
}

/// The answers of these choices in one call, from this state on.
fn in_one_call(text: &[u8], state: &mut [u64], choices: &[u8]) -> Vec<Answer> {
    let mut codes = vec![u64::MAX; choices.len()];
    assert_eq!(
        purkvaldi::steps(text, state, choices, &mut codes),
        answer(0, 0)
    );
    codes.into_iter().map(Answer::of_code).collect()
}

#[test]
fn choices_that_cannot_be_stepped_write_nothing() {
    for (text, words, count, wanted) in [
        (THREE, WORDS, 2, answer(14, 0)),
        (THREE, WORDS, 4, answer(14, 0)),
        (THREE, WORDS, 0, answer(14, 0)),
        (THREE, WORDS - 1, 3, answer(14, 0)),
        (THREE, 0, 3, answer(14, 0)),
        (&THREE[..40], WORDS, 2, answer(3, 2)),
        (&[], 0, 0, answer(1, 0)),
    ] {
        let mut state = fresh();
        state.resize(words, 0);
        let kept = state.clone();
        let mut codes = vec![7; count];
        assert_eq!(
            purkvaldi::steps(text, &mut state, &[2; 3], &mut codes),
            wanted
        );
        assert_eq!(state, kept);
        assert_eq!(codes, vec![7; count]);
    }
}

#[test]
fn garbage_states_are_14_for_many_choices_too() {
    let state = fresh();
    for at in 0..WORDS {
        let mut changed = state.clone();
        changed[at] = u64::MAX;
        let kept = changed.clone();
        for choices in [&[][..], &[2, 2]] {
            let mut codes = vec![7; choices.len()];
            let refused = purkvaldi::steps(THREE, &mut changed, choices, &mut codes);
            assert_eq!(refused, answer(14, 0), "word {at}");
            assert_eq!(codes, vec![7; choices.len()]);
        }
        assert_eq!(changed, kept);
    }
}

/// The accesses that each choice of an example answers with, one by one and in one call.
fn accesses_of(example: &str) -> Vec<(u8, u16)> {
    let text = read(&format!("examples/{example}/prog.txt"));
    let choices = [2; 8];
    let mut state = vec![0; purkvaldi::state_length()];
    assert_eq!(purkvaldi::fresh(&text, &mut state), answer(0, 0));
    let mut at_once = state.clone();
    let answers: Vec<Answer> = choices
        .iter()
        .map(|&choice| purkvaldi::step(&text, &mut state, u64::from(choice)))
        .collect();
    assert_eq!(in_one_call(&text, &mut at_once, &choices), answers);
    answers.iter().map(|a| (a.number, a.accesses)).collect()
}

#[test]
fn a_step_says_its_accesses_and_a_refused_one_none() {
    assert_eq!(
        accesses_of("counts"),
        [2, 0, 2, 2, 3, 3, 0, 0].map(|count| (0, count))
    );
    assert_eq!(
        accesses_of("counts-refused"),
        [
            (0, 2),
            (0, 0),
            (0, 2),
            (0, 2),
            (0, 3),
            (19, 0),
            (19, 0),
            (19, 0)
        ]
    );
}

/// Many choices in one call are a call of `step` for each: every answer and every word, from the
/// fresh state on and from where the last call stopped.
#[test]
fn many_choices_are_the_steps_one_by_one() {
    let choices: Vec<u8> = any_choices()
        .map(|c| if c < 128 { 2 + c % 3 } else { c })
        .collect();
    let mut texts = 0;
    for folder in vectors() {
        let text = read(&format!("{folder}/prog.txt"));
        let mut one_by_one = vec![0; purkvaldi::state_length()];
        if purkvaldi::fresh(&text, &mut one_by_one) != answer(0, 0) {
            continue;
        }
        texts += 1;
        let mut at_once = one_by_one.clone();
        for some in choices.chunks(170) {
            let wanted: Vec<Answer> = some
                .iter()
                .map(|&choice| purkvaldi::step(&text, &mut one_by_one, u64::from(choice)))
                .collect();
            assert_eq!(in_one_call(&text, &mut at_once, some), wanted, "{folder}");
            assert_eq!(at_once, one_by_one, "{folder}");
        }
    }
    assert!(texts > 100, "only {texts} vectors can be stepped");
}

#[test]
fn a_listing_is_that_of_the_second_program() {
    let mut state = vec![0; purkvaldi::state_length()];
    let mut out = vec![0; purkvaldi::listing_length()];
    for choices in [&b""[..], b"02\n02\n02\n", b"02\n2", b"0a\n"] {
        let theirs = second::listing::run(THREE, choices);
        assert_eq!(
            purkvaldi::run(THREE, choices, &mut state, &mut out),
            Listing {
                answer: answer(0, 0),
                bytes: &theirs,
            }
        );
    }
}

#[test]
fn a_listing_in_a_buffer_of_another_length_is_refused() {
    let length = purkvaldi::listing_length();
    for (words, bytes) in [
        (WORDS, 0),
        (WORDS, 8),
        (WORDS, length - 1),
        (WORDS, length + 1),
        (WORDS - 1, length),
        (WORDS + 1, length),
        (0, 0),
    ] {
        let mut state = vec![3; words];
        let mut out = vec![7; bytes];
        let refused = purkvaldi::run(THREE, b"02\n", &mut state, &mut out);
        assert_eq!(
            refused,
            Listing {
                answer: answer(14, 0),
                bytes: b"",
            }
        );
        assert_eq!(out, vec![7; bytes]);
        assert_eq!(state, vec![3; words]);
    }
}

/// 14 comes 'after 1 to 7': the answer is the text's refusal whatever the lengths, and its line is
/// written where `out` has its length.
#[test]
fn a_text_refused_with_1_to_7_comes_before_the_buffers() {
    let length = purkvaldi::listing_length();
    for (text, number, frame) in [
        (&b""[..], 1, 0),
        (&THREE[..20], 3, 1),
        (b"1000000000000000\n", 4, 0),
    ] {
        let line = format!("{number:02X} {frame:04X}\n");
        for words in [0, WORDS - 1, WORDS] {
            for (bytes, written) in [(length, line.as_bytes()), (8, b""), (length - 1, b"")] {
                let mut state = vec![3; words];
                let mut out = vec![7; bytes];
                assert_eq!(
                    purkvaldi::run(text, b"02\n", &mut state, &mut out),
                    Listing {
                        answer: answer(number, frame),
                        bytes: written,
                    }
                );
                assert_eq!(state, vec![3; words]);
                assert!(out[written.len()..].iter().all(|b| *b == 7));
            }
        }
    }
}

/// A file of the repository; an absent one reads as empty.
fn read(path: &str) -> Vec<u8> {
    let root = Path::new(env!("CARGO_MANIFEST_DIR")).join("../..");
    std::fs::read(root.join(path)).unwrap_or_default()
}

/// The folders of the vectors of the base (00) and of each change.
fn vectors() -> Vec<String> {
    let below = |path: String| {
        let root = Path::new(env!("CARGO_MANIFEST_DIR")).join("../..");
        let mut names: Vec<_> = std::fs::read_dir(root.join(&path))
            .expect("a folder of vectors")
            .map(|entry| entry.expect("entry"))
            .filter(|entry| entry.path().is_dir())
            .map(|entry| format!("{path}/{}", entry.file_name().to_string_lossy()))
            .collect();
        names.sort();
        names
    };
    below("tests/vectors".into())
        .into_iter()
        .flat_map(below)
        .collect()
}

/// The numbers of the answers of these choices, each a call of `step`, from the fresh state on.
fn numbers(text: &[u8], choices: impl Iterator<Item = u8>) -> Vec<u8> {
    let mut state = vec![0; purkvaldi::state_length()];
    assert_eq!(purkvaldi::fresh(text, &mut state), answer(0, 0));
    choices
        .map(|choice| purkvaldi::step(text, &mut state, u64::from(choice)).number)
        .collect()
}

/// 500 choices of 0 to 255, the same for every text.
fn any_choices() -> impl Iterator<Item = u8> {
    let mut random = 1u32;
    std::iter::repeat_with(move || {
        random = random.wrapping_mul(1_664_525).wrapping_add(1_013_904_223);
        (random >> 24) as u8
    })
    .take(500)
}

/// A header's allowance cuts a run, not the call for many choices: 16,385 of them, one more than an
/// allowance of 0 means, are stepped.
#[test]
fn no_allowance_cuts_the_call_for_many_choices() {
    let text = read("examples/while-cooperate/prog.txt");
    let mut state = vec![0; purkvaldi::state_length()];
    assert_eq!(purkvaldi::fresh(&text, &mut state), answer(0, 0));
    let answers = in_one_call(&text, &mut state, &[2; 16_385]);
    assert_eq!(answers.len(), 16_385);
    assert!(answers.iter().all(|answer| answer.number == 0));
}

/// Demand 3 as a trial: on an accepted text no call is 14, foreign (19) or stuck (20).
#[test]
fn accepted_vectors_are_never_14_19_or_20() {
    let mut texts = 0;
    for folder in vectors() {
        if read(&format!("{folder}/check.txt")) != b"00 0000\n" {
            continue;
        }
        texts += 1;
        let text = read(&format!("{folder}/prog.txt"));
        let own = second::text::choices(&read(&format!("{folder}/choices.txt")));
        let own = own.unwrap_or_default();
        for number in [
            numbers(&text, own.into_iter()),
            numbers(&text, any_choices()),
        ]
        .concat()
        {
            assert!(![14, 19, 20].contains(&number), "{folder}: {number}");
        }
    }
    assert!(texts > 50, "only {texts} accepted vectors were found");
}

/// The trial can fail: case R, which the check refuses, is foreign.
#[test]
fn case_r_is_foreign() {
    let text = read("examples/r/prog.txt");
    let choices = second::text::choices(&read("examples/r/choices.txt"));
    let choices = choices.unwrap_or_default();
    assert!(numbers(&text, choices.into_iter()).contains(&19));
}

/// The three lines of `THREE`, the module first.
const DRAWN: &[u8] = b"0001000000010000\n0200000200000000\n1000000000000000\n";

#[test]
fn a_drawn_file_is_laid_out() {
    let mut out = [b'?'; 51];
    assert_eq!(purkvaldi::arrange(DRAWN, &mut out), (0, 0));
    assert_eq!(out, THREE);
    let mut again = [b'?'; 51];
    assert_eq!(purkvaldi::arrange(&out, &mut again), (0, 0));
    assert_eq!(again, out);
}

#[test]
fn a_drawn_file_that_is_refused_leaves_the_output() {
    let circle = b"0001000000010000\n0200000200000000\n1202000200000000\n";
    let too_short = &DRAWN[..50];
    for (text, length, wanted) in [
        (&[][..], 0, (1, 0)),
        (&[b'0'; 17_409], 3, (2, 0)),
        (too_short, 50, (3, 2)),
        (too_short, 51, (3, 2)),
        (circle, 51, (21, 2)),
        (circle, 50, (21, 2)),
        (&DRAWN[..34], 34, (21, 1)),
        (&DRAWN[..17], 17, (6, 0)),
        (DRAWN, 0, (14, 0)),
        (DRAWN, 50, (14, 0)),
        (DRAWN, 52, (14, 0)),
    ] {
        let mut out = vec![b'?'; length];
        assert_eq!(purkvaldi::arrange(text, &mut out), wanted);
        assert_eq!(out, vec![b'?'; length]);
    }
}

/// The vectors of change 2.
#[test]
fn drawn_vectors_are_arranged() {
    let mut texts = 0;
    for folder in vectors() {
        let expected = read(&format!("{folder}/arrange.txt"));
        if expected.is_empty() {
            continue;
        }
        texts += 1;
        let text = read(&format!("{folder}/prog.txt"));
        let mut out = vec![b'?'; text.len()];
        let (number, frame) = purkvaldi::arrange(&text, &mut out);
        if number != 0 {
            out = format!("{number:02X} {frame:04X}\n").into_bytes();
        }
        assert_eq!(out, expected, "{folder}");
    }
    assert!(texts >= 60, "only {texts} vectors were found");
}
