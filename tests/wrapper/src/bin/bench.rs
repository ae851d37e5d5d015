//! bench: times of the check, of steps, of reading choices, of instants, events, groups and of the
//! writer, proved and second side by side, how the check grows, and the stack below each call, as
//! one table whose rows keep their names, so that two runs can be compared line by line.
use second::layout::Program;
use second::listing::Reading;
use second::state::State;
use std::time::Instant;

/// An accepted file of n lines: one module, whose body is a row of stores.
fn accepted(lines: usize) -> Vec<u8> {
    let mut frames: Vec<String> = vec!["0001000000020000".into(), "0102000100000000".into()];
    // One body: a balanced sequence of stores of a sum into the shared cell, depth below 24.
    fn store(frames: &mut Vec<String>) -> usize {
        frames.push("2300000000000000".into());
        let cell = frames.len() - 1;
        frames.push("2000000100000000".into());
        frames.push("2000000200000000".into());
        let n = frames.len() - 1;
        frames.push(format!("2600{:04X}{:04X}0000", n - 1, n));
        frames.push(format!("1700{:04X}{:04X}0000", cell, n + 1));
        frames.len() - 1
    }
    fn block(frames: &mut Vec<String>, count: usize) -> usize {
        if count == 1 {
            return store(frames);
        }
        let a = block(frames, count / 2);
        let b = block(frames, count - count / 2);
        frames.push(format!("1100{a:04X}{b:04X}0000"));
        frames.len() - 1
    }
    // Six frames a statement, less one, and the module.
    let count = ((lines - 3) / 6).max(1);
    let body = block(&mut frames, count);
    let mut body = body;
    while frames.len() + 1 < lines {
        frames.push(format!("1202{body:04X}00000000"));
        body = frames.len() - 1;
    }
    frames.push(format!("0200{body:04X}00000000"));
    let mut text = frames.join("\n").into_bytes();
    text.push(b'\n');
    text
}

fn nanoseconds(check: fn(&[u8]) -> (u8, u16), text: &[u8]) -> u128 {
    let rounds = 2_000_000 / text.len().max(1) + 20;
    (0..5)
        .map(|_| {
            let start = Instant::now();
            for _ in 0..rounds {
                assert_eq!(
                    std::hint::black_box(check(std::hint::black_box(text))),
                    (0, 0)
                );
            }
            start.elapsed().as_nanos() / rounds as u128
        })
        .min()
        .unwrap()
}

/// A file whose main loops for ever on its own scheduler: it adds to a shared cell, lets a
/// variable, and cooperates.
fn looping() -> Vec<u8> {
    lines(&[
        "0001FFFF00020000", // 0 header
        "0102000100000000", // 1 shared cell, owner 2, a number
        "2101000000000000", // 2 true
        "2300000000000000", // 3 shared cell 0
        "2500000300000000", // 4 its content
        "2000000100000000", // 5 number 1
        "2600000400050000", // 6 sum
        "2300000000000000", // 7 shared cell 0
        "2200000000000000", // 8 variable 0
        "1700000700080000", // 9 store
        "1600000600090000", // 10 let
        "1500000000000000", // 11 cooperate
        "1100000A000B0000", // 12 then
        "19000002000C0000", // 13 while
        "0200000D00000000", // 14 main
    ])
}

const STEPS: usize = 16_384;

/// The best of so many rounds.
fn best_round(rounds: usize, mut round: impl FnMut()) -> f64 {
    (0..rounds)
        .map(|_| {
            let start = Instant::now();
            round();
            start.elapsed().as_nanos() as f64
        })
        .fold(f64::INFINITY, f64::min)
}

/// The best of twenty rounds, for each step.
fn best_step(round: impl FnMut()) -> f64 {
    best_round(20, round) / STEPS as f64
}

/// A row of the table: ours, the second program's where it does the same, and the ratio.
fn row(name: &str, ours: f64, theirs: Option<f64>) {
    match theirs {
        Some(t) => println!("{name:<44} {ours:>10.0} ns {t:>10.0} ns {:>6.2}", ours / t),
        None => println!("{name:<44} {ours:>10.0} ns"),
    }
}

/// A file whose recursion goes deepest: 24 frames, one in the other.
const DEEPEST: &[u8] = include_bytes!("../../deep.txt");

/// How many bytes of a painted stack a call changes.
fn stack_used(call: impl FnOnce() + Send + 'static) -> usize {
    const SIZE: usize = 1 << 20;
    let thread = std::thread::Builder::new().stack_size(SIZE + (1 << 18));
    thread
        .spawn(move || {
            #[inline(never)]
            fn paint() -> usize {
                let mut area = [0xA5u8; SIZE / 2];
                std::hint::black_box(&mut area);
                area.as_ptr() as usize
            }
            #[inline(never)]
            fn untouched(low: usize) -> usize {
                let area = low as *const u8;
                (0..SIZE / 2)
                    .take_while(|&i| unsafe { area.add(i).read_volatile() } == 0xA5)
                    .count()
            }
            let low = paint();
            call();
            SIZE / 2 - untouched(low)
        })
        .unwrap()
        .join()
        .unwrap()
}

/// Checks of accepted files, and how their time grows with the lines: 8 is linear from 128 to
/// 1,024.
fn checks() {
    let mut ours_at = Vec::new();
    for lines in [9, 100, 128, 256, 512, 1024] {
        let text = accepted(lines);
        let (ours, theirs) = (
            nanoseconds(purkvaldi::check, &text) as f64,
            nanoseconds(purkvaldi::second_check, &text) as f64,
        );
        ours_at.push((lines, ours));
        row(
            &format!("check, {} lines", text.len() / 17),
            ours,
            Some(theirs),
        );
    }
    let at = |lines| ours_at.iter().find(|x| x.0 == lines).unwrap().1;
    println!(
        "{:<44} {:>10.2} times",
        "check, 1,024 lines to 128",
        at(1024) / at(128)
    );
}

/// Steps of scheduler 2: in a run's listing; by one public call each, which reads and validates
/// anew; as one of many choices in one public call.
fn steps() {
    let text = looping();
    assert_eq!(purkvaldi::check(&text), (0, 0));
    let mut state = row_of_run("a step in a run, with its line", &text);
    assert_eq!(purkvaldi::fresh(&text, &mut state).number, 0);
    let public = best_step(|| {
        for _ in 0..STEPS {
            assert_eq!(purkvaldi::step(&text, &mut state, 2).number, 0);
        }
    });
    row("a step by the public call, 15 lines", public, None);
    let many = vec![2; STEPS];
    let mut answers = vec![0; STEPS];
    let batch = best_step(|| {
        assert_eq!(
            purkvaldi::steps(&text, &mut state, &many, &mut answers).number,
            0
        );
    });
    assert!(answers.iter().all(|code| (code >> 16) as u8 == 0));
    row("a step as one of many in a public call", batch, None);
}

/// A text of frames.
fn lines(frames: &[&str]) -> Vec<u8> {
    let mut text = frames.join("\n").into_bytes();
    text.push(b'\n');
    text
}

/// A text of frames around ten that count in shared cell 0, a number: the fourth asks whether it is
/// below a bound, the last stores one more.
fn counting(before: &[&str], bound: usize, after: &[&str]) -> Vec<u8> {
    let first = before.len();
    let shared = "2300000000000000";
    let content = |cell: usize| format!("2500{cell:04X}00000000");
    let number = |number: usize| format!("2000{number:04X}00000000");
    let of_two = |kind: &str, a: usize, b: usize| format!("{kind}00{a:04X}{b:04X}0000");
    let counting = [
        shared,
        &content(first),
        &number(bound),
        &of_two("27", first + 1, first + 2), // less
        shared,
        shared,
        &content(first + 5),
        &number(1),
        &of_two("26", first + 6, first + 7), // sum
        &of_two("17", first + 4, first + 8), // store
    ];
    lines(&[before, &counting, after].concat())
}

/// 64 threads in one chain: each starts the next and waits, and the last one cooperates for ever. A
/// module starts itself, which the check refuses (8) and the stepper does not.
fn chain() -> Vec<u8> {
    let before = [
        "0001FFFF00010000", // 0 header
        "0102000100000000", // 1 shared cell, owner 2, a number: how many were started
    ];
    let after = [
        "1400000000000000", // 12 start module 0, and wait
        "1100000B000C0000", // 13 then
        "2101000000000000", // 14 true
        "1500000000000000", // 15 cooperate
        "1900000E000F0000", // 16 while
        "18000005000D0010", // 17 if
        "0200001100000000", // 18 module 0
        "1400000000000000", // 19 start module 0, and wait
        "0200001300000000", // 20 main
    ];
    counting(&before, 62, &after)
}

/// 64 threads: main's first loop starts module 0 until there are 63 more, in one instant, which the
/// check refuses (13) and the stepper does not. Before it stand a shared cell of owner 2, which
/// counts them, and module 0, after it what main does then.
fn starting_63(before: [&str; 6], after: &[&str]) -> Vec<u8> {
    let starting = [
        "1300000000000000", // 16 start module 0
        "1100000F00100000", // 17 then
        "1900000900110000", // 18 while
    ];
    counting(&before, 63, &[&starting, after].concat())
}

/// 64 threads that cooperate for ever.
fn crowd() -> Vec<u8> {
    let before = [
        "0001FFFF00010000", // 0 header
        "0102000100000000", // 1 shared cell, owner 2, a number: how many were started
        "2101000000000000", // 2 true
        "1500000000000000", // 3 cooperate
        "1900000200030000", // 4 while
        "0200000400000000", // 5 module 0
    ];
    let after = [
        "2101000000000000", // 19 true
        "1500000000000000", // 20 cooperate
        "1900001300140000", // 21 while
        "1100001200150000", // 22 then
        "0200001600000000", // 23 main
    ];
    starting_63(before, &after)
}

/// A row for the choices of scheduler 2 in a run, with their lines; the state after our run.
fn row_of_run(name: &str, text: &[u8]) -> Vec<u64> {
    let choices = b"02\n".repeat(STEPS);
    let mut state = vec![0; purkvaldi::state_length()];
    let mut out = vec![0; purkvaldi::listing_length()];
    let ours = best_step(|| {
        let run = purkvaldi::run(text, &choices, &mut state, &mut out);
        assert_eq!(run.answer.number, 0);
    });
    let theirs = best_step(|| {
        std::hint::black_box(second::listing::run(text, &choices));
    });
    row(name, ours, Some(theirs));
    state
}

/// The longest choices.txt, all bytes in turn, in a run whose allowance is one choice: so the time
/// is that of reading it.
fn reading() {
    let text = lines(&[
        "0001000100010000", // 0 header
        "1000000000000000", // 1 nothing
        "0200000100000000", // 2 main
    ]);
    let choices: String = (0..STEPS).map(|i| format!("{:02X}\n", i % 256)).collect();
    let mut state = vec![0; purkvaldi::state_length()];
    let mut out = vec![0; purkvaldi::listing_length()];
    let ours = best_round(2_000, || {
        let run = purkvaldi::run(&text, choices.as_bytes(), &mut state, &mut out);
        assert_eq!((run.answer.number, run.bytes.len()), (0, 8 + 19 + 5));
    });
    let theirs = best_round(2_000, || {
        std::hint::black_box(second::listing::run(&text, choices.as_bytes()));
    });
    row("16,384 choices read, one stepped", ours, Some(theirs));
}

/// Choices of scheduler 2 where the end of an instant has much to do: of three choices in the chain
/// one ends an instant, and 63 of 64 entries wait; in the crowd none waits.
fn instants() {
    for (name, text) in [
        ("a choice, 63 of 64 threads wait in a chain", chain()),
        ("a choice, 64 threads cooperate", crowd()),
    ] {
        assert_eq!(row_of_run(name, &text)[0], 64);
    }
}

/// A thread that cooperates for ever, in a file of so many events of its scheduler: of three
/// choices one ends an instant, which ends the presence of each event.
fn cooperating(events: usize) -> Vec<u8> {
    let header = format!("0001FFFF0001{events:04X}");
    let each = format!("1900{:04X}{:04X}0000", events + 1, events + 2);
    let main = format!("0200{:04X}00000000", events + 3);
    let mut frames = vec![header.as_str()];
    frames.extend(vec!["0302000000000000"; events]);
    frames.extend([
        "2101000000000000", // true
        "1500000000000000", // cooperate
        &each,              // while
        &main,
    ]);
    lines(&frames)
}

/// Adds frames that do these statements, the last of which is the last frame, in sequence; the last
/// frame then.
fn in_sequence(frames: &mut Vec<String>, statements: &[usize]) -> usize {
    for i in statements.iter().rev().skip(1) {
        let rest = frames.len() - 1;
        frames.push(format!("1100{i:04X}{rest:04X}0000"));
    }
    frames.len() - 1
}

/// A thread that generates each of 16 events of its scheduler, and cooperates.
fn generating() -> Vec<u8> {
    let mut frames = vec!["0001FFFF00010010".into()];
    frames.extend(vec!["0302000000000000".into(); 16]);
    frames.extend((0..16).map(|event| format!("1A{event:02X}000000000000")));
    frames.push("1500000000000000".into());
    // The generations are frames 17 to 32, the cooperation is 33.
    in_sequence(&mut frames, &Vec::from_iter(17..=33));
    frames.push("0200003100000000".into());
    lines(&frames.iter().map(String::as_str).collect::<Vec<_>>())
}

/// A thread that generates an event and then does the statement for ever, in the same instant,
/// which the check refuses (13) and the stepper does not: of two choices one does the statement.
fn generated_then(statement: &str) -> Vec<u8> {
    lines(&[
        "0001FFFF00010001", // 0 header
        "0302000000000000", // 1 event 0, owner 2
        "1A00000000000000", // 2 generate event 0
        "2101000000000000", // 3 true
        statement,          // 4
        "1900000300040000", // 5 while
        "1100000200050000", // 6 then
        "0200000600000000", // 7 main
    ])
}

/// 63 threads that all await event 0; then main generates event 1, which nobody awaits, and then
/// event 0.
fn audience() -> Vec<u8> {
    let before = [
        "0001FFFF00010002", // 0 header
        "0102000100000000", // 1 shared cell, owner 2, a number: how many were started
        "0302000000000000", // 2 event 0, owner 2
        "0302000000000000", // 3 event 1, owner 2
        "1B00000000000000", // 4 await event 0
        "0200000400000000", // 5 module 0
    ];
    let after = [
        "1500000000000000", // 19 cooperate
        "1A01000000000000", // 20 generate event 1
        "1A00000000000000", // 21 generate event 0
        "1100001400150000", // 22 then
        "1100001300160000", // 23 then
        "1100001200170000", // 24 then
        "0200001800000000", // 25 main
    ];
    starting_63(before, &after)
}

/// Eight schedulers in one group: main goes from one to the other and starts eight threads on each,
/// at home the last seven, that await home's event 0. Then it cooperates, which puts it after
/// those seven, and generates the event.
fn audience_of_eight() -> Vec<u8> {
    let mut frames = vec!["0001FFFF00080001".into(), "0302000000000000".into()];
    frames.extend((3..=9).map(|upper| format!("04{upper:02X}{:04X}00000000", upper - 1)));
    frames.push("1B00000000000000".into()); // 9 await event 0
    frames.push("0200000900000000".into()); // 10 module 0
    let mut visits = Vec::new();
    for place in [3, 4, 5, 6, 7, 8, 9, 2] {
        let first = frames.len();
        let starts = if place == 2 { 7 } else { 8 };
        frames.extend(vec!["1300000000000000".into(); starts]);
        let last = in_sequence(&mut frames, &Vec::from_iter(first..first + starts));
        frames.push(format!("12{place:02X}{last:04X}00000000"));
        visits.push(last + 1);
    }
    frames.extend(["1500000000000000".into(), "1A00000000000000".into()]);
    visits.extend([frames.len() - 2, frames.len() - 1]);
    let last = in_sequence(&mut frames, &visits);
    frames.push(format!("0200{last:04X}00000000"));
    lines(&frames.iter().map(String::as_str).collect::<Vec<_>>())
}

/// The time of one choice alone, made from the same state again and again. Each round takes back
/// what the last one did, so the time of a choice that only finds that it names no party (15) is
/// taken off: of ours that of a public call's reading and validation too, beside which less than 20
/// ns say nothing. The two take turns, so that both are measured under the same conditions.
fn best_single(mut round: impl FnMut(u8)) -> f64 {
    let mut best = [f64::INFINITY; 2];
    for _ in 0..40 {
        for (best, choice) in best.iter_mut().zip([2, 255]) {
            let start = Instant::now();
            for _ in 0..STEPS {
                round(choice);
            }
            *best = best.min(start.elapsed().as_nanos() as f64 / STEPS as f64);
        }
    }
    best[0] - best[1]
}

/// The first state of a run that is as wanted, ours and the second program's. Home is chosen where
/// no other scheduler has an active thread.
fn wanted_states(
    text: &[u8],
    program: &Program,
    is_wanted: impl Fn(&[u64]) -> bool,
) -> (Vec<u64>, State) {
    let mut ours = vec![0; purkvaldi::state_length()];
    assert_eq!(purkvaldi::fresh(text, &mut ours).number, 0);
    let mut theirs = State::new(program);
    while !is_wanted(&ours) {
        let is_active = |scheduler: &u8| ours[2 + 130 * usize::from(scheduler - 2)] > 0;
        let choice = (2..=9).rev().find(is_active).unwrap_or(2);
        assert_eq!(purkvaldi::step(text, &mut ours, choice.into()).number, 0);
        assert_eq!(theirs.step(program, choice, &mut ()).answer, 0);
    }
    (ours, theirs)
}

/// A row for one choice of scheduler 2 alone, in the first state of a run that is as wanted, where
/// thread 1 acts or an instant ends.
fn row_of_choice(name: &str, text: &[u8], is_wanted: impl Fn(&[u64]) -> bool) {
    let Reading::Readable(program, _) = Reading::new(text) else {
        panic!("the text is laid out");
    };
    let (ours, theirs) = wanted_states(text, &program, is_wanted);
    // The words that the choice changes, from where on and how many: the schedulers' lists, thread
    // 1's continuation, the events. To take back all words would take far longer than the choice.
    let lists = 130 * theirs.schedulers.len();
    let changed = [(2, lists), (1045, 26), (4562, 16)];
    let mut state = ours.clone();
    let our_time = best_single(|choice| {
        for (at, words) in changed {
            state[at..at + words].copy_from_slice(&ours[at..at + words]);
        }
        std::hint::black_box(purkvaldi::step(text, &mut state, u64::from(choice)));
    });
    assert_eq!(state, ours);
    let mut state = theirs.clone();
    let their_time = best_single(|choice| {
        for (lists, before) in state.schedulers.iter_mut().zip(&theirs.schedulers) {
            lists.active.clone_from(&before.active);
            lists.next.clone_from(&before.next);
        }
        let (main, before) = (&mut state.threads[0], &theirs.threads[0]);
        main.continuation.clone_from(&before.continuation);
        state.present.clone_from(&theirs.present);
        std::hint::black_box(state.step(&program, choice, &mut ()));
    });
    assert_eq!(state, theirs);
    row(name, our_time, Some(their_time));
}

/// Choices of scheduler 2 with events. In runs: what each event takes of the end of an instant
/// though none is present, what an await that passes takes beside a statement that does nothing.
/// Alone: the end of an instant in which each was generated, and generations.
fn events() {
    for (name, text) in [
        ("a choice, 1 of 3 ends an instant, no event", cooperating(0)),
        ("a choice, 1 of 3 ends one, 16 events", cooperating(16)),
        (
            "a choice, 1 of 2 does nothing",
            generated_then("1000000000000000"),
        ),
        (
            "a choice, 1 of 2 is an await that passes",
            generated_then("1B00000000000000"),
        ),
    ] {
        row_of_run(name, &text);
    }
    row_of_choice(
        "an instant's end, 16 events are present",
        &generating(),
        |state| state[2] == 0 && state[4562..4578] == [1; 16],
    );
    // All 64 threads are there, thread 1 is the one active, and that frame is on top.
    let generates = |state: &[u64], frame| {
        state[..4] == [64, 1, 1, 1] && state[1045 + state[1045] as usize] == frame
    };
    row_of_choice("a generation that nobody awaits", &audience(), |state| {
        generates(state, 20)
    });
    row_of_choice("a generation that 63 threads await", &audience(), |state| {
        generates(state, 21)
    });
}

/// Choices of scheduler 2 in a group of eight, with the same 64 threads: the end of an instant in
/// which all are ready, eight on each, and the generation that 63 of them await.
fn groups() {
    let text = audience_of_eight();
    if purkvaldi::check(&text) != (0, 0) {
        println!("no groups: this archive is from before change 7");
        return;
    }
    let lengths = |state: &[u64], from: usize| -> [u64; 8] {
        std::array::from_fn(|scheduler| state[from + 130 * scheduler])
    };
    row_of_choice(
        "an instant's end of a group of 8, 64 ready",
        &text,
        |state| (lengths(state, 2), lengths(state, 67)) == ([0; 8], [8; 8]),
    );
    // Thread 1, whose top item is the generation, is the one active; all others await.
    let is_generation = |line: &[u8]| line.starts_with(b"1A");
    let generation = text.chunks(17).position(is_generation).expect("its line") as u64;
    row_of_choice("a generation that 63 await on 8 members", &text, |state| {
        state[1045 + state[1045] as usize] == generation
            && (state[3], lengths(state, 2)) == (1, [1, 0, 0, 0, 0, 0, 0, 0])
            && lengths(state, 67) == [7, 8, 8, 8, 8, 8, 8, 8]
    });
}

/// A writer's time on a text, the best of five rounds; its answer is known.
fn nanoseconds_to_arrange(
    arrange: fn(&[u8], &mut [u8]) -> (u8, u16),
    text: &[u8],
    answer: (u8, u16),
) -> f64 {
    const ROUNDS: u32 = 200;
    let mut out = vec![0; text.len()];
    (0..5)
        .map(|_| {
            let start = Instant::now();
            for _ in 0..ROUNDS {
                let text = std::hint::black_box(text);
                assert_eq!(std::hint::black_box(arrange(text, &mut out)), answer);
            }
            start.elapsed().as_nanos() as f64 / f64::from(ROUNDS)
        })
        .fold(f64::INFINITY, f64::min)
}

/// The writer on 1,024 lines: laid out already, shuffled, one circle over all frames, and the worst
/// for a search of circles, a row of frames that leads to a knot.
fn writers() {
    let laid_out = accepted(1024);
    let shuffled = second::generate::shuffled(1, &laid_out).expect("lines");
    let [one_circle, tail_and_knot] = second::generate::circles();
    for (name, text, answer) in [
        ("laid out", laid_out, (0, 0)),
        ("shuffled", shuffled, (0, 0)),
        ("one circle", one_circle, (21, 1)),
        ("row to a knot", tail_and_knot, (21, 512)),
    ] {
        let ours = nanoseconds_to_arrange(purkvaldi::arrange, &text, answer);
        let theirs = nanoseconds_to_arrange(purkvaldi::second_arrange, &text, answer);
        let name = format!("arrange, {} lines, {name}", text.len() / 17);
        row(&name, ours, Some(theirs));
    }
}

/// The deepest stack of each call, on the file whose recursion goes deepest and on one of 1,024
/// lines.
fn stacks() {
    for (name, text) in [
        ("24 deep", DEEPEST.to_vec()),
        ("1,024 lines", accepted(1024)),
    ] {
        let fresh_state = || {
            let mut state = vec![0; purkvaldi::state_length()];
            assert_eq!(purkvaldi::fresh(&text, &mut state).number, 0);
            state
        };
        let bytes = |what: &str, used: usize| {
            println!("{:<44} {used:>10} bytes", format!("stack, {what}, {name}"));
        };
        let t = text.clone();
        bytes(
            "check",
            stack_used(move || {
                std::hint::black_box(purkvaldi::check(&t));
            }),
        );
        let (t, mut out) = (text.clone(), vec![0; text.len()]);
        bytes(
            "arrange",
            stack_used(move || {
                std::hint::black_box(purkvaldi::arrange(&t, &mut out));
            }),
        );
        let (t, mut state) = (text.clone(), fresh_state());
        bytes(
            "fresh",
            stack_used(move || {
                std::hint::black_box(purkvaldi::fresh(&t, &mut state));
            }),
        );
        let (t, mut state) = (text.clone(), fresh_state());
        bytes(
            "step",
            stack_used(move || {
                for _ in 0..200 {
                    std::hint::black_box(purkvaldi::step(&t, &mut state, 2));
                }
            }),
        );
        let (t, mut state) = (text.clone(), fresh_state());
        bytes(
            "steps",
            stack_used(move || {
                let mut answers = vec![0; 200];
                std::hint::black_box(purkvaldi::steps(&t, &mut state, &[2; 200], &mut answers));
            }),
        );
        let (t, mut state) = (text.clone(), fresh_state());
        let mut out = vec![0; purkvaldi::listing_length()];
        bytes(
            "run",
            stack_used(move || {
                let choices = b"02\n".repeat(200);
                std::hint::black_box(purkvaldi::run(&t, &choices, &mut state, &mut out).answer);
            }),
        );
    }
}

/// With the argument `times`, the times alone.
fn main() {
    println!(
        "{:<44} {:>13} {:>13} {:>6}",
        "", "proved", "second", "ratio"
    );
    checks();
    steps();
    reading();
    instants();
    events();
    groups();
    writers();
    if std::env::args().nth(1).as_deref() != Some("times") {
        stacks();
    }
}
