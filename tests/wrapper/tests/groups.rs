//! Schedulers in step on states of a caller's own (docs/STATE.md has the words): instants of
//! groups, generations and awaits of partners' events, beside what document 02 says of them in
//! change 7. Most of these states no run reaches.
mod group_model;
mod own_states;
use group_model::{File, Seen, Statement};
use own_states::*;
use purkvaldi::Answer;

/// Links, upper and lower, and for each of eight schedulers the lowest that is in step with it.
type Case = (&'static [(usize, usize)], [usize; 8]);

const CASES: [Case; 12] = [
    (&[], [2, 3, 4, 5, 6, 7, 8, 9]),
    (&[(3, 2)], [2, 2, 4, 5, 6, 7, 8, 9]),
    (&[(9, 2), (9, 2)], [2, 3, 4, 5, 6, 7, 8, 2]),
    // Three: by the upper one, by the lower one, in a chain from either end, in a circle.
    (&[(4, 2), (4, 3)], [2, 2, 2, 5, 6, 7, 8, 9]),
    (&[(9, 7), (8, 7)], [2, 3, 4, 5, 6, 7, 7, 7]),
    (&[(5, 3), (7, 5)], [2, 3, 4, 3, 6, 3, 8, 9]),
    (&[(7, 5), (5, 3)], [2, 3, 4, 3, 6, 3, 8, 9]),
    (&[(6, 4), (8, 6), (8, 4)], [2, 3, 4, 5, 4, 7, 4, 9]),
    // Two groups, and pairs of which the last links join some.
    (&[(3, 2), (7, 6), (9, 7)], [2, 2, 4, 5, 6, 6, 8, 6]),
    (
        &[(9, 8), (7, 6), (5, 4), (3, 2), (8, 2), (6, 5)],
        [2, 2, 4, 4, 4, 4, 2, 2],
    ),
    // All eight, in a chain and around the last.
    (
        &[(3, 2), (4, 3), (5, 4), (6, 5), (7, 6), (8, 7), (9, 8)],
        [2; 8],
    ),
    (
        &[(9, 2), (9, 3), (9, 4), (9, 5), (9, 6), (9, 7), (9, 8)],
        [2; 8],
    ),
];

/// Two events for each of eight schedulers.
fn owners() -> Vec<usize> {
    (0..16).map(|event| 2 + event % 8).collect()
}

/// The text of a case, with these events and statements, and its first statement's frame.
fn text_of(case: &Case, statements: &[String]) -> (Vec<u8>, usize) {
    let text = file_in_step(8, &owners(), case.0, statements);
    (text, 17 + case.0.len())
}

fn in_step(case: &Case, one: usize, other: usize) -> bool {
    one > 1 && case.1[one - 2] == case.1[other - 2]
}

fn members(case: &Case, scheduler: usize) -> Vec<usize> {
    (2..=9).filter(|&s| in_step(case, scheduler, s)).collect()
}

/// A state without threads in which every event is present.
fn all_present() -> Vec<u64> {
    let mut state = vec![0; WORDS];
    state[EVENTS..EVENTS + 16].fill(1);
    state
}

/// The words that are not as wanted, each with what it is and what it should be.
fn assert_words(state: &[u64], wanted: &[u64], what: &str) {
    let differing: Vec<_> = (0..WORDS)
        .filter(|&at| state[at] != wanted[at])
        .map(|at| (at, state[at], wanted[at]))
        .collect();
    assert_eq!(differing, [], "{what}");
}

/// Steps the state: that answer and those words.
fn assert_step(text: &[u8], state: &mut [u64], choice: u8, wanted: (Answer, &[u64]), what: &str) {
    assert_eq!(step(text, state, choice), wanted.0, "{what}");
    assert_words(state, wanted.1, what);
}

/// Each two of eight schedulers.
fn pairs() -> impl Iterator<Item = (usize, usize)> {
    (2..=9).flat_map(|one| (2..=9).map(move |other| (one, other)))
}

/// 'An instant of a group ends .. in one step, for all of them': whichever member is chosen and
/// whichever has the one ready entry; the events of all members end, and nobody else's.
#[test]
fn an_instant_ends_for_the_whole_group() {
    for case in &CASES {
        let (text, first) = text_of(case, &[generate(0)]);
        for (chosen, ready_on) in pairs() {
            for ready in [2, waiting(3, 2), awaiting(0, 2), awaiting(15, 2)] {
                let mut state = all_present();
                // Thread 1 lives unlinked, so thread 4 waits on; there is no thread 3.
                add_thread(&mut state, 1, first);
                for scheduler in 2..=9 {
                    put_list(&mut state, next_at(scheduler), &[waiting(1, 4)]);
                }
                put_list(&mut state, next_at(ready_on), &[waiting(1, 4), ready]);
                let mut wanted = state.clone();
                let ends = in_step(case, chosen, ready_on);
                if ends {
                    put_list(&mut wanted, active_at(ready_on), &[2]);
                    put_list(&mut wanted, next_at(ready_on), &[waiting(1, 4)]);
                    end_presence(case, chosen, &mut wanted);
                }
                let what = format!("{:?}, {chosen}, {ready} on {ready_on}", case.0);
                let wanted = (answer(if ends { 0 } else { 16 }, 0), &wanted[..]);
                assert_step(&text, &mut state, chosen as u8, wanted, &what);
            }
        }
    }
}

/// Each event whose owner is in step with the scheduler is no more present.
fn end_presence(case: &Case, scheduler: usize, state: &mut [u64]) {
    for (event, &owner) in owners().iter().enumerate() {
        if in_step(case, scheduler, owner) {
            state[EVENTS + event] = 0;
        }
    }
}

/// 'A chosen member without active threads answers 16 while another has some'; those of a scheduler
/// that is not in step, and unlinked threads, hold up nobody.
#[test]
fn a_partners_active_thread_holds_up_the_instant() {
    for case in &CASES {
        let (text, first) = text_of(case, &[generate(0)]);
        for (chosen, busy) in pairs().filter(|(chosen, busy)| chosen != busy) {
            let mut state = all_present();
            add_thread(&mut state, 1, first);
            let ready = |scheduler: usize| [2 * scheduler as u64, 1 + 2 * scheduler as u64];
            for scheduler in 2..=9 {
                let [plain, awaits] = ready(scheduler);
                let entries = [plain, waiting(1, 64), awaiting(3, awaits)];
                put_list(&mut state, next_at(scheduler), &entries);
            }
            // A thread over the count is active as others are.
            put_list(&mut state, active_at(busy), &[64]);
            let mut wanted = state.clone();
            let held_up = in_step(case, chosen, busy);
            if !held_up {
                for member in members(case, chosen) {
                    put_list(&mut wanted, active_at(member), &ready(member));
                    put_list(&mut wanted, next_at(member), &[waiting(1, 64)]);
                }
                end_presence(case, chosen, &mut wanted);
            }
            let what = format!("{:?}, {chosen}, {busy} is busy", case.0);
            let wanted = (answer(if held_up { 16 } else { 0 }, 0), &wanted[..]);
            assert_step(&text, &mut state, chosen as u8, wanted, &what);
        }
    }
}

/// A state in which thread 1, at a place, has that statement to do, as the first of its active list
/// where it has one; and the choice that steps it.
fn about_to(place: usize, frame: usize) -> (Vec<u64>, u8) {
    let mut state = vec![0; WORDS];
    add_thread(&mut state, place as u64, frame);
    if place == 1 {
        return (state, 17);
    }
    put_list(&mut state, active_at(place), &[1]);
    (state, place as u8)
}

/// Every event and place of a case. Statement e of its text does something with event e.
fn uses(case: &Case, statement: fn(usize) -> String) -> Vec<(Vec<u8>, usize, usize, usize)> {
    (0..16)
        .flat_map(|event| {
            let (text, frame) = text_of(case, &[statement(event)]);
            (1..=9).map(move |place| (text.clone(), frame, event, place))
        })
        .collect()
}

/// 'A generation wakes its awaiters on each member, by number, into that member's active list': on
/// each of the owner's group, whichever of them the generator is on; from elsewhere it is 19.
#[test]
fn a_generation_wakes_on_each_member() {
    for case in &CASES {
        for (text, frame, event, place) in uses(case, generate) {
            let (mut state, choice) = about_to(place, frame);
            let (event_word, owner) = (event as u64, owners()[event]);
            let kept = [2, awaiting(event_word ^ 8, 5), waiting(1, 6)];
            for scheduler in 2..=9 {
                let number = scheduler as u64;
                let active = [list(&state, active_at(scheduler)), &[30 + number]].concat();
                put_list(&mut state, active_at(scheduler), &active);
                let awaits = |thread| awaiting(event_word, thread);
                let entries = [
                    kept[0],
                    awaits(50 + number),
                    kept[1],
                    awaits(40 + number),
                    kept[2],
                ];
                put_list(&mut state, next_at(scheduler), &entries);
            }
            let mut wanted = state.clone();
            let own = in_step(case, place, owner);
            if own {
                take_item(&mut wanted, 1);
                wanted[EVENTS + event] = 1;
                for member in members(case, owner) {
                    let woken = [50 + member as u64, 40 + member as u64];
                    let active = [list(&state, active_at(member)), &woken].concat();
                    put_list(&mut wanted, active_at(member), &active);
                    put_list(&mut wanted, next_at(member), &kept);
                }
            }
            let what = format!("{:?}, event {event} at {place}", case.0);
            let wanted = (answer(if own { 0 } else { 19 }, 1), &wanted[..]);
            assert_step(&text, &mut state, choice, wanted, &what);
        }
    }
}

/// Without room on one member of the owner's group a generation is 20, from anywhere; without room
/// elsewhere it is what it is.
#[test]
fn a_generation_without_room_on_some_member_is_20() {
    for case in &CASES {
        for (text, frame, event, place) in uses(case, generate) {
            let owner = owners()[event];
            for (crowded, active) in (2..=9).flat_map(|on| [1, 40, 64].map(|active| (on, active))) {
                for woken in [64 - active, 65 - active] {
                    let (mut state, choice) = about_to(place, frame);
                    let threads: Vec<u64> = (1..=active).collect();
                    put_list(&mut state, active_at(crowded), &threads);
                    let entries: Vec<u64> =
                        (0..woken).map(|i| awaiting(event as u64, 64 - i)).collect();
                    put_list(&mut state, next_at(crowded), &entries);
                    let number = if woken + active > 64 && in_step(case, crowded, owner) {
                        20
                    } else if in_step(case, place, owner) {
                        0
                    } else {
                        19
                    };
                    assert_eq!(
                        step(&text, &mut state, choice),
                        answer(number, 1),
                        "{:?}, event {event} at {place}, {active} and {woken} on {crowded}",
                        case.0
                    );
                }
            }
        }
    }
}

/// An await of a partner's event passes where it is present; else the thread goes to the end of its
/// own next list, which must have room (20); from elsewhere it is 19.
#[test]
fn an_await_of_a_partners_event_is_one_of_an_own() {
    for case in &CASES {
        for (text, frame, event, place) in uses(case, await_event) {
            for (entries, present) in [(0, 0), (63, 0), (64, 0), (0, 1), (64, 1)] {
                let (mut state, choice) = about_to(place, frame);
                state[EVENTS + event] = present;
                // The others' next lists are full.
                for scheduler in 2..=9 {
                    let length = if scheduler == place { entries } else { 64 };
                    let next: Vec<u64> = (1..=length).collect();
                    put_list(&mut state, next_at(scheduler), &next);
                }
                let mut wanted = state.clone();
                let number = if place > 1 && entries == 64 && present == 0 {
                    20
                } else if !in_step(case, place, owners()[event]) {
                    19
                } else if present == 1 {
                    take_item(&mut wanted, 1);
                    0
                } else {
                    let entry = awaiting(event as u64, 1);
                    let next = [list(&state, next_at(place)), &[entry]].concat();
                    put_list(&mut wanted, next_at(place), &next);
                    put_list(&mut wanted, active_at(place), &[]);
                    0
                };
                let what = format!("{:?}, {event} at {place}, {entries}, {present}", case.0);
                let wanted = (answer(number, 1), &wanted[..]);
                assert_step(&text, &mut state, choice, wanted, &what);
            }
        }
    }
}

/// A file of schedulers 2 and 3, in step, with a cell and an event of 3. Its main does what the
/// frames from 4 on do.
fn pair_of_two(frames: &[&str]) -> Vec<u8> {
    let declarations = [
        "0001000000020001", // 0 header
        "0103000100000000", // 1 shared cell, owner 3, a number
        "0303000000000000", // 2 event 0, owner 3
        "0403000200000000", // 3 scheduler 3 is in step with 2
    ];
    [&declarations, frames].concat().join("\n").into_bytes()
}

/// 'Cells are not shared: touching a partner's cell is refused as before.'
#[test]
fn a_partners_cell_is_foreign() {
    let store = [
        "2300000000000000",   // 4 shared cell 0
        "2000000100000000",   // 5 number 1
        "1700000400050000",   // 6 store
        "0200000600000000\n", // 7 main
    ];
    let generation = ["1A00000000000000", "0200000400000000\n"];
    for (text, verdict, number) in [
        (pair_of_two(&store), (11, 7), 19),
        (pair_of_two(&generation), (0, 0), 0),
    ] {
        assert_eq!(purkvaldi::check(&text), verdict);
        let mut state = vec![0; WORDS];
        assert_eq!(purkvaldi::fresh(&text, &mut state), answer(0, 0));
        assert_eq!(step(&text, &mut state, 2), answer(number, 1));
    }
}

/// A move to a partner is one: to the end of its next list, for the next instant.
#[test]
fn a_move_to_a_partner_is_one() {
    let text = pair_of_two(&[
        "1A00000000000000",   // 4 generate event 0
        "1203000400000000",   // 5 do 4 at scheduler 3
        "0200000500000000\n", // 6 main
    ]);
    let (mut state, choice) = about_to(2, 5);
    put_list(&mut state, next_at(3), &[9]);
    let mut wanted = state.clone();
    put_list(&mut wanted, active_at(2), &[]);
    put_list(&mut wanted, next_at(3), &[9, 1]);
    let at = thread_at(1);
    wanted[at] = 3;
    // 'Back to 2', and above it the generation.
    wanted[at + 3..at + 6].copy_from_slice(&[2, 1024 + 2, 4]);
    assert_step(&text, &mut state, choice, (answer(0, 1), &wanted), "a move");
}

/// A number below one that is itself drawn: small ones are more frequent.
fn few(seed: &mut u64, most: u64) -> u64 {
    let bound = 1 + below(seed, most);
    below(seed, bound)
}

/// A file of 1 to 8 schedulers, up to 16 events, up to 12 links and up to 20 statements, a few of
/// which name a missing event.
fn random_file(seed: &mut u64) -> File {
    let schedulers = 1 + below(seed, 8);
    let events = few(seed, 17);
    let links = if schedulers == 1 { 0 } else { few(seed, 13) };
    let link = |seed: &mut u64| {
        let upper = 3 + below(seed, schedulers - 1);
        (upper as usize, 2 + below(seed, upper - 2) as usize)
    };
    let statement = |seed: &mut u64| {
        let event = if events == 0 || below(seed, 12) == 0 {
            events + few(seed, 256 - events)
        } else {
            below(seed, events)
        };
        match below(seed, 2) {
            0 => Statement::Generate(event as usize),
            _ => Statement::Await(event as usize),
        }
    };
    File {
        schedulers: schedulers as usize,
        owners: (0..events)
            .map(|_| 2 + below(seed, schedulers) as usize)
            .collect(),
        links: (0..links).map(|_| link(seed)).collect(),
        statements: (0..1 + below(seed, 20)).map(|_| statement(seed)).collect(),
    }
}

/// Threads on any place, most on one scheduler, with up to two statements to do; anybody may have
/// begun anybody.
fn random_threads(file: &File, home: usize, state: &mut [u64], seed: &mut u64) {
    let count = match below(seed, 4) {
        0 => 1 + below(seed, 64),
        _ => 64,
    };
    let starters = [1, 1, 65][below(seed, 3) as usize];
    let lives_in_16 = [1, 2, 8, 14, 16][below(seed, 5) as usize];
    for thread in 1..=count as usize {
        let place = match below(seed, 2) {
            0 => 1 + below(seed, 1 + file.schedulers as u64),
            _ => home as u64,
        };
        let frames = file.statements.len() as u64;
        let frame = |seed: &mut u64| file.first_frame() + below(seed, frames) as usize;
        add_thread(state, place, frame(seed));
        let at = thread_at(thread);
        state[at + 1] = below(seed, starters);
        state[at + 2] = u64::from(below(seed, 16) < lives_in_16);
        match below(seed, 8) {
            0 => take_item(state, thread),
            1 => (state[at + 3], state[at + 5]) = (2, frame(seed) as u64),
            _ => {}
        }
    }
}

/// What may be in the lists of a group's members.
#[derive(Clone, Copy, PartialEq)]
enum Lists {
    /// Anything.
    Any,
    /// The chosen one has no active thread.
    ChosenIdle,
    /// No member has one.
    Idle,
    /// No member has one, and few entries, of which most wait for a thread.
    Quiet,
}

/// Any lists: threads may be in many, on other places than theirs, await events of any scheduler
/// and be over the count.
fn random_lists(file: &File, home: usize, state: &mut [u64], seed: &mut u64) {
    use Lists::*;
    let lists = [Any, Any, Any, Any, Any, ChosenIdle, Idle, Quiet][below(seed, 8) as usize];
    let most = [2, 9, 41, 64][below(seed, 4) as usize];
    let group = file.group(home);
    for scheduler in file.places() {
        let idle = match lists {
            Any => false,
            ChosenIdle => scheduler == home,
            Idle | Quiet => group.contains(&scheduler),
        };
        let active = if idle { 0 } else { random_length(most, seed) };
        let quiet = lists == Quiet && group.contains(&scheduler);
        let next = random_length(if quiet { 2 } else { most }, seed);
        let active: Vec<u64> = (0..active).map(|_| 1 + below(seed, 64)).collect();
        let next: Vec<u64> = (0..next).map(|_| random_entry(file, quiet, seed)).collect();
        put_list(state, active_at(scheduler), &active);
        put_list(state, next_at(scheduler), &next);
    }
}

/// Of lists that may be full, most are or nearly are.
fn random_length(most: u64, seed: &mut u64) -> u64 {
    match below(seed, 3) {
        0 if most == 64 => 64,
        1 if most == 64 => 56 + below(seed, 9),
        _ => below(seed, most + 1),
    }
}

fn random_entry(file: &File, quiet: bool, seed: &mut u64) -> u64 {
    let thread = 1 + below(seed, 64);
    let events = file.owners.len() as u64;
    match below(seed, if quiet { 24 } else { 4 }) {
        0 => thread,
        1 | 2 if events > 0 => awaiting(below(seed, events), thread),
        _ => waiting(1 + below(seed, 64), thread),
    }
}

/// Any state of any file: the answer and the words of each choice are those of the papers.
#[test]
fn any_state_is_stepped_as_the_papers_say() {
    let (mut seed, mut seen) = (7, Seen::new());
    for round in 0..1_000 {
        let file = random_file(&mut seed);
        let text = file.text();
        for nth in 0..40 {
            let home = 2 + below(&mut seed, file.schedulers as u64) as usize;
            let mut state = vec![0; WORDS];
            random_threads(&file, home, &mut state, &mut seed);
            random_lists(&file, home, &mut state, &mut seed);
            for event in 0..file.owners.len() {
                state[EVENTS + event] = below(&mut seed, 2);
            }
            let choice = match below(&mut seed, 16) {
                0 => below(&mut seed, 256) as usize,
                1 => 17 + below(&mut seed, 64) as usize,
                _ => home,
            };
            let (wanted, after) = file.step(&state, choice, &mut seen);
            let what = format!("state {nth} of file {round}, choice {choice}");
            assert_step(&text, &mut state, choice as u8, (wanted, &after), &what);
        }
    }
    assert_eq!(seen.len(), 22, "{seen:#?}");
    let rare: Vec<_> = seen.iter().filter(|(_, &count)| count < 200).collect();
    assert!(rare.is_empty(), "too little happened: {rare:#?}");
}
