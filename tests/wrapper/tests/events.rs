//! Events on states of a caller's own (docs/STATE.md has the words): their flags, entries that
//! await one, generations, awaits and the ends of instants, beside what document 02 says of them in
//! change 5. Most of these states no run reaches.
mod own_states;
use own_states::*;
use purkvaldi::Answer;

const NOTHING: &str = "1000000000000000";

/// A text without links: each scheduler has its own instants.
fn file(schedulers: usize, owners: &[usize], statements: &[String]) -> Vec<u8> {
    file_in_step(schedulers, owners, &[], statements)
}

/// Flags are 0 or 1, and 0 where the file lacks the event.
#[test]
fn a_flag_over_1_or_of_a_missing_event_is_14() {
    for events in [0, 2, 16] {
        let text = file(1, &vec![2; events], &[NOTHING.into()]);
        let mut fresh = vec![0; WORDS];
        assert_eq!(purkvaldi::fresh(&text, &mut fresh), answer(0, 0));
        assert_eq!(fresh[EVENTS..EVENTS + 16], [0; 16]);
        for event in 0..16 {
            for flag in [0, 1, 2, u64::MAX] {
                let mut state = fresh.clone();
                state[EVENTS + event] = flag;
                let fits = flag == 0 || (flag == 1 && event < events);
                let mut wanted = state.clone();
                if fits {
                    take_item(&mut wanted, 1);
                }
                let wanted_answer = if fits { answer(0, 1) } else { answer(14, 0) };
                assert_eq!(
                    step(&text, &mut state, 2),
                    wanted_answer,
                    "event {event} of {events}: {flag}"
                );
                assert_eq!(state, wanted);
            }
        }
    }
}

/// An entry awaits an event of the file, and is a thread's; any such entry is ready. It stands in
/// the next list of a scheduler of the file, that of the event's owner or not, and in no active
/// list.
#[test]
fn an_entry_of_a_missing_event_or_thread_is_14() {
    for events in [0, 2, 16] {
        let text = file(2, &vec![2; events], &[NOTHING.into()]);
        // Scheduler 4 is none of the file's.
        for scheduler in [2, 3, 4] {
            for event in [0, 1, 2, 15, 16, 17, 127, 128, 1 << 32, (1 << 57) - 129] {
                for thread in [0, 1, 64, 65, 127] {
                    let entry = awaiting(event, thread);
                    let fits = scheduler < 4 && event < events as u64 && (1..=64).contains(&thread);
                    let mut state = vec![0; WORDS];
                    put_list(&mut state, next_at(scheduler), &[entry]);
                    let mut wanted = state.clone();
                    if fits {
                        put_list(&mut wanted, active_at(scheduler), &[thread]);
                        put_list(&mut wanted, next_at(scheduler), &[]);
                    }
                    assert_eq!(
                        step(&text, &mut state, scheduler as u8),
                        answer(if fits { 0 } else { 14 }, 0),
                        "event {event} of {events}, thread {thread}, scheduler {scheduler}"
                    );
                    assert_eq!(state, wanted);
                    let mut state = vec![0; WORDS];
                    put_list(&mut state, active_at(scheduler), &[entry]);
                    assert_eq!(step(&text, &mut state, 2), answer(14, 0));
                }
            }
        }
    }
}

/// Where entries that wait for a thread end and those that await an event begin.
#[test]
fn entries_between_waits_and_events_are_14() {
    let text = file(1, &[2], &[NOTHING.into()]);
    for (entry, number) in [
        (waiting(64, 64), 0),
        (waiting(64, 65), 14),
        (waiting(65, 1), 14),
        (waiting(127, 127), 14),
        (awaiting(0, 0), 14),
        (awaiting(0, 1), 0),
        (awaiting(0, 64), 0),
        (awaiting(0, 65), 14),
        (awaiting(1, 0), 14),
        (awaiting(1, 1), 14),
        (u64::MAX, 14),
    ] {
        let mut state = vec![0; WORDS];
        put_list(&mut state, next_at(2), &[entry]);
        assert_eq!(step(&text, &mut state, 2), answer(number, 0), "{entry}");
    }
}

/// A generation moves those that await its event, in the order of the next list, after the active
/// ones: 20 exactly where these would be more than 64, which only a caller's own state can bring.
#[test]
fn a_generation_without_room_in_the_active_list_is_20() {
    let text = file(1, &[2, 2], &[generate(0)]);
    let mut refused = 0;
    for active in [1, 2, 32, 33, 63, 64] {
        for woken in [0, 1, 2, 31, 32, 33, 62, 63, 64] {
            let mut state = vec![0; WORDS];
            add_thread(&mut state, 2, 3);
            let threads: Vec<u64> = (1..=active).collect();
            put_list(&mut state, active_at(2), &threads);
            // Those that await the event are spread over a full next list, among entries of all
            // other kinds.
            let (mut moved, mut kept, mut entries) = (Vec::new(), Vec::new(), Vec::new());
            for i in 0..64 {
                let thread = 64 - i;
                let awaits = i * woken / 64 < (i + 1) * woken / 64;
                let entry = match i % 3 {
                    _ if awaits => awaiting(0, thread),
                    0 => thread,
                    1 => waiting(1, thread),
                    _ => awaiting(1, thread),
                };
                entries.push(entry);
                if awaits {
                    moved.push(thread);
                } else {
                    kept.push(entry);
                }
            }
            put_list(&mut state, next_at(2), &entries);
            let mut wanted = state.clone();
            let fits = active + woken <= 64;
            if fits {
                take_item(&mut wanted, 1);
                wanted[EVENTS] = 1;
                put_list(&mut wanted, active_at(2), &[threads, moved].concat());
                put_list(&mut wanted, next_at(2), &kept);
            }
            refused += usize::from(!fits);
            assert_eq!(
                step(&text, &mut state, 2),
                answer(if fits { 0 } else { 20 }, 1),
                "{active} active, {woken} await"
            );
            assert_eq!(state, wanted);
        }
    }
    assert!(refused > 20, "only {refused} generations without room");
}

/// A full next list is 20 for an await of an absent event; that of a present one needs no room.
#[test]
fn an_await_without_room_in_the_next_list_is_20() {
    let text = file(1, &[2], &[await_event(0)]);
    for entries in [0, 1, 63, 64] {
        for present in [0, 1] {
            let mut state = vec![0; WORDS];
            add_thread(&mut state, 2, 2);
            put_list(&mut state, active_at(2), &[1, 7]);
            let mut next: Vec<u64> = (0..entries).map(|i| awaiting(0, 64 - i)).collect();
            put_list(&mut state, next_at(2), &next);
            state[EVENTS] = present;
            let mut wanted = state.clone();
            let number = if present == 1 {
                take_item(&mut wanted, 1);
                0
            } else if entries < 64 {
                // The statement stays on top, and the thread takes it again.
                next.push(awaiting(0, 1));
                put_list(&mut wanted, active_at(2), &[7]);
                put_list(&mut wanted, next_at(2), &next);
                0
            } else {
                20
            };
            assert_eq!(
                step(&text, &mut state, 2),
                answer(number, 1),
                "{entries} entries, flag {present}"
            );
            assert_eq!(state, wanted);
        }
    }
}

/// 'a missing one is 20 and another owner's 19', in this order, with a full list among the 20s. The
/// room for a generation is that of the owner's active list, for an await that of the thread's own
/// next list.
#[test]
fn stuck_comes_before_foreign() {
    let statements = [
        generate(0),
        await_event(0),
        generate(1),
        await_event(1),
        generate(255),
    ];
    let text = file(2, &[2], &statements);
    let full: Vec<u64> = (1..=64).collect();
    // An unlinked thread stands in no list: it is chosen by its own number.
    for (place, choice) in [(3, 3), (1, 17)] {
        for (statement, crowded, present, number) in [
            (0, false, 0, 19),
            (0, true, 0, 20),
            (0, true, 1, 20),
            (1, false, 0, 19),
            (1, false, 1, 19),
            (1, true, 0, if place == 1 { 19 } else { 20 }),
            (1, true, 1, 19),
            (2, false, 0, 20),
            (2, true, 1, 20),
            (3, false, 1, 20),
            (3, true, 0, 20),
            (4, false, 0, 20),
        ] {
            let mut state = vec![0; WORDS];
            add_thread(&mut state, place, 2 + statement);
            put_list(&mut state, active_at(3), &[1]);
            put_list(&mut state, next_at(2), &[awaiting(0, 9)]);
            if crowded {
                put_list(&mut state, active_at(2), &full);
                put_list(&mut state, next_at(3), &full);
            }
            state[EVENTS] = present;
            assert_eq!(
                step(&text, &mut state, choice),
                answer(number, 1),
                "place {place}, {}, crowded: {crowded}, flag {present}",
                statements[statement]
            );
        }
    }
}

/// Where nothing is ready no instant ends (16), and every event stays as it was.
#[test]
fn a_16_ends_no_presence() {
    let owners: Vec<usize> = (0..16).map(|event| 2 + event % 8).collect();
    let text = file(8, &owners, &[NOTHING.into()]);
    for scheduler in 2..=9 {
        for flags in [0, 1, 0x5555, 0xAAAA, 0xFFFF] {
            for entries in [&[][..], &[waiting(1, 2)]] {
                let mut state = vec![0; WORDS];
                // Thread 1 is unlinked and lives, so thread 2 waits on.
                add_thread(&mut state, 1, 17);
                put_list(&mut state, next_at(scheduler), entries);
                for event in 0..16 {
                    state[EVENTS + event] = flags >> event & 1;
                }
                assert_eq!(step(&text, &mut state, scheduler as u8), answer(16, 0));
            }
        }
    }
}

/// 'An event is present from its generation to the end of its scheduler's instant': the end of
/// another scheduler's, or a step in an instant that goes on, leaves it present.
#[test]
fn presence_ends_with_the_owners_instant_alone() {
    let owners: Vec<usize> = (0..16).map(|event| 2 + event % 8).collect();
    let text = file(8, &owners, &[NOTHING.into()]);
    for scheduler in 2..=9 {
        for entry in [1, waiting(2, 1), awaiting(0, 1), awaiting(15, 1)] {
            let mut state = vec![0; WORDS];
            add_thread(&mut state, scheduler as u64, 17);
            put_list(&mut state, next_at(scheduler), &[entry]);
            state[EVENTS..EVENTS + 16].fill(1);
            let mut wanted = state.clone();
            put_list(&mut wanted, active_at(scheduler), &[1]);
            put_list(&mut wanted, next_at(scheduler), &[]);
            for (event, &owner) in owners.iter().enumerate() {
                wanted[EVENTS + event] = u64::from(owner != scheduler);
            }
            assert_eq!(step(&text, &mut state, scheduler as u8), answer(0, 0));
            assert_eq!(state, wanted, "scheduler {scheduler}, entry {entry}");
            state[EVENTS..EVENTS + 16].fill(1);
            assert_eq!(step(&text, &mut state, scheduler as u8), answer(0, 1));
            assert_eq!(state[EVENTS..EVENTS + 16], [1; 16]);
        }
    }
}

/// The file of the random states: four events of schedulers 2 to 4; a generation and an await of
/// each, and of a fifth, which is missing.
const OWNERS: [usize; 4] = [2, 3, 2, 4];
const FIRST: usize = 1 + OWNERS.len();

/// What came of the random states, to see that each happened.
#[derive(Default, Debug)]
struct Seen {
    woken: usize,
    no_room: usize,
    foreign: usize,
    missing: usize,
    passed: usize,
    awaited: usize,
    ended: usize,
    nothing: usize,
}

/// The words after a choice and its answer, from the papers: every thread has one statement of the
/// file above or none, and nobody started anybody.
fn modelled(state: &[u64], choice: usize, seen: &mut Seen) -> (Answer, Vec<u64>) {
    let mut after = state.to_vec();
    let count = state[0] as usize;
    let lives = |thread: usize| thread <= count && state[thread_at(thread) + 2] == 1;
    let linked = choice <= 4;
    let thread = if linked {
        match list(state, active_at(choice)) {
            [first, ..] => *first as usize,
            [] => return instant_ended(state, choice, lives, seen),
        }
    } else {
        choice - 16
    };
    let unlinked = lives(thread) && state[thread_at(thread)] == 1;
    if !linked && !unlinked {
        return (answer(15, 0), after);
    }
    let leave = |after: &mut Vec<u64>| {
        if linked {
            put_list(
                after,
                active_at(choice),
                &list(state, active_at(choice))[1..],
            );
        }
    };
    let detail = thread as u16;
    if thread > count || list(state, thread_at(thread) + 3).is_empty() {
        leave(&mut after);
        if thread <= count {
            after[thread_at(thread) + 2] = 0;
        }
        return (answer(0, detail), after);
    }
    let place = state[thread_at(thread)] as usize;
    let statement = state[thread_at(thread) + 4] as usize - FIRST;
    let (generates, event) = (statement.is_multiple_of(2), statement / 2);
    let Some(&owner) = OWNERS.get(event) else {
        seen.missing += 1;
        return (answer(20, detail), after);
    };
    let present = state[EVENTS + event] == 1;
    let awaits = |entry: &u64| *entry >= 16384 && (*entry - 16384) / 128 == event as u64;
    let (woken, kept): (Vec<u64>, Vec<u64>) = list(state, next_at(owner))
        .iter()
        .partition(|entry| awaits(entry));
    let has_room = if generates {
        list(state, active_at(owner)).len() + woken.len() <= MOST
    } else {
        present || place == 1 || list(state, next_at(place)).len() < MOST
    };
    if !has_room {
        seen.no_room += 1;
        return (answer(20, detail), after);
    }
    if place != owner {
        seen.foreign += 1;
        return (answer(19, detail), after);
    }
    if generates {
        seen.woken += woken.len();
        let woken = woken.iter().map(|entry| entry % 128).collect();
        let active = [list(state, active_at(owner)).to_vec(), woken].concat();
        put_list(&mut after, active_at(owner), &active);
        put_list(&mut after, next_at(owner), &kept);
        after[EVENTS + event] = 1;
        take_item(&mut after, thread);
    } else if present {
        seen.passed += 1;
        take_item(&mut after, thread);
    } else {
        seen.awaited += 1;
        leave(&mut after);
        let entry = awaiting(event as u64, thread as u64);
        let next = [list(state, next_at(place)), &[entry]].concat();
        put_list(&mut after, next_at(place), &next);
    }
    (answer(0, detail), after)
}

/// The same where no thread is active: ready are all but those that wait for a thread that lives.
fn instant_ended(
    state: &[u64],
    scheduler: usize,
    lives: impl Fn(usize) -> bool,
    seen: &mut Seen,
) -> (Answer, Vec<u64>) {
    let mut after = state.to_vec();
    let waits = |entry: &u64| (128..16384).contains(entry) && lives((*entry / 128) as usize);
    let (waiting, ready): (Vec<u64>, Vec<u64>) = list(state, next_at(scheduler))
        .iter()
        .partition(|entry| waits(entry));
    if ready.is_empty() {
        seen.nothing += 1;
        return (answer(16, 0), after);
    }
    let active: Vec<u64> = ready.iter().map(|entry| entry % 128).collect();
    put_list(&mut after, active_at(scheduler), &active);
    put_list(&mut after, next_at(scheduler), &waiting);
    for (event, &owner) in OWNERS.iter().enumerate() {
        if owner == scheduler {
            seen.ended += after[EVENTS + event] as usize;
            after[EVENTS + event] = 0;
        }
    }
    (answer(0, 0), after)
}

/// Any lists and any flags: threads may stand in many lists, on other places than theirs, await
/// events of other schedulers and be over the count.
#[test]
fn any_state_is_stepped_as_the_papers_say() {
    let statements: Vec<String> = (0..=OWNERS.len())
        .flat_map(|event| [generate(event), await_event(event)])
        .collect();
    let text = file(3, &OWNERS, &statements);
    let mut seen = Seen::default();
    let mut seed = 5;
    for round in 0..40_000 {
        let mut state = vec![0; WORDS];
        // In most states there are all threads, most of them on the scheduler that is chosen.
        let count = match below(&mut seed, 4) {
            0 => 1 + below(&mut seed, 64),
            _ => 64,
        };
        let home = 2 + below(&mut seed, 3);
        for thread in 1..=count as usize {
            let place = if below(&mut seed, 4) == 0 {
                1 + below(&mut seed, 4)
            } else {
                home
            };
            let statement = below(&mut seed, statements.len() as u64) as usize;
            add_thread(&mut state, place, FIRST + statement);
            if below(&mut seed, 8) == 0 {
                take_item(&mut state, thread);
                state[thread_at(thread) + 2] = 0;
            }
        }
        for scheduler in 2..=4 {
            let mut length = || match below(&mut seed, 4) {
                0 => 0,
                1 => below(&mut seed, 8),
                2 => below(&mut seed, 65),
                _ => 64,
            };
            let (active, next) = (length(), length());
            let active: Vec<u64> = (0..active).map(|_| 1 + below(&mut seed, 64)).collect();
            let next: Vec<u64> = (0..next)
                .map(|_| {
                    let thread = 1 + below(&mut seed, 64);
                    match below(&mut seed, 3) {
                        0 => thread,
                        1 => waiting(1 + below(&mut seed, 64), thread),
                        _ => awaiting(below(&mut seed, OWNERS.len() as u64), thread),
                    }
                })
                .collect();
            put_list(&mut state, active_at(scheduler), &active);
            put_list(&mut state, next_at(scheduler), &next);
        }
        for event in 0..OWNERS.len() {
            state[EVENTS + event] = below(&mut seed, 2);
        }
        let choice = match below(&mut seed, 8) {
            0 => 17 + below(&mut seed, 64),
            _ => home,
        };
        let (wanted_answer, wanted) = modelled(&state, choice as usize, &mut seen);
        assert_eq!(
            step(&text, &mut state, choice as u8),
            wanted_answer,
            "round {round}"
        );
        assert_eq!(state, wanted, "round {round}");
    }
    let counts = [
        seen.woken,
        seen.no_room,
        seen.foreign,
        seen.missing,
        seen.passed,
        seen.awaited,
        seen.ended,
        seen.nothing,
    ];
    assert!(
        counts.iter().all(|&count| count > 500),
        "too little happened: {seen:?}"
    );
}
