//! Change 5: events. Every sentence of the paper and every note on how it is
//! read has a case by hand; then generated runs against the paper's words taken
//! literally.

mod acting;
mod in_step;
mod literal_events;
mod trees;

use std::slice::from_ref;

use literal_events::Uses;
use second::listing;
use second::place::{of_thread, PRIVATE};
use second::state::{Item, Until};
use trees::*;

// Texts line by line, for the layout.

fn check(lines: &[&str]) -> String {
    let text = lines.join("\n") + "\n";
    String::from_utf8(listing::check(text.as_bytes())).unwrap()
}

/// What the check prints on these frames after a header with two schedulers
/// and this number of events.
fn check_with(events: u16, frames: &[&str]) -> String {
    let header = format!("000100000002{events:04X}");
    check(&[&[header.as_str()], frames].concat())
}

const CELL: &str = "0102000100000000";
const EVENT: &str = "0302000000000000";
const NOTHING: &str = "1000000000000000";
const ACCEPTED: &str = "00 0000\n";

/// A smallest `main`, after so many frames.
fn main_after(frames: usize) -> [String; 2] {
    [
        NOTHING.to_string(),
        format!("0200{:04X}00000000", 1 + frames),
    ]
}

/// These frames, most often declarations, and a smallest `main`.
fn declared(events: u16, frames: &[&str]) -> String {
    let main = main_after(frames.len());
    let main = main.each_ref().map(String::as_str);
    check_with(events, &[frames, &main].concat())
}

#[test]
fn the_header_counts_0_to_16_events() {
    for count in 0..=16 {
        assert_eq!(declared(count, &vec![EVENT; usize::from(count)]), ACCEPTED);
    }
    assert_eq!(declared(17, &[EVENT; 17]), "04 0000\n");
    assert_eq!(declared(0xFFFF, &[EVENT; 16]), "04 0000\n");
}

#[test]
fn another_number_of_events_is_4() {
    for (count, events) in [(0, 1), (1, 0), (1, 2), (16, 15), (15, 16), (2, 0)] {
        assert_eq!(declared(count, &vec![EVENT; events]), "04 0000\n");
    }
    // All four digits count.
    assert_eq!(declared(0x0101, &[EVENT]), "04 0000\n");
    assert_eq!(declared(0x1000, &[]), "04 0000\n");
}

#[test]
fn there_is_no_17th_event_for_5_to_name() {
    assert_eq!(declared(17, &[EVENT; 17]), "04 0000\n");
    assert_eq!(declared(16, &[EVENT; 17]), "04 0000\n");
    assert_eq!(
        declared(16, &[&[CELL; 16][..], &[EVENT; 16]].concat()),
        ACCEPTED
    );
}

/// Bad and misplaced ones count too, and 4 comes before any 5.
#[test]
fn all_events_of_the_file_count() {
    let bad = "0301000000000000";
    assert_eq!(declared(1, &[bad]), "05 0001\n");
    assert_eq!(declared(0, &[bad]), "04 0000\n");
    assert_eq!(declared(2, &[EVENT, bad]), "05 0002\n");
    assert_eq!(declared(1, &[EVENT, bad]), "04 0000\n");
    let late = [NOTHING, "0200000100000000", EVENT];
    assert_eq!(check_with(1, &late), "06 0003\n");
    assert_eq!(check_with(0, &late), "04 0000\n");
    // An unknown kind in front: it is 5, but the count is 4.
    assert_eq!(declared(1, &["0500000000000000"]), "04 0000\n");
    assert_eq!(declared(1, &["0500000000000000", EVENT]), "05 0001\n");
}

#[test]
fn an_owner_is_a_scheduler_of_the_file() {
    let with = |owner: u8| declared(1, &[&format!("03{owner:02X}000000000000")]);
    assert_eq!([2, 3].map(with), [ACCEPTED; 2]);
    assert_eq!([0, 1, 4, 9, 10, 18, 255].map(with), ["05 0001\n"; 7]);
}

#[test]
fn a_declaration_has_no_other_fields() {
    for bad in ["0302000100000000", "0302000000010000", "0302000000000001"] {
        assert_eq!(declared(1, &[bad]), "05 0001\n");
    }
}

/// S of a use is never 5; A, B and C are.
#[test]
fn the_fields_of_a_use() {
    for kind in ["1A", "1B"] {
        let with =
            |rest: &str| check_with(1, &[EVENT, &format!("{kind}{rest}"), "0200000200000000"]);
        assert_eq!(with("00000000000000"), ACCEPTED);
        assert_eq!(with("FF000000000000"), "08 0002\n");
        assert_eq!(with("00000100000000"), "05 0002\n");
        assert_eq!(with("00000000010000"), "05 0002\n");
        assert_eq!(with("00000000000001"), "05 0002\n");
    }
}

#[test]
fn events_stand_after_the_shared_cells() {
    assert_eq!(declared(2, &[CELL, CELL, EVENT, EVENT]), ACCEPTED);
    assert_eq!(declared(1, &[EVENT, CELL]), "06 0002\n");
    assert_eq!(declared(2, &[CELL, EVENT, CELL, EVENT]), "06 0003\n");
}

/// Not the frame before it, nor one after it.
#[test]
fn a_misplaced_declaration_names_itself() {
    // After a statement that is used, and after a module.
    let after_statement = [NOTHING, EVENT, "0200000100000000"];
    assert_eq!(check_with(1, &after_statement), "06 0002\n");
    let after_module = |events, declarations: &[&str]| {
        let module = [NOTHING, "0200000100000000"];
        declared(events, &[&module, declarations].concat())
    };
    assert_eq!(after_module(1, &[EVENT]), "06 0003\n");
    assert_eq!(after_module(0, &[CELL]), "06 0003\n");
    // The first of several.
    assert_eq!(after_module(1, &[EVENT, CELL]), "06 0003\n");
    assert_eq!(declared(2, &[EVENT, CELL, CELL, EVENT]), "06 0002\n");
    // The last frame.
    assert_eq!(
        check_with(1, &[NOTHING, "0200000100000000", EVENT]),
        "06 0003\n"
    );
}

#[test]
fn other_reasons_for_6_compete() {
    let leftover = [NOTHING, EVENT, NOTHING, "0200000300000000"];
    assert_eq!(check_with(1, &leftover), "06 0001\n");
    let parent = ["1202000000000000", EVENT, NOTHING, "0200000300000000"];
    assert_eq!(check_with(1, &parent), "06 0001\n");
    let later = [EVENT, CELL, NOTHING, NOTHING, "0200000400000000"];
    assert_eq!(check_with(1, &later), "06 0002\n");
    assert_eq!(check_with(1, &[EVENT]), "06 0001\n");
}

#[test]
fn uses_are_statements_without_children() {
    for kind in ["1A", "1B"] {
        let event_use = format!("{kind}00000000000000");
        let as_value = [
            EVENT,
            &event_use,
            NOTHING,
            "1600000200030000",
            "0200000400000000",
        ];
        assert_eq!(check_with(1, &as_value), "06 0004\n");
        let leftover = [EVENT, &event_use, NOTHING, "0200000300000000"];
        assert_eq!(check_with(1, &leftover), "06 0002\n");
        let in_a_row = [
            EVENT,
            &event_use,
            &event_use,
            "1100000200030000",
            "0200000400000000",
        ];
        assert_eq!(check_with(1, &in_a_row), ACCEPTED);
    }
    // A declaration is no child.
    assert_eq!(check_with(1, &[EVENT, "0200000100000000"]), "06 0002\n");
}

/// A use counts as a frame of the tree's depth.
#[test]
fn uses_have_a_depth() {
    for (depth, expected) in [(24, ACCEPTED), (25, "07 0002\n")] {
        let mut frames = vec![EVENT.to_string(), "1B00000000000000".to_string()];
        for child in 2..depth + 1 {
            frames.push(format!("1202{child:04X}00000000"));
        }
        frames.push(format!("0200{:04X}00000000", depth + 1));
        let frames: Vec<&str> = frames.iter().map(String::as_str).collect();
        assert_eq!(check_with(1, &frames), expected);
    }
}

// Files from trees, for the rules and for running.

/// The verdict on a `main` of two schedulers.
fn verdict(events: &[u8], main: &Node) -> (u8, u8) {
    file(2, events, from_ref(main)).verdict()
}

#[test]
fn a_missing_event_is_8() {
    for (event_use, kind) in [(generate as fn(u8) -> Node, 0x1A), (await_event, 0x1B)] {
        assert_eq!(verdict(&[2, 2], &event_use(1)), FINE);
        assert_eq!(verdict(&[2, 2], &event_use(2)), (8, kind));
        assert_eq!(verdict(&[], &event_use(0)), (8, kind));
        assert_eq!(verdict(&[2; 16], &event_use(15)), FINE);
        assert_eq!(verdict(&[2; 16], &event_use(16)), (8, kind));
    }
}

/// Shared cells do not shift them.
#[test]
fn events_count_from_0() {
    let mut file = file(2, &[3, 2], &[generate(1)]);
    file.cells = vec![number_cell(3); 2];
    assert_eq!(file.verdict(), FINE);
    file.modules = vec![module(&[], generate(0))];
    assert_eq!(file.verdict(), (11, 0x02));
}

#[test]
fn both_have_the_owner_as_effect() {
    for event_use in [generate as fn(u8) -> Node, await_event] {
        assert_eq!(verdict(&[2], &event_use(0)), FINE);
        assert_eq!(verdict(&[3], &event_use(0)), (11, 0x02));
        assert_eq!(verdict(&[3], &at(3, event_use(0))), FINE);
        assert_eq!(verdict(&[2], &at(3, event_use(0))), (11, 0x12));
        // In a row, in a loop, in a branch.
        let in_row = row(&[nothing(), event_use(0)]);
        assert_eq!(verdict(&[2], &at(3, in_row)), (11, 0x12));
        let in_loop = forever(row(&[event_use(0), cooperate()]));
        assert_eq!(verdict(&[2], &at(3, in_loop)), (11, 0x12));
        let in_branch = either(nothing(), event_use(0));
        assert_eq!(verdict(&[2], &at(3, in_branch)), (11, 0x12));
    }
}

#[test]
fn starts_pass_the_effect_on() {
    for event_use in [generate(0), await_event(0)] {
        for by in [start(0), wait_for(0)] {
            let started = |place| {
                let main = at(place, by.clone());
                file(2, &[2], &[event_use.clone(), main]).verdict()
            };
            assert_eq!(started(2), FINE);
            assert_eq!(started(3), (11, 0x12));
            let through = [event_use.clone(), by.clone(), at(3, start(1))];
            assert_eq!(file(2, &[2], &through).verdict(), (11, 0x12));
            let by_main = [event_use.clone(), by.clone()];
            assert_eq!(file(2, &[3], &by_main).verdict(), (11, 0x02));
        }
        // A module that nobody starts is free.
        assert_eq!(
            file(2, &[3], &[event_use.clone(), nothing()]).verdict(),
            FINE
        );
    }
}

#[test]
fn a_12_has_no_effect() {
    for event_use in [generate(0), await_event(0)] {
        let there = at(3, event_use);
        assert_eq!(verdict(&[3], &there), FINE);
        assert_eq!(verdict(&[3], &at(2, there.clone())), FINE);
        assert_eq!(verdict(&[3], &at(PRIVATE, there.clone())), FINE);
        assert_eq!(file(2, &[3], &[there, start(0)]).verdict(), FINE);
    }
}

/// 11 at the 12, and not 12; a scheduler inside makes it fine.
#[test]
fn while_unlinked_it_is_11_at_the_12() {
    for event_use in [generate(0), await_event(0)] {
        let unlinked = at(PRIVATE, event_use.clone());
        assert_eq!(verdict(&[2], &unlinked), (11, 0x12));
        // The inner 12 breaks two rules; 11 is the smaller number.
        assert_eq!(verdict(&[2], &at(PRIVATE, unlinked)), (11, 0x12));
        let linked = at(PRIVATE, at(2, event_use));
        assert_eq!(verdict(&[2], &linked), FINE);
    }
}

/// The cells' effect and the events' are tested each.
#[test]
fn cells_and_events_are_both_tested() {
    let with = |cell: u8, event: u8, main: Node| {
        let mut file = file(2, &[event], &[main]);
        file.cells = vec![number_cell(cell)];
        file.verdict()
    };
    for event_use in [generate(0), await_event(0)] {
        let both = row(&[stores(), event_use]);
        assert_eq!(with(3, 3, at(3, both.clone())), FINE);
        assert_eq!(with(2, 3, at(3, both.clone())), (11, 0x12));
        assert_eq!(with(3, 2, at(3, both.clone())), (11, 0x12));
        assert_eq!(with(2, 2, both.clone()), FINE);
        assert_eq!(with(2, 3, both.clone()), (11, 0x02));
        assert_eq!(with(3, 2, both), (11, 0x02));
    }
}

#[test]
fn both_can_end_at_once() {
    for event_use in [generate(0), await_event(0)] {
        assert_eq!(verdict(&[2], &forever(event_use.clone())), (13, 0x19));
        let with_cooperate = forever(row(&[event_use.clone(), cooperate()]));
        assert_eq!(verdict(&[2], &with_cooperate), FINE);
        let with_nothing = forever(row(&[event_use.clone(), nothing()]));
        assert_eq!(verdict(&[2], &with_nothing), (13, 0x19));
        let in_a_branch = forever(either(event_use.clone(), cooperate()));
        assert_eq!(verdict(&[2], &in_a_branch), (13, 0x19));
        assert_eq!(verdict(&[2], &forever(at(2, event_use))), (13, 0x19));
    }
}

impl Run {
    /// Is this the kind of the statement that the thread takes next?
    fn is_at(&self, thread: u8, kind: u8) -> bool {
        match self.state.thread(thread).continuation.last() {
            Some(&Item::Run(f)) => self.program.frames[usize::from(f)].kind == kind,
            _ => false,
        }
    }

    /// Thread 2 has the await on top, but came to the next list without it: a
    /// generation by this thread, which ends then, does not move it. It awaits
    /// in the next instant.
    fn generates_without_2(&mut self, generator: u8) {
        assert!(self.is_at(2, 0x1B));
        self.acts(2, &[generator]);
        assert_eq!(self.active(2), [generator]);
        assert_eq!(self.next(2), [ready(2)]);
        self.acts(2, &[generator, 0, 2]);
        assert_eq!(self.next(2), [awaiting(2, 0)]);
    }
}

#[test]
fn awaiting_a_present_event_passes_on_in_that_step() {
    let mut run = Run::new(1, &[2], &[row(&[generate(0), await_event(0), nothing()])]);
    run.acts(2, &[1, 1]); // the rows
    assert_eq!((run.items(1), &run.state.present), (3, &vec![false]));
    run.acts(2, &[1]); // generates
    assert_eq!((run.items(1), &run.state.present), (2, &vec![true]));
    run.acts(2, &[1]); // passes on
    assert_eq!((run.items(1), run.active(2)), (1, vec![1]));
    run.acts(2, &[1, 1]);
    run.refused(2, 16, 0);
}

/// The step succeeds and names the thread, the statement stays on top, and the
/// thread is after those that are on the next list already.
#[test]
fn awaiting_an_absent_event_goes_to_the_end_of_the_next_list() {
    let mut run = Run::new(
        1,
        &[2],
        &[nothing(), row(&[start(0), start(0), await_event(0)])],
    );
    run.acts(2, &[1, 1, 1, 1]);
    assert_eq!((run.items(1), run.active(2)), (1, vec![1]));
    run.acts(2, &[1]);
    assert!(run.is_at(1, 0x1B));
    assert_eq!((run.items(1), run.active(2)), (1, vec![]));
    assert_eq!(run.next(2), [ready(2), ready(3), awaiting(1, 0)]);
}

/// It counts as ready, becomes active in its turn and takes the statement anew.
#[test]
fn it_tries_again_when_it_is_active() {
    let modules = [
        row(&[cooperate(), cooperate()]),
        row(&[start(0), await_event(0)]),
    ];
    let mut run = Run::new(1, &[2], &modules);
    run.acts(2, &[1, 1, 1, 0]);
    assert_eq!((run.active(2), run.next(2)), (vec![2, 1], vec![]));
    assert!(run.is_at(1, 0x1B));
    run.acts(2, &[2, 2, 1, 0, 2, 1, 0, 2, 1, 0, 1, 0, 1]);
    assert_eq!(run.next(2), [awaiting(1, 0)]);
}

#[test]
fn a_scheduler_with_only_awaiters_never_answers_16() {
    let mut run = Run::new(
        1,
        &[2, 2],
        &[await_event(1), row(&[start(0), await_event(0)])],
    );
    run.acts(2, &[1, 1, 1]);
    for _ in 0..500 {
        run.acts(2, &[0, 2, 1]);
        assert_eq!(run.next(2), [awaiting(2, 1), awaiting(1, 0)]);
    }
}

/// The generator's statement is used up and it stays first; those that await
/// come in list order after all that are active, each with its own step.
#[test]
fn a_generation_moves_awaiters_to_the_end_of_the_active_list() {
    let modules = [
        await_event(0),
        row(&[nothing(), nothing()]),
        row(&[
            start(0),
            start(0),
            start(0),
            cooperate(),
            start(1),
            cooperate(),
            generate(0),
            nothing(),
        ]),
    ];
    let mut run = Run::new(1, &[2], &modules);
    run.acts(2, &[1; 7]); // rows
    run.acts(2, &[1, 1, 1, 1, 0]);
    run.acts(2, &[2, 3, 4, 1, 1]); // three await, 1 starts 5 and cooperates
    assert_eq!(
        run.next(2)[..3],
        [2, 3, 4].map(|thread| awaiting(thread, 0))
    );
    assert_eq!(run.next(2)[3..], [ready(5), ready(1)]);
    run.acts(2, &[0, 2, 3, 4]); // none is there: they await again
    assert_eq!(run.active(2), [5, 1]);
    // 5 takes its row; then 1 is not first. Bring it to the front by 5's end.
    run.acts(2, &[5, 5, 5, 5]);
    assert_eq!((run.active(2), run.items(1)), (vec![1], 2));
    run.acts(2, &[1]);
    assert_eq!((run.active(2), run.items(1)), (vec![1, 2, 3, 4], 1));
    assert_eq!(
        (run.next(2), [2, 3, 4].map(|t| run.items(t))),
        (vec![], [1; 3])
    );
    run.acts(2, &[1, 1, 2, 2, 3, 3, 4, 4]);
    run.refused(2, 16, 0);
}

/// After threads that are active too, not before them.
#[test]
fn awaiters_come_after_those_that_are_active() {
    let main = row(&[start(0), start(1), start(2), start(2)]);
    let modules = [
        await_event(0),
        generate(0),
        row(&[nothing(), nothing()]),
        main,
    ];
    let mut run = Run::new(1, &[2], &modules);
    run.acts(2, &[1; 8]);
    run.acts(2, &[0, 2]);
    assert_eq!(
        (run.active(2), run.next(2)),
        (vec![3, 4, 5], vec![awaiting(2, 0)])
    );
    run.acts(2, &[3]);
    assert_eq!((run.active(2), run.next(2)), (vec![3, 4, 5, 2], vec![]));
    run.acts(2, &[3, 4, 4, 4, 4, 5, 5, 5, 5, 2, 2]);
    run.refused(2, 16, 0);
}

/// Awaiters of one event among those of another: only they move, in list order.
#[test]
fn a_generation_moves_the_awaiters_of_its_event_alone() {
    let starts = [0, 1, 0, 2, 1, 0].map(start);
    let main = row(&[row(&starts), cooperate(), generate(0), generate(2)]);
    let modules = [await_event(0), await_event(1), await_event(2), main];
    let mut run = Run::new(1, &[2, 2, 2], &modules);
    run.acts(2, &[1; 3 + 5 + 6 + 1]);
    run.acts(2, &[0, 2, 3, 4, 5, 6, 7]);
    let [e0, e1, e2] = [0, 1, 2];
    let threads = [(2, e0), (3, e1), (4, e0), (5, e2), (6, e1), (7, e0)];
    assert_eq!(
        run.next(2),
        threads.map(|(thread, event)| awaiting(thread, event))
    );
    run.acts(2, &[1]);
    assert_eq!(run.active(2), [1, 2, 4, 7]);
    assert_eq!(
        run.next(2),
        [awaiting(3, e1), awaiting(5, e2), awaiting(6, e1)]
    );
    assert_eq!(run.state.present, [true, false, false]);
    run.acts(2, &[1]);
    assert_eq!(run.active(2), [1, 2, 4, 7, 5]);
    assert_eq!(run.next(2), [awaiting(3, e1), awaiting(6, e1)]);
    assert_eq!(run.state.present, [true, false, true]);
}

/// Woken ones go on in the same instant, and wake others.
#[test]
fn a_chain_of_signals_in_one_instant() {
    let modules = [
        row(&[await_event(0), generate(1)]),
        row(&[await_event(1), generate(2)]),
        await_event(2),
        row(&[start(0), start(1), start(2), cooperate(), generate(0)]),
    ];
    let mut run = Run::new(1, &[2, 2, 2], &modules);
    run.acts(2, &[1; 8]);
    run.acts(2, &[0, 2, 2, 3, 3, 4]);
    run.acts(2, &[1, 1, 2, 2, 2, 3, 3, 3, 4, 4]);
    run.refused(2, 16, 0);
    assert_eq!(run.state.present, [true; 3]);
}

/// All 63 others await; one generation, all in order.
#[test]
fn one_generation_moves_63_awaiters() {
    let mut starts = vec![start(0); 7];
    starts.extend([cooperate(), generate(0)]);
    let group = vec![row(&vec![start(0); 7]); 8];
    let main = row(&[group, starts].concat());
    let mut run = Run::new(1, &[2], &[await_event(0), main]);
    while run.next(2).len() < 64 {
        assert_eq!(run.choose(2), (0, 1));
    }
    run.acts(2, &[0]);
    let others: Vec<u8> = (2..=64).collect();
    run.acts(2, &others);
    assert_eq!(run.active(2), [1]);
    run.acts(2, &[1]);
    assert_eq!(run.active(2), (1..=64).collect::<Vec<u8>>());
    assert_eq!(run.next(2), []);
    run.acts(2, &[1]);
    for thread in others {
        run.acts(2, &[thread, thread]);
    }
    run.refused(2, 16, 0);
}

#[test]
fn an_event_is_present_to_the_end_of_its_schedulers_instant() {
    let main = row(&[generate(0), await_event(0), cooperate(), await_event(0)]);
    let mut run = Run::new(1, &[2], &[main]);
    run.acts(2, &[1, 1, 1, 1, 1, 1]);
    assert_eq!(run.state.present, [true]);
    run.acts(2, &[0]);
    assert_eq!(run.state.present, [false]);
    run.acts(2, &[1]);
    assert_eq!(run.next(2), [awaiting(1, 0)]);
}

/// An instant of another scheduler ends nothing here, and one here nothing
/// there.
#[test]
fn only_the_owners_instant_ends_its_presence() {
    let there = row(&[generate(1), cooperate(), await_event(1)]);
    let main = row(&[start(0), generate(0), cooperate(), nothing()]);
    let mut run = Run::new(2, &[2, 3], &[at(3, there), main]);
    run.acts(2, &[1, 1, 1, 1, 1, 1]); // starts, generates, cooperates
    assert_eq!(run.state.present, [true, false]);
    run.acts(2, &[0, 2]); // 2 goes to scheduler 3
    assert_eq!(run.state.present, [false, false]);
    run.acts(3, &[0, 2, 2, 2]); // two rows, then it generates there
    assert_eq!(run.state.present, [false, true]);
    run.acts(2, &[1, 1]); // main ends
    run.acts(3, &[2]); // cooperates
    assert_eq!(run.state.present, [false, true]);
    run.acts(3, &[0]);
    assert_eq!(run.state.present, [false, false]);
    // Both present, then an instant's end at each.
    let pair = |place, event| at(place, row(&[generate(event), cooperate()]));
    let mut run = Run::new(2, &[2, 3], &[pair(3, 1), row(&[start(0), pair(2, 0)])]);
    run.acts(2, &[1, 1, 1, 1, 1]); // the row, the start, the do, its row, generates
    run.acts(2, &[1]); // cooperates
    run.acts(2, &[0, 2]); // so event 0 is gone when 2 leaves
    run.acts(3, &[0, 2, 2]);
    assert_eq!(run.state.present, [false, true]);
    run.acts(2, &[1, 1]);
    run.acts(3, &[2, 0]);
    assert_eq!(run.state.present, [false, false]);
}

/// The generator leaves the scheduler, which then has nothing to do: its
/// instant does not end, nor does the presence.
#[test]
fn a_16_ends_no_presence() {
    let visit = at(3, generate(0));
    let mut run = Run::new(2, &[3], &[row(&[visit.clone(), visit])]);
    run.acts(2, &[1, 1]);
    run.acts(3, &[0, 1]);
    assert_eq!(run.state.present, [true]);
    run.acts(3, &[1]); // back
    run.refused(3, 16, 0);
    assert_eq!(run.state.present, [true]);
    run.acts(2, &[0, 1]); // and to scheduler 3 again
    assert_eq!(run.state.present, [true]);
    run.acts(3, &[0]);
    assert_eq!(run.state.present, [false]);
    run.acts(3, &[1]);
    assert_eq!(run.state.present, [true]);
}

/// The same where a waiting thread is on the next list.
#[test]
fn a_16_with_a_waiting_thread_ends_no_presence() {
    let modules = [at(PRIVATE, nothing()), row(&[generate(0), wait_for(0)])];
    let mut run = Run::new(1, &[2], &modules);
    run.acts(2, &[1, 1, 1]);
    assert_eq!(run.state.present, [true]);
    run.acts(2, &[0]); // the started thread is ready
    assert_eq!(run.state.present, [false]);
    let again = [
        at(PRIVATE, row(&[nothing(), at(2, generate(0))])),
        row(&[wait_for(0)]),
    ];
    let mut run = Run::new(1, &[2], &again);
    run.acts(2, &[1, 0, 2]);
    run.acts(of_thread(2), &[2, 2, 2]);
    run.acts(2, &[0, 2]); // generates, away from home again
    assert_eq!(run.state.present, [true]);
    run.acts(2, &[2]);
    run.refused(2, 16, 0);
    assert_eq!(run.state.present, [true]);
}

#[test]
fn generating_a_present_event_is_fine() {
    let main = row(&[generate(0), generate(0), await_event(0), generate(0)]);
    let mut run = Run::new(1, &[2], &[main]);
    run.acts(2, &[1; 3 + 4 + 1]);
    assert_eq!(run.state.present, [true]);
    run.refused(2, 16, 0);
}

#[test]
fn generating_where_nobody_awaits() {
    let main = row(&[generate(0), cooperate(), await_event(0)]);
    let mut run = Run::new(1, &[2], &[main]);
    run.acts(2, &[1; 4]);
    assert_eq!((run.active(2), run.next(2)), (vec![], vec![ready(1)]));
    // The signal is not kept for a later instant.
    run.acts(2, &[0, 1, 0, 1]);
}

/// A started thread whose first statement is the await has not awaited yet.
#[test]
fn a_thread_that_came_by_13_does_not_await() {
    let mut run = Run::new(1, &[2], &[await_event(0), row(&[start(0), generate(0)])]);
    run.acts(2, &[1, 1]);
    run.generates_without_2(1);
}

/// By 14 the same, and the starter, which waits with an await on top.
#[test]
fn a_thread_that_waits_does_not_await() {
    let main = row(&[wait_for(0), await_event(0)]);
    let modules = [row(&[generate(0), cooperate()]), main];
    let mut run = Run::new(1, &[2], &modules);
    run.acts(2, &[1, 1]);
    assert!(run.is_at(1, 0x1B));
    run.acts(2, &[0, 2, 2]);
    let waits = Until::Family(2);
    assert_eq!(run.next(2)[0].until, waits);
    assert_eq!((run.active(2), run.next(2).len()), (vec![2], 1));
    run.acts(2, &[2, 0, 2, 0, 1]);
    assert_eq!(run.next(2), [awaiting(1, 0)]);
}

#[test]
fn a_thread_that_came_by_15_does_not_await() {
    let modules = [
        row(&[cooperate(), await_event(0)]),
        generate(0),
        row(&[start(0), start(1)]),
    ];
    let mut run = Run::new(1, &[2], &modules);
    run.acts(2, &[1, 1, 1, 1, 0, 2, 2]);
    run.generates_without_2(3);
}

/// From another scheduler, and from being unlinked.
#[test]
fn a_thread_that_came_by_a_move_does_not_await() {
    for place in [PRIVATE, 3] {
        let mover = at(place, at(2, await_event(0)));
        let main = row(&[start(0), cooperate(), generate(0)]);
        let mut run = Run::new(2, &[2], &[mover, main]);
        run.acts(2, &[1, 1, 1, 1, 0, 2]);
        match place {
            PRIVATE => run.acts(of_thread(2), &[2]),
            _ => run.acts(3, &[0, 2]),
        }
        run.generates_without_2(1);
    }
}

/// At the instant's end it is active again, so no generation moves it; it
/// passes on in its turn, ahead of those that are woken.
#[test]
fn a_thread_that_is_active_again_does_not_await() {
    let main = row(&[start(0), cooperate(), cooperate(), generate(0)]);
    let mut run = Run::new(1, &[2], &[await_event(0), main]);
    run.acts(2, &[1, 1, 1, 1, 1, 0, 2, 1]);
    assert_eq!(run.next(2), [awaiting(2, 0), ready(1)]);
    run.acts(2, &[0]);
    // 1 acts before 2 if 2 is put after it.
    run.state.schedulers[0].active.swap(0, 1);
    run.acts(2, &[1]);
    assert_eq!((run.active(2), run.next(2)), (vec![1, 2], vec![]));
    run.acts(2, &[1, 2, 2]);
    run.refused(2, 16, 0);
}

/// A family ends only after the event: the wait goes on until then.
#[test]
fn a_wait_for_a_thread_that_awaits() {
    let main = row(&[start(1), wait_for(0)]);
    let modules = [
        await_event(0),
        row(&[cooperate(), cooperate(), generate(0)]),
        main,
    ];
    let mut run = Run::new(1, &[2], &modules);
    run.acts(2, &[1, 1, 1, 0]);
    run.acts(2, &[2, 2, 2, 3, 0]);
    run.acts(2, &[2, 3, 0]);
    // 2 generates; 3, after it, passes and ends, and so does the wait.
    run.acts(2, &[2, 2, 3, 3, 0, 1]);
    run.refused(2, 16, 0);
}

/// Awaiters of events of two schedulers do not mix.
#[test]
fn events_of_two_schedulers() {
    let main = row(&[start(0), at(3, start(1)), generate(0), at(3, generate(1))]);
    let mut run = Run::new(2, &[2, 3], &[await_event(0), await_event(1), main]);
    run.acts(2, &[1, 1, 1, 1, 1]); // 2 is started, 1 goes to 3
    run.acts(3, &[0, 1, 1]); // 3 is started there, 1 goes back
    run.acts(2, &[0, 2]);
    run.acts(3, &[0, 3]);
    assert_eq!(
        (run.next(2)[0], run.next(3)[0]),
        (awaiting(2, 0), awaiting(3, 1))
    );
    run.acts(2, &[1]); // generates 0
    assert_eq!(
        (run.active(2), run.next(3)),
        (vec![1, 2], vec![awaiting(3, 1)])
    );
    run.acts(2, &[1, 2, 2]); // 1 goes to 3
    run.acts(3, &[0, 3, 1]); // 3 awaits anew, then 1 generates 1
    assert_eq!((run.active(3), run.next(3)), (vec![1, 3], vec![]));
    assert_eq!(run.state.present, [true, true]);
}

/// In a loop an instant apart: each turn waits for its own generation.
#[test]
fn a_signal_in_each_instant() {
    let ticker = forever(row(&[generate(0), cooperate()]));
    let driver = forever(row(&[await_event(0), cooperate()]));
    let mut run = Run::new(
        1,
        &[2],
        &[driver, ticker.clone(), row(&[start(0), start(1)])],
    );
    run.acts(2, &[1, 1, 1, 1]);
    // The driver is first and awaits; the ticker wakes it, and it cooperates.
    run.acts(2, &[0, 2, 2, 2, 3, 3, 3, 3, 2, 2]);
    for _ in 0..50 {
        // Now the ticker is first, so the event is there.
        run.acts(2, &[0, 3, 3, 3, 3, 2, 2, 2, 2]);
    }
}

#[test]
fn a_missing_event_is_20_when_running() {
    for event_use in [generate(1), await_event(1), generate(255), await_event(16)] {
        let mut run = Run::of(&file(1, &[2], &[event_use]).text(), 8);
        run.refused(2, 20, 1);
    }
    let mut run = Run::of(&file(1, &[], &[await_event(0)]).text(), 8);
    run.refused(2, 20, 1);
}

#[test]
fn another_owners_event_is_19_when_running() {
    for event_use in [generate(0), await_event(0)] {
        let mut run = Run::of(&file(2, &[3], from_ref(&event_use)).text(), 11);
        run.refused(2, 19, 1);
        let mut run = Run::of(&file(2, &[2], &[at(3, event_use)]).text(), 11);
        run.acts(2, &[1]);
        run.acts(3, &[0]);
        run.refused(3, 19, 1);
    }
}

/// Also where the event is present, and by a thread that is no `main`.
#[test]
fn a_present_event_of_another_owner_is_19_too() {
    let main = row(&[start(0), cooperate(), generate(0)]);
    let mut run = Run::of(&file(2, &[2], &[at(3, await_event(0)), main]).text(), 11);
    run.acts(2, &[1, 1, 1, 1, 0, 2, 1]);
    assert_eq!(run.state.present, [true]);
    run.acts(3, &[0]);
    run.refused(3, 19, 2);
}

/// 19, not 20: nothing is added to refusal 12's condition.
#[test]
fn an_unlinked_thread_gets_19() {
    for event_use in [generate(0), await_event(0)] {
        let mut run = Run::of(&file(1, &[2], &[at(PRIVATE, event_use)]).text(), 11);
        run.acts(2, &[1]);
        run.refused(of_thread(1), 19, 1);
    }
}

#[test]
fn missing_comes_before_another_owner() {
    for event_use in [generate(1), await_event(1)] {
        let mut run = Run::of(&file(1, &[2], &[at(PRIVATE, event_use.clone())]).text(), 8);
        run.acts(2, &[1]);
        run.refused(of_thread(1), 20, 1);
        let mut run = Run::of(&file(2, &[2], &[at(3, event_use)]).text(), 8);
        run.acts(2, &[1]);
        run.acts(3, &[0]);
        run.refused(3, 20, 1);
    }
}

/// Change 4: they are no accesses; a store beside them counts 1.
#[test]
fn uses_count_no_accesses() {
    let awaiter = row(&[await_event(0), stores()]);
    let main = row(&[start(0), cooperate(), generate(0), stores()]);
    let mut file = file(1, &[2], &[awaiter, main]);
    file.cells = vec![number_cell(2)];
    let printed = listing::run(&file.text(), &b"02\n".repeat(14));
    let expected = [
        "00 0000",
        "02 00 01 0001 0000",
        "02 00 01 0001 0000",
        "02 00 01 0001 0000",
        "02 00 01 0001 0000", // the start
        "02 00 01 0001 0000", // cooperates
        "02 00 00 0001 0000",
        "02 00 02 0001 0000",
        "02 00 02 0001 0000", // awaits
        "02 00 01 0001 0000", // generates
        "02 00 01 0001 0001", // stores
        "02 00 01 0001 0000", // ends
        "02 00 02 0001 0000", // passes on
        "02 00 02 0001 0001", // stores
        "02 00 02 0001 0000", // ends
        "000E",
    ];
    assert_eq!(
        String::from_utf8(printed).unwrap(),
        expected.join("\n") + "\n"
    );
}

/// Each use of an event and each instant's end of many runs, against a record
/// of what happened when.
#[test]
fn generated_runs_follow_the_papers_words() {
    const SEED: u64 = 5;
    const RUNS: usize = 20_000;
    let mut uses = Uses::default();
    for case in second::generate::readable(SEED, 0..).take(RUNS) {
        uses.add(&case.program, &case.choices);
    }
    println!("{uses}");
    assert!(uses.generations > 10_000, "{uses}");
    assert!(uses.awaits_absent > 50_000, "{uses}");
    assert!(uses.awaits_present > 5_000, "{uses}");
    assert!(uses.retried > 10_000, "{uses}");
    assert!(uses.ended_present > 5_000, "{uses}");
}
