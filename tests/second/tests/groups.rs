//! Change 7: schedulers in step. Every sentence of the paper and every note on
//! how it is read has a case by hand; then generated runs against the paper's
//! words taken literally.

mod acting;
mod in_step;
mod literal_events;
mod trees;

use std::slice::from_ref;

use literal_events::Uses;
use second::generate;
use second::layout::Program;
use second::listing;
use second::place::{of_thread, PRIVATE};
use second::state::Until;
use trees::*;

// Texts line by line, for the layout.

const CELL: &str = "0102000100000000";
const EVENT: &str = "0302000000000000";
const LINK: &str = "0403000200000000";
const NOTHING: &str = "1000000000000000";
const ACCEPTED: &str = "00 0000\n";

/// What the check prints on these frames after a header with so many
/// schedulers and the right number of events.
fn check_with(schedulers: u8, frames: &[&str]) -> String {
    let events = frames
        .iter()
        .filter(|frame| frame.starts_with("03"))
        .count();
    let header = format!("00010000{schedulers:04X}{events:04X}");
    let text = [&[header.as_str()], frames].concat().join("\n") + "\n";
    String::from_utf8(listing::check(text.as_bytes())).unwrap()
}

/// These frames, most often declarations, and a smallest `main`.
fn declared(schedulers: u8, frames: &[&str]) -> String {
    let main = format!("0200{:04X}00000000", 1 + frames.len());
    check_with(schedulers, &[frames, &[NOTHING, &main]].concat())
}

/// One link with these S and A, in a file of three schedulers.
fn one_link(s: u8, a: u16) -> String {
    declared(3, &[&format!("04{s:02X}{a:04X}00000000")])
}

#[test]
fn a_link_names_a_scheduler_and_a_lower_one() {
    for s in 0..=255 {
        for a in (0..=12).chain([0x00FF, 0x0102, 0x0203, 0x1002, 0xFF02, 0xFFFF]) {
            let fits = matches!((s, a), (3, 2) | (4, 2) | (4, 3));
            let expected = if fits { ACCEPTED } else { "05 0001\n" };
            assert_eq!(one_link(s, a), expected, "{s} {a:04X}");
        }
    }
}

/// With one scheduler there is no lower one, with eight the last is 9.
#[test]
fn the_schedulers_of_the_file() {
    assert_eq!(declared(1, &[LINK]), "05 0001\n");
    assert_eq!(declared(2, &[LINK]), ACCEPTED);
    assert_eq!(declared(8, &["0409000200000000"]), ACCEPTED);
    assert_eq!(declared(8, &["0409000800000000"]), ACCEPTED);
    assert_eq!(declared(7, &["0409000200000000"]), "05 0001\n");
    assert_eq!(declared(8, &["040A000200000000"]), "05 0001\n");
    assert_eq!(declared(8, &["040A000900000000"]), "05 0001\n");
}

/// A's high byte is no place for anything else.
#[test]
fn all_four_digits_of_a_count() {
    assert_eq!(one_link(3, 0x0002), ACCEPTED);
    for a in [0x0102, 0x1002, 0x8002, 0xFF02] {
        assert_eq!(one_link(3, a), "05 0001\n", "{a:04X}");
    }
}

#[test]
fn b_and_c_are_0() {
    for bad in ["0403000200010000", "0403000200000001", "0403000200020000"] {
        assert_eq!(declared(2, &[bad]), "05 0001\n", "{bad}");
    }
}

/// The lowest bad one is named, whatever is good before it, and 5 comes before
/// a link that stands out of order.
#[test]
fn the_first_bad_link_is_named() {
    let bad = "0402000200000000";
    assert_eq!(declared(2, &[LINK, bad, bad]), "05 0002\n");
    assert_eq!(declared(2, &[LINK, EVENT, bad]), "05 0003\n");
    assert_eq!(
        check_with(2, &[NOTHING, "0200000100000000", bad]),
        "05 0003\n"
    );
}

/// Any number of them, also twice the same S or pair.
#[test]
fn there_may_be_any_number_of_links() {
    assert_eq!(declared(2, &[LINK, LINK]), ACCEPTED);
    assert_eq!(
        declared(3, &[LINK, "0404000200000000", "0404000300000000"]),
        ACCEPTED
    );
    for count in [16, 17, 18, 100, 1021] {
        assert_eq!(declared(2, &vec![LINK; count]), ACCEPTED, "{count}");
    }
    assert_eq!(declared(2, &vec![LINK; 1022]), "02 0000\n");
}

/// They are no events: the header does not count them.
#[test]
fn the_header_does_not_count_links() {
    let main = [NOTHING, "0200000200000000"];
    let with = |count: u16| {
        let header = format!("000100000002{count:04X}");
        let text = [&[header.as_str(), LINK], &main[..]].concat().join("\n") + "\n";
        String::from_utf8(listing::check(text.as_bytes())).unwrap()
    };
    assert_eq!(with(0), ACCEPTED);
    assert_eq!(with(1), "04 0000\n");
}

#[test]
fn links_stand_after_the_events_and_before_the_rest() {
    assert_eq!(declared(2, &[CELL, EVENT, LINK]), ACCEPTED);
    assert_eq!(declared(2, &[CELL, CELL, LINK, LINK]), ACCEPTED);
    assert_eq!(declared(2, &[EVENT, EVENT, LINK]), ACCEPTED);
    // What should precede it and does not names itself.
    assert_eq!(declared(2, &[LINK, EVENT]), "06 0002\n");
    assert_eq!(declared(2, &[LINK, CELL]), "06 0002\n");
    assert_eq!(declared(2, &[EVENT, LINK, EVENT, LINK]), "06 0003\n");
    assert_eq!(declared(2, &[LINK, EVENT, CELL]), "06 0002\n");
    assert_eq!(declared(2, &[CELL, LINK, CELL, EVENT]), "06 0003\n");
}

#[test]
fn a_late_link_names_itself() {
    let module = [NOTHING, "0200000100000000"];
    let after = |frames: &[&str]| declared(2, &[&module, frames].concat());
    assert_eq!(after(&[LINK]), "06 0003\n");
    assert_eq!(after(&[LINK, LINK, EVENT]), "06 0003\n");
    assert_eq!(
        check_with(2, &[NOTHING, LINK, "0200000100000000"]),
        "06 0002\n"
    );
    assert_eq!(
        check_with(2, &[NOTHING, "0200000100000000", LINK]),
        "06 0003\n"
    );
    assert_eq!(check_with(2, &[LINK]), "06 0001\n");
    // Other reasons compete: an earlier leftover is named first.
    assert_eq!(
        check_with(2, &[NOTHING, LINK, NOTHING, "0200000300000000"]),
        "06 0001\n"
    );
}

/// It has no child and is none: A is no frame number.
#[test]
fn a_link_is_no_part_of_a_tree() {
    assert_eq!(check_with(2, &[LINK, "0200000100000000"]), "06 0002\n");
    // Were frame 2 the child of the link, it would be no leftover.
    let leftover = [LINK, NOTHING, NOTHING, "0200000300000000"];
    assert_eq!(check_with(2, &leftover), "06 0002\n");
}

// Files from trees, for the rules and for running.

/// A file with schedulers in step.
fn linked(schedulers: u8, links: &[(u8, u8)], events: &[u8], bodies: &[Node]) -> File {
    file(schedulers, events, bodies).linked(links)
}

/// Which pairs of schedulers may use each other's events, by the check.
fn pairs(schedulers: u8, links: &[(u8, u8)]) -> Vec<(u8, u8)> {
    let last = 1 + schedulers;
    let mut found = Vec::new();
    for place in 2..=last {
        for owner in 2..=last {
            let main = at(place, generate(0));
            let verdict = linked(schedulers, links, &[owner], &[main]).verdict();
            match verdict {
                FINE => found.push((place, owner)),
                other => assert_eq!(other, (11, 0x12)),
            }
        }
    }
    found
}

/// Each with each of these groups.
fn all_pairs(groups: &[&[u8]]) -> Vec<(u8, u8)> {
    let of = |group: &[u8]| -> Vec<(u8, u8)> {
        let with_all = |&a| group.iter().map(move |&b| (a, b));
        group.iter().flat_map(with_all).collect()
    };
    let mut pairs: Vec<(u8, u8)> = groups.iter().flat_map(|group| of(group)).collect();
    pairs.sort();
    pairs
}

#[test]
fn the_relation_is_carried_through_chains() {
    assert_eq!(pairs(3, &[]), all_pairs(&[&[2], &[3], &[4]]));
    assert_eq!(pairs(3, &[(3, 2)]), all_pairs(&[&[2, 3], &[4]]));
    // 4 with 2 and 4 with 3 put 2 and 3 in step, in either order.
    assert_eq!(pairs(3, &[(4, 2), (4, 3)]), all_pairs(&[&[2, 3, 4]]));
    assert_eq!(pairs(3, &[(4, 3), (4, 2)]), all_pairs(&[&[2, 3, 4]]));
    assert_eq!(pairs(3, &[(3, 2), (4, 2)]), all_pairs(&[&[2, 3, 4]]));
    assert_eq!(pairs(3, &[(4, 3), (3, 2)]), all_pairs(&[&[2, 3, 4]]));
    // The same twice, and a circle of links.
    assert_eq!(pairs(3, &[(3, 2), (3, 2)]), all_pairs(&[&[2, 3], &[4]]));
    let circle = [(3, 2), (4, 3), (4, 2)];
    assert_eq!(pairs(3, &circle), all_pairs(&[&[2, 3, 4]]));
}

#[test]
fn two_groups_stay_apart() {
    let two = [(4, 2), (5, 3), (7, 5)];
    assert_eq!(pairs(6, &two), all_pairs(&[&[2, 4], &[3, 5, 7], &[6]]));
    // A link between any two members makes them one.
    let one = [(4, 2), (5, 3), (7, 5), (7, 4)];
    assert_eq!(pairs(6, &one), all_pairs(&[&[2, 3, 4, 5, 7], &[6]]));
}

#[test]
fn all_eight_in_one_group() {
    let everyone: Vec<u8> = (2..=9).collect();
    let chain: Vec<(u8, u8)> = (2..9).map(|place| (place + 1, place)).collect();
    let star: Vec<(u8, u8)> = (3..=9).map(|place| (place, 2)).collect();
    let mut reversed = chain.clone();
    reversed.reverse();
    for links in [chain, star, reversed] {
        assert_eq!(pairs(8, &links), all_pairs(&[&everyone]));
    }
}

/// At `main` an event's owner must be home or in step with it.
#[test]
fn main_may_use_the_events_of_homes_group() {
    for event_use in [generate(0), await_event(0)] {
        let verdict = |links: &[(u8, u8)], owner: u8| {
            linked(3, links, &[owner], from_ref(&event_use)).verdict()
        };
        assert_eq!(
            [2, 3, 4].map(|o| verdict(&[(3, 2)], o)),
            [FINE, FINE, (11, 0x02)]
        );
        assert_eq!(
            [2, 3, 4].map(|o| verdict(&[(4, 3)], o)),
            [FINE, (11, 0x02), (11, 0x02)]
        );
        assert_eq!([2, 3, 4].map(|o| verdict(&[(4, 3), (4, 2)], o)), [FINE; 3]);
    }
}

/// Starts pass the effect on; a 12 in between has none.
#[test]
fn effects_on_events_through_starts() {
    for event_use in [generate(0), await_event(0)] {
        for by in [start(0), wait_for(0)] {
            let verdict = |links: &[(u8, u8)], place: u8| {
                let main = at(place, by.clone());
                linked(3, links, &[3], &[event_use.clone(), main]).verdict()
            };
            assert_eq!(verdict(&[(3, 2)], 2), FINE);
            assert_eq!(verdict(&[(4, 3)], 2), (11, 0x12));
            assert_eq!(verdict(&[(4, 3)], 4), FINE);
            assert_eq!(verdict(&[(3, 2)], 4), (11, 0x12));
        }
    }
}

/// Events of two members, and of two groups, in one body.
#[test]
fn each_event_of_a_body_is_tested() {
    let both = row(&[generate(0), await_event(1)]);
    let verdict = |links: &[(u8, u8)], owners: &[u8]| {
        linked(4, links, owners, &[at(3, both.clone())]).verdict()
    };
    assert_eq!(verdict(&[(3, 2)], &[2, 3]), FINE);
    assert_eq!(verdict(&[(3, 2), (5, 4)], &[2, 4]), (11, 0x12));
    assert_eq!(verdict(&[(3, 2), (5, 4)], &[4, 2]), (11, 0x12));
    assert_eq!(verdict(&[(3, 2), (5, 4), (4, 2)], &[5, 2]), FINE);
}

/// Place 1 is in step with nobody: 11 at the 12, also where all are in step.
#[test]
fn the_private_place_is_in_no_group() {
    for event_use in [generate(0), await_event(0)] {
        let unlinked = at(PRIVATE, event_use.clone());
        let links = [(3, 2), (4, 3)];
        assert_eq!(
            linked(3, &links, &[2], from_ref(&unlinked)).verdict(),
            (11, 0x12)
        );
        let inside = at(PRIVATE, at(3, event_use));
        assert_eq!(linked(3, &links, &[2], &[inside]).verdict(), FINE);
        let mut run = Run::of(&linked(3, &links, &[2], &[unlinked]).text(), 11);
        run.acts(2, &[1]);
        run.refused(of_thread(1), 19, 1);
    }
}

/// Cells are not shared: a store, a read and a new cell, at the 12 and at
/// `main`, and when running.
#[test]
fn a_partners_cell_is_refused_as_before() {
    let reads = let_(content(shared(0)), nothing());
    let makes = |owner| let_(new(owner, number(1)), nothing());
    let with = |main: &Node| {
        let mut file = linked(2, &[(3, 2)], &[], from_ref(main));
        file.cells = vec![number_cell(3)];
        file
    };
    for touch in [stores(), reads.clone(), makes(3)] {
        assert_eq!(with(&touch).verdict(), (11, 0x02));
        assert_eq!(with(&at(2, touch.clone())).verdict(), (11, 0x12));
        assert_eq!(with(&at(3, touch.clone())).verdict(), FINE);
        let mut run = Run::of(&with(&touch).text(), 11);
        run.refused(2, 19, 1);
    }
    // The other way: home's cell at the partner.
    let mut file = linked(2, &[(3, 2)], &[], &[at(3, stores())]);
    file.cells = vec![number_cell(2)];
    assert_eq!(file.verdict(), (11, 0x12));
    let mut run = Run::of(&file.text(), 11);
    run.acts(2, &[1]);
    run.acts(3, &[0]);
    run.refused(3, 19, 1);
}

/// A cell's owner does not pass for an event's in one body, nor the other way.
#[test]
fn effects_on_events_are_counted_apart() {
    let both = row(&[stores(), generate(0)]);
    let verdict = |cell: u8, event: u8| {
        let mut file = linked(3, &[(3, 2)], &[event], &[at(3, both.clone())]);
        file.cells = vec![number_cell(cell)];
        file.verdict()
    };
    assert_eq!(verdict(3, 2), FINE);
    assert_eq!(verdict(3, 3), FINE);
    assert_eq!(verdict(2, 2), (11, 0x12));
    assert_eq!(verdict(2, 3), (11, 0x12));
    assert_eq!(verdict(3, 4), (11, 0x12));
}

#[test]
fn an_event_of_another_group_is_19_when_running() {
    for event_use in [generate(0), await_event(0)] {
        let links = [(3, 2), (5, 4)];
        for owner in [4, 5] {
            let file = linked(4, &links, &[owner], from_ref(&event_use));
            let mut run = Run::of(&file.text(), 11);
            run.refused(2, 19, 1);
        }
        let mut run = Run::of(
            &linked(4, &links, &[2], &[at(5, event_use.clone())]).text(),
            11,
        );
        run.acts(2, &[1]);
        run.acts(4, &[0]);
        run.refused(5, 19, 1);
        // A missing one is 20 there too.
        let mut run = Run::of(&linked(4, &links, &[], &[at(5, event_use)]).text(), 8);
        run.acts(2, &[1]);
        run.acts(5, &[0]);
        run.refused(5, 20, 1);
    }
}

// Instants.

/// A run of an accepted file.
fn run(schedulers: u8, links: &[(u8, u8)], events: &[u8], bodies: &[Node]) -> Run {
    Run::of(&linked(schedulers, links, events, bodies).text(), 0)
}

/// A thread goes to the partner: a move, and the instant ends for both in one
/// step, whichever is chosen.
#[test]
fn an_instant_ends_in_one_step_for_all_members() {
    for chosen in [2, 3] {
        let mut run = run(
            2,
            &[(3, 2)],
            &[],
            &[at(3, nothing()), row(&[start(0), cooperate()])],
        );
        run.acts(2, &[1, 1, 1]);
        assert_eq!(run.next(2), [ready(2), ready(1)]);
        run.acts(chosen, &[0]);
        run.acts(2, &[2]); // moves to the partner
        assert_eq!((run.active(2), run.next(3)), (vec![1], vec![ready(2)]));
        run.acts(2, &[1]); // main ends
        run.acts(chosen, &[0]);
        assert_eq!((run.active(2), run.active(3)), (vec![], vec![2]));
        run.acts(3, &[2, 2]); // nothing, and back: a move again
        assert_eq!(run.next(2), [ready(2)]);
        run.acts(chosen, &[0]);
        run.acts(2, &[2]);
        run.refused(2, 16, 0);
        run.refused(3, 16, 0);
    }
}

/// Ready entries on both become active in the same step, each in its order.
#[test]
fn the_ready_entries_of_every_member_become_active() {
    let there = at(3, row(&[start(0), start(0), cooperate()]));
    let main = row(&[start(0), there]);
    let mut run = run(2, &[(3, 2)], &[], &[cooperate(), main]);
    run.acts(2, &[1, 1, 1]); // the row, thread 2, the move
    run.acts(3, &[0]);
    assert_eq!((run.active(2), run.active(3)), (vec![2], vec![1]));
    run.acts(3, &[1, 1, 1, 1, 1]); // the rows, threads 3 and 4, cooperates
    run.acts(2, &[2]);
    assert_eq!(run.next(2), [ready(2)]);
    assert_eq!(run.next(3), [ready(3), ready(4), ready(1)]);
    run.acts(3, &[0]);
    assert_eq!((run.active(2), run.active(3)), (vec![2], vec![3, 4, 1]));
    assert_eq!((run.next(2), run.next(3)), (vec![], vec![]));
}

/// 16 while another member has an active thread, also if the chosen one has a
/// ready entry.
#[test]
fn a_member_without_active_threads_answers_16_while_another_has_some() {
    let mut run = run(2, &[(3, 2)], &[], &[row(&[at(3, cooperate()), nothing()])]);
    run.refused(3, 16, 0);
    run.acts(2, &[1]);
    run.refused(3, 16, 0);
    run.acts(2, &[1]); // goes to 3
    run.acts(2, &[0]);
    run.refused(2, 16, 0);
    run.acts(3, &[1]);
    assert_eq!(run.next(3), [ready(1)]);
    run.acts(3, &[0]);
    run.refused(2, 16, 0);
    run.acts(3, &[1]); // back home
    run.acts(3, &[0]);
    run.refused(3, 16, 0);
    run.acts(2, &[1, 1]);
    run.refused(2, 16, 0);
    run.refused(3, 16, 0);
}

/// The same where the chosen one has a ready entry, and of three members.
#[test]
fn a_ready_entry_waits_for_every_member() {
    let worker = |place| at(place, row(&[nothing(), nothing()]));
    let main = row(&[start(0), start(1), cooperate(), nothing()]);
    let bodies = [worker(3), worker(4), main];
    let mut run = run(4, &[(4, 2), (4, 3)], &[], &bodies);
    run.acts(2, &[1; 3]); // the rows
    run.acts(2, &[1, 1, 1]); // two threads, cooperates
    run.acts(2, &[0, 2, 3]); // both move
    run.acts(2, &[1, 1]); // main does nothing and ends
    run.acts(4, &[0]);
    assert_eq!((run.active(3), run.active(4)), (vec![2], vec![3]));
    run.acts(3, &[2, 2, 2, 2]);
    assert_eq!((run.active(3), run.next(2)), (vec![], vec![ready(2)]));
    run.refused(2, 16, 0); // 4 has an active thread
    run.refused(3, 16, 0);
    // 5 is in no group: its choice is 16 of its own.
    run.refused(5, 16, 0);
    run.acts(4, &[3, 3, 3, 3]);
    run.acts(3, &[0]);
    assert_eq!(run.active(2), [2, 3]);
}

/// Any member ends the instant, also one whose own lists are empty.
#[test]
fn a_member_with_empty_lists_ends_the_instant() {
    for chosen in 2..=9 {
        let chain: Vec<(u8, u8)> = (2..9).map(|place| (place + 1, place)).collect();
        let mut run = run(8, &chain, &[], &[row(&[cooperate(), nothing()])]);
        run.acts(2, &[1, 1]);
        run.acts(chosen, &[0]);
        assert_eq!(run.active(2), [1]);
        run.acts(2, &[1, 1]);
        run.refused(chosen, 16, 0);
    }
}

/// 16 when no member has a ready thread, though some wait.
#[test]
fn waiting_threads_alone_end_no_instant() {
    let away = at(PRIVATE, row(&[nothing(), nothing()]));
    let mut run = run(2, &[(3, 2)], &[], &[away, at(3, wait_for(0))]);
    run.acts(2, &[1]);
    run.acts(3, &[0, 1]); // 1 waits at 3 for thread 2
    assert_eq!(run.next(3)[1].until, Until::Family(2));
    run.acts(2, &[0]);
    run.acts(3, &[2]); // is unlinked now
    run.refused(2, 16, 0);
    run.refused(3, 16, 0);
    run.acts(of_thread(2), &[2, 2, 2, 2]); // back to 3
    assert_eq!(run.next(3)[1], ready(2));
    run.acts(2, &[0]);
    run.acts(3, &[2]); // ends, and so does the wait
    run.acts(2, &[0]);
    assert_eq!(run.active(3), [1]);
}

/// A wait's family may be on several members; it ends at the group's instant.
#[test]
fn a_wait_over_members() {
    let child = at(3, row(&[cooperate(), nothing()]));
    let mut run = run(2, &[(3, 2)], &[], &[child, wait_for(0)]);
    run.acts(2, &[1, 0, 2]); // 2 goes to 3
    run.acts(2, &[0]);
    run.acts(3, &[2, 2]);
    run.acts(2, &[0]);
    run.acts(3, &[2, 2]); // back home
    run.acts(3, &[0]);
    run.acts(2, &[2]); // ends
    run.acts(3, &[0]);
    assert_eq!(run.active(2), [1]);
}

/// Two groups, and a scheduler in none, keep their own instants.
#[test]
fn groups_do_not_hold_each_other_up() {
    let at_each = row(&[2, 4, 6].map(|place| at(place, start(0))));
    let links = [(3, 2), (5, 4)];
    let mut run = run(5, &links, &[], &[row(&[nothing(), cooperate()]), at_each]);
    run.acts(2, &[1, 1, 1, 1, 1]); // rows, the do at home, thread 2, back
    run.acts(2, &[1]); // to 4
    run.acts(5, &[0]); // which 5 brings about
    run.acts(4, &[1, 1]);
    run.acts(3, &[0]); // main is home, thread 2 active too
    run.acts(2, &[2, 2, 2, 1]); // main goes to 6
    run.acts(6, &[0, 1, 1]);
    assert_eq!(run.next(4), [ready(3)]);
    assert_eq!(run.next(6), [ready(4)]);
    run.acts(2, &[0]); // 4 and 6 keep theirs
    assert_eq!((run.active(2), run.next(4)), (vec![2, 1], vec![ready(3)]));
    run.acts(4, &[0]);
    run.refused(5, 16, 0);
    run.refused(3, 16, 0);
    run.acts(6, &[0]);
    assert_eq!((run.active(4), run.active(6)), (vec![3], vec![4]));
}

/// A move to a partner is a move: to the end of that next list.
#[test]
fn a_move_to_a_partner_is_a_move() {
    let main = row(&[start(0), at(3, start(0))]);
    let mut run = run(2, &[(3, 2)], &[], &[at(3, nothing()), main]);
    run.acts(2, &[1, 1, 1]);
    assert_eq!((run.active(2), run.active(3)), (vec![], vec![]));
    assert_eq!((run.next(2), run.next(3)), (vec![ready(2)], vec![ready(1)]));
    run.acts(2, &[0, 2]);
    // Not among the active ones of this instant.
    assert_eq!((run.active(3), run.next(3)), (vec![1], vec![ready(2)]));
    run.acts(3, &[1]);
    assert_eq!(run.next(3), [ready(2), ready(3)]);
    // Between partners neither of which is home.
    let mut run = Run::of(
        &linked(3, &[(4, 3)], &[], &[at(3, at(4, nothing()))]).text(),
        0,
    );
    run.acts(2, &[1]);
    run.acts(4, &[0]);
    run.acts(3, &[1]);
    assert_eq!((run.active(3), run.next(4)), (vec![], vec![ready(1)]));
    run.acts(3, &[0]);
    run.acts(4, &[1, 1]);
    assert_eq!((run.active(4), run.next(3)), (vec![], vec![ready(1)]));
}

// Events of a group.

/// Threads at 2, 3 and 4 that await an event, `main` generates.
fn awaiters(owner: u8) -> Run {
    let links = [(4, 2), (4, 3)];
    let there = |place| at(place, row(&[start(0), start(0)]));
    let main = row(&[there(4), there(3), there(2), cooperate(), generate(0)]);
    let mut run = run(4, &links, &[owner], &[await_event(0), main]);
    run.acts(2, &[1; 5]); // rows, goes to 4
    run.acts(2, &[0]);
    run.acts(4, &[1; 4]); // threads 2 and 3, back
    run.acts(3, &[0]);
    run.acts(4, &[2, 3]);
    run.acts(2, &[1]); // goes to 3
    run.acts(2, &[0]);
    run.acts(4, &[2, 3]);
    run.acts(3, &[1; 4]); // threads 4 and 5, back
    run.acts(2, &[0]);
    run.acts(4, &[2, 3]);
    run.acts(3, &[4, 5]);
    run.acts(2, &[1; 6]); // threads 6 and 7 at home, cooperates
    run.acts(2, &[0, 6, 7]);
    run.acts(3, &[4, 5]);
    run.acts(4, &[2, 3]);
    run
}

/// Each into its own member's active list, whoever the owner is; at the
/// generator's own after it. All pass in the same instant.
#[test]
fn a_generation_wakes_awaiters_on_each_member() {
    for owner in [2, 3, 4] {
        let mut run = awaiters(owner);
        let waiting = |pair: [u8; 2]| pair.map(|thread| awaiting(thread, 0));
        assert_eq!(run.next(2), waiting([6, 7]));
        assert_eq!(run.next(3), waiting([4, 5]));
        assert_eq!(run.next(4), waiting([2, 3]));
        assert_eq!(run.active(2), [1]);
        run.acts(2, &[1]);
        assert_eq!(run.active(2), [1, 6, 7]);
        assert_eq!((run.active(3), run.active(4)), (vec![4, 5], vec![2, 3]));
        assert_eq!(run.state.present, [true]);
        for place in 2..=4 {
            assert_eq!(run.next(place), []);
        }
        run.acts(2, &[1]); // main ends
        run.acts(4, &[2, 2, 3, 3]);
        run.acts(3, &[4, 4, 5, 5]);
        run.acts(2, &[6, 6, 7, 7]);
        run.refused(2, 16, 0);
        // A 16 ends no presence.
        assert_eq!(run.state.present, [true]);
    }
}

/// After those that are active there, in list order; awaiters of another
/// event and threads that do not await stay.
#[test]
fn a_generation_moves_the_awaiters_of_its_event_alone() {
    let there = at(3, row(&[start(0), start(1), start(0), start(2)]));
    let worker = row(&[nothing(), cooperate()]);
    let main = row(&[there, generate(1)]);
    let bodies = [await_event(1), await_event(0), worker, main];
    let mut run = run(2, &[(3, 2)], &[2, 2], &bodies);
    run.acts(2, &[1, 1]);
    run.acts(3, &[0, 1, 1, 1, 1, 1, 1, 1, 1]); // rows, threads 2 to 5, back
    run.acts(3, &[0, 2, 3, 4]);
    assert_eq!(
        run.next(3),
        [awaiting(2, 1), awaiting(3, 0), awaiting(4, 1)]
    );
    assert_eq!(run.active(3), [5]);
    run.acts(2, &[1]);
    assert_eq!(run.active(3), [5, 2, 4]);
    assert_eq!(run.next(3), [awaiting(3, 0)]);
    assert_eq!(run.state.present, [false, true]);
}

/// Awaiting a partner's event goes to the end of one's own next list.
#[test]
fn awaiting_a_partners_event() {
    let main = row(&[start(0), at(3, await_event(0))]);
    let mut run = run(2, &[(3, 2)], &[2], &[cooperate(), main]);
    run.acts(2, &[1, 1, 1]);
    run.acts(3, &[0]);
    run.acts(3, &[1]);
    assert_eq!((run.active(3), run.next(3)), (vec![], vec![awaiting(1, 0)]));
    assert_eq!(run.next(2), []);
    // It is ready at the group's next instant, and tries again.
    run.acts(2, &[2, 0]);
    assert_eq!((run.active(2), run.active(3)), (vec![2], vec![1]));
    run.acts(2, &[2]);
    for _ in 0..100 {
        run.acts(3, &[1]);
        run.acts(2, &[0]);
    }
}

/// Present on every member until the group's instant ends, whoever is chosen.
#[test]
fn an_event_is_present_until_the_groups_instant_ends() {
    let late = at(
        3,
        row(&[nothing(), await_event(0), cooperate(), await_event(0)]),
    );
    let main = row(&[start(0), cooperate(), cooperate(), generate(0), cooperate()]);
    for chosen in [2, 3] {
        let mut run = run(2, &[(3, 2)], &[3], &[late.clone(), main.clone()]);
        run.acts(2, &[1; 6]); // rows, thread 2, cooperates
        run.acts(2, &[0, 2, 1]); // 2 goes to 3, main cooperates
        run.acts(chosen, &[0]);
        run.acts(2, &[1]); // generates
        assert_eq!(run.state.present, [true]);
        run.acts(2, &[1]);
        run.refused(2, 16, 0); // 3 is not done: the presence lasts
        run.acts(3, &[2; 5]); // rows, nothing, passes
        assert_eq!(run.state.present, [true]);
        run.acts(3, &[2]); // cooperates
        assert_eq!(run.state.present, [true]);
        run.acts(chosen, &[0]);
        assert_eq!(run.state.present, [false]);
        run.acts(3, &[2]);
        assert_eq!(run.next(3), [awaiting(2, 0)]);
    }
}

/// All events of all members end with it, those of others do not.
#[test]
fn all_events_of_all_members_end() {
    let there = at(4, row(&[generate(3), await_event(4)]));
    let main = row(&[
        start(0),
        cooperate(),
        generate(0),
        generate(1),
        generate(2),
        cooperate(),
    ]);
    let mut run = run(3, &[(3, 2)], &[2, 3, 3, 4, 4], &[there, main]);
    run.acts(2, &[1; 7]); // rows, thread 2, cooperates
    run.acts(2, &[0, 2]); // 2 goes to 4
    run.acts(4, &[0, 2, 2, 2]); // generates, awaits
    run.acts(2, &[1; 4]);
    assert_eq!(run.state.present, [true, true, true, true, false]);
    run.acts(3, &[0]);
    assert_eq!(run.state.present, [false, false, false, true, false]);
    run.acts(4, &[0]);
    assert_eq!(run.state.present, [false; 5]);
}

/// A woken thread goes on, generates, and wakes one on another member, in the
/// same instant of all.
#[test]
fn a_chain_of_signals_over_members() {
    let links = [(3, 2), (4, 3)];
    let bodies = [
        row(&[await_event(0), generate(1)]),
        await_event(1),
        row(&[at(3, start(0)), at(4, start(1)), cooperate(), generate(0)]),
    ];
    let mut run = run(3, &links, &[4, 2], &bodies);
    run.acts(2, &[1; 4]);
    run.acts(3, &[0, 1, 1, 0]);
    run.acts(3, &[2, 2]); // its row, awaits
    run.acts(2, &[1, 0]); // to 4
    run.acts(3, &[2]);
    run.acts(4, &[1, 1, 0]);
    run.acts(3, &[2]);
    run.acts(4, &[3]);
    run.acts(2, &[1, 0]); // cooperates
    run.acts(3, &[2]);
    run.acts(4, &[3]);
    run.acts(2, &[1, 1]); // generates 0, ends
    assert_eq!(
        (run.active(3), run.next(4)),
        (vec![2], vec![awaiting(3, 1)])
    );
    run.acts(3, &[2, 2]);
    assert_eq!((run.active(3), run.active(4)), (vec![2], vec![3]));
    run.acts(4, &[3, 3]);
    run.acts(3, &[2]);
    run.refused(2, 16, 0);
    assert_eq!(run.state.present, [true; 2]);
}

/// Files without K 04 run as they did: a generation wakes on the owner's list
/// alone, and each scheduler has its instants.
#[test]
fn without_a_link_each_is_alone() {
    let text = |links: &[(u8, u8)]| {
        let bodies = [
            at(3, row(&[nothing(), nothing()])),
            row(&[start(0), cooperate()]),
        ];
        linked(2, links, &[2], &bodies).text()
    };
    let mut run = Run::of(&text(&[]), 0);
    run.acts(2, &[1, 1, 1, 0, 2, 1]);
    run.acts(3, &[0]);
    run.refused(2, 16, 0);
    run.acts(3, &[2]);
    let mut run = Run::of(&text(&[(3, 2)]), 0);
    run.acts(2, &[1, 1, 1, 0, 2, 1]);
    run.acts(2, &[0]);
    run.refused(2, 16, 0);
    run.acts(3, &[2]);
}

/// Change 4: an end of a group's instant and uses of events count nothing.
#[test]
fn the_listing_of_a_group() {
    let bodies = [
        at(3, row(&[await_event(0), stores()])),
        row(&[start(0), generate(0)]),
    ];
    let mut file = linked(2, &[(3, 2)], &[2], &bodies);
    file.cells = vec![number_cell(3)];
    let printed = listing::run(&file.text(), b"02\n02\n02\n03\n02\n02\n03\n03\n03\n");
    let expected = [
        "00 0000",
        "02 00 01 0001 0000", // the row
        "02 00 01 0001 0000", // the start
        "02 00 01 0001 0000", // generates: nobody awaits
        "03 10 00 0001 0000", // 2 has an active thread
        "02 00 01 0001 0000", // ends
        "02 00 00 0001 0000", // the instant, and with it the event
        "03 10 00 0001 0000",
        "03 10 00 0001 0000",
        "03 10 00 0001 0000",
        "0009",
    ];
    assert_eq!(
        String::from_utf8(printed).unwrap(),
        expected.join("\n") + "\n"
    );
}

/// Each use of an event and each choice of a scheduler without active threads,
/// in many runs of files with links, against a record of what happened when.
#[test]
fn generated_runs_follow_the_papers_words() {
    const SEED: u64 = 7;
    const RUNS: usize = 6_000;
    let mut uses = Uses::default();
    let cases = generate::readable(SEED, 0..).filter(|case| case.program.links > 0);
    for case in cases.take(RUNS) {
        uses.add(&case.program, &case.choices);
    }
    println!("{uses}");
    let seen = &uses.in_step;
    for members in 2..=8 {
        assert!(seen.ended.get(&members) > Some(&500), "{members}: {seen:?}");
    }
    for (schedulers, least) in [(1, 1000), (2, 200), (3, 30), (4, 4)] {
        let times = seen.woken_on.get(&schedulers);
        assert!(times > Some(&least), "{schedulers}: {seen:?}");
    }
    assert!(seen.woken_here_and_there > 200, "{seen:?}");
    let often = [
        seen.ended_by_empty,
        seen.ended_partners_event,
        seen.held_up,
        seen.held_up_ready,
        seen.nothing_ready,
        seen.generations,
        seen.awaits_present,
        seen.awaits_absent,
        seen.elsewhere,
    ];
    assert!(often.iter().all(|&times| times > 500), "{seen:?}");
}

/// The groups that the program finds are those of the links, carried through.
#[test]
fn groups_are_those_of_the_links() {
    let mut sizes = [0; 9];
    for case in generate::readable(7, 0..20_000) {
        let program: &Program = &case.program;
        for place in 2..=program.last_place {
            let found: Vec<u8> = program.groups.of(place).schedulers().collect();
            assert_eq!(found, in_step::members(program, place));
            sizes[found.len()] += 1;
        }
    }
    assert!(sizes[1..].iter().all(|&count| count > 100), "{sizes:?}");
}
