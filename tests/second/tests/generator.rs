//! What the generator reaches.

mod acting;
mod in_step;
mod literal;
mod literal_events;

use std::collections::{BTreeMap, BTreeSet};

use literal::Waits;
use literal_events::Uses;
use second::arrange::arrange;
use second::evaluate::{Access, Actor, EventUse, Observer};
use second::frame::Frame;
use second::generate;
use second::layout::Program;
use second::listing::{self, Reading};
use second::state::State;
use second::tally::Tally;
use second::text;
use second::verdict::Verdict;

const SEED: u64 = 1;

#[test]
fn every_verdict_and_answer_occurs() {
    let mut tally = Tally::default();
    for index in 0..30_000 {
        let case = generate::case(SEED, index);
        tally.add(&listing::run(&case.program, &case.choices));
    }
    println!("{tally}");
    assert!(tally.is_complete(), "{tally}");
    assert!(tally.lists_refused.iter().all(|&count| count > 0));
    assert!(tally.verdicts[0] > tally.cases / 2, "mostly accepted");
}

#[test]
fn a_case_can_be_repeated() {
    for index in 0..200 {
        let (first, again) = (generate::case(SEED, index), generate::case(SEED, index));
        assert_eq!(first.program, again.program);
        assert_eq!(first.choices, again.choices);
    }
    assert_ne!(
        generate::case(SEED, 0).program,
        generate::case(SEED + 1, 0).program
    );
}

/// The longest text that may be accepted is among the cases, and one more line.
#[test]
fn greatest_length_is_reached() {
    let occurs = |length: usize, printed: &[u8]| {
        let mut cases = (0..20_000).map(|index| generate::case(SEED, index).program);
        cases.any(|text| text.len() == length && listing::check(&text) == printed)
    };
    assert!(occurs(1024 * 17, b"00 0000\n"));
    assert!(occurs(1025 * 17, b"02 0000\n"));
}

/// Each allowance at a bound meets each length of a list near one, and few
/// other lists are as long.
#[test]
fn allowances_meet_long_lists() {
    const CASES: u64 = 150_000;
    let mut missing: BTreeSet<(&[u8], usize)> = BTreeSet::new();
    for allowance in [b"0000", b"0FFF", b"1000", b"4000", b"FFFF"] {
        for count in [4095, 4096, 4097, 16_383, 16_384] {
            missing.insert((allowance, count));
        }
    }
    let mut long = 0;
    for index in 0..CASES {
        let case = generate::case(SEED, index);
        let count = case.choices.len() / 3;
        if count > 2000 {
            long += 1;
            missing.retain(|&pair| pair != (&case.program[4..8], count));
        }
    }
    assert!(missing.is_empty(), "{missing:?}");
    assert!(long < CASES / 300, "{long} long lists");
}

/// Waits begin, are held up by members far below the awaited thread, and end;
/// the members end in every order.
#[test]
fn families_hold_up_waits() {
    let mut waits = Waits::default();
    let (mut differing, mut accepted, mut held_up_and_ended) = (0, 0, 0);
    for case in generate::readable(SEED, 0..30_000) {
        let before = (waits.differing, waits.held_up_and_ended);
        waits.add(&case.program, &case.choices);
        differing += usize::from(waits.differing > before.0);
        accepted += usize::from(waits.differing > before.0 && case.verdict.number == 0);
        held_up_and_ended += usize::from(waits.held_up_and_ended > before.1);
    }
    println!("{waits}\ncases that differ {differing}, accepted ones {accepted}");
    println!("cases that differ and end later {held_up_and_ended}");
    assert!(differing > 1000, "{differing} cases differ from 01");
    assert!(accepted > 800, "{accepted} of them are accepted");
    assert!(held_up_and_ended > 800, "{held_up_and_ended} of them end");
    for levels in 2..=20 {
        assert!(waits.levels.contains_key(&levels), "{levels} levels below");
    }
    assert_eq!(waits.orders.len(), 6 + 24, "orders of 3 and 4 members");
}

/// The accesses of a step by their sorts, those before a refusal too.
#[derive(Default)]
struct Seen {
    reads: usize,
    stores: usize,
    creations: usize,
}

impl Observer for Seen {
    fn access(&mut self, _: Actor, access: Access, _: u8) {
        match access {
            Access::Read => self.reads += 1,
            Access::Store => self.stores += 1,
            Access::Creation => self.creations += 1,
        }
    }

    fn event(&mut self, _: Actor, _: EventUse, _: u8) {}
}

/// Steps with many accesses and with accesses of every sort, and steps that are
/// refused after several, with each answer that can come then.
#[test]
fn steps_access_many_cells() {
    let mut counts: BTreeMap<u16, usize> = BTreeMap::new();
    let mut refused: BTreeMap<u8, usize> = BTreeMap::new();
    let mut of_every_sort = 0;
    for case in generate::readable(SEED, 0..30_000) {
        let mut state = State::new(&case.program);
        for &party in &case.choices {
            let mut seen = Seen::default();
            let outcome = state.step(&case.program, party, &mut seen);
            *counts.entry(outcome.accesses).or_default() += 1;
            // The one that is refused is seen as well.
            if outcome.answer != 0 && seen.reads + seen.creations > 2 {
                *refused.entry(outcome.answer).or_default() += 1;
            }
            if outcome.answer == 0 && seen.reads > 1 && seen.stores == 1 && seen.creations > 1 {
                of_every_sort += 1;
            }
        }
    }
    println!("refused after accesses {refused:?}; of every sort {of_every_sort}");
    println!("steps by count {counts:?}");
    for count in 0..=40 {
        assert!(counts.contains_key(&count), "no step of {count} accesses");
    }
    assert!(counts.range(256..).count() > 20, "counts of three digits");
    assert!(of_every_sort > 500, "{of_every_sort}");
    for answer in 17..=20 {
        let times = refused.get(&answer).copied().unwrap_or(0);
        assert!(times > 500, "{times} refused with {answer}");
    }
}

/// A good half of the files have no events, most of the others are accepted,
/// and their runs use events in every way that the paper tells of.
#[test]
fn events_are_generated_and_awaited() {
    let mut uses = Uses::default();
    let (mut without, mut accepted, mut rejected) = (0, 0, 0);
    let mut waking = 0;
    const CASES: usize = 30_000;
    for index in 0..CASES {
        let case = generate::case(SEED, index as u64);
        let Ok(frames) = text::frames(&case.program) else {
            continue;
        };
        let has_events = frames[0].c != 0 || frames.iter().any(|frame| frame.kind == 0x03);
        without += usize::from(!has_events);
        let number = Reading::new(&case.program).verdict().number;
        accepted += usize::from(has_events && number == 0);
        rejected += usize::from(has_events && number > 7);
        if let Some(case) = case.readable() {
            let before = woken(&uses);
            uses.add(&case.program, &case.choices);
            waking += usize::from(woken(&uses) > before);
        }
    }
    println!(
        "without events {without}, with: accepted {accepted}, rejected with 8 to 13 {rejected}"
    );
    println!("cases in which threads are woken {waking}\n{uses}");
    assert!(without > CASES / 2, "{without} without events");
    assert!(
        accepted > rejected && accepted > CASES / 7,
        "{accepted} accepted"
    );
    assert!(waking > 1_000, "{waking}");
    assert!(woken(&uses) > 2_000, "{uses}");
    for count in (1..=40).chain(55..=63) {
        assert!(uses.woken.contains_key(&count), "{count} woken");
    }
    let often = [
        uses.again,
        uses.others_left,
        uses.bystanders_left,
        uses.ended_present,
        uses.kept_present,
        uses.nothing_while_present,
        uses.missing,
        uses.unlinked,
        uses.elsewhere,
    ];
    assert!(often.iter().all(|&times| times > 500), "{uses}");
}

/// Generations that woke a thread.
fn woken(uses: &Uses) -> usize {
    uses.woken.range(1..).map(|(_, times)| times).sum()
}

/// Damaged declarations of every sort, by what the check says at the frame.
#[test]
fn declarations_are_damaged() {
    let mut seen: BTreeMap<&str, usize> = BTreeMap::new();
    for index in 0..60_000 {
        let case = generate::case(SEED, index);
        let Ok(frames) = text::frames(&case.program) else {
            continue;
        };
        let verdict = Reading::new(&case.program).verdict();
        let events = frames.iter().filter(|frame| frame.kind == 0x03).count();
        let count = usize::from(frames[0].c);
        let last = 1 + u32::from(frames[0].b);
        let frame = frames[usize::from(verdict.frame)];
        let before = usize::from(verdict.frame)
            .checked_sub(1)
            .map(|f| frames[f].kind);
        let header_is_fine = (frames[0].kind, frames[0].s) == (0, 1) && (2..=9).contains(&last);
        let damage = match (verdict.number, frame.kind) {
            (4, _) if !header_is_fine => continue,
            (4, _) if count == 17 && events == 17 => "17 events, all counted",
            (4, _) if count > 16 => "C over 16",
            (4, _) if count > events => "C over the number of events",
            (4, _) => "C under the number of events",
            (5, 0x03) if frame.s == 1 => "private owner",
            (5, 0x03) if u32::from(frame.s) > last => "owner that the file lacks",
            (5, 0x03) if frame.s == 0 => "owner 0",
            (5, 0x03) => "field that is not 0",
            (5, 0x1A | 0x1B) => "field of a use that is not 0",
            (5, 0x05 | 0x1C) => "kind just past those of events and links",
            (6, 0x03) if before == Some(0x02) => "event after a module",
            (6, 0x03) => "event after a statement or expression",
            (6, 0x01) if before == Some(0x03) => "shared cell after an event",
            (8, 0x1A | 0x1B) => "missing event",
            (11, 0x12) if frame.s == 1 && events > 0 => "11 at place 1",
            (11, 0x12) if events > 0 => "11 at a scheduler",
            (11, 0x02) if events > 0 => "11 at main",
            _ => continue,
        };
        *seen.entry(damage).or_default() += 1;
    }
    println!("{seen:#?}");
    assert_eq!(seen.len(), 17, "{seen:#?}");
    assert!(seen.values().all(|&times| times > 5), "{seen:#?}");
}

/// Is this frame a link that 5 names, and why?
fn bad_link(link: &Frame, last: u16) -> &'static str {
    let s = u16::from(link.s);
    if !(2..=last).contains(&s) {
        "S that the file lacks"
    } else if link.a > 0xFF {
        "A with a high byte"
    } else if !(2..=last).contains(&link.a) {
        "A that the file lacks"
    } else if link.a >= s {
        "A not below S"
    } else if link.b != 0 {
        "B not 0"
    } else {
        "C not 0"
    }
}

/// What a file with links comes to at the check.
fn of_links(frames: &[Frame], verdict: Verdict) -> &'static str {
    let at = usize::from(verdict.frame);
    let before = at.checked_sub(1).map(|f| frames[f].kind);
    let links: Vec<[u16; 2]> = frames
        .iter()
        .filter(|frame| frame.kind == 0x04)
        .map(|link| [u16::from(link.s), link.a])
        .collect();
    let pairs: BTreeSet<&[u16; 2]> = links.iter().collect();
    match (verdict.number, frames[at].kind) {
        (0, _) if links.len() > 16 => "accepted, over 16 links",
        (0, _) if pairs.len() < links.len() => "accepted, a pair twice",
        (0, _) => "accepted",
        (5, 0x04) => bad_link(&frames[at], 1 + frames[0].b),
        (6, 0x04) if before == Some(0x02) => "link after a module",
        (6, 0x04) => "link after a statement or expression",
        (6, 0x03) if before == Some(0x04) => "event after a link",
        (6, 0x01) if before == Some(0x04) => "shared cell after a link",
        (11, 0x12) if frames[at].s == 1 => "11 at place 1",
        (11, 0x12) => "11 at a scheduler",
        (11, _) => "11 at main",
        _ => "another refusal",
    }
}

/// Those for which 11 comes of a cell or an event of a scheduler that is not
/// the place: a partner's cell, or an event of one that is not in step.
fn foreign(program: &Program, choices: &[u8]) -> BTreeSet<&'static str> {
    let mut watch = Foreign {
        program,
        seen: BTreeSet::new(),
    };
    let mut state = State::new(program);
    for &party in choices {
        state.step(program, party, &mut watch);
    }
    watch.seen
}

struct Foreign<'p> {
    program: &'p Program,
    seen: BTreeSet<&'static str>,
}

impl Observer for Foreign<'_> {
    fn access(&mut self, actor: Actor, _: Access, owner: u8) {
        let partners = in_step::members(self.program, actor.place);
        if owner != actor.place && partners.contains(&owner) {
            self.seen.insert("a run accesses a partner's cell");
        }
    }

    fn event(&mut self, actor: Actor, _: EventUse, owner: u8) {
        let partners = in_step::members(self.program, actor.place);
        self.seen.insert(match partners.contains(&owner) {
            true if owner == actor.place => "a run uses its own scheduler's event",
            true => "a run uses a partner's event",
            false => "a run uses the event of one not in step",
        });
    }
}

/// What drawn files with links come to, besides refusals of other frames.
const DRAWN: [&str; 9] = [
    "put in order",
    "accepted",
    "accepted, a pair twice",
    "S that the file lacks",
    "A with a high byte",
    "A that the file lacks",
    "A not below S",
    "B not 0",
    "C not 0",
];

/// Files with links are accepted or have each fault, often.
#[test]
fn links_are_declared_and_damaged() {
    let mut cases: BTreeMap<&str, usize> = BTreeMap::new();
    let mut drawn: BTreeMap<&str, usize> = BTreeMap::new();
    for index in 0..20_000 {
        let case = generate::case(SEED, index);
        if let Some(frames) = frames_with_links(&case.program) {
            let verdict = Reading::new(&case.program).verdict();
            *cases.entry(of_links(&frames, verdict)).or_default() += 1;
            if let Some(case) = case.readable() {
                for seen in foreign(&case.program, &case.choices) {
                    *cases.entry(seen).or_default() += 1;
                }
            }
        }
        let text = generate::drawn(SEED, index).program;
        if let Some(frames) = frames_with_links(&text) {
            let mut out = vec![0; text.len()];
            let verdict = arrange(&text, &mut out);
            let is_moved = verdict == Verdict::ACCEPTED && out != text;
            let sort = if is_moved {
                "put in order"
            } else {
                of_links(&frames, verdict)
            };
            *drawn.entry(sort).or_default() += 1;
        }
    }
    println!("cases {cases:#?}\ndrawn files {drawn:#?}");
    assert_eq!(cases.len(), 21, "{cases:#?}");
    assert!(cases.values().all(|&times| times > 25), "{cases:#?}");
    for sort in DRAWN {
        assert!(drawn.get(sort) > Some(&50), "{sort}: {drawn:#?}");
    }
}

fn frames_with_links(program: &[u8]) -> Option<Vec<Frame>> {
    let frames = text::frames(program).ok()?;
    let is_link = |frame: &Frame| frame.kind == 0x04;
    frames.iter().any(is_link).then_some(frames)
}
