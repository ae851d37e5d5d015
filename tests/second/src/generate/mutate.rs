//! Damage to files: to their frames (refusals 4 to 7 and further) and to
//! their texts (1 to 3).

use super::random::Random;
use crate::frame::{kind, Frame};
use crate::layout::part;
use crate::place::{HOME, PRIVATE, SCHEDULERS};
use crate::text::{DIGIT_BYTES, LINE, PROGRAM_LIMIT};

const TYPE_WORDS: [u16; 14] = [
    0x0000, 0x0001, 0x0002, 0x0003, 0x0020, 0x0021, 0x0041, 0x0111, 0x0121, 0x0201, 0x0211, 0x0321,
    0x2221, 0x00A1,
];

/// The frames with one change, often a fatal one.
pub fn frames(random: &mut Random, mut frames: Vec<Frame>) -> Vec<Frame> {
    let at = random.below(frames.len());
    match random.below(46) {
        0 | 1 => header(random, &mut frames[0]),
        2 => frames[at].kind = random.byte(),
        3 => frames[at].s = random.byte(),
        4 => set_field(random, &mut frames[at]),
        5 => type_word(random, &mut frames),
        6 => place(random, &mut frames),
        7 => first_content(random, &mut frames),
        8 => second_argument_alone(random, &mut frames),
        9 => frames.insert(at.max(1), Frame::default()),
        10 => more_shared_cells(random, &mut frames),
        11 => more_modules(random, &mut frames),
        12 => swap(random, &mut frames),
        13 => drop(frames.remove(at)),
        14 => frames.insert(at.max(1), leaf(random)),
        15 => child(random, &mut frames),
        16 => frames.truncate(at.max(1)),
        17 => main_with_parameter(&mut frames),
        18 => shared_cell_late(random, &mut frames),
        19 => swap_children(&mut frames[at]),
        20..=22 => other_place(random, &mut frames),
        23..=26 => just_outside(random, &mut frames),
        27 => event_count(random, &mut frames),
        28..=29 => event_fields(random, &mut frames),
        30..=31 => event_late(random, &mut frames),
        32 => shared_cell_after_event(random, &mut frames),
        33 => more_events(random, &mut frames),
        34 => event_use_fields(random, &mut frames),
        35 => kind_past_those(random, &mut frames),
        38..=41 => link_fields(random, &mut frames),
        42..=45 => link_out_of_order(random, &mut frames),
        _ => missing_event(random, &mut frames),
    }
    if frames.is_empty() {
        frames.push(Frame::default());
    }
    frames
}

fn header(random: &mut Random, header: &mut Frame) {
    match random.below(5) {
        0 => header.kind = random.place(0, 2),
        1 => header.s = random.place(0, 2),
        2 => header.b = random.below(12) as u16,
        3 => header.c = header.c.wrapping_add([1, 2, 16, 0xFFFF][random.below(4)]),
        _ => header.a = random.word(),
    }
}

fn set_field(random: &mut Random, frame: &mut Frame) {
    let value = match random.chance(2) {
        true => random.below(8) as u16,
        false => random.word(),
    };
    *field(random, frame) = value;
}

fn field<'f>(random: &mut Random, frame: &'f mut Frame) -> &'f mut u16 {
    match random.below(3) {
        0 => &mut frame.a,
        1 => &mut frame.b,
        _ => &mut frame.c,
    }
}

/// Some frame of one of the kinds.
fn of_kind<'f>(
    random: &mut Random,
    frames: &'f mut [Frame],
    kinds: &[u8],
) -> Option<&'f mut Frame> {
    let fitting: Vec<usize> = (0..frames.len())
        .filter(|&f| kinds.contains(&frames[f].kind))
        .collect();
    random.pick(&fitting).map(|f| &mut frames[f])
}

fn type_word(random: &mut Random, frames: &mut [Frame]) {
    let word = TYPE_WORDS[random.below(TYPE_WORDS.len())];
    match of_kind(random, frames, &[kind::SHARED_CELL, kind::MODULE]) {
        Some(frame) if frame.kind == kind::SHARED_CELL => frame.a = word,
        Some(frame) => {
            frame.s = frame.s.max(1);
            frame.b = word;
        }
        None => {}
    }
}

fn place(random: &mut Random, frames: &mut [Frame]) {
    let place = random.place(0, PRIVATE + SCHEDULERS + 1);
    let kinds = [
        kind::AT_PLACE,
        kind::NEW_CELL,
        kind::SHARED_CELL,
        kind::EVENT,
    ];
    if let Some(frame) = of_kind(random, frames, &kinds) {
        frame.s = place;
    }
}

/// Of a file whose header may be damaged already.
fn last_place(frames: &[Frame]) -> u8 {
    PRIVATE + (frames[0].b as u8).clamp(1, SCHEDULERS)
}

/// A place of the file, half the time the private one: the layout stays good.
fn other_place(random: &mut Random, frames: &mut [Frame]) {
    let last = last_place(frames);
    let place = match random.chance(2) {
        true => PRIVATE,
        false => random.place(HOME, last),
    };
    if let Some(frame) = of_kind(random, frames, &[kind::AT_PLACE, kind::NEW_CELL]) {
        frame.s = place;
    }
}

/// S of a declaration or a constant, at the first number that is too low or
/// too high.
fn just_outside(random: &mut Random, frames: &mut [Frame]) {
    let beyond = last_place(frames) + 1;
    let low = random.chance(2);
    let kinds = [
        kind::SHARED_CELL,
        kind::EVENT,
        kind::MODULE,
        kind::TRUTH,
        kind::AT_PLACE,
        kind::NEW_CELL,
    ];
    let chosen = kinds[random.below(kinds.len())];
    if let Some(frame) = of_kind(random, frames, &[chosen]) {
        frame.s = match chosen {
            kind::SHARED_CELL | kind::EVENT if low => PRIVATE,
            kind::MODULE => 3,
            kind::TRUTH => 2,
            _ if low => 0,
            _ => beyond,
        };
    }
}

fn first_content(random: &mut Random, frames: &mut [Frame]) {
    let first = random.below(18) as u16;
    if let Some(frame) = of_kind(random, frames, &[kind::SHARED_CELL]) {
        frame.b = first;
    }
}

fn second_argument_alone(random: &mut Random, frames: &mut [Frame]) {
    if let Some(frame) = of_kind(random, frames, &[kind::START, kind::START_AND_WAIT]) {
        frame.b = frame.a.max(frame.b).max(1);
        frame.a = 0;
    }
}

/// In front of all others, so numbers and order are wrong as well.
fn more_shared_cells(random: &mut Random, frames: &mut Vec<Frame>) {
    for _ in 0..random.between(1, 17) {
        frames.insert(1, shared_cell());
    }
}

pub(super) fn shared_cell() -> Frame {
    Frame {
        kind: kind::SHARED_CELL,
        s: HOME,
        a: 1,
        ..Frame::default()
    }
}

/// After all others, well formed; the 17th is one too many.
fn more_modules(random: &mut Random, frames: &mut Vec<Frame>) {
    for _ in 0..random.between(12, 17) {
        frames.push(Frame {
            kind: kind::NOTHING,
            ..Frame::default()
        });
        frames.push(Frame {
            kind: kind::MODULE,
            a: (frames.len() - 1) as u16,
            ..Frame::default()
        });
    }
}

fn swap(random: &mut Random, frames: &mut [Frame]) {
    let at = random.below(frames.len());
    let other = match random.chance(2) {
        true => random.below(frames.len()),
        false => (at + 1).min(frames.len() - 1),
    };
    frames.swap(at, other);
}

pub(super) fn leaf(random: &mut Random) -> Frame {
    let kinds = [kind::NOTHING, kind::COOPERATE, kind::NUMBER, kind::TRUTH];
    Frame {
        kind: kinds[random.below(kinds.len())],
        ..Frame::default()
    }
}

/// Another number in a child's field: near, far or past the end.
fn child(random: &mut Random, frames: &mut [Frame]) {
    let at = random.below(frames.len());
    let number = random.below(frames.len() + 3) as u16;
    let near = at.saturating_sub(random.below(4)) as u16;
    let number = random.pick(&[number, near, 0]).unwrap_or(0);
    *field(random, &mut frames[at]) = number;
}

fn main_with_parameter(frames: &mut [Frame]) {
    if let Some(main) = frames.last_mut() {
        main.s = 1;
        main.b = 1;
    }
}

fn shared_cell_late(random: &mut Random, frames: &mut Vec<Frame>) {
    let at = random.between(1, frames.len());
    frames.insert(at, shared_cell());
}

fn events(frames: &[Frame]) -> usize {
    let is_event = |frame: &&Frame| frame.kind == kind::EVENT;
    frames.iter().filter(is_event).count()
}

/// The frame goes in at `at`, and what stood there goes up by one. An event is
/// counted by the header.
pub(super) fn insert(frames: &mut Vec<Frame>, at: usize, frame: Frame) {
    renumber(frames, |child| {
        child.saturating_add(u16::from(usize::from(child) >= at))
    });
    frames.insert(at, frame);
    if frame.kind == kind::EVENT {
        frames[0].c = frames[0].c.wrapping_add(1);
    }
}

pub(super) fn renumber(frames: &mut [Frame], number: impl Fn(u16) -> u16) {
    for frame in frames {
        for field in 0..frame.child_count() {
            let child = child_mut(frame, field);
            *child = number(*child);
        }
    }
}

pub(super) fn child_mut(frame: &mut Frame, field: usize) -> &mut u16 {
    match field {
        0 => &mut frame.a,
        1 => &mut frame.b,
        _ => &mut frame.c,
    }
}

pub(super) fn event() -> Frame {
    Frame {
        kind: kind::EVENT,
        s: HOME,
        ..Frame::default()
    }
}

/// A header, shared cell, event or link.
pub(super) fn is_declared_first(frame: &Frame) -> bool {
    part(frame)
        < part(&Frame {
            kind: kind::MODULE,
            ..Frame::default()
        })
}

/// Where a frame of this kind may go in last: after those of the same kind and
/// of the kinds that precede it.
fn end_of_part(frames: &[Frame], frame: &Frame) -> usize {
    let not_later = |other: &&Frame| part(other) <= part(frame);
    frames.iter().take_while(not_later).count().max(1)
}

/// The first frame that is no header, shared cell, event or link.
fn after_declarations(frames: &[Frame]) -> usize {
    let declared = frames.iter().take_while(|&frame| is_declared_first(frame));
    declared.count().max(1)
}

/// Adds one where events stand, if there is none.
fn with_event(frames: &mut Vec<Frame>) {
    if events(frames) == 0 {
        insert(frames, end_of_part(frames, &event()), event());
    }
}

/// Another number than that of the events, or a 17th, in the header.
pub(super) fn event_count(random: &mut Random, frames: &mut Vec<Frame>) {
    if random.chance(2) {
        with_event(frames);
    }
    let count = events(frames) as u16;
    let wrong = [
        0,
        16,
        17,
        count + 1,
        count.wrapping_sub(1),
        count | 0x0100,
        random.word(),
    ];
    frames[0].c = wrong[random.below(wrong.len())];
}

/// A private owner, one that the file lacks, or a field that is not 0.
pub(super) fn event_fields(random: &mut Random, frames: &mut Vec<Frame>) {
    with_event(frames);
    let last = last_place(frames);
    let owners = [0, PRIVATE, last + 1, PRIVATE + SCHEDULERS + 1, 0xFF];
    let owner = owners[random.below(owners.len())];
    if let Some(event) = of_kind(random, frames, &[kind::EVENT]) {
        match random.chance(2) {
            true => event.s = owner,
            false => *field(random, event) = random.between(1, 3) as u16,
        }
    }
}

/// After a frame that it should precede, or just where it should be.
fn event_late(random: &mut Random, frames: &mut Vec<Frame>) {
    let at = random.between(after_declarations(frames), frames.len());
    insert(frames, at, event());
}

fn shared_cell_after_event(random: &mut Random, frames: &mut Vec<Frame>) {
    with_event(frames);
    let end = end_of_part(frames, &event());
    let at = end - random.below(2).min(end - 1);
    insert(frames, at.max(1), shared_cell());
}

/// Up to 15 to 18 in all, at the front, mostly.
fn more_events(random: &mut Random, frames: &mut Vec<Frame>) {
    let wanted = random.between(15, 18);
    while events(frames) < wanted {
        let at = match random.chance(20) {
            true => random.between(1, frames.len()),
            false => end_of_part(frames, &event()),
        };
        insert(frames, at, event());
    }
}

/// Statements without children.
const LEAVES: [u8; 4] = [kind::NOTHING, kind::COOPERATE, kind::GENERATE, kind::AWAIT];

/// A statement that uses the first event that is not there.
fn missing_event(random: &mut Random, frames: &mut [Frame]) {
    let count = events(frames) as u8;
    if let Some(leaf) = of_kind(random, frames, &LEAVES) {
        leaf.kind = [kind::GENERATE, kind::AWAIT][random.below(2)];
        leaf.s = count;
    }
}

/// A use with a field that is not 0; S is free.
pub(super) fn event_use_fields(random: &mut Random, frames: &mut [Frame]) {
    if let Some(leaf) = of_kind(random, frames, &LEAVES) {
        leaf.kind = [kind::GENERATE, kind::AWAIT][random.below(2)];
        leaf.s = random.byte();
        *field(random, leaf) = random.between(0, 2) as u16;
    }
}

/// A link that the file may have, or could have with a second scheduler.
pub(super) fn link(random: &mut Random, frames: &[Frame]) -> Frame {
    let s = random.place(HOME + 1, last_place(frames).max(HOME + 1));
    Frame {
        kind: kind::LINK,
        s,
        a: u16::from(random.place(HOME, s - 1)),
        ..Frame::default()
    }
}

/// Adds one where links stand, if there is none.
fn with_link(random: &mut Random, frames: &mut Vec<Frame>) {
    if !frames.iter().any(|frame| frame.kind == kind::LINK) {
        let link = link(random, frames);
        insert(frames, end_of_part(frames, &link), link);
    }
}

/// A link with an S or an A that the file lacks, an A that is not below S or
/// has a digit too many, or a field that is not 0.
pub(super) fn link_fields(random: &mut Random, frames: &mut Vec<Frame>) {
    with_link(random, frames);
    let beyond = last_place(frames) + 1;
    let Some(link) = of_kind(random, frames, &[kind::LINK]) else {
        return;
    };
    match random.below(7) {
        0 => link.s = [0, PRIVATE, HOME, beyond, PRIVATE + SCHEDULERS + 1, 0xFF][random.below(6)],
        1 => link.a = u16::from([0, PRIVATE, beyond, PRIVATE + SCHEDULERS + 1][random.below(4)]),
        2 => link.a = u16::from(link.s),
        3 => (link.s, link.a) = (link.a as u8, u16::from(link.s)),
        4 => link.a |= [0x0100, 0x1000, 0xFF00][random.below(3)],
        5 => link.b = random.between(1, 3) as u16,
        _ => link.c = random.between(1, 3) as u16,
    }
}

/// A link after a frame that it should precede, or before one that should
/// precede it: an event, a shared cell.
fn link_out_of_order(random: &mut Random, frames: &mut Vec<Frame>) {
    let link = link(random, frames);
    match random.below(4) {
        0 => {
            let after_module = |&at: &usize| frames[at - 1].kind == kind::MODULE;
            let modules: Vec<usize> = (1..=frames.len()).filter(after_module).collect();
            let at = match random.pick(&modules) {
                Some(at) if random.chance(2) => at,
                _ => random.between(after_declarations(frames), frames.len()),
            };
            insert(frames, at, link);
        }
        1 => {
            with_event(frames);
            let at = end_of_part(frames, &event()) - 1;
            insert(frames, at.max(1), link);
        }
        2 => {
            with_link(random, frames);
            insert(frames, end_of_part(frames, &link), event());
        }
        _ => {
            with_link(random, frames);
            insert(frames, end_of_part(frames, &link), shared_cell());
        }
    }
}

/// One change to the links.
pub(super) fn links(random: &mut Random, frames: &mut Vec<Frame>) {
    match random.chance(2) {
        true => link_fields(random, frames),
        false => link_out_of_order(random, frames),
    }
}

/// Takes out a link: what was in step by it may be no more.
pub(super) fn without_a_link(random: &mut Random, frames: &mut Vec<Frame>) {
    let is_link = |&f: &usize| frames[f].kind == kind::LINK;
    let links: Vec<usize> = (0..frames.len()).filter(is_link).collect();
    if let Some(at) = random.pick(&links) {
        frames.remove(at);
        renumber(frames, |child| child - u16::from(usize::from(child) > at));
    }
}

/// The first kinds that are not there, next to those of links and events.
fn kind_past_those(random: &mut Random, frames: &mut [Frame]) {
    let past = random.chance(2);
    let kinds = match past {
        true => &LEAVES[..],
        false => &[kind::SHARED_CELL, kind::LINK],
    };
    if let Some(frame) = of_kind(random, frames, kinds) {
        frame.kind = if past { 0x1C } else { 0x05 };
    }
}

fn swap_children(frame: &mut Frame) {
    (frame.a, frame.b) = (frame.b, frame.a);
}

/// Changes bytes or the length of a text that has at least one line.
pub fn text(random: &mut Random, text: &mut Vec<u8>) {
    let at = random.below(text.len());
    match random.below(10) {
        0 => text.clear(),
        1 => too_long(random, text),
        2 => text.truncate(at),
        3 => text.truncate(text.len() - 1),
        4 => text.push(b'\n'),
        5 => text.insert(at, b'0'),
        6 => text[at] = random.pick(b"af\r\n \tgG:@/").unwrap_or(0),
        7 => text[at] = random.byte(),
        8 => text[at] = DIGIT_BYTES[random.below(16)],
        _ => drop(text.remove(at)),
    }
}

/// One byte or one line over the limit, or far over it.
fn too_long(random: &mut Random, text: &mut Vec<u8>) {
    let length = PROGRAM_LIMIT + [0, 1, LINE, 40_000][random.below(4)];
    let line = text[..LINE].to_vec();
    while text.len() < length {
        text.extend_from_slice(&line);
    }
    text.truncate(length);
}
