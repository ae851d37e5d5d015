//! Files as an editor keeps them, for the writer of change 2: the frames after
//! the header in any order, whole or damaged.

use super::mutate::{child_mut, insert, renumber};
use super::random::Random;
use super::{build, events, mutate, soup, special, Plan};
use crate::frame::{kind, Frame};
use crate::place::HOME;

/// A file in some order, most often with damage.
pub fn frames(random: &mut Random) -> Vec<Frame> {
    if random.chance(24) {
        return ring(random);
    }
    let frames = base(random);
    let mut frames = match random.below(8) {
        0 => frames,
        1 => shuffled(random, &frames, false),
        _ => shuffled(random, &frames, true),
    };
    let damages = match random.below(10) {
        0..=2 => 0,
        3..=7 => 1,
        _ => random.between(2, 3),
    };
    for _ in 0..damages {
        damage(random, &mut frames);
    }
    frames
}

/// A file that passes refusals 1 to 7, laid out.
pub fn laid_out(random: &mut Random) -> Vec<Frame> {
    match random.below(30) {
        0 => special::full(random, 1024),
        1..=3 => soup::frames(random),
        4..=5 => chain(random, 24),
        6..=17 => build::frames(random, Plan::small),
        18..=22 => events::exchange(random, true),
        _ => build::frames(random, Plan::random),
    }
}

/// Mostly one that passes; or one that is too long or too deep.
fn base(random: &mut Random) -> Vec<Frame> {
    match random.below(60) {
        0 => special::full_or_over(random),
        1..=4 => build::frames(random, Plan::deep),
        5..=10 => {
            let depth = random.between(23, 27);
            chain(random, depth)
        }
        11..=18 => build::frames(random, Plan::roomy),
        _ => laid_out(random),
    }
}

/// Modules of statements one in the other; the deepest stands at this depth.
fn chain(random: &mut Random, depth: usize) -> Vec<Frame> {
    let mut lines = super::lines::Lines::new(0, 1);
    for _ in 0..random.below(8).saturating_sub(4) {
        lines.event(HOME);
    }
    for deepest in [random.between(1, depth), depth, random.between(1, depth)] {
        let mut body = lines.leaf(kind::NOTHING, 0);
        for _ in 1..deepest {
            body = match random.below(3) {
                0 => {
                    let leaf = lines.leaf(kind::COOPERATE, 0);
                    lines.add(kind::SEQUENCE, 0, [body, leaf, 0])
                }
                _ => lines.add(kind::AT_PLACE, HOME, [body, 0, 0]),
            };
        }
        lines.module(body);
    }
    lines.0
}

/// One circle over all frames after the header, in any order.
fn ring(random: &mut Random) -> Vec<Frame> {
    let count = match random.chance(8) {
        true => 1023,
        false => random.between(1, 40),
    };
    let modules = random.below(3);
    let mut frames = super::lines::Lines::new(0, 1).0;
    let order = permutation(random, count);
    let mut next = vec![0; count + 1];
    for (at, &f) in order.iter().enumerate() {
        next[f] = order[(at + 1) % count] as u16;
    }
    for (f, &child) in next.iter().enumerate().skip(1) {
        let (kind, s) = match f <= modules {
            true => (kind::MODULE, 0),
            false => (kind::AT_PLACE, HOME),
        };
        let a = child;
        let (b, c) = (0, 0);
        frames.push(Frame { kind, s, a, b, c });
    }
    frames
}

/// The numbers 1 to `count` in any order: at times as they are, reversed, or
/// with few changes.
fn permutation(random: &mut Random, count: usize) -> Vec<usize> {
    let mut order: Vec<usize> = (1..=count).collect();
    let swaps = match random.below(8) {
        0 => random.below(4),
        1 => {
            order.reverse();
            random.below(2)
        }
        _ => {
            random.shuffle(&mut order);
            0
        }
    };
    for _ in 0..swaps.min(count) {
        order.swap(random.below(count), random.below(count));
    }
    order
}

/// The frames after the header in another order, children renumbered. If
/// `kept`, modules, shared cells, events and links keep theirs.
pub fn shuffled(random: &mut Random, frames: &[Frame], kept: bool) -> Vec<Frame> {
    let mut order = permutation(random, frames.len() - 1);
    if kept {
        for kind in [kind::SHARED_CELL, kind::MODULE, kind::EVENT, kind::LINK] {
            let is_of_kind = |&f: &usize| frames[f].kind == kind;
            let sorted: Vec<usize> = (1..frames.len()).filter(is_of_kind).collect();
            let places = order.iter_mut().filter(|f| is_of_kind(f));
            for (place, f) in places.zip(sorted) {
                *place = f;
            }
        }
    }
    let mut numbers = vec![0; frames.len()];
    for (at, &f) in order.iter().enumerate() {
        numbers[f] = at as u16 + 1;
    }
    let old = [0].into_iter().chain(order);
    let mut moved: Vec<Frame> = old.map(|f| frames[f]).collect();
    renumber(&mut moved, |child| {
        numbers.get(usize::from(child)).copied().unwrap_or(child)
    });
    moved
}

/// A child field: its frame, and 0 to 2 for A to C.
type Slot = (usize, usize);

fn slots(frames: &[Frame]) -> Vec<Slot> {
    let numbered = frames.iter().enumerate();
    numbered
        .flat_map(|(f, frame)| (0..frame.child_count()).map(move |field| (f, field)))
        .collect()
}

fn child(frames: &[Frame], (f, field): Slot) -> u16 {
    frames[f].fields()[field]
}

fn set_child(frames: &mut [Frame], (f, field): Slot, number: usize) {
    *child_mut(&mut frames[f], field) = number as u16;
}

/// One change, often a fatal one.
fn damage(random: &mut Random, frames: &mut Vec<Frame>) {
    let at = random.between(1, frames.len());
    match random.below(34) {
        0 => insert(frames, at, mutate::leaf(random)),
        1 => remove(frames, at.min(frames.len() - 1)),
        2 => without_modules(random, frames),
        3 => last_module_with_parameter(frames),
        4 => more_shared_cells(random, frames),
        5 => more_modules(random, frames),
        6 => *frames = mutate::frames(random, frames.clone()),
        7 => other_class(random, frames),
        8 => only_declarations(random, frames),
        9..=10 => circle(random, frames),
        11 => more_events(random, frames),
        12 => mutate::event_count(random, frames),
        13 => mutate::event_fields(random, frames),
        14 => mutate::event_use_fields(random, frames),
        15..=18 => mutate::link_fields(random, frames),
        19..=20 => link_anywhere(random, frames),
        _ => {
            if let Some(slot) = random.pick(&slots(frames)) {
                child_field(random, frames, slot);
            }
        }
    }
}

/// Another number in a child field.
fn child_field(random: &mut Random, frames: &mut [Frame], slot: Slot) {
    let count = frames.len();
    let other = random.pick(&slots(frames)).unwrap_or(slot);
    match random.below(14) {
        0 => set_child(frames, slot, 0),
        1 => {
            set_child(frames, slot, 0);
            set_child(frames, other, 0);
        }
        2 => set_child(frames, slot, slot.0),
        3..=4 => {
            let past = [
                count,
                count + 1,
                1024,
                0xFFFF,
                random.between(count, 0xFFFF),
            ];
            set_child(frames, slot, past[random.below(past.len())]);
        }
        5 => set_child(frames, slot, random.below(count)),
        6 => set_child(frames, slot, usize::from(child(frames, other))),
        7 => {
            let within = random.below(frames[slot.0].child_count());
            let number = child(frames, (slot.0, within));
            set_child(frames, slot, usize::from(number));
        }
        8..=9 => {
            let number = declaration(random, frames);
            set_child(frames, slot, number);
            if random.chance(2) {
                set_child(frames, other, number);
            }
        }
        10..=11 => exchange(frames, slot, other),
        _ => {
            let below = slots_below(frames, child(frames, slot));
            let other = random.pick(&below).unwrap_or(other);
            exchange(frames, slot, other);
        }
    }
}

/// A header, shared cell, module, event or link, each about as often.
fn declaration(random: &mut Random, frames: &[Frame]) -> usize {
    let declared: Vec<usize> = (0..frames.len()).filter(|&f| frames[f].kind < 16).collect();
    let kind = random.place(kind::HEADER, kind::LINK);
    let of_kind = |&f: &usize| frames[f].kind == kind;
    let wanted: Vec<usize> = declared.iter().copied().filter(of_kind).collect();
    let any = random.pick(&declared).unwrap_or(0);
    random.pick(&wanted).unwrap_or(any)
}

/// Each frame keeps its number of users. Where one field stands below the
/// other this closes a circle and cuts it off.
fn exchange(frames: &mut [Frame], one: Slot, other: Slot) {
    let (a, b) = (child(frames, one), child(frames, other));
    set_child(frames, one, usize::from(b));
    set_child(frames, other, usize::from(a));
}

/// The child fields of a frame and of all that it leads to.
fn slots_below(frames: &[Frame], top: u16) -> Vec<Slot> {
    let mut reached = vec![usize::from(top)];
    let mut found = Vec::new();
    let mut at = 0;
    while let Some(&f) = reached.get(at) {
        at += 1;
        let Some(frame) = frames.get(f) else {
            continue;
        };
        found.extend((0..frame.child_count()).map(|field| (f, field)));
        for child in frame.children().map(usize::from) {
            if !reached.contains(&child) {
                reached.push(child);
            }
        }
    }
    found
}

/// Some frames that have children, each made a child of the one before.
fn circle(random: &mut Random, frames: &mut [Frame]) {
    let parents: Vec<usize> = (1..frames.len())
        .filter(|&f| frames[f].child_count() > 0)
        .collect();
    if parents.is_empty() {
        return;
    }
    let count = match random.below(5) {
        0 => 1,
        1 => 2,
        2 => 3,
        3 => random.between(1, parents.len()),
        _ => parents.len(),
    };
    let order = permutation(random, parents.len());
    let around: Vec<usize> = order
        .iter()
        .take(count)
        .map(|&at| parents[at - 1])
        .collect();
    for (at, &f) in around.iter().enumerate() {
        let field = random.below(frames[f].child_count());
        set_child(frames, (f, field), around[(at + 1) % around.len()]);
    }
}

/// The numbers after `at` go down by one; its users get what follows it. The
/// header still counts the events.
fn remove(frames: &mut Vec<Frame>, at: usize) {
    if at > 0 {
        let removed = frames.remove(at);
        frames[0].c -= u16::from(removed.kind == kind::EVENT).min(frames[0].c);
        renumber(frames, |child| child - u16::from(usize::from(child) > at));
    }
}

/// Taken out, or made into something else.
fn without_modules(random: &mut Random, frames: &mut Vec<Frame>) {
    let removed = random.chance(2);
    for f in (0..frames.len()).rev() {
        if frames[f].kind == kind::MODULE {
            match removed {
                true => remove(frames, f),
                false => {
                    frames[f].kind = kind::AT_PLACE;
                    (frames[f].s, frames[f].b, frames[f].c) = (HOME, 0, 0);
                }
            }
        }
    }
}

fn last_module_with_parameter(frames: &mut [Frame]) {
    let is_module = |frame: &&mut Frame| frame.kind == kind::MODULE;
    if let Some(module) = frames.iter_mut().rfind(is_module) {
        (module.s, module.b, module.c) = (1, 1, 0);
    }
}

/// 15 to 18 of them in all, at any place.
fn more_shared_cells(random: &mut Random, frames: &mut Vec<Frame>) {
    let wanted = random.between(15, 18);
    while of_kind(frames, kind::SHARED_CELL) < wanted {
        let at = random.between(1, frames.len());
        insert(frames, at, mutate::shared_cell());
    }
}

/// 15 to 18 of them in all, at any place; the header has no more than 16.
fn more_events(random: &mut Random, frames: &mut Vec<Frame>) {
    let wanted = random.between(15, 18);
    while of_kind(frames, kind::EVENT) < wanted {
        let at = random.between(1, frames.len());
        insert(frames, at, mutate::event());
    }
}

/// A good one, wherever it is drawn, seldom as a child; at times the same again.
fn link_anywhere(random: &mut Random, frames: &mut Vec<Frame>) {
    let link = mutate::link(random, frames);
    for _ in 0..random.between(1, 2) {
        let at = random.between(1, frames.len());
        insert(frames, at, link);
        match random.pick(&slots(frames)) {
            Some(slot) if random.chance(8) => set_child(frames, slot, at),
            _ => {}
        }
    }
}

/// 15 to 18 of them in all, at any place, each with its body.
fn more_modules(random: &mut Random, frames: &mut Vec<Frame>) {
    let wanted = random.between(15, 18);
    while of_kind(frames, kind::MODULE) < wanted {
        let (kind, s, b, c) = (kind::NOTHING, 0, 0, 0);
        let at = random.between(1, frames.len());
        insert(
            frames,
            at,
            Frame {
                kind,
                s,
                a: 0,
                b,
                c,
            },
        );
        let module = random.between(1, frames.len());
        let a = (at + usize::from(module <= at)) as u16;
        let kind = kind::MODULE;
        insert(frames, module, Frame { kind, s, a, b, c });
    }
}

fn of_kind(frames: &[Frame], kind: u8) -> usize {
    frames.iter().filter(|frame| frame.kind == kind).count()
}

/// A statement made an expression with as many children, or the other way.
fn other_class(random: &mut Random, frames: &mut [Frame]) {
    let frame = &mut frames[random.below(frames.len())];
    (frame.kind, frame.s) = match frame.kind {
        kind::NOTHING | kind::COOPERATE => (kind::TRUTH, 1),
        kind::TRUTH | kind::VARIABLE | kind::SHARED => (kind::COOPERATE, 0),
        kind::SEQUENCE | kind::STORE | kind::LET => (kind::SUM, 0),
        kind::WHILE => (kind::STORE, 0),
        kind::SUM | kind::LESS => (kind::SEQUENCE, 0),
        kind::AT_PLACE => (kind::NEW_CELL, HOME),
        kind::NEW_CELL | kind::CONTENT => (kind::AT_PLACE, HOME),
        kind::IF => (kind::CHOOSE, 0),
        kind::CHOOSE => (kind::IF, 0),
        other => (other, frame.s),
    };
}

/// The header, shared cells, events and links alone, at times not even those.
fn only_declarations(random: &mut Random, frames: &mut Vec<Frame>) {
    match random.chance(2) {
        true => frames.truncate(1),
        false => frames.retain(mutate::is_declared_first),
    }
    if let (0, Some(header)) = (of_kind(frames, kind::EVENT), frames.first_mut()) {
        header.c = 0;
    }
    if frames.is_empty() {
        frames.push(Frame::default());
    }
}

/// 1,024 lines that are the hardest for a search that begins anew at each
/// frame: 511 frames in a row lead to 512 that all lead to each other, and
/// the lowest of these is the one to name.
pub fn tail_and_knot() -> Vec<Frame> {
    let mut lines = super::lines::Lines::new(0, 1);
    for next in 2..=512 {
        lines.add(kind::AT_PLACE, HOME, [next, 0, 0]);
    }
    for at in 0..512 {
        let child = |step: u16| 512 + (at + step) % 512;
        lines.add(kind::CHOOSE, 0, [child(1), child(1), child(2)]);
    }
    lines.0
}

/// 1,024 lines, one circle over all frames after the header: each is the
/// child of the one 400 lines before it, so that no order is a help.
pub fn one_circle() -> Vec<Frame> {
    let mut lines = super::lines::Lines::new(0, 1);
    for f in 0..1023 {
        lines.add(kind::AT_PLACE, HOME, [1 + (f + 400) % 1023, 0, 0]);
    }
    lines.0
}
