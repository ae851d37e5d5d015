//! Files for the corners that random building rarely reaches: spent cells and
//! threads, nested moves, sums that wrap, allowances that end a long run, and a
//! text of the greatest length.

use super::build;
use super::lines::Lines;
use super::links;
use super::plan::Plan;
use super::random::Random;
use crate::frame::{kind, Frame};
use crate::place::{HOME, PRIVATE};

/// 0, and explicit allowances at 4,096 and 16,384, below the first and past both.
const ALLOWANCES: [u16; 5] = [0, 0x0FFF, 0x1000, 0x4000, 0xFFFF];

impl Lines {
    /// A balanced tree of `count` leaves under nodes of one kind.
    pub(super) fn tree(
        &mut self,
        node: u8,
        count: usize,
        leaf: &mut dyn FnMut(&mut Lines) -> u16,
    ) -> u16 {
        if count <= 1 {
            return leaf(self);
        }
        let a = self.tree(node, count / 2, leaf);
        let b = self.tree(node, count - count / 2, leaf);
        self.add(node, 0, [a, b, 0])
    }

    /// The statement again and again, an instant apart.
    pub(super) fn forever(&mut self, statement: impl FnOnce(&mut Lines) -> u16) -> u16 {
        let condition = self.leaf(kind::TRUTH, 1);
        self.turn(condition, statement)
    }

    /// While the condition holds, the statement and a cooperate.
    pub(super) fn turn(
        &mut self,
        condition: u16,
        statement: impl FnOnce(&mut Lines) -> u16,
    ) -> u16 {
        let statement = statement(self);
        let cooperate = self.leaf(kind::COOPERATE, 0);
        let body = self.add(kind::SEQUENCE, 0, [statement, cooperate, 0]);
        self.add(kind::WHILE, 0, [condition, body, 0])
    }

    fn new_cell(&mut self, owner: u8) -> u16 {
        let number = self.add(kind::NUMBER, 0, [1, 0, 0]);
        self.add(kind::NEW_CELL, owner, [number, 0, 0])
    }

    /// The value in a variable that nothing uses.
    fn bind(&mut self, value: u16) -> u16 {
        let nothing = self.leaf(kind::NOTHING, 0);
        self.add(kind::LET, 0, [value, nothing, 0])
    }

    /// A `main` that starts the last module, then does this at scheduler 3.
    fn with_intruder(mut self, intrude: impl FnOnce(&mut Lines) -> u16) -> Vec<Frame> {
        let modules = self.0.iter().filter(|frame| frame.kind == kind::MODULE);
        let last = modules.count() - 1;
        let start = self.add(kind::START, last as u8, [0; 3]);
        let intrusion = intrude(&mut self);
        let away = self.add(kind::AT_PLACE, HOME + 1, [intrusion, 0, 0]);
        let body = self.add(kind::SEQUENCE, 0, [start, away, 0]);
        self.module(body);
        self.0
    }

    /// A statement of exactly `count` frames.
    fn padding(&mut self, count: usize) -> u16 {
        match count {
            1 => self.leaf(kind::NOTHING, 0),
            2 => {
                let nothing = self.padding(1);
                self.add(kind::AT_PLACE, HOME, [nothing, 0, 0])
            }
            _ => {
                let first = (count - 1) / 2;
                let a = self.padding(first);
                let b = self.padding(count - 1 - first);
                self.add(kind::SEQUENCE, 0, [a, b, 0])
            }
        }
    }
}

/// A loop whose every turn makes some cells, towards the 257th. Now and then
/// a thread elsewhere tries to make a foreign one, before and after the end.
pub fn spend_cells(random: &mut Random) -> Vec<Frame> {
    let mut lines = Lines::new(0, 2);
    let count = random.between(1, 60);
    let body = lines.forever(|lines| {
        let value = lines.tree(kind::SUM, count, &mut |lines| {
            let cell = lines.new_cell(random.place(PRIVATE, HOME));
            lines.add(kind::CONTENT, 0, [cell, 0, 0])
        });
        lines.bind(value)
    });
    lines.module(body);
    if random.chance(2) {
        return lines.0;
    }
    lines.with_intruder(|lines| {
        let cell = lines.new_cell(HOME);
        lines.bind(cell)
    })
}

/// Starts in a loop or in a row, towards the 65th thread. Now and then a
/// thread elsewhere tries to start a module with a wrong argument count.
pub fn spend_threads(random: &mut Random) -> Vec<Frame> {
    let mut lines = Lines::new(0, 2);
    let leaf = [kind::NOTHING, kind::COOPERATE][random.below(2)];
    let inner = lines.leaf(leaf, 0);
    let body = match random.below(3) {
        0 if leaf == kind::NOTHING => lines.add(kind::AT_PLACE, PRIVATE, [inner, 0, 0]),
        _ => inner,
    };
    lines.module(body);
    let start = [kind::START, kind::START_AND_WAIT][random.below(2)];
    let body = if random.chance(2) {
        lines.forever(|lines| lines.leaf(start, 0))
    } else {
        let count = random.between(62, 70);
        lines.tree(kind::SEQUENCE, count, &mut |lines| lines.leaf(start, 0))
    };
    lines.module(body);
    if random.chance(2) {
        return lines.0;
    }
    lines.with_intruder(|lines| {
        let number = lines.leaf(kind::NUMBER, 0);
        lines.add(start, 0, [number, 0, 0])
    })
}

/// Moves within moves around one statement: places, effects and being
/// unlinked meet in few frames.
pub fn nest(random: &mut Random) -> Vec<Frame> {
    let mut lines = Lines::new(0, 2);
    let owner = random.place(HOME, HOME + 1);
    lines.add(kind::SHARED_CELL, owner, [1, 0, 0]);
    let has_event = random.chance(3);
    if has_event {
        lines.event(random.place(HOME, HOME + 1));
    }
    if random.chance(3) {
        links::declare(random, &mut lines, HOME + 1);
    }
    let nothing = lines.leaf(kind::NOTHING, 0);
    lines.module(nothing);
    let mut body = match random.below(6) {
        _ if has_event => {
            let kind = [kind::GENERATE, kind::AWAIT][random.below(2)];
            lines.leaf(kind, 0)
        }
        0 => lines.leaf(kind::NOTHING, 0),
        1 => lines.leaf(kind::COOPERATE, 0),
        2 => lines.leaf(kind::START, 0),
        3 => {
            let number = lines.leaf(kind::NUMBER, 0);
            lines.add(kind::START_AND_WAIT, 0, [number, 0, 0])
        }
        _ => {
            let cell = lines.leaf(kind::SHARED, 0);
            let number = lines.leaf(kind::NUMBER, 0);
            lines.add(kind::STORE, 0, [cell, number, 0])
        }
    };
    for _ in 0..random.between(1, 5) {
        let place = random.place(PRIVATE, HOME + 1);
        body = lines.add(kind::AT_PLACE, place, [body, 0, 0]);
    }
    lines.module(body);
    lines.0
}

/// Doubles a number until it wraps to 0, which ends the loop.
pub fn doubling(random: &mut Random) -> Vec<Frame> {
    let mut lines = Lines::new(0, 1);
    let first = random.between(1, 0xFFFF) as u16;
    lines.add(kind::SHARED_CELL, HOME, [1, first, 0]);
    let zero = lines.leaf(kind::NUMBER, 0);
    let number = lines.content(kind::SHARED, 0);
    let condition = lines.add(kind::LESS, 0, [zero, number, 0]);
    let body = lines.turn(condition, |lines| {
        let cell = lines.leaf(kind::SHARED, 0);
        let sum = lines.tree(kind::SUM, 2, &mut |lines| lines.content(kind::SHARED, 0));
        lines.add(kind::STORE, 0, [cell, sum, 0])
    });
    lines.module(body);
    lines.0
}

/// A thread at home that counts and one at scheduler 3 that only cooperates,
/// both for ever, so that every part of a long list has something to do.
pub fn long_run(random: &mut Random) -> Vec<Frame> {
    let mut lines = Lines::new(ALLOWANCES[random.below(ALLOWANCES.len())], 2);
    lines.add(kind::SHARED_CELL, HOME, [1, 0, 0]);
    let body = lines.forever(|lines| lines.count_up(kind::SHARED, 0));
    lines.module(body);
    lines.with_intruder(|lines| lines.forever(|lines| lines.leaf(kind::NOTHING, 0)))
}

/// A file of 1,024 lines, or just under or over.
pub fn full_or_over(random: &mut Random) -> Vec<Frame> {
    let lines = Lines(build::frames(random, Plan::small));
    let total = random.between(1023, 1026);
    filled(lines, total)
}

/// A file of so many lines.
pub fn full(random: &mut Random, total: usize) -> Vec<Frame> {
    filled(Lines(build::frames(random, Plan::small)), total)
}

/// Up to so many lines, `main` being nothing.
fn filled(mut lines: Lines, total: usize) -> Vec<Frame> {
    let rest = total - lines.0.len() - 3;
    let body = lines.padding(rest);
    lines.module(body);
    let body = lines.leaf(kind::NOTHING, 0);
    lines.module(body);
    lines.0
}
