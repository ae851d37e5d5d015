//! Files with a good layout and no regard for the rules: faults of all kinds
//! meet in one frame or one step, which shows the order they are tested in.

use super::lines::Lines;
use super::links;
use super::plan;
use super::random::Random;
use crate::frame::{kind, Frame};
use crate::place::{HOME, PRIVATE};

struct Soup<'r> {
    random: &'r mut Random,
    lines: Lines,
    last_place: u8,
    shared_cells: usize,
    events: usize,
}

/// Modules that each do something at some place, all started by `main`. A
/// thread that is refused holds up its scheduler, so only the last one stays
/// at home, and many go unlinked.
pub fn frames(random: &mut Random) -> Vec<Frame> {
    let schedulers = random.between(2, 3) as u8;
    let mut soup = Soup {
        lines: Lines::new(0, schedulers),
        last_place: PRIVATE + schedulers,
        shared_cells: random.between(1, 4),
        events: plan::some_events(random),
        random,
    };
    for number in 0..soup.shared_cells {
        soup.shared_cell(number);
    }
    for _ in 0..soup.events {
        let owner = soup.random.place(HOME, soup.last_place);
        soup.lines.event(owner);
    }
    if soup.random.chance(4) {
        links::declare(soup.random, &mut soup.lines, soup.last_place);
    }
    let mut counts = Vec::new();
    for _ in 0..soup.random.below(6) {
        let place = soup.away();
        counts.push(soup.module(place));
    }
    counts.push(soup.module(HOME));
    soup.main(&counts);
    soup.lines.0
}

impl Soup<'_> {
    /// A number, a truth, or the first shared cell, which is a number's.
    fn shared_cell(&mut self, number: usize) {
        let owner = self.random.place(HOME, self.last_place);
        let first_owner = u16::from(self.lines.0.get(1).map_or(0, |first| first.s));
        let content = match self.random.below(3) {
            _ if number == 0 => 1,
            0 => 2,
            1 => first_owner << 4 | 1,
            _ => 1,
        };
        self.lines.add(kind::SHARED_CELL, owner, [content, 0, 0]);
    }

    fn away(&mut self) -> u8 {
        match self.random.chance(2) {
            true => PRIVATE,
            false => self.random.place(HOME + 1, self.last_place),
        }
    }

    /// Hands back the count of parameters.
    fn module(&mut self, place: u8) -> usize {
        let count = self.random.below(3);
        let body = self.statement(3);
        let body = self.lines.add(kind::AT_PLACE, place, [body, 0, 0]);
        let word = |number: usize| u16::from(number < count);
        let fields = [body, word(0), word(1)];
        self.lines.add(kind::MODULE, count as u8, fields);
        count
    }

    /// Starts every module with as many arguments as it takes.
    fn main(&mut self, counts: &[usize]) {
        let mut body = self.lines.leaf(kind::NOTHING, 0);
        for (number, &count) in counts.iter().enumerate() {
            let fields = self.arguments(count, 1);
            let start = self.lines.add(kind::START, number as u8, fields);
            body = self.lines.add(kind::SEQUENCE, 0, [body, start, 0]);
        }
        self.lines.module(body);
    }

    fn arguments(&mut self, count: usize, depth: usize) -> [u16; 3] {
        let mut fields = [0; 3];
        for field in &mut fields[..count] {
            *field = self.expression(depth);
        }
        fields
    }

    fn statement(&mut self, depth: usize) -> u16 {
        if depth <= 1 {
            let kinds = [kind::NOTHING, kind::COOPERATE];
            return self.lines.leaf(kinds[self.random.below(2)], 0);
        }
        let below = depth - 1;
        match self.random.below(15) {
            0 => self.lines.leaf(kind::COOPERATE, 0),
            1 => {
                let fields = [self.statement(below), self.statement(below), 0];
                self.lines.add(kind::SEQUENCE, 0, fields)
            }
            2 => {
                let body = self.statement(below);
                let place = self.random.place(PRIVATE, self.last_place);
                self.lines.add(kind::AT_PLACE, place, [body, 0, 0])
            }
            3..=5 => {
                let count = self.random.below(3);
                let fields = self.arguments(count, depth);
                let kinds = [kind::START, kind::START_AND_WAIT];
                let module = self.random.below(8) as u8;
                self.lines.add(kinds[self.random.below(2)], module, fields)
            }
            6..=8 => {
                let fields = [self.expression(depth), self.statement(below), 0];
                self.lines.add(kind::LET, 0, fields)
            }
            9..=10 => {
                let fields = self.arguments(2, depth);
                self.lines.add(kind::STORE, 0, fields)
            }
            11 => {
                let a = self.expression(depth);
                let fields = [a, self.statement(below), self.statement(below)];
                self.lines.add(kind::IF, 0, fields)
            }
            12..=13 => self.event_use(),
            _ => {
                let fields = [self.expression(depth), self.statement(below), 0];
                self.lines.add(kind::WHILE, 0, fields)
            }
        }
    }

    /// Of any event, seldom of one that is not there.
    fn event_use(&mut self) -> u16 {
        let kind = [kind::GENERATE, kind::AWAIT][self.random.below(2)];
        let event = match self.events == 0 || self.random.chance(10) {
            true => self.events,
            false => self.random.below(self.events),
        };
        self.lines.leaf(kind, event as u8)
    }

    fn expression(&mut self, depth: usize) -> u16 {
        if depth <= 1 {
            return self.leaf();
        }
        let (kind, count) = match self.random.below(8) {
            0 => return self.leaf(),
            1 => (kind::NEW_CELL, 1),
            2 => (kind::CONTENT, 1),
            3..=4 => (kind::CHOOSE, 3),
            5 => (kind::LESS, 2),
            _ => (kind::SUM, 2),
        };
        let fields = self.arguments(count, depth - 1);
        let owner = match kind {
            kind::NEW_CELL => self.random.place(PRIVATE, self.last_place),
            _ => 0,
        };
        self.lines.add(kind, owner, fields)
    }

    /// A constant, a variable, a shared cell or its content; seldom one that
    /// is not there, so that faults of other kinds are reached.
    fn leaf(&mut self) -> u16 {
        let shared = match self.random.chance(10) {
            true => self.shared_cells,
            false => self.random.below(self.shared_cells),
        };
        match self.random.below(10) {
            0..=2 => {
                let number = self.random.below(3) as u16;
                self.lines.add(kind::NUMBER, 0, [number, 0, 0])
            }
            3..=4 => {
                let truth = self.random.below(2) as u8;
                self.lines.leaf(kind::TRUTH, truth)
            }
            5 => {
                let variable = self.random.below(2) as u8;
                self.lines.leaf(kind::VARIABLE, variable)
            }
            6 => self.lines.leaf(kind::SHARED, shared as u8),
            _ => self.lines.content(kind::SHARED, shared as u8),
        }
    }
}
