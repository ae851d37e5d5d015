//! Files whose threads start others over several levels, with work of any
//! length: the members of a family end in every order, and those far below
//! the awaited thread hold up its wait (document 02, change 3).

use super::lines::Lines;
use super::links;
use super::random::Random;
use crate::frame::{kind, Frame};
use crate::place::{HOME, PRIVATE};

/// Modules on 3 to 6 levels, each of which starts one of the level below it.
/// `main` waits for some of the uppermost.
pub fn levels(random: &mut Random) -> Vec<Frame> {
    let mut families = Families::new(random);
    let mut below: Vec<u8> = Vec::new();
    for _ in 0..families.random.between(3, 6) {
        let modules = families.random.between(1, 2);
        let level = (0..modules).map(|_| families.member(&below)).collect();
        below = level;
    }
    families.main(&below);
    families.lines.0
}

/// One chain of starters, at times past the 64th thread: modules that start
/// each other in a ring and count. The check refuses them with 8.
pub fn chain(random: &mut Random) -> Vec<Frame> {
    let length = match random.chance(2) {
        true => random.between(5, 20),
        false => random.between(56, 64),
    };
    let ring = random.between(1, 3) as u8;
    let mut families = Families::new(random);
    families.parameters = 1;
    for number in 0..ring {
        families.link((number + 1) % ring, length as u16);
    }
    families.parameters = 0;
    let zero = families.lines.leaf(kind::NUMBER, 0);
    let wait = families.lines.add(kind::START_AND_WAIT, 0, [zero, 0, 0]);
    let rest = families.work();
    families.module([wait, rest]);
    families.lines.0
}

struct Families<'r> {
    random: &'r mut Random,
    lines: Lines,
    last_place: u8,
    /// Owners of the shared cells, which hold numbers.
    owners: Vec<u8>,
    /// Owners of the events; most files have none.
    events: Vec<u8>,
    modules: u8,
    /// Of the module in the making: none, or a number.
    parameters: u8,
}

impl<'r> Families<'r> {
    fn new(random: &'r mut Random) -> Families<'r> {
        let schedulers = random.between(1, 4) as u8;
        let mut families = Families {
            lines: Lines::new(0, schedulers),
            last_place: PRIVATE + schedulers,
            owners: Vec::new(),
            events: Vec::new(),
            modules: 0,
            parameters: 0,
            random,
        };
        for _ in 0..families.random.below(3) {
            let owner = families.scheduler();
            families.lines.add(kind::SHARED_CELL, owner, [1, 0, 0]);
            families.owners.push(owner);
        }
        if families.random.chance(5) {
            for _ in 0..families.random.between(1, 3) {
                let owner = families.scheduler();
                families.lines.event(owner);
                families.events.push(owner);
            }
        }
        if families.random.chance(8) {
            links::declare(families.random, &mut families.lines, families.last_place);
        }
        families
    }

    fn scheduler(&mut self) -> u8 {
        self.random.place(HOME, self.last_place)
    }

    /// Closes a module whose body is two statements; hands back its number.
    fn module(&mut self, body: [u16; 2]) -> u8 {
        let body = self.sequence(body);
        let parameter = u16::from(self.parameters);
        let fields = [body, parameter, 0];
        self.lines.add(kind::MODULE, self.parameters, fields);
        self.modules += 1;
        self.modules - 1
    }

    fn sequence(&mut self, [a, b]: [u16; 2]) -> u16 {
        self.lines.add(kind::SEQUENCE, 0, [a, b, 0])
    }

    /// Works, starts one of the level below and some of all below it, works.
    fn member(&mut self, level_below: &[u8]) -> u8 {
        let mut body = self.work();
        if let Some(module) = self.random.pick(level_below) {
            let kind = self.kind_of_start();
            body = self.and_start(body, kind, module);
        }
        for _ in 0..self.random.below(6).saturating_sub(4) {
            body = self.and_start_some(body);
        }
        if self.random.chance(3) {
            let work = self.work();
            body = self.sequence([body, work]);
        }
        let rest = self.work();
        self.module([body, rest])
    }

    /// Its waits are for the uppermost level; others that it starts are of no
    /// awaited family.
    fn main(&mut self, uppermost: &[u8]) -> u8 {
        let mut body = self.work();
        if self.random.chance(2) {
            body = self.and_start_some(body);
        }
        for _ in 0..self.random.between(1, 2) {
            if let Some(module) = self.random.pick(uppermost) {
                body = self.and_start(body, kind::START_AND_WAIT, module);
            }
        }
        let rest = self.work();
        self.module([body, rest])
    }

    /// Starts the next of the ring with a number one higher, up to `length`.
    /// At times it stores in a cell of home wherever it is: the check knows no
    /// effect of a module that is not below, so only refusal 8 stops that.
    fn link(&mut self, next: u8, length: u16) {
        let number = self.lines.leaf(kind::VARIABLE, 0);
        let bound = self.lines.add(kind::NUMBER, 0, [length, 0, 0]);
        let condition = self.lines.add(kind::LESS, 0, [number, bound, 0]);
        let number = self.lines.leaf(kind::VARIABLE, 0);
        let one = self.lines.add(kind::NUMBER, 0, [1, 0, 0]);
        let sum = self.lines.add(kind::SUM, 0, [number, one, 0]);
        let kind = self.kind_of_start();
        let start = self.lines.add(kind, next, [sum, 0, 0]);
        let start = self.here_or_elsewhere(start);
        let nothing = self.lines.leaf(kind::NOTHING, 0);
        let link = self.lines.add(kind::IF, 0, [condition, start, nothing]);
        let home = self.owners.iter().position(|&owner| owner == HOME);
        let rest = match home {
            Some(number) if self.random.chance(6) => self.store(number),
            _ => self.work(),
        };
        self.module([link, rest]);
    }

    /// Mostly no wait: a starter that waits outlives those it started.
    fn kind_of_start(&mut self) -> u8 {
        match self.random.chance(4) {
            true => kind::START_AND_WAIT,
            false => kind::START,
        }
    }

    fn and_start(&mut self, body: u16, kind: u8, module: u8) -> u16 {
        let start = self.lines.leaf(kind, module);
        let start = self.here_or_elsewhere(start);
        self.sequence([body, start])
    }

    /// Any module so far, if there is one.
    fn and_start_some(&mut self, body: u16) -> u16 {
        let modules: Vec<u8> = (0..self.modules).collect();
        match self.random.pick(&modules) {
            Some(module) => {
                let kind = self.kind_of_start();
                self.and_start(body, kind, module)
            }
            None => body,
        }
    }

    fn here_or_elsewhere(&mut self, statement: u16) -> u16 {
        match self.random.chance(3) {
            true => {
                let place = self.scheduler();
                self.lines.add(kind::AT_PLACE, place, [statement, 0, 0])
            }
            false => statement,
        }
    }

    /// Takes a while, seldom for ever, and starts nothing.
    fn work(&mut self) -> u16 {
        if !self.events.is_empty() && self.random.chance(4) {
            return self.event_use();
        }
        match self.random.below(120) {
            0 => self.lines.forever(|lines| lines.leaf(kind::NOTHING, 0)),
            1..=34 => self.lines.leaf(kind::NOTHING, 0),
            35..=59 => {
                let cooperates = self.row(kind::COOPERATE, 4);
                self.here_or_elsewhere(cooperates)
            }
            60..=84 => self.unlinked(),
            85..=99 => self.write(),
            _ => {
                let count = self.count();
                self.here_or_elsewhere(count)
            }
        }
    }

    /// Generates or awaits an event, at its owner. What nobody generates keeps
    /// a family alive, so most generate.
    fn event_use(&mut self) -> u16 {
        let number = self.random.below(self.events.len());
        let kind = match self.random.chance(3) {
            true => kind::AWAIT,
            false => kind::GENERATE,
        };
        let event_use = self.lines.leaf(kind, number as u8);
        let owner = self.events[number];
        self.lines.add(kind::AT_PLACE, owner, [event_use, 0, 0])
    }

    /// Some leaves of one kind, one after the other.
    fn row(&mut self, leaf: u8, most: usize) -> u16 {
        let count = self.random.between(1, most);
        let leaf = &mut |lines: &mut Lines| lines.leaf(leaf, 0);
        self.lines.tree(kind::SEQUENCE, count, leaf)
    }

    /// An unlinked stretch, at times with a stop at a scheduler.
    fn unlinked(&mut self) -> u16 {
        let mut body = self.row(kind::NOTHING, 8);
        if self.random.chance(3) {
            let stop = self.row(kind::COOPERATE, 3);
            let place = self.scheduler();
            let stop = self.lines.add(kind::AT_PLACE, place, [stop, 0, 0]);
            body = self.sequence([body, stop]);
        }
        self.lines.add(kind::AT_PLACE, PRIVATE, [body, 0, 0])
    }

    /// Stores in a shared cell, at its owner.
    fn write(&mut self) -> u16 {
        let cells: Vec<usize> = (0..self.owners.len()).collect();
        let Some(number) = self.random.pick(&cells) else {
            return self.lines.leaf(kind::COOPERATE, 0);
        };
        let store = self.store(number);
        let owner = self.owners[number];
        self.lines.add(kind::AT_PLACE, owner, [store, 0, 0])
    }

    fn store(&mut self, number: usize) -> u16 {
        let cell = self.lines.leaf(kind::SHARED, number as u8);
        let value = self.lines.leaf(kind::NUMBER, 0);
        self.lines.add(kind::STORE, 0, [cell, value, 0])
    }

    /// Counts in a private cell, an instant for each number.
    fn count(&mut self) -> u16 {
        let turns = self.random.between(2, 12) as u16;
        let variable = self.parameters;
        let lines = &mut self.lines;
        let [cell, condition] = lines.counter(variable, turns);
        let count = lines.turn(condition, |lines| lines.count_up(kind::VARIABLE, variable));
        lines.add(kind::LET, 0, [cell, count, 0])
    }
}

#[cfg(test)]
mod tests {
    use super::*;
    use crate::layout::Program;
    use crate::rules;

    fn verdict(frames: Vec<Frame>) -> u8 {
        let verdict = Program::new(frames).map(|program| rules::check(&program));
        verdict.unwrap_or_else(|unreadable| unreadable).number
    }

    /// So the levels' runs count among those of accepted files.
    #[test]
    fn levels_are_accepted_and_chains_are_not() {
        for index in 0..5_000 {
            let random = &mut Random::of_case(3, index);
            assert_eq!(verdict(levels(random)), 0);
            assert_eq!(verdict(chain(random)), 8);
        }
    }
}
