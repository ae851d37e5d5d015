//! Files whose threads generate and await events, alone or in a crowd, while
//! they also move, wait, cooperate and run unlinked (document 02, change 5), in
//! files with schedulers in step too (change 7).

use super::lines::Lines;
use super::random::Random;
use super::{links, mutate};
use crate::frame::{kind, Frame};
use crate::group::Groups;
use crate::layout::DECLARATIONS;
use crate::place::{HOME, PRIVATE};
use crate::state::THREADS;

/// Kinds that use an event.
const USES: [u8; 2] = [kind::GENERATE, kind::AWAIT];

/// Modules that each use some events, all started by `main`. If `linked`, some
/// schedulers are in step.
pub fn exchange(random: &mut Random, linked: bool) -> Vec<Frame> {
    let mut events = Events::new(random, linked);
    events.modules();
    let body = events.main();
    events.lines.module(body);
    events.lines.0
}

/// The same with one statement that no rule allows, or without a link that some
/// statement needs, mostly.
pub fn faulty(random: &mut Random, linked: bool) -> Vec<Frame> {
    if linked && random.chance(3) {
        let mut frames = exchange(random, linked);
        mutate::without_a_link(random, &mut frames);
        return frames;
    }
    let mut events = Events::new(random, linked);
    events.modules();
    let fault = events.fault(HOME);
    if events.random.chance(2) {
        events.module(HOME, fault);
        let body = events.main();
        events.lines.module(body);
    } else {
        let rest = events.main();
        let body = events.lines.add(kind::SEQUENCE, 0, [fault, rest, 0]);
        events.lines.module(body);
    }
    events.lines.0
}

/// Up to 63 threads that await events of one scheduler, or of two, which
/// `main` then generates. If `linked`, they are on several that are in step.
pub fn crowd(random: &mut Random, linked: bool) -> Vec<Frame> {
    let schedulers = match linked {
        true => random.weighted(&LINKED_SCHEDULERS),
        false => random.between(1, 2) as u8,
    };
    let mut events = Events::empty(random, schedulers);
    events.declare(1, 4);
    events.link(linked);
    let modules = if linked { [2, 6] } else { [1, 4] };
    for _ in 0..events.random.between(modules[0], modules[1]) {
        let home = match events.random.chance(4) {
            true => events.scheduler(),
            false => events.partner(HOME),
        };
        let body = events.member(home);
        events.module(home, body);
    }
    let starts = match events.random.chance(3) {
        true => events.random.between(2, 30),
        false => events.random.between(50, THREADS - 1),
    };
    let crowd = match linked {
        true => events.start_in_parts(starts),
        false => events.row(starts, Events::start_without_wait),
    };
    let count = events.random.between(3, 8);
    let signals = events.row(count, Events::signal);
    let body = events.lines.add(kind::SEQUENCE, 0, [crowd, signals, 0]);
    events.lines.module(body);
    events.lines.0
}

/// How many schedulers a file with links has.
const LINKED_SCHEDULERS: [(usize, u8); 5] = [(4, 2), (4, 3), (2, 4), (2, 5), (3, 8)];

struct Events<'r> {
    random: &'r mut Random,
    lines: Lines,
    last_place: u8,
    /// Owners of the shared cells, which hold numbers.
    cells: Vec<u8>,
    /// Owners of the events.
    owners: Vec<u8>,
    has_links: bool,
    groups: Groups,
    /// Where each module is started, so that it needs no move to use the
    /// events of that place.
    homes: Vec<u8>,
    /// The first so many modules generate an event again and again, for ever.
    tickers: usize,
    /// In scope.
    variables: u8,
    /// The kind of use that the module in the making prefers, so that some
    /// threads mostly await what others mostly generate.
    preferred: u8,
}

impl<'r> Events<'r> {
    fn empty(random: &'r mut Random, schedulers: u8) -> Events<'r> {
        Events {
            lines: Lines::new(0, schedulers),
            last_place: PRIVATE + schedulers,
            cells: Vec::new(),
            owners: Vec::new(),
            has_links: false,
            groups: Groups::new(&[]),
            homes: Vec::new(),
            tickers: 0,
            variables: 0,
            preferred: kind::AWAIT,
            random,
        }
    }

    fn new(random: &'r mut Random, linked: bool) -> Events<'r> {
        let schedulers = match random.chance(8) {
            _ if linked => random.weighted(&LINKED_SCHEDULERS),
            true => random.between(1, 8) as u8,
            false => random.between(1, 3) as u8,
        };
        let mut events = Events::empty(random, schedulers);
        let most_cells = events.random.below(3);
        for _ in 0..most_cells.max(usize::from(linked)) {
            let owner = events.scheduler();
            events.lines.add(kind::SHARED_CELL, owner, [1, 0, 0]);
            events.cells.push(owner);
        }
        // With few events generations meet awaits.
        let most = events.random.weighted(&[(1, DECLARATIONS), (2, 4), (5, 2)]);
        events.declare(1, most);
        events.link(linked);
        events
    }

    /// Puts some schedulers in step, if there are several.
    fn link(&mut self, linked: bool) {
        self.has_links = linked;
        if linked {
            self.groups = links::declare(self.random, &mut self.lines, self.last_place);
        }
    }

    fn declare(&mut self, least: usize, most: usize) {
        for _ in 0..self.random.between(least, most) {
            let owner = self.scheduler();
            self.lines.event(owner);
            self.owners.push(owner);
        }
    }

    fn scheduler(&mut self) -> u8 {
        self.random.place(HOME, self.last_place)
    }

    /// Each event but some gets a module that generates it again and again, so
    /// that those that await it come to go on.
    fn tickers(&mut self) {
        for number in 0..self.owners.len() {
            if self.homes.len() < DECLARATIONS / 2 && !self.random.chance(4) {
                self.ticker(number as u8);
            }
        }
        self.tickers = self.homes.len();
    }

    /// Comes from elsewhere each time, mostly: then it is after those that
    /// await, and wakes them.
    fn ticker(&mut self, number: u8) {
        let owner = self.owners[usize::from(number)];
        let home = match self.random.chance(3) {
            true => owner,
            false => self.scheduler(),
        };
        let condition = self.lines.leaf(kind::TRUTH, 1);
        let body = self.turn(condition, |events| {
            let before = match events.random.below(3) {
                0 => events.pause(),
                1 => events.cooperates(),
                _ => events.unlinked(0),
            };
            let event = events.lines.leaf(kind::GENERATE, number);
            let place = events.place_for(home, owner);
            let event = events.at(home, place, event);
            events.lines.add(kind::SEQUENCE, 0, [before, event, 0])
        });
        self.module(home, body);
    }

    fn modules(&mut self) {
        self.tickers();
        for number in 0..self.random.between(1, 6) {
            self.preferred = USES[(number + 1) % 2];
            let home = match self.random.chance(2) {
                true => self.owners[self.random.below(self.owners.len())],
                false => self.scheduler(),
            };
            let body = match self.random.chance(2) {
                true => self.counted(|events| events.event_use(home, events.preferred)),
                false => {
                    let count = self.random.between(1, 4);
                    self.row(count, |events| events.statement(home, 2))
                }
            };
            self.module(home, body);
        }
    }

    fn module(&mut self, home: u8, body: u16) {
        self.lines.module(body);
        self.homes.push(home);
    }

    /// Starts the modules that generate and, before or after them, others, which
    /// come after or before them in each instant then.
    fn main(&mut self) -> u16 {
        let parts: [fn(&mut Self) -> u16; 2] = match self.random.chance(3) {
            true => [Events::start_tickers, Events::start_some],
            false => [Events::start_some, Events::start_tickers],
        };
        let [a, b] = parts.map(|part| part(self));
        self.lines.add(kind::SEQUENCE, 0, [a, b, 0])
    }

    fn start_tickers(&mut self) -> u16 {
        let mut body = self.lines.leaf(kind::NOTHING, 0);
        for number in 0..self.tickers {
            let start = self.lines.leaf(kind::START, number as u8);
            let start = self.at(HOME, self.homes[number], start);
            body = self.lines.add(kind::SEQUENCE, 0, [body, start, 0]);
        }
        body
    }

    /// Most of them without a wait, and does something between.
    fn start_some(&mut self) -> u16 {
        let count = self.random.between(2, 8);
        self.row(count, |events| match events.random.below(16) {
            0 => events.statement(HOME, 2),
            1 => events.start(HOME, kind::START_AND_WAIT),
            2..=3 => events.cooperates(),
            _ => events.start(HOME, kind::START),
        })
    }

    /// Some statements, one after the other, as a tree of little depth.
    fn row(&mut self, count: usize, statement: impl Fn(&mut Self) -> u16 + Copy) -> u16 {
        if count <= 1 {
            return statement(self);
        }
        let a = self.row(count / 2, statement);
        let b = self.row(count - count / 2, statement);
        self.lines.add(kind::SEQUENCE, 0, [a, b, 0])
    }

    /// A statement for a thread that stands at `here`, a scheduler.
    fn statement(&mut self, here: u8, depth: usize) -> u16 {
        match self.random.below(24) {
            0..=8 => self.event_use(here, self.preferred),
            9..=10 => self.event_use(here, kind::AWAIT),
            11 => self.event_use(here, kind::GENERATE),
            12..=13 => self.cooperates(),
            14 => self.start(here, kind::START),
            15 => self.start(here, kind::START_AND_WAIT),
            16 => self.store(here),
            _ if depth == 0 => self.lines.leaf(kind::NOTHING, 0),
            17 => self.unlinked(depth - 1),
            18 => {
                let place = self.scheduler();
                let count = self.random.between(1, 3);
                let body = self.row(count, |events| events.statement(place, depth - 1));
                self.at(here, place, body)
            }
            19..=20 => self.counted(|events| events.statement(here, depth - 1)),
            21 if self.random.chance(3) => {
                let condition = self.lines.leaf(kind::TRUTH, 1);
                self.turn(condition, |events| events.statement(here, depth - 1))
            }
            22 => self.if_(here, depth - 1),
            _ => {
                let count = self.random.between(2, 3);
                self.row(count, |events| events.statement(here, depth - 1))
            }
        }
    }

    /// At times also where no move is needed.
    fn at(&mut self, here: u8, place: u8, statement: u16) -> u16 {
        match here == place && !self.random.chance(8) {
            true => statement,
            false => self.lines.add(kind::AT_PLACE, place, [statement, 0, 0]),
        }
    }

    /// A place where events of this owner may be used: mostly here, if this is
    /// one, or else any scheduler in step with the owner.
    fn place_for(&mut self, here: u8, owner: u8) -> u8 {
        if self.groups.in_step(here, owner) && !self.random.chance(6) {
            return here;
        }
        self.partner(owner)
    }

    /// A scheduler in step with this one, or itself.
    fn partner(&mut self, place: u8) -> u8 {
        let members: Vec<u8> = self.groups.of(place).schedulers().collect();
        self.random.pick(&members).unwrap_or(place)
    }

    /// Nothing for some steps, where partners may come to their awaits
    /// meanwhile.
    fn pause(&mut self) -> u16 {
        let count = match self.has_links {
            true => self.random.between(1, 16),
            false => 1,
        };
        self.row(count, |events| events.lines.leaf(kind::NOTHING, 0))
    }

    /// Of one of the events of this place's group, if it has any, or of any.
    fn event_use(&mut self, here: u8, kind: u8) -> u16 {
        let own: Vec<usize> = (0..self.owners.len())
            .filter(|&number| self.groups.in_step(here, self.owners[number]))
            .collect();
        // The first one more often, so that they meet.
        let number = match own.first() {
            Some(&first) if self.random.chance(2) => first,
            Some(_) if !self.random.chance(4) => own[self.random.below(own.len())],
            _ => self.random.below(self.owners.len()),
        };
        let event_use = self.lines.leaf(kind, number as u8);
        let place = self.place_for(here, self.owners[number]);
        self.at(here, place, event_use)
    }

    fn cooperates(&mut self) -> u16 {
        let count = self.random.between(1, 3);
        self.row(count, |events| events.lines.leaf(kind::COOPERATE, 0))
    }

    /// Some module so far that ends in the end, where it is at home.
    fn start(&mut self, here: u8, kind: u8) -> u16 {
        let modules: Vec<usize> = (self.tickers..self.homes.len()).collect();
        match self.random.pick(&modules) {
            Some(number) => {
                let start = self.lines.leaf(kind, number as u8);
                self.at(here, self.homes[number], start)
            }
            None => self.lines.leaf(kind::COOPERATE, 0),
        }
    }

    fn start_without_wait(&mut self) -> u16 {
        self.start(HOME, kind::START)
    }

    /// About so many starts of all modules, those of each in a row at its home.
    fn start_in_parts(&mut self, starts: usize) -> u16 {
        let modules = self.homes.len();
        let mut body = self.lines.leaf(kind::NOTHING, 0);
        for number in 0..modules {
            let count = (starts / modules).max(1);
            let part = self.row(count, |events| events.lines.leaf(kind::START, number as u8));
            let part = self.at(HOME, self.homes[number], part);
            body = self.lines.add(kind::SEQUENCE, 0, [body, part, 0]);
        }
        body
    }

    /// In a shared cell, at its owner.
    fn store(&mut self, here: u8) -> u16 {
        let cells: Vec<usize> = (0..self.cells.len()).collect();
        let Some(number) = self.random.pick(&cells) else {
            return self.lines.leaf(kind::NOTHING, 0);
        };
        let store = self.store_in(number);
        self.at(here, self.cells[number], store)
    }

    fn store_in(&mut self, number: usize) -> u16 {
        let cell = self.lines.leaf(kind::SHARED, number as u8);
        let value = self.lines.leaf(kind::NUMBER, 0);
        self.lines.add(kind::STORE, 0, [cell, value, 0])
    }

    /// Stores in a cell of a scheduler that is in step with the place, but not
    /// the place. None if there is no such cell.
    fn store_in_partners_cell(&mut self) -> Option<u16> {
        let mut pairs = Vec::new();
        for (number, &owner) in self.cells.iter().enumerate() {
            let partners = self.groups.of(owner).schedulers();
            let others = partners.filter(|&place| place != owner);
            pairs.extend(others.map(|place| (number, place)));
        }
        let (number, place) = self.random.pick(&pairs)?;
        let store = self.store_in(number);
        Some(self.at(HOME, place, store))
    }

    /// A stretch on no scheduler, often with a stop at one.
    fn unlinked(&mut self, depth: usize) -> u16 {
        let count = self.random.between(1, 4);
        let mut body = self.row(count, |events| events.lines.leaf(kind::NOTHING, 0));
        if !self.random.chance(3) {
            let place = self.scheduler();
            let stop = self.statement(place, depth);
            let stop = self.lines.add(kind::AT_PLACE, place, [stop, 0, 0]);
            body = self.lines.add(kind::SEQUENCE, 0, [body, stop, 0]);
        }
        self.lines.add(kind::AT_PLACE, PRIVATE, [body, 0, 0])
    }

    fn if_(&mut self, here: u8, depth: usize) -> u16 {
        let truth = self.random.below(2) as u8;
        let condition = self.lines.leaf(kind::TRUTH, truth);
        let branches = [self.statement(here, depth), self.statement(here, depth)];
        let fields = [condition, branches[0], branches[1]];
        self.lines.add(kind::IF, 0, fields)
    }

    /// While the condition holds, a statement and a cooperate.
    fn turn(&mut self, condition: u16, statement: impl FnOnce(&mut Self) -> u16) -> u16 {
        let statement = statement(self);
        self.lines.turn(condition, |_| statement)
    }

    /// Some turns, counted in a private cell.
    fn counted(&mut self, statement: impl FnOnce(&mut Self) -> u16) -> u16 {
        let turns = self.random.between(2, 9) as u16;
        let variable = self.variables;
        let [cell, condition] = self.lines.counter(variable, turns);
        self.variables += 1;
        let count = self.turn(condition, |events| {
            let statement = statement(events);
            let store = events.lines.count_up(kind::VARIABLE, variable);
            events.lines.add(kind::SEQUENCE, 0, [statement, store, 0])
        });
        self.variables -= 1;
        self.lines.add(kind::LET, 0, [cell, count, 0])
    }

    /// One of a crowd: comes to its await at once or later, and often goes on
    /// to another event.
    fn member(&mut self, home: u8) -> u16 {
        let before = match self.random.chance(3) {
            true => Some(self.cooperates()),
            false => None,
        };
        let mut body = self.event_use(home, kind::AWAIT);
        if let Some(before) = before {
            body = self.lines.add(kind::SEQUENCE, 0, [before, body, 0]);
        }
        let then = match self.random.below(4) {
            0 => return body,
            1 => self.cooperates(),
            2 => self.event_use(home, kind::GENERATE),
            _ => self.event_use(home, kind::AWAIT),
        };
        self.lines.add(kind::SEQUENCE, 0, [body, then, 0])
    }

    /// Some instants later, an event, at times at once again.
    fn signal(&mut self) -> u16 {
        let pause = self.has_links.then(|| self.pause());
        let mut event = self.event_use(HOME, kind::GENERATE);
        if let Some(pause) = pause {
            event = self.lines.add(kind::SEQUENCE, 0, [pause, event, 0]);
        }
        match self.random.chance(4) {
            true => event,
            false => {
                let after = self.cooperates();
                self.lines.add(kind::SEQUENCE, 0, [event, after, 0])
            }
        }
    }

    /// For a thread at `here`, home: an event that is missing or whose owner is
    /// not in step with the place, a loop that awaits and does no more, or a
    /// partner's cell.
    fn fault(&mut self, here: u8) -> u16 {
        if self.random.chance(3) {
            if let Some(store) = self.store_in_partners_cell() {
                return store;
            }
        }
        let kind = USES[self.random.below(2)];
        let count = self.owners.len();
        let number = self.random.below(count);
        let owner = self.owners[number];
        match self.random.below(5) {
            0 => {
                let missing = [count, count + 1, 0xFF][self.random.below(3)];
                self.lines.leaf(kind, missing as u8)
            }
            1 => {
                let event_use = self.lines.leaf(kind, number as u8);
                self.lines.add(kind::AT_PLACE, PRIVATE, [event_use, 0, 0])
            }
            2 => {
                let condition = self.lines.leaf(kind::TRUTH, 1);
                let event_use = self.lines.leaf(kind, number as u8);
                let fields = [condition, event_use, 0];
                let endless = self.lines.add(kind::WHILE, 0, fields);
                self.at(here, owner, endless)
            }
            _ => {
                let event_use = self.lines.leaf(kind, number as u8);
                let others: Vec<u8> = (HOME..=self.last_place)
                    .filter(|&place| !self.groups.in_step(place, owner))
                    .collect();
                // With one group only place 1 is elsewhere.
                let place = self.random.pick(&others).unwrap_or(PRIVATE);
                match place == here {
                    true => event_use,
                    false => self.lines.add(kind::AT_PLACE, place, [event_use, 0, 0]),
                }
            }
        }
    }
}

#[cfg(test)]
mod tests {
    use super::*;
    use crate::layout::Program;
    use crate::rules;
    use crate::text::PROGRAM_LINES;

    fn verdict(frames: Vec<Frame>) -> u8 {
        assert!(frames.len() <= PROGRAM_LINES, "{} frames", frames.len());
        let verdict = Program::new(frames).map(|program| rules::check(&program));
        verdict.unwrap_or_else(|unreadable| unreadable).number
    }

    #[test]
    fn accepted_unless_a_fault_is_built_in() {
        let mut faults = [0; 14];
        for index in 0..10_000 {
            let random = &mut Random::of_case(5, index);
            let linked = index % 2 == 1;
            assert_eq!(verdict(exchange(random, linked)), 0, "index {index}");
            assert_eq!(verdict(crowd(random, linked)), 0, "index {index}");
            faults[usize::from(verdict(faulty(random, linked)))] += 1;
        }
        println!("refused {faults:?}");
        // Another owner's event in a module that nobody starts passes: only
        // `main` is bound to a scheduler. So does a link that nothing needs.
        assert!(faults[8] > 1000 && faults[11] > 2000 && faults[13] > 1000);
        assert_eq!(faults[0] + faults[8] + faults[11] + faults[13], 10_000);
    }
}
