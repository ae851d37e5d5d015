//! Type-directed building of files that the check accepts, or that break a
//! rule on purpose.
//!
//! Frames are added in file order, children first, so whether a construct is
//! possible is decided before its first frame is added.

use super::lines::Lines;
use super::links;
use super::plan::{Plan, Slip};
use super::random::Random;
use crate::effect::Effect;
use crate::frame::{kind, Frame};
use crate::group::Groups;
use crate::place::{HOME, PRIVATE};
use crate::rules::Rule;
use crate::types::Type;

/// The frames of a file built by some plan.
pub fn frames(random: &mut Random, plan: fn(&mut Random) -> Plan) -> Vec<Frame> {
    let plan = plan(random);
    let mut builder = Builder {
        lines: Lines::new(allowance(random), plan.schedulers),
        last_place: PRIVATE + plan.schedulers,
        random,
        shared: Vec::new(),
        events: Vec::new(),
        groups: Groups::new(&[]),
        modules: Vec::new(),
        scope: Vec::new(),
        size: 0,
        chain: plan.chain,
        slips: plan.slips,
    };
    for _ in 0..plan.shared_cells {
        builder.shared_cell();
    }
    for _ in 0..plan.events {
        builder.event();
    }
    if plan.linked {
        builder.groups = links::declare(builder.random, &mut builder.lines, builder.last_place);
    }
    for number in 0..=plan.modules {
        builder.size = plan.size * (number + 1) / (plan.modules + 1);
        builder.module(plan.depth, number == plan.modules);
    }
    builder.lines.0
}

/// Mostly 0, as it outlasts every list of choices that a file can hold.
fn allowance(random: &mut Random) -> u16 {
    match random.below(12) {
        0 => random.between(1, 20) as u16,
        1 => random.word(),
        _ => 0,
    }
}

pub(super) struct Signature {
    pub(super) parameters: Vec<Type>,
    /// The effect on cells lies within this one.
    pub(super) effect: Effect,
    /// And that on events within this one.
    pub(super) events: Effect,
}

/// Where a frame stands and what is asked of it.
#[derive(Clone, Copy)]
pub(super) struct Site {
    /// Its effect on cells must lie within this one.
    pub(super) allowed: Effect,
    /// And that on events within this one.
    pub(super) events: Effect,
    pub(super) unlinked: bool,
    /// Levels left, its own included.
    pub(super) room: u16,
    /// It must not end at once.
    pub(super) waits: bool,
}

impl Site {
    /// The site one level deeper, if there is room.
    pub(super) fn below(self) -> Option<Site> {
        let room = self.room - 1;
        let needed = if self.waits && self.unlinked { 2 } else { 1 };
        (room >= needed).then_some(Site { room, ..self })
    }

    pub(super) fn waiting(self, waits: bool) -> Site {
        Site { waits, ..self }
    }
}

pub(super) struct Builder<'r> {
    pub(super) random: &'r mut Random,
    pub(super) lines: Lines,
    pub(super) last_place: u8,
    /// Types of the shared cells, their own cell included.
    pub(super) shared: Vec<Type>,
    /// Owners of the events.
    pub(super) events: Vec<u8>,
    pub(super) groups: Groups,
    pub(super) modules: Vec<Signature>,
    pub(super) scope: Vec<Type>,
    /// Frames after which only leaves are added.
    pub(super) size: usize,
    pub(super) chain: bool,
    pub(super) slips: Vec<Slip>,
}

impl Builder<'_> {
    pub(super) fn slips(&mut self, slip: impl Into<Slip>) -> bool {
        self.slips.contains(&slip.into()) && !self.random.chance(3)
    }

    pub(super) fn scheduler(&mut self) -> u8 {
        self.random.place(HOME, self.last_place)
    }

    pub(super) fn everywhere(&self) -> Effect {
        (HOME..=self.last_place)
            .map(Effect::of)
            .fold(Effect::EMPTY, Effect::joined)
    }

    /// Every owner that the effect covers; private cells always.
    pub(super) fn owner_within(&mut self, allowed: Effect) -> u8 {
        let owner = self.random.place(PRIVATE, self.last_place);
        if allowed.covers(owner) {
            return owner;
        }
        let covered: Vec<u8> = (PRIVATE..=self.last_place)
            .filter(|&owner| allowed.covers(owner))
            .collect();
        self.random.pick(&covered).unwrap_or(PRIVATE)
    }

    fn shared_cell(&mut self) {
        let owner = self.scheduler();
        let earlier = self.earlier_shared_cell();
        let (content, first) = match (self.random.below(10), earlier) {
            (0..=3, Some(number)) => (self.shared[number], number as u16),
            (4..=5, _) => (Type::TRUTH, self.random.below(2) as u16),
            _ => (Type::NUMBER, self.some_number()),
        };
        self.lines
            .add(kind::SHARED_CELL, owner, [content.0, first, 0]);
        self.shared.extend(content.around(owner));
    }

    fn event(&mut self) {
        let owner = self.scheduler();
        self.lines.event(owner);
        self.events.push(owner);
    }

    /// One that may stand in another shared cell.
    fn earlier_shared_cell(&mut self) -> Option<usize> {
        let depth = match self.slips(Slip::SharedCellDepth) {
            true => 3,
            false => 2,
        };
        let fitting: Vec<usize> = (0..self.shared.len())
            .filter(|&number| self.shared[number].cells() <= depth)
            .collect();
        self.random.pick(&fitting)
    }

    pub(super) fn some_number(&mut self) -> u16 {
        match self.random.below(8) {
            0 => self.random.word(),
            1 => 0xFFFF,
            _ => self.random.below(4) as u16,
        }
    }

    fn module(&mut self, depth: u16, is_main: bool) {
        let [allowed, events] = self.module_effects(is_main);
        let count = if is_main { 0 } else { self.random.below(3) };
        let parameters: Vec<Type> = (0..count).map(|_| self.parameter()).collect();
        self.scope.clone_from(&parameters);
        let body = self.statement(Site {
            allowed,
            events,
            unlinked: false,
            room: depth,
            waits: false,
        });
        let word = |number: usize| parameters.get(number).map_or(0, |type_| type_.0);
        self.lines
            .add(kind::MODULE, count as u8, [body, word(0), word(1)]);
        self.modules.push(Signature {
            parameters,
            effect: allowed,
            events,
        });
    }

    /// Those on cells and on events, mostly alike: a module other than `main`
    /// is free, but one with cells of two schedulers cannot be started from an
    /// accepted `main`.
    fn module_effects(&mut self, is_main: bool) -> [Effect; 2] {
        if is_main {
            return self.effects_at(HOME, [Rule::MainEffect, Rule::MainEvents]);
        }
        let allowed = self.module_effect();
        let events = match self.random.chance(8) {
            true => self.module_effect(),
            false => allowed,
        };
        [allowed, self.in_step_with(events)]
    }

    /// What may be done to cells and to events at a place, unless it slips.
    pub(super) fn effects_at(&mut self, place: u8, rules: [Rule; 2]) -> [Effect; 2] {
        let group = self.groups.of(place);
        let own = match self.slips(Rule::OwnCells) {
            true => group,
            false => Effect::of(place),
        };
        let [cells, events] = rules.map(|rule| self.slips(rule).then(|| self.everywhere()));
        [cells.unwrap_or(own), events.unwrap_or(group)]
    }

    /// All schedulers of the groups that these are in.
    fn in_step_with(&self, schedulers: Effect) -> Effect {
        let groups = schedulers.schedulers().map(|place| self.groups.of(place));
        groups.fold(Effect::EMPTY, Effect::joined)
    }

    fn module_effect(&mut self) -> Effect {
        match self.random.below(12) {
            0 => self.everywhere(),
            1..=2 => Effect::EMPTY,
            3..=7 => Effect::of(self.scheduler()),
            _ => Effect::of(HOME),
        }
    }

    fn parameter(&mut self) -> Type {
        let everywhere = self.everywhere();
        if self.slips(Rule::PublicArgument) || self.random.chance(12) {
            let content = self.some_type(everywhere);
            return content.around(PRIVATE).unwrap_or(content);
        }
        match self.some_type(everywhere) {
            public if public.is_public() => public,
            _ => Type::NUMBER,
        }
    }

    /// A type that can be made with these owners, or that is at hand.
    pub(super) fn some_type(&mut self, allowed: Effect) -> Type {
        let at_hand = self.types_at_hand();
        match self.random.below(6) {
            0..=1 => Type::NUMBER,
            2 => Type::TRUTH,
            3 => self.random.pick(&at_hand).unwrap_or(Type::NUMBER),
            _ => {
                let content = self.some_type(allowed);
                let owner = match content.is_public() {
                    true => self.owner_within(allowed),
                    false => PRIVATE,
                };
                content.around(owner).unwrap_or(content)
            }
        }
    }

    pub(super) fn types_at_hand(&self) -> Vec<Type> {
        self.scope.iter().chain(&self.shared).copied().collect()
    }
}
