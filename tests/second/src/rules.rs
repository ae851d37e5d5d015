//! The rules of a file: refusals 8 to 13, first frame first, there the
//! smallest number.
//!
//! One pass backwards hands scopes down from parents to children, one pass
//! forwards hands types and effects up. The forward pass stops at the first
//! bad frame, so whatever a frame needs is known when it is reached.

use crate::effect::{Effect, Effects};
use crate::frame::{kind, Frame};
use crate::layout::Program;
use crate::place::{HOME, PRIVATE};
use crate::types::Type;
use crate::verdict::Verdict;

/// A rule that the generator breaks now and then, and that tests leave out of
/// the check, to see that the property which rests on it then fails.
#[derive(Clone, Copy, PartialEq, Eq, Debug)]
pub(crate) enum Rule {
    /// A start adds the started module's effect on cells.
    StartEffect,
    /// And that on events.
    StartEvents,
    NewCellEffect,
    ContentEffect,
    StoreEffect,
    GenerateEffect,
    AwaitEffect,
    /// No private cell in a public new cell.
    PublicContent,
    PublicArgument,
    /// No start, cooperation or move to place 1 while unlinked.
    WhileUnlinked,
    /// The cells that `main` accesses are home's, and its events those of
    /// home's group.
    MainEffect,
    MainEvents,
    /// The cells accessed at a place are that one's, and the events those of
    /// its group.
    PlaceEffect,
    PlaceEvents,
    /// A group shares its events, but no cells.
    OwnCells,
    StoredType,
    /// Count and types of arguments.
    Arguments,
    LoopBody,
    /// The kinds of conditions and of the operands of sums and comparisons.
    Operands,
    /// A started module stands below the one that starts it.
    ModuleBelow,
}

/// Which rules a check applies.
pub(crate) trait Strictness {
    fn applies(&self, rule: Rule) -> bool;
}

/// The check of 01: every rule.
struct Strict;

impl Strictness for Strict {
    #[inline(always)]
    fn applies(&self, _: Rule) -> bool {
        true
    }
}

/// The check without one rule.
#[cfg(test)]
pub(crate) struct Without(pub Rule);

#[cfg(test)]
impl Strictness for Without {
    fn applies(&self, rule: Rule) -> bool {
        rule != self.0
    }
}

/// The verdict on a file that passes refusals 1 to 7.
pub fn check(program: &Program) -> Verdict {
    check_with(program, Strict)
}

pub(crate) fn check_with(program: &Program, strictness: impl Strictness) -> Verdict {
    let mut checker = Checker::new(program, strictness);
    for f in program.first_of_modules()..program.frames.len() {
        match checker.facts_of(f) {
            Ok(facts) => checker.enter(f, facts),
            Err(number) => return Verdict::rejected(number, f),
        }
    }
    Verdict::ACCEPTED
}

/// What a frame's parents make of it.
#[derive(Clone, Copy, Default)]
struct Context {
    /// The innermost 12 around it has S 1 (01: "while loose").
    unlinked: bool,
    /// It is the value of a let.
    is_bound: bool,
}

/// What a parent needs to know of a frame.
#[derive(Clone, Copy)]
struct Facts {
    /// Of an expression; statements have `NO_TYPE`.
    type_: Type,
    effects: Effects,
    /// Of a statement: it can end at once.
    at_once: bool,
}

const NO_TYPE: Type = Type(0);

struct Checker<'p, S> {
    program: &'p Program,
    strictness: S,
    contexts: Vec<Context>,
    facts: Vec<Facts>,
    /// Types of the variables in scope.
    scope: Vec<Type>,
    /// Effects of the modules below the one being checked.
    module_effects: Vec<Effects>,
}

impl<'p, S: Strictness> Checker<'p, S> {
    fn new(program: &'p Program, strictness: S) -> Self {
        let nothing = Facts {
            type_: NO_TYPE,
            effects: Effects::EMPTY,
            at_once: true,
        };
        let mut checker = Checker {
            program,
            strictness,
            contexts: contexts(&program.frames),
            facts: vec![nothing; program.frames.len()],
            scope: Vec::with_capacity(32),
            module_effects: Vec::with_capacity(program.modules.len()),
        };
        checker.enter_module(0);
        checker
    }

    fn enter_module(&mut self, number: usize) {
        self.scope.clear();
        if let Some(module) = self.program.module(number) {
            self.scope.extend(parameters(module));
        }
    }

    /// Keeps the facts of `f` and opens or closes scopes after it: a let's
    /// variable is in scope from its value's end to the let itself.
    fn enter(&mut self, f: usize, facts: Facts) {
        self.facts[f] = facts;
        match self.program.frames[f].kind {
            kind::LET => {
                self.scope.pop();
            }
            kind::MODULE => {
                self.module_effects.push(facts.effects);
                self.enter_module(self.module_effects.len());
            }
            _ => {}
        }
        if self.contexts[f].is_bound {
            self.scope.push(facts.type_);
        }
    }

    /// The facts of the frame, or the smallest refusal there.
    fn facts_of(&self, f: usize) -> Result<Facts, u8> {
        let frame = &self.program.frames[f];
        if frame.is_expression() {
            self.expression(frame)
        } else {
            self.statement(frame, f)
        }
    }

    fn type_of(&self, f: u16) -> Type {
        self.facts[usize::from(f)].type_
    }

    fn effects_of(&self, f: u16) -> Effects {
        self.facts[usize::from(f)].effects
    }

    fn ends_at_once(&self, f: u16) -> bool {
        self.facts[usize::from(f)].at_once
    }

    fn children_effects(&self, frame: &Frame) -> Effects {
        frame
            .children()
            .map(|child| self.effects_of(child))
            .fold(Effects::EMPTY, Effects::joined)
    }

    /// Refusal `number` where the condition fails, unless `rule` is left out.
    fn require(&self, rule: Rule, holds: bool, number: u8) -> Result<(), u8> {
        if holds || !self.strictness.applies(rule) {
            Ok(())
        } else {
            Err(number)
        }
    }

    /// The effect that `rule` adds, empty if the rule is left out.
    fn added(&self, rule: Rule, effects: Effects) -> Effects {
        if self.strictness.applies(rule) {
            effects
        } else {
            Effects::EMPTY
        }
    }

    /// Refusal 11: cells and events are tested one by one, by a rule each. The
    /// private place owns nothing and is in step with nobody.
    fn within(&self, effects: Effects, place: u8, rules: [Rule; 2]) -> Result<(), u8> {
        let group = self.program.groups.of(place);
        let own = match self.strictness.applies(Rule::OwnCells) {
            true => Effect::of(place),
            false => group,
        };
        self.require(rules[0], effects.cells.within(own), 11)?;
        self.require(rules[1], effects.events.within(group), 11)
    }

    fn expression(&self, frame: &Frame) -> Result<Facts, u8> {
        let mut effects = self.children_effects(frame);
        let type_ = match frame.kind {
            kind::NUMBER => Type::NUMBER,
            kind::TRUTH => Type::TRUTH,
            kind::VARIABLE => *self.scope.get(usize::from(frame.s)).ok_or(8)?,
            kind::SHARED => self.shared_cell(frame)?,
            kind::NEW_CELL => {
                let own = Effects::of_cell(frame.s);
                effects = effects.joined(self.added(Rule::NewCellEffect, own));
                self.new_cell(frame)?
            }
            kind::CONTENT => {
                let cell = self.cell_type(frame.a)?;
                let own = Effects::of_cell(cell.owner());
                effects = effects.joined(self.added(Rule::ContentEffect, own));
                cell.content()
            }
            kind::SUM => self.operands(&[frame.a, frame.b], Type::NUMBER)?,
            kind::LESS => {
                self.operands(&[frame.a, frame.b], Type::NUMBER)?;
                Type::TRUTH
            }
            _ => {
                self.operands(&[frame.a], Type::TRUTH)?;
                self.operands(&[frame.b, frame.c], Type::NUMBER)?
            }
        };
        Ok(Facts {
            type_,
            effects,
            at_once: true,
        })
    }

    fn shared_cell(&self, frame: &Frame) -> Result<Type, u8> {
        let cell = self.program.shared_cell(usize::from(frame.s)).ok_or(8)?;
        Type(cell.a).around(cell.s).ok_or(9)
    }

    fn new_cell(&self, frame: &Frame) -> Result<Type, u8> {
        let content = self.type_of(frame.a);
        let cell = content.around(frame.s).ok_or(9)?;
        let fits = frame.s == PRIVATE || content.is_public();
        self.require(Rule::PublicContent, fits, 10)?;
        Ok(cell)
    }

    fn cell_type(&self, f: u16) -> Result<Type, u8> {
        Some(self.type_of(f))
            .filter(|type_| type_.is_cell())
            .ok_or(9)
    }

    /// All operands are of one type, which is handed back.
    fn operands(&self, operands: &[u16], type_: Type) -> Result<Type, u8> {
        let fit = operands.iter().all(|&f| self.type_of(f) == type_);
        self.require(Rule::Operands, fit, 9)?;
        Ok(type_)
    }

    fn statement(&self, frame: &Frame, f: usize) -> Result<Facts, u8> {
        let mut effects = self.children_effects(frame);
        let at_once = match frame.kind {
            kind::SEQUENCE => self.ends_at_once(frame.a) && self.ends_at_once(frame.b),
            kind::AT_PLACE => {
                self.at_place(frame, f)?;
                effects = Effects::EMPTY;
                self.ends_at_once(frame.a)
            }
            kind::START | kind::START_AND_WAIT => {
                effects = effects.joined(self.start(frame, f)?);
                frame.kind == kind::START
            }
            kind::COOPERATE => {
                self.linked(f)?;
                false
            }
            kind::LET => self.ends_at_once(frame.b),
            kind::STORE => {
                let own = Effects::of_cell(self.store(frame)?);
                effects = effects.joined(self.added(Rule::StoreEffect, own));
                true
            }
            kind::IF => {
                self.operands(&[frame.a], Type::TRUTH)?;
                self.ends_at_once(frame.b) || self.ends_at_once(frame.c)
            }
            kind::WHILE => {
                self.operands(&[frame.a], Type::TRUTH)?;
                self.require(Rule::LoopBody, !self.ends_at_once(frame.b), 13)?;
                true
            }
            kind::GENERATE => {
                effects = self.added(Rule::GenerateEffect, self.event(frame)?);
                true
            }
            // It ends at once where the event is present.
            kind::AWAIT => {
                effects = self.added(Rule::AwaitEffect, self.event(frame)?);
                true
            }
            kind::MODULE => {
                self.module(f, effects)?;
                true
            }
            _ => true,
        };
        Ok(Facts {
            type_: NO_TYPE,
            effects,
            at_once,
        })
    }

    fn at_place(&self, frame: &Frame, f: usize) -> Result<(), u8> {
        let rules = [Rule::PlaceEffect, Rule::PlaceEvents];
        self.within(self.effects_of(frame.a), frame.s, rules)?;
        if frame.s == PRIVATE {
            self.linked(f)?;
        }
        Ok(())
    }

    /// Refusal 12.
    fn linked(&self, f: usize) -> Result<(), u8> {
        self.require(Rule::WhileUnlinked, !self.contexts[f].unlinked, 12)
    }

    /// The effect of the started module.
    fn start(&self, frame: &Frame, f: usize) -> Result<Effects, u8> {
        let number = usize::from(frame.s);
        let module = self.program.module(number).ok_or(8)?;
        let below = self.module_effects.get(number);
        self.require(Rule::ModuleBelow, below.is_some(), 8)?;
        let arguments = || frame.children().map(|child| self.type_of(child));
        let agree = arguments().eq(parameters(module));
        self.require(Rule::Arguments, agree, 9)?;
        let public = arguments().all(Type::is_public);
        self.require(Rule::PublicArgument, public, 10)?;
        self.linked(f)?;
        let Effects { cells, events } = below.copied().unwrap_or(Effects::EMPTY);
        let on_cells = Effects {
            cells,
            ..Effects::EMPTY
        };
        let on_events = Effects {
            events,
            ..Effects::EMPTY
        };
        let on_cells = self.added(Rule::StartEffect, on_cells);
        Ok(on_cells.joined(self.added(Rule::StartEvents, on_events)))
    }

    /// The owner of the cell that is stored to.
    fn store(&self, frame: &Frame) -> Result<u8, u8> {
        let cell = self.cell_type(frame.a)?;
        let equal = cell.content() == self.type_of(frame.b);
        self.require(Rule::StoredType, equal, 9)?;
        Ok(cell.owner())
    }

    /// The effect of generating or awaiting the event.
    fn event(&self, frame: &Frame) -> Result<Effects, u8> {
        let owner = self.program.event_owner(frame.s).ok_or(8)?;
        Ok(Effects::of_event(owner))
    }

    /// Only `main`, the last frame, is bound to a scheduler.
    fn module(&self, f: usize, effects: Effects) -> Result<(), u8> {
        if f + 1 < self.program.frames.len() {
            return Ok(());
        }
        self.within(effects, HOME, [Rule::MainEffect, Rule::MainEvents])
    }
}

fn parameters(module: &Frame) -> impl Iterator<Item = Type> {
    [module.b, module.c]
        .into_iter()
        .take(usize::from(module.s))
        .map(Type)
}

/// From parents to children, hence from the last frame to the first.
fn contexts(frames: &[Frame]) -> Vec<Context> {
    let mut contexts = vec![Context::default(); frames.len()];
    for (f, frame) in frames.iter().enumerate().rev() {
        let unlinked = match frame.kind {
            kind::AT_PLACE => frame.s == PRIVATE,
            _ => contexts[f].unlinked,
        };
        for child in frame.children() {
            contexts[usize::from(child)].unlinked = unlinked;
        }
        if frame.kind == kind::LET {
            contexts[usize::from(frame.a)].is_bound = true;
        }
    }
    contexts
}
