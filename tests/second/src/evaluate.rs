//! Expressions: they run inside one step.

use crate::frame::{kind, Frame};
use crate::layout::Program;
use crate::place::{of_thread, PRIVATE};
use crate::state::{Cell, Value, CELLS};

/// Why a step is refused while running.
#[derive(Clone, Copy, PartialEq, Eq, Debug)]
pub enum Fault {
    /// Spent: a 257th cell.
    CellsSpent,
    /// Spent: a 65th thread.
    ThreadsSpent,
    /// An access to a cell of neither the thread nor its scheduler, or a use
    /// of an event whose owner is not in step with that one.
    Foreign,
    Stuck,
}

impl Fault {
    pub fn number(self) -> u8 {
        match self {
            Fault::CellsSpent => 17,
            Fault::ThreadsSpent => 18,
            Fault::Foreign => 19,
            Fault::Stuck => 20,
        }
    }
}

/// What an access does to a cell (01: a "touch").
#[derive(Clone, Copy, PartialEq, Eq, Debug)]
pub enum Access {
    Read,
    Store,
    Creation,
}

/// What a statement does to an event. It is no access: those are to cells.
#[derive(Clone, Copy, PartialEq, Eq, Debug)]
pub enum EventUse {
    Generation,
    Await,
}

/// Is told of every access and of every use of an event that is there, before
/// it is tested or done, so of foreign ones and of those in a step that is
/// refused later.
pub trait Observer {
    fn access(&mut self, actor: Actor, access: Access, owner: u8);
    fn event(&mut self, actor: Actor, event_use: EventUse, owner: u8);
}

/// Plain runs are not observed.
impl Observer for () {
    #[inline(always)]
    fn access(&mut self, _: Actor, _: Access, _: u8) {}
    #[inline(always)]
    fn event(&mut self, _: Actor, _: EventUse, _: u8) {}
}

/// Who acts: the thread, and the place where it stands.
#[derive(Clone, Copy, Debug)]
pub struct Actor {
    pub thread: u8,
    pub place: u8,
}

impl Actor {
    /// The owner of a cell that the actor makes with S.
    pub fn owner(self, s: u8) -> u8 {
        if s == PRIVATE {
            of_thread(self.thread)
        } else {
            s
        }
    }

    fn may_access(self, owner: u8) -> bool {
        // An unlinked thread stands at place 1, which owns no cell.
        owner == of_thread(self.thread) || owner == self.place
    }
}

pub struct Evaluator<'a, O> {
    pub program: &'a Program,
    /// Cells made stay here when a later fault comes; the step takes them back.
    pub cells: &'a mut Vec<Cell>,
    pub variables: &'a [Value],
    pub actor: Actor,
    pub observer: &'a mut O,
}

impl<O: Observer> Evaluator<'_, O> {
    /// The recursion is at most as deep as the tree: 24.
    pub fn value(&mut self, f: u16) -> Result<Value, Fault> {
        let frame = &self.program.frames[usize::from(f)];
        match frame.kind {
            kind::NUMBER => Ok(Value::Number(u32::from(frame.a))),
            kind::TRUTH => Ok(Value::Truth(frame.s == 1)),
            kind::VARIABLE => self.variable(frame.s),
            kind::SHARED => self.shared_cell(frame.s),
            kind::NEW_CELL => self.new_cell(frame),
            kind::CONTENT => self.content(frame),
            kind::SUM => {
                let (a, b) = self.numbers(frame)?;
                Ok(Value::Number(a.wrapping_add(b)))
            }
            kind::LESS => {
                let (a, b) = self.numbers(frame)?;
                Ok(Value::Truth(a < b))
            }
            _ => self.choose(frame),
        }
    }

    /// The value of a condition, which must be a truth.
    pub fn condition(&mut self, f: u16) -> Result<bool, Fault> {
        match self.value(f)? {
            Value::Truth(truth) => Ok(truth),
            _ => Err(Fault::Stuck),
        }
    }

    /// The number of the cell that the value is, if the actor may access it.
    pub fn accessed(&mut self, value: Value, access: Access) -> Result<usize, Fault> {
        let Value::Cell(number) = value else {
            return Err(Fault::Stuck);
        };
        let number = usize::from(number);
        self.test(access, self.cells[number].owner)?;
        Ok(number)
    }

    fn test(&mut self, access: Access, owner: u8) -> Result<(), Fault> {
        self.observer.access(self.actor, access, owner);
        if self.actor.may_access(owner) {
            Ok(())
        } else {
            Err(Fault::Foreign)
        }
    }

    fn variable(&self, number: u8) -> Result<Value, Fault> {
        let value = self.variables.get(usize::from(number));
        value.copied().ok_or(Fault::Stuck)
    }

    fn shared_cell(&self, number: u8) -> Result<Value, Fault> {
        if usize::from(number) < self.program.shared_cells {
            Ok(Value::Cell(number))
        } else {
            Err(Fault::Stuck)
        }
    }

    fn new_cell(&mut self, frame: &Frame) -> Result<Value, Fault> {
        let content = self.value(frame.a)?;
        let owner = self.actor.owner(frame.s);
        self.test(Access::Creation, owner)?;
        let number = self.cells.len();
        if number == CELLS {
            return Err(Fault::CellsSpent);
        }
        self.cells.push(Cell { owner, content });
        Ok(Value::Cell(number as u8))
    }

    fn content(&mut self, frame: &Frame) -> Result<Value, Fault> {
        let cell = self.value(frame.a)?;
        let number = self.accessed(cell, Access::Read)?;
        Ok(self.cells[number].content)
    }

    /// Kinds are tested after both operands have run.
    fn numbers(&mut self, frame: &Frame) -> Result<(u32, u32), Fault> {
        match (self.value(frame.a)?, self.value(frame.b)?) {
            (Value::Number(a), Value::Number(b)) => Ok((a, b)),
            _ => Err(Fault::Stuck),
        }
    }

    fn choose(&mut self, frame: &Frame) -> Result<Value, Fault> {
        let chosen = if self.condition(frame.a)? {
            frame.b
        } else {
            frame.c
        };
        match self.value(chosen)? {
            number @ Value::Number(_) => Ok(number),
            _ => Err(Fault::Stuck),
        }
    }
}
