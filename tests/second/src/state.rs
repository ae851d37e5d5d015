//! The state between choices.

use std::collections::VecDeque;

use crate::frame::Frame;
use crate::layout::Program;
use crate::place::{HOME, PRIVATE};
use crate::types::Type;

/// Cells in a run, shared ones included, at most.
pub const CELLS: usize = 256;
/// Threads over a whole run, at most.
pub const THREADS: usize = 64;

#[derive(Clone, Copy, PartialEq, Eq, Debug)]
pub enum Value {
    Number(u32),
    Truth(bool),
    /// The cell's number.
    Cell(u8),
}

#[derive(Clone, Copy, PartialEq, Eq, Debug)]
pub struct Cell {
    /// A scheduler, or `place::of_thread` of the thread that made it.
    pub owner: u8,
    pub content: Value,
}

/// An entry of a continuation.
#[derive(Clone, Copy, PartialEq, Eq, Debug)]
pub enum Item {
    /// Run this statement.
    Run(u16),
    /// Go back to this place (01: "back to here").
    Back(u8),
    /// Drop the last variable.
    Drop,
}

#[derive(Clone, PartialEq, Eq, Debug)]
pub struct Thread {
    /// What is left to do, the next item last (01: the "pile").
    pub continuation: Vec<Item>,
    pub variables: Vec<Value>,
    /// A scheduler, or `PRIVATE` for an unlinked thread.
    pub place: u8,
    pub ended: bool,
    /// The thread that started this one; `main` has none.
    pub starter: Option<u8>,
    /// What keeps its family alive (the thread and all begun by it, directly
    /// or through others): the thread itself until it ends, and each that it
    /// started itself until that one's family has ended. So a start adds to
    /// one count, a readiness test reads one, and an end passes up only to
    /// families that end with it, which each does once in a run.
    unfinished: u8,
}

/// What an entry of a next list stands there for.
#[derive(Clone, Copy, PartialEq, Eq, Debug)]
pub enum Until {
    /// The end of the instant.
    Instant,
    /// An instant's end after that of this thread's family.
    Family(u8),
    /// The generation of this event, or else the end of the instant: then the
    /// thread tries again.
    Event(u8),
}

/// An entry of a next list.
#[derive(Clone, Copy, PartialEq, Eq, Debug)]
pub struct Entry {
    pub thread: u8,
    pub until: Until,
}

#[derive(Clone, PartialEq, Eq, Debug, Default)]
pub struct Scheduler {
    pub active: VecDeque<u8>,
    pub next: Vec<Entry>,
}

#[derive(Clone, PartialEq, Eq, Debug)]
pub struct State {
    pub cells: Vec<Cell>,
    /// Thread `t` stands at `t - 1`.
    pub threads: Vec<Thread>,
    /// The scheduler of place `p` stands at `p - HOME`.
    pub schedulers: Vec<Scheduler>,
    /// For each event: it was generated in the instant of its scheduler's
    /// group that has not ended yet.
    pub present: Vec<bool>,
}

impl Thread {
    pub fn new(module: &Frame, variables: Vec<Value>, place: u8, starter: Option<u8>) -> Thread {
        Thread {
            continuation: vec![Item::Run(module.a)],
            variables,
            place,
            ended: false,
            starter,
            unfinished: 1,
        }
    }

    /// On no scheduler (01: "loose").
    pub fn is_unlinked(&self) -> bool {
        self.place == PRIVATE && !self.ended
    }

    /// Have this thread and all begun by it, directly or through others, ended?
    pub fn family_ended(&self) -> bool {
        self.unfinished == 0
    }
}

impl State {
    /// The fresh state.
    pub fn new(program: &Program) -> State {
        let shared = (0..).map_while(|number| program.shared_cell(number));
        let mut schedulers = vec![Scheduler::default(); usize::from(program.last_place - PRIVATE)];
        schedulers[0].active.push_back(1);
        let main = program.module(program.modules.len() - 1);
        State {
            cells: shared.map(first_cell).collect(),
            threads: main
                .map(|module| Thread::new(module, Vec::new(), HOME, None))
                .into_iter()
                .collect(),
            schedulers,
            present: vec![false; program.events],
        }
    }

    pub fn thread(&self, thread: u8) -> &Thread {
        &self.threads[usize::from(thread) - 1]
    }

    pub fn thread_mut(&mut self, thread: u8) -> &mut Thread {
        &mut self.threads[usize::from(thread) - 1]
    }

    /// Adds a thread and hands back its number. Its starter lives, and so do
    /// the families above, whose counts have that one in them already.
    pub fn add_thread(&mut self, thread: Thread) -> u8 {
        if let Some(starter) = thread.starter {
            self.thread_mut(starter).unfinished += 1;
        }
        self.threads.push(thread);
        self.threads.len() as u8
    }

    /// The thread ends, and with it each family that only it kept alive.
    pub fn end_thread(&mut self, thread: u8) {
        self.thread_mut(thread).ended = true;
        let mut family = Some(thread);
        while let Some(root) = family {
            let root = self.thread_mut(root);
            root.unfinished -= 1;
            family = root.starter.filter(|_| root.family_ended());
        }
    }

    /// Where the scheduler of a place stands; `PRIVATE` has none.
    pub fn scheduler_index(&self, place: u8) -> Option<usize> {
        let index = usize::from(place.checked_sub(HOME)?);
        (index < self.schedulers.len()).then_some(index)
    }
}

fn first_cell(frame: &Frame) -> Cell {
    Cell {
        owner: frame.s,
        content: match Type(frame.a) {
            Type::NUMBER => Value::Number(u32::from(frame.b)),
            Type::TRUTH => Value::Truth(frame.b == 1),
            _ => Value::Cell(frame.b as u8),
        },
    }
}
