//! The stepper: one choice at a time, answers 0 and 15 to 20.

use crate::effect::Effect;
use crate::evaluate::{Access, Actor, Evaluator, EventUse, Fault, Observer};
use crate::frame::{kind, Frame};
use crate::layout::Program;
use crate::place::{thread_of, HOME, PRIVATE};
use crate::state::{Entry, Item, Scheduler, State, Thread, Until, Value, THREADS};

/// What a choice came to.
#[derive(Clone, Copy, PartialEq, Eq, Debug)]
pub struct Outcome {
    /// 0 done, 15 no such party, 16 nothing, 17 to 20 refused while running.
    pub answer: u8,
    /// The acting thread, 0 if none.
    pub thread: u8,
    /// Reads, creations and stores of the choice; 0 if it was refused, whatever
    /// it accessed before (document 02, change 4: its "touch count").
    pub accesses: u16,
}

impl Outcome {
    const NO_SUCH_PARTY: Outcome = Outcome::without_thread(15);
    const NOTHING: Outcome = Outcome::without_thread(16);
    const INSTANT_ENDED: Outcome = Outcome::without_thread(0);

    const fn without_thread(answer: u8) -> Outcome {
        Outcome {
            answer,
            thread: 0,
            accesses: 0,
        }
    }
}

/// Counts the accesses that it tells the observer of, and no uses of events. A
/// step makes fewer than the file has frames: each is evaluated once at most.
struct Counting<'o, O> {
    observer: &'o mut O,
    accesses: u16,
}

impl<O: Observer> Observer for Counting<'_, O> {
    fn access(&mut self, actor: Actor, access: Access, owner: u8) {
        self.accesses += 1;
        self.observer.access(actor, access, owner);
    }

    fn event(&mut self, actor: Actor, event_use: EventUse, owner: u8) {
        self.observer.event(actor, event_use, owner);
    }
}

impl State {
    /// Takes one choice. A refused one leaves the state as it was.
    pub fn step<O: Observer>(&mut self, program: &Program, party: u8, observer: &mut O) -> Outcome {
        if let Some(index) = self.scheduler_index(party) {
            match self.schedulers[index].active.front() {
                Some(&thread) => self.step_thread(program, thread, observer),
                None => self.end_instant(program, party),
            }
        } else {
            match thread_of(party).filter(|&thread| self.is_unlinked(thread)) {
                Some(thread) => self.step_thread(program, thread, observer),
                None => Outcome::NO_SUCH_PARTY,
            }
        }
    }

    fn is_unlinked(&self, thread: u8) -> bool {
        let known = self.threads.get(usize::from(thread) - 1);
        known.is_some_and(Thread::is_unlinked)
    }

    /// The instant of a scheduler's group ends, for all members at once, where
    /// none of them has an active thread and one of them has a ready entry.
    fn end_instant(&mut self, program: &Program, place: u8) -> Outcome {
        let group = program.groups.of(place);
        let is_idle = |member| {
            self.schedulers[usize::from(member - HOME)]
                .active
                .is_empty()
        };
        if !group.schedulers().all(is_idle) {
            return Outcome::NOTHING;
        }
        let mut ended = false;
        for member in group.schedulers() {
            ended |= self.activate(usize::from(member - HOME));
        }
        if !ended {
            return Outcome::NOTHING;
        }
        self.end_presence(program, group);
        Outcome::INSTANT_ENDED
    }

    /// Ready entries of the next list become active, waiting ones stay. One
    /// that awaits an event is ready. Is any?
    fn activate(&mut self, index: usize) -> bool {
        let threads = &self.threads;
        let Scheduler { active, next } = &mut self.schedulers[index];
        next.retain(|entry| {
            let waits = match entry.until {
                Until::Family(root) => !threads[usize::from(root) - 1].family_ended(),
                Until::Instant | Until::Event(_) => false,
            };
            if !waits {
                active.push_back(entry.thread);
            }
            waits
        });
        !active.is_empty()
    }

    /// The events of the group's members are present no more.
    fn end_presence(&mut self, program: &Program, group: Effect) {
        for (number, present) in (0..).zip(&mut self.present) {
            let owner = program.event_owner(number);
            *present &= !owner.is_some_and(|owner| group.covers(owner));
        }
    }

    fn step_thread<O: Observer>(
        &mut self,
        program: &Program,
        thread: u8,
        observer: &mut O,
    ) -> Outcome {
        let cells = self.cells.len();
        let mut counting = Counting {
            observer,
            accesses: 0,
        };
        let (answer, accesses) = match self.take_item(program, thread, &mut counting) {
            Ok(()) => (0, counting.accesses),
            Err(fault) => {
                // Takes back the cells made; nothing else was changed yet.
                self.cells.truncate(cells);
                (fault.number(), 0)
            }
        };
        Outcome {
            answer,
            thread,
            accesses,
        }
    }

    fn take_item<O: Observer>(
        &mut self,
        program: &Program,
        thread: u8,
        observer: &mut O,
    ) -> Result<(), Fault> {
        match self.thread(thread).continuation.last() {
            None => {
                self.leave(thread);
                self.end_thread(thread);
            }
            Some(&Item::Back(place)) => {
                self.replace(thread, &[]);
                self.go(thread, place);
            }
            Some(Item::Drop) => {
                self.replace(thread, &[]);
                self.thread_mut(thread).variables.pop();
            }
            Some(&Item::Run(f)) => self.run(program, thread, f, observer)?,
        }
        Ok(())
    }

    /// Puts items, the next one last, where the thread's top item was.
    fn replace(&mut self, thread: u8, items: &[Item]) {
        let continuation = &mut self.thread_mut(thread).continuation;
        continuation.pop();
        continuation.extend_from_slice(items);
    }

    /// Takes the acting thread, which is the first, off its active list.
    fn leave(&mut self, thread: u8) {
        let place = self.thread(thread).place;
        if let Some(index) = self.scheduler_index(place) {
            self.schedulers[index].active.pop_front();
        }
    }

    fn append(&mut self, place: u8, entry: Entry) {
        if let Some(index) = self.scheduler_index(place) {
            self.schedulers[index].next.push(entry);
        }
    }

    /// Going to one's own place is no move.
    fn go(&mut self, thread: u8, place: u8) {
        if self.thread(thread).place != place {
            self.requeue(thread, place, Until::Instant);
        }
    }

    /// To the end of that next list; an unlinked thread is in no list.
    fn requeue(&mut self, thread: u8, place: u8, until: Until) {
        self.leave(thread);
        self.thread_mut(thread).place = place;
        self.append(place, Entry { thread, until });
    }

    fn run<O: Observer>(
        &mut self,
        program: &Program,
        thread: u8,
        f: u16,
        observer: &mut O,
    ) -> Result<(), Fault> {
        let frame = &program.frames[usize::from(f)];
        let acting = &self.threads[usize::from(thread) - 1];
        let place = acting.place;
        let mut evaluator = Evaluator {
            program,
            cells: &mut self.cells,
            variables: &acting.variables,
            actor: Actor { thread, place },
            observer,
        };
        match frame.kind {
            kind::NOTHING => self.replace(thread, &[]),
            kind::SEQUENCE => self.replace(thread, &[Item::Run(frame.b), Item::Run(frame.a)]),
            kind::AT_PLACE => {
                if frame.s == PRIVATE {
                    linked(place)?;
                }
                self.replace(thread, &[Item::Back(place), Item::Run(frame.a)]);
                self.go(thread, frame.s);
            }
            kind::START | kind::START_AND_WAIT => {
                let arguments = arguments(&mut evaluator, frame)?;
                linked(place)?;
                self.start(program, thread, frame, arguments)?;
            }
            kind::COOPERATE => {
                linked(place)?;
                self.replace(thread, &[]);
                self.requeue(thread, place, Until::Instant);
            }
            kind::LET => {
                let value = evaluator.value(frame.a)?;
                self.replace(thread, &[Item::Drop, Item::Run(frame.b)]);
                self.thread_mut(thread).variables.push(value);
            }
            kind::STORE => {
                store(&mut evaluator, frame)?;
                self.replace(thread, &[]);
            }
            kind::IF => {
                let truth = evaluator.condition(frame.a)?;
                let branch = if truth { frame.b } else { frame.c };
                self.replace(thread, &[Item::Run(branch)]);
            }
            kind::GENERATE => {
                event(&mut evaluator, frame, EventUse::Generation)?;
                self.replace(thread, &[]);
                // The owner's group, since the owner is in step with the place.
                self.generate(frame.s, program.groups.of(place));
            }
            kind::AWAIT => {
                event(&mut evaluator, frame, EventUse::Await)?;
                if self.present[usize::from(frame.s)] {
                    self.replace(thread, &[]);
                } else {
                    // The statement stays: the thread takes it again.
                    self.requeue(thread, place, Until::Event(frame.s));
                }
            }
            _ => {
                // The loop stays whole: its body goes above it.
                if evaluator.condition(frame.a)? {
                    self.replace(thread, &[Item::Run(f), Item::Run(frame.b)]);
                } else {
                    self.replace(thread, &[]);
                }
            }
        }
        Ok(())
    }

    fn start(
        &mut self,
        program: &Program,
        thread: u8,
        frame: &Frame,
        arguments: Vec<Value>,
    ) -> Result<(), Fault> {
        let module = program
            .module(usize::from(frame.s))
            .filter(|module| usize::from(module.s) == arguments.len())
            .ok_or(Fault::Stuck)?;
        if self.threads.len() == THREADS {
            return Err(Fault::ThreadsSpent);
        }
        let place = self.thread(thread).place;
        let started = self.add_thread(Thread::new(module, arguments, place, Some(thread)));
        let entry = Entry {
            thread: started,
            until: Until::Instant,
        };
        self.append(place, entry);
        self.replace(thread, &[]);
        if frame.kind == kind::START_AND_WAIT {
            self.requeue(thread, place, Until::Family(started));
        }
        Ok(())
    }

    /// The event is present, and the threads of each member's next list that
    /// await it become active there, after those that are.
    fn generate(&mut self, event: u8, group: Effect) {
        self.present[usize::from(event)] = true;
        for member in group.schedulers() {
            let Scheduler { active, next } = &mut self.schedulers[usize::from(member - HOME)];
            next.retain(|entry| {
                let awaits = entry.until == Until::Event(event);
                if awaits {
                    active.push_back(entry.thread);
                }
                !awaits
            });
        }
    }
}

/// Refusal 12's condition, met when running.
fn linked(place: u8) -> Result<(), Fault> {
    if place == PRIVATE {
        Err(Fault::Stuck)
    } else {
        Ok(())
    }
}

fn arguments<O: Observer>(
    evaluator: &mut Evaluator<O>,
    frame: &Frame,
) -> Result<Vec<Value>, Fault> {
    let mut values = Vec::with_capacity(frame.argument_count());
    for child in frame.children() {
        values.push(evaluator.value(child)?);
    }
    Ok(values)
}

/// Both operands run, then the cell is tested, then it takes the value.
fn store<O: Observer>(evaluator: &mut Evaluator<O>, frame: &Frame) -> Result<(), Fault> {
    let cell = evaluator.value(frame.a)?;
    let value = evaluator.value(frame.b)?;
    let number = evaluator.accessed(cell, Access::Store)?;
    evaluator.cells[number].content = value;
    Ok(())
}

/// A missing event is stuck, then one whose owner is not in step with the place
/// is foreign; an unlinked thread stands at place 1, in step with nobody.
fn event<O: Observer>(
    evaluator: &mut Evaluator<O>,
    frame: &Frame,
    event_use: EventUse,
) -> Result<(), Fault> {
    let owner = evaluator.program.event_owner(frame.s).ok_or(Fault::Stuck)?;
    evaluator.observer.event(evaluator.actor, event_use, owner);
    let groups = &evaluator.program.groups;
    if groups.in_step(evaluator.actor.place, owner) {
        Ok(())
    } else {
        Err(Fault::Foreign)
    }
}
