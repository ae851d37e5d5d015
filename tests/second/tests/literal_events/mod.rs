//! Changes 5 and 7 taken literally. When each event was generated, when each
//! scheduler's instants ended, which schedulers are in step and which thread
//! awaits what is kept from the choices and the frames; what the program notes
//! of it must agree, and each step that uses an event and each choice of a
//! scheduler without active threads must leave the state that the papers' words
//! give.

use std::collections::BTreeMap;
use std::fmt;

use crate::acting::acting;
use crate::in_step::members;
use second::frame::{kind, Frame};
use second::layout::Program;
use second::place::{HOME, PRIVATE};
use second::state::{Entry, Item, Scheduler, State, Until, THREADS};

/// What a run has shown so far.
struct Record {
    /// Choices taken.
    moment: usize,
    /// The owner of each event: the K 03 frames in file order.
    owners: Vec<u8>,
    /// The schedulers in step with each scheduler, itself included.
    groups: Vec<Vec<u8>>,
    /// When each event was generated last.
    generated: Vec<Option<usize>>,
    /// When an instant of each scheduler ended last.
    ended: Vec<Option<usize>>,
    /// What each thread awaits; 0 is no thread.
    awaited: [Option<u8>; THREADS + 1],
}

impl Record {
    fn new(program: &Program) -> Record {
        let events = program.frames.iter().filter(|frame| frame.kind == 0x03);
        let owners: Vec<u8> = events.map(|frame| frame.s).collect();
        let schedulers = HOME..=program.last_place;
        Record {
            moment: 0,
            generated: vec![None; owners.len()],
            ended: vec![None; schedulers.clone().count()],
            groups: schedulers.map(|place| members(program, place)).collect(),
            awaited: [None; THREADS + 1],
            owners,
        }
    }

    /// "From its generation to the end of its scheduler's instant", which is its
    /// group's: an instant that ended later ended the presence, one that ended
    /// before did not.
    fn is_present(&self, event: usize) -> bool {
        let ended = self.ended[usize::from(self.owners[event] - HOME)];
        match (self.generated[event], ended) {
            (Some(generated), Some(ended)) => generated > ended,
            (generated, None) => generated.is_some(),
            (None, _) => false,
        }
    }

    /// The schedulers in step with a place; none where it is private.
    fn group(&self, place: u8) -> &[u8] {
        let index = place.checked_sub(HOME).map(usize::from);
        index.map_or(&[], |index| &self.groups[index])
    }

    fn awaits(&self, thread: u8) -> Option<u8> {
        self.awaited[usize::from(thread)]
    }

    /// Does the state say the same?
    fn agrees(&self, state: &State) {
        let present: Vec<bool> = (0..self.owners.len())
            .map(|event| self.is_present(event))
            .collect();
        assert_eq!(state.present, present);
        for scheduler in &state.schedulers {
            for entry in &scheduler.next {
                let noted = match entry.until {
                    Until::Event(event) => Some(event),
                    Until::Instant | Until::Family(_) => None,
                };
                assert_eq!(noted, self.awaits(entry.thread));
            }
            for &thread in &scheduler.active {
                assert_eq!(self.awaits(thread), None);
            }
        }
    }
}

struct Run<'p> {
    program: &'p Program,
    state: State,
    record: Record,
}

impl Run<'_> {
    /// Takes the choice: answer, acting thread and accesses.
    fn answered(&mut self, party: u8) -> (u8, u8, u16) {
        let outcome = self.state.step(self.program, party, &mut ());
        (outcome.answer, outcome.thread, outcome.accesses)
    }
}

/// Uses of events in some runs.
#[derive(Default, Debug)]
pub struct Uses {
    pub generations: usize,
    /// By how many threads they woke.
    pub woken: BTreeMap<usize, usize>,
    /// Generations of an event that was present.
    pub again: usize,
    /// Those that left a thread on the next list that awaits another event.
    pub others_left: usize,
    /// Those that left one that has an await of the event on top, but came
    /// there by a start, a cooperate, a move or to wait.
    pub bystanders_left: usize,
    pub awaits_present: usize,
    pub awaits_absent: usize,
    /// Entries that await an event at an instant's end, so try again.
    pub retried: usize,
    /// Instants' ends at which an event of the scheduler, or of another, is
    /// present: the first ends, the second stays.
    pub ended_present: usize,
    pub kept_present: usize,
    /// Choices answered with 16 while an event of the scheduler is present.
    pub nothing_while_present: usize,
    /// Refused uses: of a missing event, by an unlinked thread, elsewhere.
    pub missing: usize,
    pub unlinked: usize,
    pub elsewhere: usize,
    pub in_step: InStep,
}

/// What only schedulers in step show.
#[derive(Default, Debug)]
pub struct InStep {
    /// Instants' ends by how many schedulers they were for, from two up.
    pub ended: BTreeMap<usize, usize>,
    /// Those chosen at a member with nothing in its lists.
    pub ended_by_empty: usize,
    /// Those that ended the presence of an event of a partner of the chosen one.
    pub ended_partners_event: usize,
    /// Choices answered with 16 as another member has an active thread, and
    /// among them those where the chosen one has a ready entry.
    pub held_up: usize,
    pub held_up_ready: usize,
    /// Choices answered with 16 as no member has a ready thread.
    pub nothing_ready: usize,
    /// Uses of a partner's event: generations, awaits that pass, others.
    pub generations: usize,
    pub awaits_present: usize,
    pub awaits_absent: usize,
    /// Generations by the number of schedulers on which they woke threads.
    pub woken_on: BTreeMap<usize, usize>,
    /// Those that woke some on the generator's scheduler and on another.
    pub woken_here_and_there: usize,
    /// Uses that were refused though the place is in step with another one.
    pub elsewhere: usize,
}

impl Uses {
    /// Steps the choices and demands of each what the paper's words give.
    pub fn add(&mut self, program: &Program, choices: &[u8]) {
        let mut run = Run {
            program,
            state: State::new(program),
            record: Record::new(program),
        };
        run.record.agrees(&run.state);
        for &party in choices {
            run.record.moment += 1;
            match (acting(&run.state, party), run.state.scheduler_index(party)) {
                (Some(thread), _) => self.step(&mut run, party, thread),
                (None, Some(_)) => self.without_active(&mut run, party),
                (None, None) => {
                    run.answered(party);
                }
            }
            run.record.agrees(&run.state);
        }
    }

    /// A scheduler without active threads: 16 while a partner has some, or when
    /// no member has a ready thread, or else the end of the group's instant.
    fn without_active(&mut self, run: &mut Run, place: u8) {
        let group = run.record.group(place).to_vec();
        let state = &run.state;
        let is_ready = |member: &u8| !ready_and_waiting(state, *member)[0].is_empty();
        let is_active = |member: &u8| !scheduler(state, *member).active.is_empty();
        let (active, ready) = (group.iter().any(is_active), group.iter().any(is_ready));
        if !active && ready {
            return self.end_instant(run, place, &group);
        }
        self.in_step.held_up += usize::from(active);
        self.in_step.held_up_ready += usize::from(active && is_ready(&place));
        self.in_step.nothing_ready += usize::from(!active && group.len() > 1);
        self.nothing_while_present += usize::from(self.is_owner_present(run, &group));
        let before = run.state.clone();
        assert_eq!(run.answered(place), (16, 0, 0));
        assert_eq!(run.state, before, "a 16 changes nothing");
    }

    /// Is an event of one of these schedulers present?
    fn is_owner_present(&self, run: &Run, owners: &[u8]) -> bool {
        let record = &run.record;
        let mut events = 0..record.owners.len();
        events.any(|event| owners.contains(&record.owners[event]) && record.is_present(event))
    }

    fn end_instant(&mut self, run: &mut Run, place: u8, group: &[u8]) {
        self.count_end(run, place, group);
        let Run { state, record, .. } = run;
        let mut expected = state.clone();
        for &member in group {
            let [ready, waiting] = ready_and_waiting(state, member);
            for entry in &ready {
                self.retried += usize::from(record.awaits(entry.thread).is_some());
                record.awaited[usize::from(entry.thread)] = None;
            }
            let scheduler = scheduler_mut(&mut expected, member);
            scheduler.active = ready.iter().map(|entry| entry.thread).collect();
            scheduler.next = waiting;
            record.ended[usize::from(member - HOME)] = Some(record.moment);
        }
        for event in 0..record.owners.len() {
            expected.present[event] = record.is_present(event);
        }
        self.kept_present += usize::from(expected.present.contains(&true));
        assert_eq!(run.answered(place), (0, 0, 0));
        assert_eq!(run.state, expected, "an instant's end");
    }

    fn count_end(&mut self, run: &Run, place: u8, group: &[u8]) {
        self.ended_present += usize::from(self.is_owner_present(run, group));
        if group.len() > 1 {
            *self.in_step.ended.entry(group.len()).or_default() += 1;
            let is_empty = scheduler(&run.state, place).next.is_empty();
            self.in_step.ended_by_empty += usize::from(is_empty);
            let partners: Vec<u8> = group.iter().copied().filter(|&m| m != place).collect();
            self.in_step.ended_partners_event += usize::from(self.is_owner_present(run, &partners));
        }
    }

    fn step(&mut self, run: &mut Run, party: u8, thread: u8) {
        let Some(frame) = event_use(run.program, &run.state, thread) else {
            run.answered(party);
            return;
        };
        let mut expected = run.state.clone();
        let place = expected.thread(thread).place;
        let answer = match run.record.owners.get(usize::from(frame.s)) {
            None => 20,
            Some(owner) if !run.record.group(place).contains(owner) => 19,
            Some(_) => 0,
        };
        match (answer, frame.kind) {
            (20, _) => self.missing += 1,
            (19, _) if place == PRIVATE => self.unlinked += 1,
            (19, _) => {
                self.elsewhere += 1;
                let has_partners = run.record.group(place).len() > 1;
                self.in_step.elsewhere += usize::from(has_partners);
            }
            (_, kind::GENERATE) => self.generation(run, &mut expected, thread, frame.s),
            _ => self.await_(&mut run.record, &mut expected, thread, frame.s),
        }
        assert_eq!(run.answered(party), (answer, thread, 0));
        assert_eq!(run.state, expected, "thread {thread}, {frame:?}");
    }

    /// The threads that await the event go from the next list of each scheduler
    /// in step with its owner, in list order, to the end of that active list.
    fn generation(&mut self, run: &mut Run, expected: &mut State, thread: u8, event: u8) {
        let record = &mut run.record;
        self.generations += 1;
        self.again += usize::from(record.is_present(usize::from(event)));
        record.generated[usize::from(event)] = Some(record.moment);
        expected.present[usize::from(event)] = true;
        expected.thread_mut(thread).continuation.pop();
        let owner = record.owners[usize::from(event)];
        let place = expected.thread(thread).place;
        let mut left = Vec::new();
        let mut woken: BTreeMap<u8, usize> = BTreeMap::new();
        for member in record.group(owner).to_vec() {
            let scheduler = scheduler_mut(expected, member);
            for entry in std::mem::take(&mut scheduler.next) {
                if record.awaits(entry.thread) == Some(event) {
                    record.awaited[usize::from(entry.thread)] = None;
                    scheduler.active.push_back(entry.thread);
                    *woken.entry(member).or_default() += 1;
                } else {
                    scheduler.next.push(entry);
                    left.push(entry);
                }
            }
        }
        *self.woken.entry(woken.values().sum()).or_default() += 1;
        self.in_step.generations += usize::from(place != owner);
        *self.in_step.woken_on.entry(woken.len()).or_default() += 1;
        let here_and_there = woken.contains_key(&place) && woken.len() > 1;
        self.in_step.woken_here_and_there += usize::from(here_and_there);
        let awaits_other = |entry: &Entry| record.awaits(entry.thread).is_some();
        self.others_left += usize::from(left.iter().any(awaits_other));
        let is_bystander = |entry: &Entry| {
            let top = event_use(run.program, expected, entry.thread);
            top.is_some_and(|frame| frame.kind == kind::AWAIT && frame.s == event)
        };
        self.bystanders_left += usize::from(left.iter().any(is_bystander));
    }

    /// Passes on, or goes to the end of its own scheduler's next list with its
    /// statement.
    fn await_(&mut self, record: &mut Record, expected: &mut State, thread: u8, event: u8) {
        let owner = record.owners[usize::from(event)];
        let place = expected.thread(thread).place;
        let is_partners = usize::from(place != owner);
        if record.is_present(usize::from(event)) {
            self.awaits_present += 1;
            self.in_step.awaits_present += is_partners;
            expected.thread_mut(thread).continuation.pop();
            return;
        }
        self.awaits_absent += 1;
        self.in_step.awaits_absent += is_partners;
        record.awaited[usize::from(thread)] = Some(event);
        let scheduler = scheduler_mut(expected, place);
        assert_eq!(scheduler.active.pop_front(), Some(thread));
        let until = Until::Event(event);
        scheduler.next.push(Entry { thread, until });
    }
}

fn scheduler(state: &State, place: u8) -> &Scheduler {
    &state.schedulers[usize::from(place - HOME)]
}

fn scheduler_mut(state: &mut State, place: u8) -> &mut Scheduler {
    &mut state.schedulers[usize::from(place - HOME)]
}

/// The entries of the scheduler's next list; one that awaits an event is ready.
fn ready_and_waiting(state: &State, place: u8) -> [Vec<Entry>; 2] {
    let entries = scheduler(state, place).next.iter();
    let (ready, waiting) = entries.partition(|entry| match entry.until {
        Until::Family(root) => state.thread(root).family_ended(),
        _ => true,
    });
    [ready, waiting]
}

/// The statement that the thread takes next, if it uses an event.
fn event_use(program: &Program, state: &State, thread: u8) -> Option<Frame> {
    match state.thread(thread).continuation.last() {
        Some(&Item::Run(f)) => Some(program.frames[usize::from(f)])
            .filter(|frame| matches!(frame.kind, kind::GENERATE | kind::AWAIT)),
        _ => None,
    }
}

impl fmt::Display for Uses {
    fn fmt(&self, f: &mut fmt::Formatter) -> fmt::Result {
        write!(f, "{self:?}")
    }
}
