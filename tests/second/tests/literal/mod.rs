//! Change 3 taken literally: at each instant's end the awaited families are
//! gathered anew from who started whom. That, and who has ended, is kept from
//! the choices and their answers; the program's counts are not looked at. An
//! instant ends for all schedulers in step (change 7).

use std::collections::{BTreeMap, BTreeSet};
use std::fmt;

use crate::acting::acting;
use crate::in_step::members;
use second::layout::Program;
use second::place::HOME;
use second::state::{State, Until, THREADS};

/// A set of threads, by their numbers.
type Threads = [bool; THREADS + 1];

/// What a run has shown so far.
struct Record {
    /// The starter of thread `t` stands at `t`; `main` has none, and 0 is no
    /// thread.
    starters: Vec<Option<usize>>,
    ended: Threads,
    /// Those that have ended, the first one first.
    ends: Vec<usize>,
    /// Those for which a wait differed from 01's rule.
    held_up: BTreeSet<usize>,
}

impl Record {
    /// `main` alone.
    fn new() -> Record {
        Record {
            starters: vec![None; 2],
            ended: [false; THREADS + 1],
            ends: Vec::new(),
            held_up: BTreeSet::new(),
        }
    }

    /// The thread and all begun by it, directly or through others: as long as
    /// some thread has its starter in the family, that thread is in it too.
    fn family(&self, root: usize) -> Threads {
        let mut family = [false; THREADS + 1];
        family[root] = true;
        let mut grows = true;
        while grows {
            grows = false;
            for (thread, starter) in self.starters.iter().enumerate() {
                if !family[thread] && starter.is_some_and(|starter| family[starter]) {
                    family[thread] = true;
                    grows = true;
                }
            }
        }
        family
    }

    /// What 01 waits for: the thread and those that it started itself.
    fn itself_and_children(&self, root: usize) -> Threads {
        let mut threads = [false; THREADS + 1];
        for (thread, &starter) in self.starters.iter().enumerate() {
            threads[thread] = thread == root || starter == Some(root);
        }
        threads
    }

    fn have_ended(&self, threads: &Threads) -> bool {
        (1..=THREADS).all(|thread| !threads[thread] || self.ended[thread])
    }

    /// The thread that this one started last.
    fn last_started(&self, starter: usize) -> Option<usize> {
        self.starters.iter().rposition(|&of| of == Some(starter))
    }

    /// How many starts lead from the root down to the thread.
    fn levels_below(&self, root: usize, thread: usize) -> usize {
        match self.starters[thread] {
            Some(starter) if thread != root => 1 + self.levels_below(root, starter),
            _ => 0,
        }
    }
}

struct Run<'p> {
    program: &'p Program,
    state: State,
    record: Record,
}

impl Run<'_> {
    fn has_active(&self, place: u8) -> bool {
        let index = self.state.scheduler_index(place);
        index.is_some_and(|index| !self.state.schedulers[index].active.is_empty())
    }

    /// Does an instant of this party end, if none of its partners hinders it?
    fn asks_for_end(&self, party: u8) -> bool {
        self.state.scheduler_index(party).is_some() && !self.has_active(party)
    }

    /// A thread with nothing left to do ends; under a choice that begins a
    /// thread the acting one is its starter.
    fn step_thread(&mut self, party: u8) {
        let Run { state, record, .. } = self;
        let is_done =
            acting(state, party).is_some_and(|thread| state.thread(thread).continuation.is_empty());
        let outcome = state.step(self.program, party, &mut ());
        let thread = usize::from(outcome.thread);
        if is_done && thread != 0 {
            record.ended[thread] = true;
            record.ends.push(thread);
        }
        if state.threads.len() == record.starters.len() {
            record.starters.push(Some(thread));
        }
    }
}

/// Waiting entries at the instants' ends of some runs.
#[derive(Default)]
pub struct Waits {
    pub entries: usize,
    /// Those whose wait ended.
    pub ended: usize,
    /// Those that wait by change 3 and would be ready by 01.
    pub differing: usize,
    /// Those whose wait ended after it had differed so.
    pub held_up_and_ended: usize,
    /// Those that differ, by how many levels the nearest member that lives is
    /// below the awaited thread.
    pub levels: BTreeMap<usize, usize>,
    /// Orders in which the members ended where a wait for a chain of 3 or 4
    /// ended: 0 is the awaited thread, 1 the one that it started, and so on.
    pub orders: BTreeSet<Vec<usize>>,
}

impl Waits {
    /// Steps the choices and demands of each instant's end that those entries
    /// become active that are ready by the paper's words, and no others.
    pub fn add(&mut self, program: &Program, choices: &[u8]) {
        let mut run = Run {
            program,
            state: State::new(program),
            record: Record::new(),
        };
        for &party in choices {
            match run.asks_for_end(party) {
                true => self.end_instant(&mut run, party),
                false => run.step_thread(party),
            }
        }
    }

    fn end_instant(&mut self, run: &mut Run, party: u8) {
        let members = members(run.program, party);
        let before = run.state.clone();
        if members.iter().any(|&member| run.has_active(member)) {
            let outcome = run.state.step(run.program, party, &mut ());
            assert_eq!((outcome.answer, &run.state), (16, &before));
            return;
        }
        let lists: Vec<[Vec<u8>; 2]> = members
            .iter()
            .map(|&member| self.ready_and_waiting(run, member))
            .collect();
        for thread in 1..run.record.starters.len() {
            let literally = run.record.have_ended(&run.record.family(thread));
            assert_eq!(run.state.thread(thread as u8).family_ended(), literally);
        }
        let outcome = run.state.step(run.program, party, &mut ());
        let ends = lists.iter().any(|[ready, _]| !ready.is_empty());
        assert_eq!(outcome.answer, if ends { 0 } else { 16 });
        for (member, [ready, waiting]) in members.into_iter().zip(lists) {
            let scheduler = &run.state.schedulers[usize::from(member - HOME)];
            let next: Vec<u8> = scheduler.next.iter().map(|entry| entry.thread).collect();
            assert_eq!((&scheduler.active, &next), (&ready.into(), &waiting));
        }
    }

    /// The threads of the scheduler's next list by the paper's words.
    fn ready_and_waiting(&mut self, run: &mut Run, place: u8) -> [Vec<u8>; 2] {
        let Run { state, record, .. } = run;
        let (mut ready, mut waiting) = (Vec::new(), Vec::new());
        for entry in &state.schedulers[usize::from(place - HOME)].next {
            let ends = match entry.until {
                // One that awaits an event counts as ready.
                Until::Instant | Until::Event(_) => true,
                Until::Family(awaited) => {
                    let (thread, awaited) = (usize::from(entry.thread), usize::from(awaited));
                    assert_eq!(record.last_started(thread), Some(awaited));
                    self.wait_ends(record, awaited)
                }
            };
            let list = if ends { &mut ready } else { &mut waiting };
            list.push(entry.thread);
        }
        [ready, waiting]
    }

    /// Counts the entry and says whether its wait ends.
    fn wait_ends(&mut self, record: &mut Record, awaited: usize) -> bool {
        let family = record.family(awaited);
        let ends = record.have_ended(&family);
        self.entries += 1;
        if ends {
            self.ended += 1;
            self.held_up_and_ended += usize::from(record.held_up.contains(&awaited));
            self.add_order(record, &family);
        }
        if ends != record.have_ended(&record.itself_and_children(awaited)) {
            self.differing += 1;
            record.held_up.insert(awaited);
            let living = (1..=THREADS).filter(|&thread| family[thread] && !record.ended[thread]);
            let levels = living.map(|thread| record.levels_below(awaited, thread));
            *self.levels.entry(levels.min().unwrap_or(0)).or_default() += 1;
        }
        ends
    }

    fn add_order(&mut self, record: &Record, family: &Threads) {
        let members: Vec<usize> = (1..=THREADS).filter(|&thread| family[thread]).collect();
        let mut pairs = members.windows(2);
        let is_chain = pairs.all(|pair| record.starters[pair[1]] == Some(pair[0]));
        if is_chain && (3..=4).contains(&members.len()) {
            let place = |thread| members.iter().position(|&member| member == thread);
            let order = record.ends.iter().filter_map(|&thread| place(thread));
            self.orders.insert(order.collect());
        }
    }
}

impl fmt::Display for Waits {
    fn fmt(&self, f: &mut fmt::Formatter) -> fmt::Result {
        let Waits {
            entries,
            ended,
            differing,
            held_up_and_ended,
            levels,
            orders,
        } = self;
        writeln!(f, "waiting entries {entries}, of which {ended} ended")?;
        writeln!(
            f,
            "other than by 01 {differing}, {held_up_and_ended} ended later"
        )?;
        writeln!(f, "levels below {levels:?}")?;
        write!(f, "orders of chains of 3 and 4 members: {}", orders.len())
    }
}
