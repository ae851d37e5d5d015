//! What a choice does with events and instants, from the words of documents 01 and 02 (changes 3, 5
//! and 7), on any state of a file whose statements generate and await.
use crate::own_states::*;
use purkvaldi::Answer;
use std::collections::BTreeMap;

/// How often each thing happened.
pub type Seen = BTreeMap<&'static str, usize>;

#[derive(Clone, Copy)]
pub enum Statement {
    Generate(usize),
    Await(usize),
}

/// A file: how many schedulers, each event's owner, the links (upper, lower), main's statements.
pub struct File {
    pub schedulers: usize,
    pub owners: Vec<usize>,
    pub links: Vec<(usize, usize)>,
    pub statements: Vec<Statement>,
}

impl File {
    pub fn text(&self) -> Vec<u8> {
        let statements: Vec<String> = self
            .statements
            .iter()
            .map(|statement| match *statement {
                Statement::Generate(event) => generate(event),
                Statement::Await(event) => await_event(event),
            })
            .collect();
        file_in_step(self.schedulers, &self.owners, &self.links, &statements)
    }

    pub fn first_frame(&self) -> usize {
        1 + self.owners.len() + self.links.len()
    }

    /// The place of each scheduler.
    pub fn places(&self) -> std::ops::RangeInclusive<usize> {
        2..=1 + self.schedulers
    }

    /// Those in step with a place, itself first: 'the relation is carried through chains'.
    pub fn group(&self, place: usize) -> Vec<usize> {
        let mut group = vec![place];
        let mut followed = 0;
        while let Some(&member) = group.get(followed) {
            for &(upper, lower) in &self.links {
                for (one, other) in [(upper, lower), (lower, upper)] {
                    if one == member && !group.contains(&other) {
                        group.push(other);
                    }
                }
            }
            followed += 1;
        }
        group
    }

    /// What a choice answers, and the words after it.
    pub fn step(&self, state: &[u64], choice: usize, seen: &mut Seen) -> (Answer, Vec<u64>) {
        let mut model = Model {
            file: self,
            choice,
            after: state.to_vec(),
            seen,
        };
        let answer = model.step();
        (answer, model.after)
    }
}

/// One choice, before it is made and then after.
struct Model<'m> {
    file: &'m File,
    choice: usize,
    after: Vec<u64>,
    seen: &'m mut Seen,
}

impl Model<'_> {
    fn saw(&mut self, what: &'static str) {
        *self.seen.entry(what).or_default() += 1;
    }

    fn active(&self, scheduler: usize) -> Vec<u64> {
        list(&self.after, active_at(scheduler)).to_vec()
    }

    fn next(&self, scheduler: usize) -> Vec<u64> {
        list(&self.after, next_at(scheduler)).to_vec()
    }

    fn is_thread(&self, thread: usize) -> bool {
        (1..=self.after[0] as usize).contains(&thread)
    }

    fn lives(&self, thread: usize) -> bool {
        self.is_thread(thread) && self.after[thread_at(thread) + 2] == 1
    }

    /// 'Choosing a scheduler steps its first active thread; with none active, an instant ends.'
    fn step(&mut self) -> Answer {
        if self.file.places().contains(&self.choice) {
            return match self.active(self.choice).first() {
                Some(&thread) => self.act(thread as usize),
                None => self.end_instant(),
            };
        }
        let thread = self.choice.wrapping_sub(16);
        if !self.lives(thread) || self.after[thread_at(thread)] != 1 {
            self.saw("no such party");
            return answer(15, 0);
        }
        self.act(thread)
    }

    /// 'An instant of a group ends only when no member has an active thread, in one step, for all
    /// of them.'
    fn end_instant(&mut self) -> Answer {
        let group = self.file.group(self.choice);
        if group.iter().any(|&member| !self.active(member).is_empty()) {
            self.saw("16, a partner is active");
            return answer(16, 0);
        }
        let living = self.living_families();
        let waits = |entry: &u64| (128..16384).contains(entry) && living[*entry as usize / 128];
        let lists: Vec<(Vec<u64>, Vec<u64>)> = group
            .iter()
            .map(|&member| self.next(member).into_iter().partition(waits))
            .collect();
        if lists.iter().all(|(_, ready)| ready.is_empty()) {
            self.saw(match group.len() {
                1 => "16 of one",
                _ => "16 of a group",
            });
            return answer(16, 0);
        }
        self.saw(match (group.len(), lists[0].1.is_empty()) {
            (1, _) => "an instant of one",
            (_, false) => "an instant of a group",
            (_, true) => "an instant chosen where nothing is ready",
        });
        for (&member, (waiting, ready)) in group.iter().zip(lists) {
            let active: Vec<u64> = ready.iter().map(|entry| entry % 128).collect();
            put_list(&mut self.after, active_at(member), &active);
            put_list(&mut self.after, next_at(member), &waiting);
        }
        self.end_presence(&group);
        answer(0, 0)
    }

    /// 'The event is present until the group's instant ends.'
    fn end_presence(&mut self, group: &[usize]) {
        for (event, owner) in self.file.owners.iter().enumerate() {
            let present = self.after[EVENTS + event] == 1;
            if group.contains(owner) {
                self.after[EVENTS + event] = 0;
            }
            if present {
                self.saw(match group.contains(owner) {
                    true if *owner == self.choice => "an own event ends",
                    true => "a partner's event ends",
                    false => "another's event stays",
                });
            }
        }
    }

    /// Of which threads' families some thread lives: it is that thread, or was begun by one of the
    /// family. Starters may be in a circle, so a chain of 65 has met all.
    fn living_families(&self) -> [bool; MOST + 1] {
        let mut living = [false; MOST + 1];
        for thread in (1..=MOST).filter(|&thread| self.lives(thread)) {
            let mut ancestor = thread;
            for _ in 0..=MOST {
                living[ancestor] = true;
                if self.is_thread(ancestor) {
                    ancestor = self.after[thread_at(ancestor) + 1] as usize;
                }
            }
        }
        living
    }

    /// 'A thread's step takes its top pile item', with none 'the thread ends and leaves'.
    fn act(&mut self, thread: usize) -> Answer {
        let items = match self.is_thread(thread) {
            true => list(&self.after, thread_at(thread) + 3).to_vec(),
            false => Vec::new(),
        };
        let Some(&frame) = items.last() else {
            self.leave();
            if self.is_thread(thread) {
                self.after[thread_at(thread) + 2] = 0;
            }
            return answer(0, thread as u16);
        };
        let place = self.after[thread_at(thread)] as usize;
        let statement = self.file.statements[frame as usize - self.file.first_frame()];
        let (Statement::Generate(event) | Statement::Await(event)) = statement;
        let number = match (self.file.owners.get(event), statement) {
            (None, _) => {
                self.saw("20, a missing event");
                20
            }
            (Some(&owner), Statement::Generate(_)) => self.generate(thread, place, event, owner),
            (Some(&owner), Statement::Await(_)) => self.await_event(thread, place, event, owner),
        };
        answer(number, thread as u16)
    }

    /// The thread that acts leaves the list in which it is the first.
    fn leave(&mut self) {
        if self.file.places().contains(&self.choice) {
            let active = self.active(self.choice);
            put_list(&mut self.after, active_at(self.choice), &active[1..]);
        }
    }

    /// 19 where the owner is neither the place nor in step with it.
    fn foreign(&mut self, place: usize, owner: usize) -> bool {
        if self.file.group(owner).contains(&place) {
            return false;
        }
        self.saw(match place {
            1 => "19, unlinked",
            _ => "19, elsewhere",
        });
        true
    }

    /// What a generation makes of a scheduler's lists: the active one and the next one.
    fn awakened(&self, scheduler: usize, event: usize) -> (Vec<u64>, Vec<u64>) {
        let marks = awaiting(event as u64, 0)..awaiting(event as u64 + 1, 0);
        let (awaiters, kept): (Vec<u64>, Vec<u64>) = self
            .next(scheduler)
            .into_iter()
            .partition(|entry| marks.contains(entry));
        let woken = awaiters.iter().map(|entry| entry % 128).collect();
        ([self.active(scheduler), woken].concat(), kept)
    }

    /// 'A generation wakes its awaiters on each member, by number, into that member's active
    /// list': 20 where one has no room for them, then 19.
    fn generate(&mut self, thread: usize, place: usize, event: usize, owner: usize) -> u8 {
        let group = self.file.group(owner);
        let full = |member: &&usize| self.awakened(**member, event).0.len() > MOST;
        match group.iter().find(full) {
            Some(&member) if member == owner => self.saw("20 at the owner"),
            Some(_) => self.saw("20 at a partner"),
            None if self.foreign(place, owner) => return 19,
            None => {
                for member in group {
                    self.wake(member, event, place);
                }
                self.after[EVENTS + event] = 1;
                take_item(&mut self.after, thread);
                return 0;
            }
        }
        20
    }

    fn wake(&mut self, member: usize, event: usize, place: usize) {
        let (active, kept) = self.awakened(member, event);
        if kept != self.next(member) {
            self.saw(match member == place {
                true => "woken at the place",
                false => "woken at a partner",
            });
        }
        put_list(&mut self.after, active_at(member), &active);
        put_list(&mut self.after, next_at(member), &kept);
    }

    /// 'Awaiting a present event passes on in that step. Otherwise the thread goes to the end of
    /// the next list': 20 where that is full, then 19.
    fn await_event(&mut self, thread: usize, place: usize, event: usize, owner: usize) -> u8 {
        let present = self.after[EVENTS + event] == 1;
        if !present && place > 1 && self.next(place).len() == MOST {
            self.saw("20, an await");
            return 20;
        }
        if self.foreign(place, owner) {
            return 19;
        }
        self.saw(match (present, place == owner) {
            (true, true) => "an own event passed",
            (true, false) => "a partner's event passed",
            (false, true) => "an own event awaited",
            (false, false) => "a partner's event awaited",
        });
        if present {
            take_item(&mut self.after, thread);
        } else {
            self.leave();
            let mut next = self.next(place);
            next.push(awaiting(event as u64, thread as u64));
            put_list(&mut self.after, next_at(place), &next);
        }
        0
    }
}
