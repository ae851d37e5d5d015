//! Lists of choices of every flavour.

use super::random::Random;
use crate::layout::Program;
use crate::listing::{self, Reading};
use crate::place::{of_thread, HOME, PRIVATE};
use crate::state::State;
use crate::text::CHOICES_LIMIT;

/// Lengths of lists around 4,096, and up to 16,384, the longest list.
const NEAR_BOUNDS: [usize; 5] = [4095, 4096, 4097, 16_383, 16_384];

#[derive(Clone, Copy, PartialEq, Eq, Debug)]
pub enum Flavour {
    Empty,
    RoundRobin,
    /// Schedulers of the file.
    Schedulers,
    /// Schedulers and low thread numbers, unlinked or not.
    Threads,
    /// Only parties that have something to do.
    Valid,
    /// The same, and enough of them to spend the cells or the threads.
    Long,
    /// The same, and enough for most waits to end; one party several times in
    /// a row, so that it runs ahead of the others.
    Bursts,
    /// As many schedulers of the file as some allowance, or one more or less.
    NearBound,
    /// Any byte.
    Garbage,
    /// A text that is no list.
    Malformed,
    OverLong,
}

impl Flavour {
    pub fn random(random: &mut Random) -> Flavour {
        random.weighted(&[
            (30, Flavour::Empty),
            (150, Flavour::RoundRobin),
            (120, Flavour::Schedulers),
            (150, Flavour::Threads),
            (470, Flavour::Valid),
            (5, Flavour::Long),
            (45, Flavour::Garbage),
            (29, Flavour::Malformed),
            (1, Flavour::OverLong),
        ])
    }
}

/// The contents of `choices.txt` for a program's text.
pub fn text(random: &mut Random, program: &[u8], flavour: Flavour) -> Vec<u8> {
    let count = match flavour {
        Flavour::Empty => 0,
        Flavour::Long => random.between(200, 1200),
        Flavour::Bursts => random.between(100, 900),
        Flavour::NearBound => NEAR_BOUNDS[random.below(NEAR_BOUNDS.len())],
        Flavour::OverLong => CHOICES_LIMIT / 3 + random.below(2),
        _ if random.chance(20) => random.between(60, 400),
        _ => random.between(1, 60),
    };
    let parties = match Reading::new(program) {
        Reading::Readable(program, _) => parties(random, &program, flavour, count),
        Reading::Unreadable(_) => (0..count.min(3)).map(|_| random.byte()).collect(),
    };
    let mut text = Vec::with_capacity(3 * parties.len());
    for party in parties {
        listing::byte(&mut text, party);
        text.push(b'\n');
    }
    if flavour == Flavour::Malformed {
        malform(random, &mut text);
    }
    text
}

fn parties(random: &mut Random, program: &Program, flavour: Flavour, count: usize) -> Vec<u8> {
    let last = program.last_place;
    let schedulers = usize::from(last - PRIVATE);
    match flavour {
        Flavour::RoundRobin => (0..count)
            .map(|number| HOME + (number % schedulers) as u8)
            .collect(),
        Flavour::Valid | Flavour::Long | Flavour::Bursts => valid(random, program, flavour, count),
        Flavour::Threads => (0..count)
            .map(|_| match random.chance(2) {
                true => of_thread(random.place(1, 4)),
                false => random.place(HOME, last),
            })
            .collect(),
        Flavour::Garbage => (0..count).map(|_| random.byte()).collect(),
        _ => (0..count).map(|_| random.place(HOME, last)).collect(),
    }
}

/// Steps along, to see which parties have something to do. After the end of
/// all threads a few more choices show that there is nothing left.
fn valid(random: &mut Random, program: &Program, flavour: Flavour, count: usize) -> Vec<u8> {
    let mut state = State::new(program);
    let mut chosen = Vec::with_capacity(count);
    // A refused thread stands still, but others may go on.
    let patience = match flavour {
        Flavour::Long => 100,
        _ => 8,
    };
    let mut burst = Burst::default();
    while chosen.len() < count {
        let busy = busy(program, &state);
        let party = match flavour {
            // One that is in step may have to wait for another.
            _ if program.links > 0 && random.chance(16) => {
                Some(random.place(HOME, program.last_place))
            }
            Flavour::Bursts => burst.party(random, &busy),
            _ => random.pick(&busy),
        };
        let Some(party) = party else {
            chosen.extend(HOME..=program.last_place);
            break;
        };
        let outcome = state.step(program, party, &mut ());
        chosen.push(party);
        if outcome.answer != 0 {
            burst.left = 0;
        }
        let refused = matches!(outcome.answer, 17..=20);
        if refused && random.chance(patience) {
            break;
        }
    }
    chosen
}

/// A party, and how many choices of it are left.
#[derive(Default)]
struct Burst {
    party: u8,
    left: usize,
}

impl Burst {
    /// The same party as before, or where that is over another one.
    fn party(&mut self, random: &mut Random, busy: &[u8]) -> Option<u8> {
        if self.left == 0 || !busy.contains(&self.party) {
            self.party = random.pick(busy)?;
            self.left = random.between(1, 24);
        }
        self.left -= 1;
        Some(self.party)
    }
}

/// Schedulers with an active thread, or in a group that may end its instant,
/// also if they have nothing in their lists; and unlinked threads.
fn busy(program: &Program, state: &State) -> Vec<u8> {
    let scheduler = |place: u8| &state.schedulers[usize::from(place - HOME)];
    let may_end = |place: u8| {
        let group = program.groups.of(place);
        let is_idle = |member| scheduler(member).active.is_empty();
        let has_next = |member| !scheduler(member).next.is_empty();
        group.schedulers().all(is_idle) && group.schedulers().any(has_next)
    };
    let mut parties: Vec<u8> = (HOME..=program.last_place)
        .filter(|&place| !scheduler(place).active.is_empty() || may_end(place))
        .collect();
    let threads = (1..).zip(&state.threads);
    parties.extend(
        threads
            .filter(|(_, thread)| thread.is_unlinked())
            .map(|(number, _)| of_thread(number)),
    );
    parties
}

fn malform(random: &mut Random, text: &mut Vec<u8>) {
    if text.is_empty() {
        return text.push(b'\n');
    }
    let at = random.below(text.len());
    match random.below(4) {
        0 => text.truncate(text.len() - 1),
        1 => text[at] = random.pick(b"af\r \ng").unwrap_or(0),
        2 => text.insert(at, b'0'),
        _ => drop(text.remove(at)),
    }
}
