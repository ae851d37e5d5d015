//! Effects: sets of schedulers, those of cells apart from those of events.

use crate::place::HOME;

/// A bit for each scheduler, from `HOME` up.
#[derive(Clone, Copy, PartialEq, Eq, Debug, Default)]
pub struct Effect(u8);

impl Effect {
    pub const EMPTY: Effect = Effect(0);

    /// The set of one scheduler; empty for the private place.
    pub fn of(owner: u8) -> Effect {
        if owner >= HOME {
            Effect(1 << (owner - HOME))
        } else {
            Effect::EMPTY
        }
    }

    pub fn joined(self, other: Effect) -> Effect {
        Effect(self.0 | other.0)
    }

    pub fn within(self, other: Effect) -> bool {
        self.0 & !other.0 == 0
    }

    /// The members, by number.
    pub fn schedulers(self) -> impl Iterator<Item = u8> {
        let rest = |&set: &u8| Some(set & (set - 1)).filter(|&set| set != 0);
        std::iter::successors(Some(self.0).filter(|&set| set != 0), rest)
            .map(|set| HOME + set.trailing_zeros() as u8)
    }

    /// An access to a private cell has no effect, so `PRIVATE` is in every set.
    pub fn covers(self, owner: u8) -> bool {
        Effect::of(owner).within(self)
    }
}

/// The owners of the cells that a frame accesses and, apart from them, of the
/// events that it generates or awaits.
#[derive(Clone, Copy, PartialEq, Eq, Debug, Default)]
pub struct Effects {
    pub cells: Effect,
    pub events: Effect,
}

impl Effects {
    pub const EMPTY: Effects = Effects {
        cells: Effect::EMPTY,
        events: Effect::EMPTY,
    };

    /// Of an access to a cell of this owner.
    pub fn of_cell(owner: u8) -> Effects {
        Effects {
            cells: Effect::of(owner),
            ..Effects::EMPTY
        }
    }

    /// Of a generation or an await of an event of this owner.
    pub fn of_event(owner: u8) -> Effects {
        Effects {
            events: Effect::of(owner),
            ..Effects::EMPTY
        }
    }

    pub fn joined(self, other: Effects) -> Effects {
        Effects {
            cells: self.cells.joined(other.cells),
            events: self.events.joined(other.events),
        }
    }
}
