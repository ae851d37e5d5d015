//! Places, owners and parties: one byte each, in one numbering.

/// The place of an unlinked thread, and in a file the owner of a cell that is
/// private to the thread that makes it.
pub const PRIVATE: u8 = 1;
/// The first scheduler, where `main` starts.
pub const HOME: u8 = 2;
/// Schedulers in a file, at most; so the last one is place 9.
pub const SCHEDULERS: u8 = 8;

/// Thread `t` as a party, and as the owner of its private cells.
pub fn of_thread(thread: u8) -> u8 {
    16 + thread
}

/// The thread that a party names, if it is over the schedulers' numbers.
pub fn thread_of(party: u8) -> Option<u8> {
    party.checked_sub(16).filter(|&thread| thread > 0)
}
