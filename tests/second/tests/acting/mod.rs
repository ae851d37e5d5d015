//! Who acts under a choice, read off the state.

use second::place::thread_of;
use second::state::State;

/// The thread that acts under this choice, if one does.
pub fn acting(state: &State, party: u8) -> Option<u8> {
    match state.scheduler_index(party) {
        Some(index) => state.schedulers[index].active.front().copied(),
        None => {
            let thread = thread_of(party)?;
            let known = state.threads.get(usize::from(thread) - 1)?;
            known.is_unlinked().then_some(thread)
        }
    }
}
