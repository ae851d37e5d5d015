//! Demand 3, and what 02 promises of events, tested on the second program's
//! own runs of accepted files. Which schedulers are in step is found here from
//! the file's links alone.

use crate::evaluate::{Access, Actor, EventUse, Observer};
use crate::frame::kind;
use crate::layout::Program;
use crate::place::{of_thread, HOME, PRIVATE, SCHEDULERS};
use crate::state::{Cell, State, Value};

/// What an accepted file must not come to.
#[derive(Clone, Copy, PartialEq, Eq, Debug)]
pub enum Broken {
    /// Answer 19 or 20.
    Refused(u8),
    /// A cell accessed by neither its owner nor a thread on it.
    Accessed(Access),
    /// An event used from elsewhere than its owner's scheduler or one in step
    /// with that.
    Event(EventUse),
    /// A cell of a scheduler holds a cell of a thread.
    Held,
    /// A thread's variables reach a private cell of another thread
    /// (01: the variable "leads to" it).
    Reached,
}

/// Where the property fails: after this many choices, and how.
#[derive(Clone, Copy, PartialEq, Eq, Debug)]
pub struct Violation {
    pub choice: usize,
    pub broken: Broken,
}

/// Steps the choices from the fresh state and looks after each.
pub fn examine(program: &Program, choices: &[u8]) -> Result<(), Violation> {
    let mut state = State::new(program);
    let in_step = in_step(program);
    for (choice, &party) in choices.iter().enumerate() {
        examine_choice(program, &in_step, &mut state, party)
            .map_err(|broken| Violation { choice, broken })?;
    }
    Ok(())
}

fn examine_choice(
    program: &Program,
    in_step: &InStep,
    state: &mut State,
    party: u8,
) -> Result<(), Broken> {
    let mut watch = Watch {
        in_step,
        broken: None,
    };
    let outcome = state.step(program, party, &mut watch);
    watch.broken.map_or(Ok(()), Err)?;
    match outcome.answer {
        19 | 20 => Err(Broken::Refused(outcome.answer)),
        _ if state.cells.iter().any(|cell| holds_private(state, cell)) => Err(Broken::Held),
        _ if reaches_foreign(state) => Err(Broken::Reached),
        _ => Ok(()),
    }
}

/// For each two places: are they schedulers in step?
type InStep = [[bool; PLACES]; PLACES];

/// Place 0, which there is none of, the private one and the schedulers.
const PLACES: usize = (HOME + SCHEDULERS) as usize;

/// The least equivalence over the schedulers that has the file's links:
/// reflexive, symmetric, and closed under chains by Warshall's rule.
fn in_step(program: &Program) -> InStep {
    let mut related = [[false; PLACES]; PLACES];
    for (place, row) in related.iter_mut().enumerate().skip(usize::from(HOME)) {
        row[place] = true;
    }
    for link in program.frames.iter().filter(|f| f.kind == kind::LINK) {
        let (one, other) = (usize::from(link.s), usize::from(link.a));
        related[one][other] = true;
        related[other][one] = true;
    }
    for through in 0..PLACES {
        for one in 0..PLACES {
            for other in 0..PLACES {
                related[one][other] |= related[one][through] && related[through][other];
            }
        }
    }
    related
}

/// Keeps the first access or use that the property forbids.
struct Watch<'i> {
    in_step: &'i InStep,
    broken: Option<Broken>,
}

impl Observer for Watch<'_> {
    fn access(&mut self, actor: Actor, access: Access, owner: u8) {
        let own = owner == of_thread(actor.thread);
        let here = actor.place != PRIVATE && owner == actor.place;
        if !own && !here {
            self.broken.get_or_insert(Broken::Accessed(access));
        }
    }

    fn event(&mut self, actor: Actor, event_use: EventUse, owner: u8) {
        if !self.in_step[usize::from(actor.place)][usize::from(owner)] {
            self.broken.get_or_insert(Broken::Event(event_use));
        }
    }
}

fn is_private(cell: &Cell) -> bool {
    cell.owner >= of_thread(1)
}

fn holds_private(state: &State, cell: &Cell) -> bool {
    let held = cell_of(state, cell.content);
    (HOME..of_thread(1)).contains(&cell.owner) && held.is_some_and(is_private)
}

fn cell_of(state: &State, value: Value) -> Option<&Cell> {
    match value {
        Value::Cell(number) => Some(&state.cells[usize::from(number)]),
        _ => None,
    }
}

fn reaches_foreign(state: &State) -> bool {
    (1..).zip(&state.threads).any(|(number, thread)| {
        let mut variables = thread.variables.iter();
        variables.any(|&variable| {
            reached(state, variable).any(|cell| is_private(cell) && cell.owner != of_thread(number))
        })
    })
}

/// The cells that a value reaches: a chain, since a cell holds one value. A
/// weakened check lets it be a ring, which ends after all cells.
fn reached(state: &State, value: Value) -> impl Iterator<Item = &Cell> {
    let next = |cell: &&Cell| cell_of(state, cell.content);
    std::iter::successors(cell_of(state, value), next).take(state.cells.len())
}

#[cfg(test)]
mod tests {
    use super::*;
    use crate::generate;
    use crate::rules::{self, Rule, Without};
    use crate::verdict::Verdict;

    const SEED: u64 = 20070101;

    /// The first violation among the cases that the check accepts, with the
    /// case's index, and how many cases were accepted.
    fn first_violation(
        cases: u64,
        check: impl Fn(&Program) -> Verdict,
    ) -> (Option<(u64, Violation)>, u64) {
        let mut accepted = 0;
        for index in 0..cases {
            let Some(case) = generate::case(SEED, index).readable() else {
                continue;
            };
            if check(&case.program) != Verdict::ACCEPTED {
                continue;
            }
            accepted += 1;
            if let Err(violation) = examine(&case.program, &case.choices) {
                return (Some((index, violation)), accepted);
            }
        }
        (None, accepted)
    }

    #[test]
    fn accepted_files_keep_the_property() {
        let (violation, accepted) = first_violation(60_000, rules::check);
        assert_eq!(violation, None);
        assert!(accepted > 25_000, "{accepted} accepted");
    }

    /// Without this rule some case soon breaks the property.
    fn breaks_without(rule: Rule) {
        let weak = |program: &Program| rules::check_with(program, Without(rule));
        let (violation, accepted) = first_violation(60_000, weak);
        println!("without {rule:?}: {violation:?} ({accepted} accepted)");
        assert!(violation.is_some(), "{rule:?}");
    }

    macro_rules! fails_without {
        ($($name:ident: $rule:ident,)*) => {
            $(#[test]
            fn $name() {
                breaks_without(Rule::$rule);
            })*
        };
    }

    fails_without! {
        breaks_without_start_effect: StartEffect,
        breaks_without_start_events: StartEvents,
        breaks_without_new_cell_effect: NewCellEffect,
        breaks_without_content_effect: ContentEffect,
        breaks_without_store_effect: StoreEffect,
        breaks_without_generate_effect: GenerateEffect,
        breaks_without_await_effect: AwaitEffect,
        breaks_without_public_content: PublicContent,
        breaks_without_public_argument: PublicArgument,
        breaks_without_while_unlinked: WhileUnlinked,
        breaks_without_main_effect: MainEffect,
        breaks_without_main_events: MainEvents,
        breaks_without_place_effect: PlaceEffect,
        breaks_without_place_events: PlaceEvents,
        breaks_without_own_cells: OwnCells,
        breaks_without_stored_type: StoredType,
        breaks_without_arguments: Arguments,
        breaks_without_operands: Operands,
        breaks_without_module_below: ModuleBelow,
    }

    /// Refusal 13 guards instants against running for ever. No answer, access
    /// or cell depends on it, so without it the property still holds.
    #[test]
    fn holds_without_loop_body() {
        let weak = |program: &Program| rules::check_with(program, Without(Rule::LoopBody));
        let (violation, accepted) = first_violation(20_000, weak);
        let (_, strictly) = first_violation(20_000, rules::check);
        assert_eq!(violation, None);
        assert!(accepted > strictly, "{accepted} and {strictly} accepted");
    }
}
