//! Outlines of files for the builder.

use super::random::Random;
use crate::layout::{DECLARATIONS, DEPTH};
use crate::rules::Rule::{self, *};
use Slip::*;

/// What the builder gets wrong now and then.
#[derive(Clone, Copy, PartialEq, Eq, Debug)]
pub(super) enum Slip {
    /// What a rule of the check forbids.
    Against(Rule),
    MissingVariable,
    MissingSharedCell,
    MissingEvent,
    /// A cell around three others.
    FourthCell,
    SharedCellDepth,
}

impl From<Rule> for Slip {
    fn from(rule: Rule) -> Slip {
        Against(rule)
    }
}

const SLIPS: [Slip; 25] = [
    MissingVariable,
    MissingSharedCell,
    MissingEvent,
    Against(ModuleBelow),
    Against(Arguments),
    Against(StoredType),
    Against(Operands),
    FourthCell,
    SharedCellDepth,
    Against(PublicContent),
    Against(PublicArgument),
    Against(StartEffect),
    Against(StartEvents),
    Against(NewCellEffect),
    Against(ContentEffect),
    Against(StoreEffect),
    Against(GenerateEffect),
    Against(AwaitEffect),
    Against(PlaceEffect),
    Against(PlaceEvents),
    Against(MainEffect),
    Against(MainEvents),
    Against(OwnCells),
    Against(WhileUnlinked),
    Against(LoopBody),
];

/// Slips that can meet in one frame or one step.
const PAIRS: [[Slip; 2]; 11] = [
    [Against(WhileUnlinked), Against(Arguments)],
    [Against(WhileUnlinked), Against(PublicArgument)],
    [Against(WhileUnlinked), Against(ModuleBelow)],
    [Against(WhileUnlinked), Against(PlaceEffect)],
    [Against(Arguments), Against(PublicArgument)],
    [Against(PublicContent), FourthCell],
    [Against(Operands), Against(LoopBody)],
    [Against(Operands), Against(ContentEffect)],
    [Against(StoredType), Against(StoreEffect)],
    [Against(WhileUnlinked), Against(PlaceEvents)],
    [MissingEvent, Against(AwaitEffect)],
];

/// Those that need an event to show.
const OF_EVENTS: [Slip; 6] = [
    MissingEvent,
    Against(StartEvents),
    Against(GenerateEffect),
    Against(AwaitEffect),
    Against(PlaceEvents),
    Against(MainEvents),
];

impl Slip {
    /// One, or a pair, which shows the refusal that comes first.
    fn some(random: &mut Random) -> Vec<Slip> {
        match random.chance(2) {
            true => PAIRS[random.below(PAIRS.len())].to_vec(),
            false => vec![SLIPS[random.below(SLIPS.len())]],
        }
    }
}

/// The outline of a file.
pub struct Plan {
    pub schedulers: u8,
    pub shared_cells: usize,
    pub events: usize,
    /// Some schedulers are in step.
    pub linked: bool,
    /// Besides `main`.
    pub modules: usize,
    /// Frames after which only leaves are added.
    pub size: usize,
    pub depth: u16,
    /// Prefers frames with one statement below them, to reach the depth.
    pub chain: bool,
    pub slips: Vec<Slip>,
}

impl Plan {
    pub fn small(random: &mut Random) -> Plan {
        Plan {
            schedulers: random.between(1, 3) as u8,
            shared_cells: random.below(5),
            events: some_events(random),
            linked: random.chance(4),
            modules: random.below(4),
            size: random.between(5, 60),
            depth: random.between(2, 9) as u16,
            chain: false,
            slips: Vec::new(),
        }
    }

    pub fn random(random: &mut Random) -> Plan {
        let small = Plan::small(random);
        match random.below(40) {
            0..=3 => Plan {
                schedulers: random.between(1, 8) as u8,
                shared_cells: random.below(17),
                modules: random.below(16),
                size: random.between(60, 200),
                ..small
            },
            4 => Plan {
                size: random.between(200, 700),
                depth: DEPTH,
                ..small
            },
            5..=6 => Plan {
                depth: DEPTH,
                chain: true,
                ..small
            },
            _ => small,
        }
    }

    /// Has cells, modules and depth enough for a fault to find its place.
    pub fn roomy(random: &mut Random) -> Plan {
        Plan {
            schedulers: random.between(2, 4) as u8,
            shared_cells: random.between(1, 5),
            events: some_events(random),
            linked: random.chance(4),
            modules: random.between(1, 4),
            size: random.between(20, 100),
            depth: random.between(4, 10) as u16,
            chain: false,
            slips: Vec::new(),
        }
    }

    pub fn slipping(random: &mut Random) -> Plan {
        let mut plan = Plan::roomy(random);
        plan.slips = Slip::some(random);
        if plan.slips.contains(&SharedCellDepth) {
            // Only a row of cells, each in the next, gets that deep.
            plan.shared_cells = DECLARATIONS;
        }
        if plan.slips.iter().any(|slip| OF_EVENTS.contains(slip)) {
            plan.events = random.between(1, 4);
        }
        plan.linked |= plan.slips.contains(&Against(OwnCells));
        plan
    }

    /// A chain that may pass the greatest depth.
    pub fn deep(random: &mut Random) -> Plan {
        Plan {
            depth: DEPTH + random.below(6) as u16,
            chain: true,
            ..Plan::small(random)
        }
    }
}

/// Most files have none, so that what was there before events is tested as
/// often as it was.
pub(super) fn some_events(random: &mut Random) -> usize {
    match random.weighted(&[(14, 0), (5, 4), (1, DECLARATIONS)]) {
        0 => 0,
        most => random.between(1, most),
    }
}
