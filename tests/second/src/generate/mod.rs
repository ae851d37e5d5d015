//! Random cases, named by a seed and an index so that each can be repeated.

mod accesses;
mod build;
mod choices;
mod drawn;
mod events;
mod expressions;
mod families;
mod lines;
mod links;
mod mutate;
mod plan;
mod random;
mod soup;
mod special;
mod statements;

use std::path::Path;
use std::{fs, io};

use choices::Flavour;
use plan::Plan;
use random::Random;

use crate::frame::Frame;
use crate::layout::Program;
use crate::listing::{self, Reading};
use crate::verdict::Verdict;

/// The contents of `prog.txt` and `choices.txt`.
pub struct Case {
    pub program: Vec<u8>,
    pub choices: Vec<u8>,
    /// An empty file is left out: 01 reads an absent one as empty.
    pub empty_is_absent: bool,
}

impl Case {
    /// Writes the two files, over those of an earlier case.
    pub fn write(&self, folder: &Path) -> io::Result<()> {
        self.write_file(&folder.join("prog.txt"), &self.program)?;
        self.write_file(&folder.join("choices.txt"), &self.choices)
    }

    fn write_file(&self, path: &Path, text: &[u8]) -> io::Result<()> {
        fs::write(path, text)?;
        if text.is_empty() && self.empty_is_absent {
            fs::remove_file(path)?;
        }
        Ok(())
    }

    /// What there is to step, where both files can be read.
    pub fn readable(&self) -> Option<Readable> {
        let Reading::Readable(program, verdict) = Reading::new(&self.program) else {
            return None;
        };
        let mut choices = crate::text::choices(&self.choices).ok()?;
        choices.truncate(listing::used(&program, &choices).len());
        Some(Readable {
            program,
            verdict,
            choices,
        })
    }
}

/// A case that can be stepped.
pub struct Readable {
    pub program: Program,
    /// Accepted, or rejected with 8 to 13.
    pub verdict: Verdict,
    /// Those that a run uses.
    pub choices: Vec<u8>,
}

/// Those of a seed's cases that can be stepped.
pub fn readable(seed: u64, indices: impl Iterator<Item = u64>) -> impl Iterator<Item = Readable> {
    indices.filter_map(move |index| case(seed, index).readable())
}

/// The case of this name.
pub fn case(seed: u64, index: u64) -> Case {
    let random = &mut Random::of_case(seed, index);
    let sort = Sort::random(random);
    let program = program(random, sort);
    let flavour = sort.flavour(random);
    let choices = choices::text(random, &program, flavour);
    Case {
        program,
        choices,
        empty_is_absent: random.chance(2),
    }
}

/// The drawn file of this name, for the writer of change 2; no choices.
pub fn drawn(seed: u64, index: u64) -> Case {
    let random = &mut Random::of_case(seed, index);
    let mut program = text(&drawn::frames(random));
    if random.chance(20) {
        mutate::text(random, &mut program);
    }
    Case {
        program,
        choices: Vec::new(),
        empty_is_absent: random.chance(2),
    }
}

/// A file that passes refusals 1 to 7, and the same drawn in another order,
/// the modules, shared cells, events and links in theirs.
pub fn laid_out_and_drawn(seed: u64, index: u64) -> [Vec<u8>; 2] {
    let random = &mut Random::of_case(seed, index);
    let frames = drawn::laid_out(random);
    let drawn = drawn::shuffled(random, &frames, true);
    [text(&frames), text(&drawn)]
}

/// The longest files whose circles are hard to find: one circle over all
/// frames, and a row of frames that leads to a knot.
pub fn circles() -> [Vec<u8>; 2] {
    [text(&drawn::one_circle()), text(&drawn::tail_and_knot())]
}

/// The frames of a text in any order, but modules, shared cells, events and
/// links in theirs.
pub fn shuffled(seed: u64, program: &[u8]) -> Result<Vec<u8>, Verdict> {
    let frames = crate::text::frames(program)?;
    let random = &mut Random::of_case(seed, 0);
    Ok(text(&drawn::shuffled(random, &frames, true)))
}

/// Sorts of files, by what they are to show.
#[derive(Clone, Copy, PartialEq, Eq, Debug)]
enum Sort {
    /// Accepted.
    Clean,
    /// One rule or two broken: refusals 8 to 13.
    Slipping,
    Soup,
    /// Depth 24 and more: refusal 7.
    Deep,
    SpendCells,
    SpendThreads,
    Nest,
    Doubling,
    /// An allowance at a bound, with a list of choices near that one or another.
    LongRun,
    Full,
    /// Damaged frames: refusals 4 to 6.
    DamagedFrames,
    /// Damaged text: refusals 1 to 3.
    DamagedText,
    /// Threads that start others over several levels, and waits for them.
    Families,
    /// The same in one long chain of starters; refused with 8.
    Chain,
    /// Many accesses in one step.
    Accesses,
    /// Threads that generate and await events.
    Events,
    /// Up to 63 threads that await some.
    Crowd,
    /// A missing event, or another scheduler's.
    EventFault,
    /// The last three with schedulers in step; partners' cells among the faults.
    Groups,
    GroupCrowd,
    GroupFault,
    /// Such a file with a damaged or misplaced link: refusals 5 and 6.
    DamagedLinks,
}

impl Sort {
    fn random(random: &mut Random) -> Sort {
        let sort = random.weighted(&[
            (77, Sort::Clean),
            (12, Sort::Accesses),
            (52, Sort::Slipping),
            (3, Sort::Nest),
            (10, Sort::Soup),
            (5, Sort::Deep),
            (4, Sort::SpendCells),
            (4, Sort::SpendThreads),
            (1, Sort::Doubling),
            (1, Sort::Full),
            (25, Sort::DamagedFrames),
            (10, Sort::DamagedText),
            (25, Sort::Families),
            (3, Sort::Chain),
            (16, Sort::Events),
            (6, Sort::Crowd),
            (8, Sort::EventFault),
            (12, Sort::Groups),
            (6, Sort::GroupCrowd),
            (8, Sort::GroupFault),
            (9, Sort::DamagedLinks),
        ]);
        match sort {
            // About as rare as an over-long list: these take their time.
            Sort::Doubling if random.chance(3) => Sort::LongRun,
            _ => sort,
        }
    }

    /// Some sorts show their point only after many choices.
    fn flavour(self, random: &mut Random) -> Flavour {
        match self {
            Sort::Soup | Sort::SpendCells | Sort::SpendThreads | Sort::Doubling => Flavour::Long,
            Sort::Crowd | Sort::GroupCrowd => Flavour::Long,
            Sort::LongRun => Flavour::NearBound,
            Sort::Families | Sort::Chain | Sort::Accesses | Sort::Events | Sort::EventFault
                if !random.chance(8) =>
            {
                Flavour::Bursts
            }
            Sort::Groups | Sort::GroupFault if !random.chance(8) => match random.chance(2) {
                true => Flavour::Bursts,
                false => Flavour::Long,
            },
            _ => Flavour::random(random),
        }
    }
}

fn program(random: &mut Random, sort: Sort) -> Vec<u8> {
    let mut text = text(&frames(random, sort));
    if sort == Sort::DamagedText {
        mutate::text(random, &mut text);
    }
    text
}

fn frames(random: &mut Random, sort: Sort) -> Vec<Frame> {
    match sort {
        Sort::Clean => build::frames(random, Plan::random),
        Sort::Slipping => build::frames(random, Plan::slipping),
        Sort::Soup => soup::frames(random),
        Sort::Deep => build::frames(random, Plan::deep),
        Sort::SpendCells => special::spend_cells(random),
        Sort::SpendThreads => special::spend_threads(random),
        Sort::Nest => special::nest(random),
        Sort::Doubling => special::doubling(random),
        Sort::LongRun => special::long_run(random),
        Sort::Full => special::full_or_over(random),
        Sort::Families => families::levels(random),
        Sort::Chain => families::chain(random),
        Sort::Accesses => accesses::frames(random),
        Sort::Events => events::exchange(random, false),
        Sort::Crowd => events::crowd(random, false),
        Sort::EventFault => events::faulty(random, false),
        Sort::Groups => events::exchange(random, true),
        Sort::GroupCrowd => events::crowd(random, true),
        Sort::GroupFault => events::faulty(random, true),
        Sort::DamagedLinks => {
            let mut frames = events::exchange(random, true);
            mutate::links(random, &mut frames);
            frames
        }
        Sort::DamagedFrames => {
            let frames = build::frames(random, Plan::roomy);
            mutate::frames(random, frames)
        }
        Sort::DamagedText => build::frames(random, Plan::small),
    }
}

fn text(frames: &[Frame]) -> Vec<u8> {
    let mut text = Vec::with_capacity(17 * frames.len());
    for frame in frames {
        listing::byte(&mut text, frame.kind);
        listing::byte(&mut text, frame.s);
        for field in frame.fields() {
            listing::word(&mut text, field);
        }
        text.push(b'\n');
    }
    text
}
