//! The layout of a file: refusals 4 to 7, smallest number first.

use crate::frame::{kind, Frame};
use crate::group::Groups;
use crate::place::{HOME, PRIVATE, SCHEDULERS};
use crate::types::Type;
use crate::verdict::Verdict;

/// Shared cells, modules, and events, at most.
pub const DECLARATIONS: usize = 16;
/// Depth of a tree, at most; a body stands at depth 1.
pub const DEPTH: u16 = 24;
/// Choices that a run uses, at most, where the header's allowance is 0
/// (document 02, change 1).
pub const DEFAULT_ALLOWANCE: usize = 16_384;

/// A file that passes refusals 1 to 7: all that the stepper needs.
pub struct Program {
    pub frames: Vec<Frame>,
    /// Frame numbers of the modules; `main` is the last.
    pub modules: Vec<u16>,
    pub shared_cells: usize,
    pub events: usize,
    /// Declarations of schedulers in step, and what they come to.
    pub links: usize,
    pub groups: Groups,
    /// The last scheduler's place.
    pub last_place: u8,
    /// Choices that a run uses, at most.
    pub allowance: usize,
}

impl Program {
    pub fn new(frames: Vec<Frame>) -> Result<Program, Verdict> {
        let header = well_formed(&frames)?;
        first_out_of_order(&frames).map_or(Ok(()), |f| Err(Verdict::rejected(6, f)))?;
        first_too_deep(&frames).map_or(Ok(()), |f| Err(Verdict::rejected(7, f)))?;
        let links = links(&frames);
        Ok(Program {
            modules: modules(&frames),
            shared_cells: shared_cells(&frames),
            events: usize::from(header.c),
            links: links.len(),
            groups: Groups::new(links),
            last_place: last_place(&header),
            allowance: match header.a {
                0 => DEFAULT_ALLOWANCE,
                allowance => usize::from(allowance),
            },
            frames,
        })
    }

    /// The shared cell's frame.
    pub fn shared_cell(&self, number: usize) -> Option<&Frame> {
        (number < self.shared_cells).then(|| &self.frames[1 + number])
    }

    /// The scheduler that the event belongs to.
    pub fn event_owner(&self, number: u8) -> Option<u8> {
        let number = usize::from(number);
        (number < self.events).then(|| self.frames[self.after_shared_cells() + number].s)
    }

    /// The first frame after the shared cells.
    fn after_shared_cells(&self) -> usize {
        1 + self.shared_cells
    }

    /// The first frame after all declarations but the modules.
    pub fn first_of_modules(&self) -> usize {
        self.after_shared_cells() + self.events + self.links
    }

    /// The module's frame.
    pub fn module(&self, number: usize) -> Option<&Frame> {
        self.modules
            .get(number)
            .map(|&frame| &self.frames[usize::from(frame)])
    }
}

/// Refusals 4 and 5, which do not depend on the order of the frames but for
/// the count of declarations and for first contents. Hands back the header.
pub(crate) fn well_formed(frames: &[Frame]) -> Result<Frame, Verdict> {
    let header = header(frames).ok_or(Verdict::rejected(4, 0))?;
    let bad = first_bad_field(frames, last_place(&header));
    bad.map_or(Ok(header), |f| Err(Verdict::rejected(5, f)))
}

/// The last scheduler's place, in a file with this header.
fn last_place(header: &Frame) -> u8 {
    PRIVATE + header.b as u8
}

fn header(frames: &[Frame]) -> Option<Frame> {
    let header = *frames.first()?;
    let schedulers = 1..=u16::from(SCHEDULERS);
    (header.kind == kind::HEADER
        && header.s == 1
        && schedulers.contains(&header.b)
        && counts_events(&header, frames))
    .then_some(header)
}

/// C is the number of all events in the file, bad or misplaced ones too, as
/// refusal 4 is found before 5 and 6. So there is no 17th event for 5 to name.
fn counts_events(header: &Frame, frames: &[Frame]) -> bool {
    let is_event = |frame: &&Frame| frame.kind == kind::EVENT;
    let count = usize::from(header.c);
    count <= DECLARATIONS && frames.iter().filter(is_event).count() == count
}

/// What the frames so far have declared. Misplaced declarations count too:
/// refusal 5 is found before 6.
struct Declared {
    last_place: u8,
    shared_cells: Vec<Type>,
    modules: usize,
}

/// Refusal 5.
fn first_bad_field(frames: &[Frame], last_place: u8) -> Option<usize> {
    let mut declared = Declared {
        last_place,
        shared_cells: Vec::with_capacity(DECLARATIONS),
        modules: 0,
    };
    (1..frames.len()).find(|&f| !declared.fields_fit(&frames[f]))
}

impl Declared {
    fn fields_fit(&mut self, frame: &Frame) -> bool {
        frame.has_shape()
            && match frame.kind {
                kind::HEADER => false,
                kind::SHARED_CELL => self.shared_cell_fits(frame),
                kind::EVENT => self.is_scheduler(frame.s),
                kind::LINK => self.link_fits(frame),
                kind::MODULE => self.module_fits(frame),
                kind::AT_PLACE | kind::NEW_CELL => (PRIVATE..=self.last_place).contains(&frame.s),
                kind::START | kind::START_AND_WAIT => frame.a != 0 || frame.b == 0,
                kind::TRUTH => frame.s <= 1,
                _ => true,
            }
    }

    fn is_scheduler(&self, place: u8) -> bool {
        (HOME..=self.last_place).contains(&place)
    }

    /// A, all four digits of it, is a scheduler below S.
    fn link_fits(&self, frame: &Frame) -> bool {
        let below = u16::from(HOME)..u16::from(frame.s);
        self.is_scheduler(frame.s) && below.contains(&frame.a)
    }

    fn shared_cell_fits(&mut self, frame: &Frame) -> bool {
        let content = Type(frame.a);
        let fits = self.is_scheduler(frame.s)
            && content.is_well_formed(self.last_place)
            && content.is_public()
            && content.cells() <= 2
            && self.first_content_fits(content, frame.b)
            && self.shared_cells.len() < DECLARATIONS;
        self.shared_cells.extend(content.around(frame.s));
        fits
    }

    fn first_content_fits(&self, content: Type, first: u16) -> bool {
        match content {
            Type::NUMBER => true,
            Type::TRUTH => first <= 1,
            cell => self.shared_cells.get(usize::from(first)) == Some(&cell),
        }
    }

    fn module_fits(&mut self, frame: &Frame) -> bool {
        self.modules += 1;
        let parameter_fits = |number, word| match number < frame.s {
            true => Type(word).is_well_formed(self.last_place),
            false => word == 0,
        };
        frame.s <= 2
            && parameter_fits(0, frame.b)
            && parameter_fits(1, frame.c)
            && self.modules <= DECLARATIONS
    }
}

/// Refusal 6.
fn first_out_of_order(frames: &[Frame]) -> Option<usize> {
    let has_parent = marked_children(frames);
    let mut first = vec![0; frames.len()];
    let last = frames.len() - 1;
    (0..frames.len()).find(|&f| match first_of_subtree(frames, &first, f) {
        None => true,
        Some(start) => {
            first[f] = start;
            is_misplaced(frames, f)
                || is_leftover(&frames[f], has_parent[f])
                || f == last && !is_main(&frames[f])
        }
    })
}

/// Which numbers stand in a child field of any frame, be it well placed or not.
fn marked_children(frames: &[Frame]) -> Vec<bool> {
    let mut marked = vec![false; frames.len()];
    for frame in frames {
        for child in frame.children() {
            if let Some(mark) = marked.get_mut(usize::from(child)) {
                *mark = true;
            }
        }
    }
    marked
}

/// The first frame of the tree below `f`; none if its children are not in
/// order or of the wrong class. `first` holds those of the frames before `f`.
fn first_of_subtree(frames: &[Frame], first: &[usize], f: usize) -> Option<usize> {
    let frame = &frames[f];
    let classes = frame.shape()?.fields;
    let fields = frame.fields();
    let mut start = f;
    for i in (0..frame.child_count()).rev() {
        let child = usize::from(fields[i]);
        if child + 1 != start || !frames[child].is_of(classes[i]) {
            return None;
        }
        start = first[child];
    }
    Some(start)
}

/// A shared cell, an event or a link after a kind that it should precede. The
/// frame before it decides: if an earlier one is of such a kind, then the first
/// that stands wrongly after that is lower and is found before.
fn is_misplaced(frames: &[Frame], f: usize) -> bool {
    f > 0 && part(&frames[f - 1]) > part(&frames[f])
}

/// The parts of a file in their order, the header first, modules and what is
/// in them last.
pub(crate) fn part(frame: &Frame) -> u8 {
    match frame.kind {
        kind::HEADER => 0,
        kind::SHARED_CELL => 1,
        kind::EVENT => 2,
        kind::LINK => 3,
        _ => 4,
    }
}

pub(crate) fn is_leftover(frame: &Frame, has_parent: bool) -> bool {
    !has_parent && (frame.is_statement() || frame.is_expression())
}

fn is_main(frame: &Frame) -> bool {
    frame.kind == kind::MODULE && frame.s == 0
}

/// Refusal 7. Parents stand after their children, so depths are known from
/// the end on; the last one found is the lowest.
fn first_too_deep(frames: &[Frame]) -> Option<usize> {
    let mut depths = vec![0; frames.len()];
    let mut found = None;
    for (f, frame) in frames.iter().enumerate().rev() {
        if depths[f] > DEPTH {
            found = Some(f);
        }
        for child in frame.children() {
            depths[usize::from(child)] = depths[f] + 1;
        }
    }
    found
}

fn modules(frames: &[Frame]) -> Vec<u16> {
    let is_module = |(_, frame): &(usize, &Frame)| frame.kind == kind::MODULE;
    let numbered = frames.iter().enumerate().filter(is_module);
    numbered.map(|(f, _)| f as u16).collect()
}

fn shared_cells(frames: &[Frame]) -> usize {
    let is_shared_cell = |frame: &&Frame| frame.kind == kind::SHARED_CELL;
    frames[1..].iter().take_while(is_shared_cell).count()
}

/// The links, which stand in a row.
fn links(frames: &[Frame]) -> &[Frame] {
    let is_link = |frame: &Frame| frame.kind == kind::LINK;
    let first = frames.iter().position(is_link).unwrap_or(0);
    let count = frames[first..].iter().take_while(|&frame| is_link(frame));
    &frames[first..first + count.count()]
}
