//! The writer of document 02, change 2: frames in the order in which they were
//! drawn are laid out as 01 wants them.
//!
//! Refusals 1 to 5 are the check's own. One walk over the children, module by
//! module, then finds the circles (21), the depths (7) and the new order.

use crate::frame::{kind, Frame};
use crate::layout::{self, DEPTH};
use crate::text::{self, LINE};
use crate::verdict::Verdict;

/// Writes the lines of the laid-out file and answers `ACCEPTED`, or refuses
/// with 1 to 7, 21 or 14 and leaves `out` as it was.
pub fn arrange(text: &[u8], out: &mut [u8]) -> Verdict {
    match laid_out(text) {
        Err(verdict) => verdict,
        Ok(_) if out.len() != text.len() => Verdict::rejected(14, 0),
        Ok((frames, order)) => {
            write(text, &frames, &order, out);
            Verdict::ACCEPTED
        }
    }
}

/// The frames as given, and their numbers in the new order.
fn laid_out(text: &[u8]) -> Result<(Vec<Frame>, Vec<u16>), Verdict> {
    let frames = text::frames(text)?;
    layout::well_formed(&frames)?;
    let uses = Uses::new(&frames);
    let walk = Walk::new(&frames);
    refuse(21, [uses.lowest_bad, walk.lowest_on_circle])?;
    refuse(6, [first_misfit(&frames, &uses.counts), None])?;
    refuse(7, [walk.lowest_too_deep, None])?;
    let order = declared(&frames).chain(walk.finished).collect();
    Ok((frames, order))
}

/// The refusal at the lower of the frames, if there is one.
fn refuse(number: u8, found: [Option<usize>; 2]) -> Result<(), Verdict> {
    let lowest = found.into_iter().flatten().min();
    lowest.map_or(Ok(()), |f| Err(Verdict::rejected(number, f)))
}

/// What stands before the modules: the header, the shared cells, the events,
/// the links, each kind as it was given.
fn declared(frames: &[Frame]) -> impl Iterator<Item = u16> + '_ {
    let of_kind = move |kind: u8| {
        let is_of_kind = move |&f: &usize| frames[f].kind == kind;
        (0..frames.len()).filter(is_of_kind)
    };
    [kind::HEADER, kind::SHARED_CELL, kind::EVENT, kind::LINK]
        .into_iter()
        .flat_map(of_kind)
        .map(|f| f as u16)
}

/// In how many child fields each number stands.
struct Uses {
    counts: Vec<u16>,
    /// The lowest frame that is used twice or has a child number without a
    /// frame.
    lowest_bad: Option<usize>,
}

impl Uses {
    fn new(frames: &[Frame]) -> Uses {
        let mut counts = vec![0; frames.len()];
        let mut without_frame = None;
        for (f, frame) in frames.iter().enumerate() {
            for child in frame.children() {
                match counts.get_mut(usize::from(child)) {
                    Some(count) => *count += 1,
                    None => lower(&mut without_frame, f),
                }
            }
        }
        let mut lowest_bad = without_frame;
        if let Some(f) = counts.iter().position(|&count| count > 1) {
            lower(&mut lowest_bad, f);
        }
        Uses { counts, lowest_bad }
    }
}

/// Keeps the lower of two frames.
fn lower(found: &mut Option<usize>, f: usize) {
    *found = Some(found.map_or(f, |earlier| earlier.min(f)));
}

/// Refusal 6, where each child number has a frame: a child of the wrong class,
/// a leftover, and at the last module or frame that there is no `main`.
fn first_misfit(frames: &[Frame], uses: &[u16]) -> Option<usize> {
    let last = frames.iter().rposition(|frame| frame.kind == kind::MODULE);
    let without_main = match last {
        Some(module) => (frames[module].s != 0).then_some(module),
        None => Some(frames.len() - 1),
    };
    (0..frames.len()).find(|&f| {
        has_wrong_child(frames, f)
            || layout::is_leftover(&frames[f], uses[f] > 0)
            || without_main == Some(f)
    })
}

fn has_wrong_child(frames: &[Frame], f: usize) -> bool {
    let Some(shape) = frames[f].shape() else {
        return true;
    };
    let mut fields = frames[f].children().zip(shape.fields);
    fields.any(|(child, class)| !frames[usize::from(child)].is_of(class))
}

/// A frame whose circles are all known; any frame's moment is below it.
const SETTLED: u16 = u16::MAX;

/// Each frame once, depth first, by Tarjan's rule for strong components: those
/// of two frames and more, and frames that are their own children, are
/// circles.
struct Walk<'f> {
    frames: &'f [Frame],
    /// When a frame was met, from 1 on; 0 where it was not, `SETTLED` later.
    met: Vec<u16>,
    /// The earliest moment of a frame that this one leads back to.
    back: Vec<u16>,
    moment: u16,
    /// Frames met and not settled, in the order of their moments.
    open: Vec<u16>,
    /// From the start to the frame at hand, each with its next child field.
    path: Vec<(u16, u8)>,
    lowest_on_circle: Option<usize>,
    /// Below a module, if the frame has one user and lies on no circle.
    lowest_too_deep: Option<usize>,
    /// The modules' trees, children first.
    finished: Vec<u16>,
}

impl<'f> Walk<'f> {
    /// The modules first, so that what they reach finishes in the new order;
    /// then the frames that no module reaches, for their circles alone.
    fn new(frames: &'f [Frame]) -> Walk<'f> {
        let count = frames.len();
        let mut walk = Walk {
            frames,
            met: vec![0; count],
            back: vec![0; count],
            moment: 0,
            open: Vec::with_capacity(count),
            path: Vec::with_capacity(32),
            lowest_on_circle: None,
            lowest_too_deep: None,
            finished: Vec::with_capacity(count),
        };
        for (f, frame) in frames.iter().enumerate() {
            if frame.kind == kind::MODULE {
                walk.from(f);
            }
        }
        let laid_out = walk.finished.len();
        for f in 0..count {
            walk.from(f);
        }
        walk.finished.truncate(laid_out);
        walk
    }

    fn from(&mut self, start: usize) {
        if self.met[start] != 0 {
            return;
        }
        self.meet(start);
        while let Some((f, field)) = self.path.last_mut() {
            let f = usize::from(*f);
            let frame = &self.frames[f];
            let at = usize::from(*field);
            if at < frame.child_count() {
                *field += 1;
                self.look(f, usize::from(frame.fields()[at]));
            } else {
                self.path.pop();
                self.finish(f);
            }
        }
    }

    /// The path holds a module at depth 0, its body at 1, and so on.
    fn meet(&mut self, f: usize) {
        if self.path.len() > usize::from(DEPTH) {
            lower(&mut self.lowest_too_deep, f);
        }
        self.moment += 1;
        self.met[f] = self.moment;
        self.back[f] = self.moment;
        self.open.push(f as u16);
        self.path.push((f as u16, 0));
    }

    /// Follows one child field of `f`. A number without a frame leads nowhere.
    fn look(&mut self, f: usize, child: usize) {
        match self.met.get(child) {
            None => {}
            Some(0) => self.meet(child),
            Some(&moment) => {
                self.back[f] = self.back[f].min(moment);
                if child == f {
                    lower(&mut self.lowest_on_circle, f);
                }
            }
        }
    }

    /// All below `f` is known: its user leads back as far as it does. If it
    /// leads back to none before it, it and what is open after it lead to
    /// each other.
    fn finish(&mut self, f: usize) {
        self.finished.push(f as u16);
        if let Some(&(user, _)) = self.path.last() {
            let user = usize::from(user);
            self.back[user] = self.back[user].min(self.back[f]);
        }
        if self.back[f] < self.met[f] {
            return;
        }
        let mut is_circle = false;
        while let Some(other) = self.open.pop().map(usize::from) {
            self.met[other] = SETTLED;
            is_circle |= other != f;
            if is_circle {
                lower(&mut self.lowest_on_circle, other);
            }
            if other == f {
                return;
            }
        }
    }
}

/// Each line as it was given, with the new numbers of its children.
fn write(text: &[u8], frames: &[Frame], order: &[u16], out: &mut [u8]) {
    let mut numbers = vec![0; frames.len()];
    for (number, &given) in order.iter().enumerate() {
        numbers[usize::from(given)] = number as u16;
    }
    for (line, &given) in out.chunks_exact_mut(LINE).zip(order) {
        let given = usize::from(given);
        line.copy_from_slice(&text[LINE * given..][..LINE]);
        // K and S take four digits, each field four more.
        let fields = line[4..].chunks_exact_mut(4);
        for (field, child) in fields.zip(frames[given].children()) {
            field.copy_from_slice(&text::word_digits(numbers[usize::from(child)]));
        }
    }
}
