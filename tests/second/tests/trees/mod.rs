//! Files from trees of frames, and their runs choice by choice, for the cases
//! by hand.
#![allow(dead_code)] // Each of the tests uses a part.

use second::frame::kind;
use second::layout::Program;
use second::listing::Reading;
use second::place::HOME;
use second::state::{Entry, State, Until};
use second::text;
use second::verdict::Verdict;

/// A frame with its children, whose numbers stand in its first fields; the
/// other fields are data.
#[derive(Clone)]
pub struct Node {
    kind: u8,
    s: u8,
    fields: [u16; 3],
    children: Vec<Node>,
}

pub fn node(kind: u8, s: u8, children: &[Node]) -> Node {
    Node {
        kind,
        s,
        fields: [0; 3],
        children: children.to_vec(),
    }
}

fn leaf(kind: u8, s: u8) -> Node {
    node(kind, s, &[])
}

// Declarations and modules.

/// With a content of this type, which is this one first.
pub fn shared_cell(owner: u8, type_: u16, first: u16) -> Node {
    Node {
        fields: [type_, first, 0],
        ..leaf(kind::SHARED_CELL, owner)
    }
}

/// With the number 0.
pub fn number_cell(owner: u8) -> Node {
    shared_cell(owner, 0x0001, 0)
}

pub fn event(owner: u8) -> Node {
    leaf(kind::EVENT, owner)
}

/// Puts two schedulers in step.
pub fn link(scheduler: u8, lower: u8) -> Node {
    Node {
        fields: [u16::from(lower), 0, 0],
        ..leaf(kind::LINK, scheduler)
    }
}

pub fn module(parameters: &[u16], body: Node) -> Node {
    let mut module = node(kind::MODULE, parameters.len() as u8, &[body]);
    module.fields[1..][..parameters.len()].copy_from_slice(parameters);
    module
}

// Expressions.

pub fn number(number: u16) -> Node {
    Node {
        fields: [number, 0, 0],
        ..leaf(kind::NUMBER, 0)
    }
}

pub fn truth(s: u8) -> Node {
    leaf(kind::TRUTH, s)
}

pub fn variable(s: u8) -> Node {
    leaf(kind::VARIABLE, s)
}

pub fn shared(s: u8) -> Node {
    leaf(kind::SHARED, s)
}

pub fn new(owner: u8, content: Node) -> Node {
    node(kind::NEW_CELL, owner, &[content])
}

pub fn content(cell: Node) -> Node {
    node(kind::CONTENT, 0, &[cell])
}

pub fn sum(a: Node, b: Node) -> Node {
    node(kind::SUM, 0, &[a, b])
}

pub fn less(a: Node, b: Node) -> Node {
    node(kind::LESS, 0, &[a, b])
}

pub fn choose(a: Node, b: Node, c: Node) -> Node {
    node(kind::CHOOSE, 0, &[a, b, c])
}

// Statements.

pub fn nothing() -> Node {
    leaf(kind::NOTHING, 0)
}

pub fn cooperate() -> Node {
    leaf(kind::COOPERATE, 0)
}

pub fn generate(event: u8) -> Node {
    leaf(kind::GENERATE, event)
}

pub fn await_event(event: u8) -> Node {
    leaf(kind::AWAIT, event)
}

/// Starts a module that takes no arguments.
pub fn start(module: u8) -> Node {
    leaf(kind::START, module)
}

/// The same, and waits.
pub fn wait_for(module: u8) -> Node {
    leaf(kind::START_AND_WAIT, module)
}

/// One after the other; the first two are the deepest.
pub fn row(statements: &[Node]) -> Node {
    let pair = |a, b| node(kind::SEQUENCE, 0, &[a, b]);
    let row = statements.iter().cloned().reduce(pair);
    row.expect("a row of statements")
}

pub fn at(place: u8, body: Node) -> Node {
    node(kind::AT_PLACE, place, &[body])
}

pub fn let_(value: Node, body: Node) -> Node {
    node(kind::LET, 0, &[value, body])
}

pub fn store(cell: Node, value: Node) -> Node {
    node(kind::STORE, 0, &[cell, value])
}

/// In shared cell 0, which holds a number.
pub fn stores() -> Node {
    store(shared(0), number(7))
}

pub fn forever(body: Node) -> Node {
    node(kind::WHILE, 0, &[truth(1), body])
}

/// One of two, always the first.
pub fn either(first: Node, second: Node) -> Node {
    node(kind::IF, 0, &[truth(1), first, second])
}

// Files.

/// Declarations and modules, `main` last.
pub struct File {
    pub schedulers: u8,
    pub cells: Vec<Node>,
    pub events: Vec<Node>,
    pub links: Vec<Node>,
    pub modules: Vec<Node>,
}

/// A file with events of these owners, no shared cells, and modules of these
/// bodies, without parameters.
pub fn file(schedulers: u8, owners: &[u8], bodies: &[Node]) -> File {
    let bodies = bodies.iter().cloned();
    File {
        schedulers,
        cells: Vec::new(),
        events: owners.iter().map(|&owner| event(owner)).collect(),
        links: Vec::new(),
        modules: bodies.map(|body| module(&[], body)).collect(),
    }
}

impl File {
    /// With these links: a scheduler and a lower one each.
    pub fn linked(mut self, links: &[(u8, u8)]) -> File {
        self.links = links.iter().map(|&(s, a)| link(s, a)).collect();
        self
    }

    pub fn text(&self) -> Vec<u8> {
        let header = Node {
            fields: [0, u16::from(self.schedulers), self.events.len() as u16],
            ..leaf(kind::HEADER, 1)
        };
        let mut lines = Vec::new();
        add(&mut lines, &header);
        let parts = [&self.cells, &self.events, &self.links, &self.modules];
        for node in parts.into_iter().flatten() {
            add(&mut lines, node);
        }
        (lines.join("\n") + "\n").into_bytes()
    }
}

// Verdicts.

/// Accepted: number and kind of the frame.
pub const FINE: (u8, u8) = (0, 0);

impl File {
    /// What the check says: the number and the kind of the frame.
    pub fn verdict(&self) -> (u8, u8) {
        let text = self.text();
        let verdict = Reading::new(&text).verdict();
        let frames = text::frames(&text).unwrap();
        (verdict.number, frames[usize::from(verdict.frame)].kind)
    }
}

/// Adds the frames, children first; hands back the last one's number.
fn add(lines: &mut Vec<String>, node: &Node) -> u16 {
    let mut fields = node.fields;
    for (field, child) in fields.iter_mut().zip(&node.children) {
        *field = add(lines, child);
    }
    let [a, b, c] = fields;
    let (kind, s) = (node.kind, node.s);
    lines.push(format!("{kind:02X}{s:02X}{a:04X}{b:04X}{c:04X}"));
    (lines.len() - 1) as u16
}

// Runs.

pub fn readable(text: &[u8]) -> (Program, Verdict) {
    match Reading::new(text) {
        Reading::Readable(program, verdict) => (program, verdict),
        Reading::Unreadable(verdict) => panic!("{verdict:?}"),
    }
}

/// A run, choice by choice.
pub struct Run {
    pub program: Program,
    pub state: State,
}

impl Run {
    /// Of a text that the check says this of.
    pub fn of(text: &[u8], number: u8) -> Run {
        let (program, verdict) = readable(text);
        assert_eq!(verdict.number, number);
        let state = State::new(&program);
        Run { program, state }
    }

    /// Of an accepted file with events of these owners and modules of these
    /// bodies.
    pub fn new(schedulers: u8, owners: &[u8], bodies: &[Node]) -> Run {
        Run::of(&file(schedulers, owners, bodies).text(), 0)
    }

    /// The answer and the acting thread, 0 if none; no access is counted.
    pub fn choose(&mut self, party: u8) -> (u8, u8) {
        let outcome = self.state.step(&self.program, party, &mut ());
        assert_eq!(outcome.accesses, 0);
        (outcome.answer, outcome.thread)
    }

    /// Under choices of this party these threads act, 0 for an instant's end.
    pub fn acts(&mut self, party: u8, threads: &[u8]) {
        for (at, &thread) in threads.iter().enumerate() {
            assert_eq!(
                self.choose(party),
                (0, thread),
                "choice {at} of {threads:?}"
            );
        }
    }

    /// A refused choice leaves the state as it was.
    pub fn refused(&mut self, party: u8, answer: u8, thread: u8) {
        let before = self.state.clone();
        for _ in 0..2 {
            assert_eq!(self.choose(party), (answer, thread));
            assert_eq!(self.state, before);
        }
    }

    pub fn active(&self, place: u8) -> Vec<u8> {
        let scheduler = &self.state.schedulers[usize::from(place - HOME)];
        scheduler.active.iter().copied().collect()
    }

    pub fn next(&self, place: u8) -> Vec<Entry> {
        self.state.schedulers[usize::from(place - HOME)]
            .next
            .clone()
    }

    pub fn items(&self, thread: u8) -> usize {
        self.state.thread(thread).continuation.len()
    }
}

/// An entry of a next list that is there for the instant's end.
pub fn ready(thread: u8) -> Entry {
    let until = Until::Instant;
    Entry { thread, until }
}

/// One that awaits this event.
pub fn awaiting(thread: u8, event: u8) -> Entry {
    let until = Until::Event(event);
    Entry { thread, until }
}
