//! A file under construction: frames in file order.

use crate::frame::{kind, Frame};
use crate::place::PRIVATE;

pub struct Lines(pub Vec<Frame>);

impl Lines {
    pub fn new(allowance: u16, schedulers: u8) -> Lines {
        let mut lines = Lines(Vec::with_capacity(64));
        lines.add(kind::HEADER, 1, [allowance, u16::from(schedulers), 0]);
        lines
    }

    /// Adds a frame and hands back its number.
    pub fn add(&mut self, kind: u8, s: u8, fields: [u16; 3]) -> u16 {
        let [a, b, c] = fields;
        self.0.push(Frame { kind, s, a, b, c });
        (self.0.len() - 1) as u16
    }

    /// A frame without children or data in A, B, C.
    pub fn leaf(&mut self, kind: u8, s: u8) -> u16 {
        self.add(kind, s, [0; 3])
    }

    /// What the cell holds that a leaf leads to: a variable or a shared cell.
    pub fn content(&mut self, kind: u8, s: u8) -> u16 {
        let cell = self.leaf(kind, s);
        self.add(kind::CONTENT, 0, [cell, 0, 0])
    }

    /// The same, and one.
    pub fn one_more(&mut self, kind: u8, s: u8) -> u16 {
        let content = self.content(kind, s);
        let one = self.add(kind::NUMBER, 0, [1, 0, 0]);
        self.add(kind::SUM, 0, [content, one, 0])
    }

    /// Stores one more in that cell.
    pub fn count_up(&mut self, kind: u8, s: u8) -> u16 {
        let cell = self.leaf(kind, s);
        let sum = self.one_more(kind, s);
        self.add(kind::STORE, 0, [cell, sum, 0])
    }

    /// A private cell with 0, and the condition that its content is below the
    /// bound, for the variable that a let makes of it.
    pub fn counter(&mut self, variable: u8, bound: u16) -> [u16; 2] {
        let zero = self.leaf(kind::NUMBER, 0);
        let cell = self.add(kind::NEW_CELL, PRIVATE, [zero, 0, 0]);
        let content = self.content(kind::VARIABLE, variable);
        let bound = self.add(kind::NUMBER, 0, [bound, 0, 0]);
        [cell, self.add(kind::LESS, 0, [content, bound, 0])]
    }

    /// Declares an event, which the header counts. Shared cells stand before.
    pub fn event(&mut self, owner: u8) {
        self.leaf(kind::EVENT, owner);
        self.0[0].c += 1;
    }

    /// Closes a module without parameters.
    pub fn module(&mut self, body: u16) {
        self.add(kind::MODULE, 0, [body, 0, 0]);
    }
}
