//! Files whose steps access many cells, and some that are refused after such
//! accesses, so that a wrong count is seen (document 02, change 4).

use super::lines::Lines;
use super::random::Random;
use crate::frame::{kind, Frame};
use crate::place::{HOME, PRIVATE};
use crate::types::Type;

/// Each of home's shared cells is in the next, the first one holds a number.
const NESTED_SHARED_CELLS: u8 = 3;
/// The shared cell of scheduler 3.
const FOREIGN: u8 = NESTED_SHARED_CELLS;
/// Cells around a number, at most.
const NESTED: usize = 3;
/// Least and greatest number of leaves of a sum.
const FEW: [usize; 2] = [1, 6];
const MANY: [usize; 2] = [30, 60];

/// What ends the run.
#[derive(Clone, Copy, PartialEq, Eq, Debug)]
enum End {
    /// Nothing is refused.
    None,
    /// 17 or 18, in a loop; the file is accepted.
    Spent,
    /// 19 or 20; the file is not accepted.
    Fault,
}

/// A `main` that works at home with one variable, a cell.
pub fn frames(random: &mut Random) -> Vec<Frame> {
    let end = [End::None, End::Spent, End::Fault, End::Fault][random.below(4)];
    ending_in(random, end)
}

fn ending_in(random: &mut Random, end: End) -> Vec<Frame> {
    let mut lines = Lines::new(0, 2);
    let mut content = Type::NUMBER.0;
    for number in 0..NESTED_SHARED_CELLS {
        let fields = [content, u16::from(number.saturating_sub(1)), 0];
        lines.add(kind::SHARED_CELL, HOME, fields);
        content |= u16::from(HOME) << (4 * (number + 1));
    }
    lines.add(kind::SHARED_CELL, HOME + 1, [Type::NUMBER.0, 0, 0]);
    let nothing = lines.leaf(kind::NOTHING, 0);
    let parameters = [nothing, Type::NUMBER.0, Type::NUMBER.0];
    lines.add(kind::MODULE, 2, parameters);
    let mut builder = Accesses {
        variable_cells: random.between(1, NESTED),
        leaves: FEW,
        random,
        lines,
    };
    builder.main(end);
    builder.lines.0
}

struct Accesses<'r> {
    random: &'r mut Random,
    lines: Lines,
    /// Cells of the variable around a number.
    variable_cells: usize,
    /// Leaves of a sum, at least and at most.
    leaves: [usize; 2],
}

impl Accesses<'_> {
    fn main(&mut self, end: End) {
        let number = self.number();
        let variable = self.new_cells(number, self.variable_cells);
        let mut body = self.statement();
        if self.random.chance(2) {
            body = self.and(body, Accesses::large_statement);
        }
        body = match end {
            End::None => self.and(body, Accesses::statement),
            End::Spent => self.and(body, Accesses::spend),
            End::Fault => self.and(body, Accesses::fault),
        };
        let body = self.lines.add(kind::LET, 0, [variable, body, 0]);
        self.lines.module(body);
    }

    fn and(&mut self, first: u16, second: fn(&mut Self) -> u16) -> u16 {
        let second = second(self);
        self.lines.add(kind::SEQUENCE, 0, [first, second, 0])
    }

    /// One statement of a file may access hundreds of cells.
    fn large_statement(&mut self) -> u16 {
        self.leaves = MANY;
        let statement = self.statement();
        self.leaves = FEW;
        statement
    }

    fn statement(&mut self) -> u16 {
        match self.random.below(8) {
            0..=2 => self.store(),
            3 => {
                let value = self.sum();
                self.bind(value)
            }
            4 => {
                let value = self.sum();
                let cells = self.random.between(1, NESTED);
                let value = self.new_cells(value, cells);
                self.bind(value)
            }
            5 => {
                let condition = self.less();
                let nothing = self.lines.leaf(kind::NOTHING, 0);
                let cooperate = self.lines.leaf(kind::COOPERATE, 0);
                self.lines.add(kind::IF, 0, [condition, nothing, cooperate])
            }
            6 => self.count(),
            _ => {
                let start = [kind::START, kind::START_AND_WAIT][self.random.below(2)];
                self.start(start)
            }
        }
    }

    fn bind(&mut self, value: u16) -> u16 {
        let nothing = self.lines.leaf(kind::NOTHING, 0);
        self.lines.add(kind::LET, 0, [value, nothing, 0])
    }

    fn start(&mut self, kind: u8) -> u16 {
        let fields = [self.sum(), self.sum(), 0];
        self.lines.add(kind, 0, fields)
    }

    fn store(&mut self) -> u16 {
        let fields = [self.number_cell(), self.sum(), 0];
        self.lines.add(kind::STORE, 0, fields)
    }

    /// Counts to a small number in a shared cell, an instant for each turn.
    fn count(&mut self) -> u16 {
        let content = self.read_shared_cell(0);
        let bound = self.lines.add(kind::NUMBER, 0, [4, 0, 0]);
        let condition = self.lines.add(kind::LESS, 0, [content, bound, 0]);
        self.lines.turn(condition, |lines| {
            let target = lines.leaf(kind::SHARED, 0);
            let one_more = &mut |lines: &mut Lines| lines.one_more(kind::SHARED, 0);
            let sum = lines.tree(kind::SUM, 2, one_more);
            lines.add(kind::STORE, 0, [target, sum, 0])
        })
    }

    /// New cells or threads with each turn, until there is no room for more.
    fn spend(&mut self) -> u16 {
        let condition = self.lines.leaf(kind::TRUTH, 1);
        let statement = match self.random.chance(2) {
            true => self.start(kind::START),
            false => {
                let value = self.sum();
                let value = self.new_cells(value, 1);
                self.bind(value)
            }
        };
        self.lines.turn(condition, |_| statement)
    }

    /// A statement that is refused after some accesses, in most cases.
    fn fault(&mut self) -> u16 {
        if self.random.chance(4) {
            let cell = self.lines.leaf(kind::SHARED, FOREIGN);
            let fields = [cell, self.sum(), 0];
            return self.lines.add(kind::STORE, 0, fields);
        }
        let target = self.number_cell();
        let sums = [self.sum(), self.faulty_operand()];
        let mut value = self.lines.add(kind::SUM, 0, [sums[0], sums[1], 0]);
        if self.random.chance(2) {
            let rest = self.sum();
            value = self.lines.add(kind::SUM, 0, [value, rest, 0]);
        }
        self.lines.add(kind::STORE, 0, [target, value, 0])
    }

    /// In place of a number: foreign, or stuck.
    fn faulty_operand(&mut self) -> u16 {
        match self.random.below(6) {
            0..=1 => self.read_shared_cell(FOREIGN),
            2 => {
                let number = self.number();
                let cell = self.lines.add(kind::NEW_CELL, HOME + 1, [number, 0, 0]);
                self.contents(cell, 1)
            }
            3 => self.lines.leaf(kind::TRUTH, 1),
            4 => {
                let number = self.number();
                self.contents(number, 1)
            }
            _ => self.lines.leaf(kind::VARIABLE, 1),
        }
    }

    fn sum(&mut self) -> u16 {
        let [least, greatest] = self.leaves;
        let count = self.random.between(least, greatest);
        self.sum_of(count)
    }

    fn sum_of(&mut self, count: usize) -> u16 {
        if count == 1 {
            return self.operand();
        }
        let operands = [self.sum_of(count / 2), self.sum_of(count - count / 2)];
        self.lines.add(kind::SUM, 0, [operands[0], operands[1], 0])
    }

    fn less(&mut self) -> u16 {
        let operands = [self.sum(), self.sum()];
        self.lines.add(kind::LESS, 0, [operands[0], operands[1], 0])
    }

    /// A number with few accesses, or one made by way of new cells, or one of
    /// two, of which the other is not run.
    fn operand(&mut self) -> u16 {
        match self.random.below(8) {
            0 => {
                let content = self.read();
                let cells = self.random.between(1, NESTED);
                let cell = self.new_cells(content, cells);
                self.contents(cell, cells)
            }
            1 => {
                let operands = [self.read(), self.read()];
                let condition = self.lines.add(kind::LESS, 0, [operands[0], operands[1], 0]);
                let fields = [condition, self.read(), self.read()];
                self.lines.add(kind::CHOOSE, 0, fields)
            }
            _ => self.read(),
        }
    }

    /// A constant, or what the variable or a shared cell leads to.
    fn read(&mut self) -> u16 {
        match self.random.below(7) {
            0 => self.number(),
            1..=2 => {
                let variable = self.lines.leaf(kind::VARIABLE, 0);
                self.contents(variable, self.variable_cells)
            }
            _ => {
                let number = self.random.below(usize::from(NESTED_SHARED_CELLS)) as u8;
                self.read_shared_cell(number)
            }
        }
    }

    fn read_shared_cell(&mut self, number: u8) -> u16 {
        let cell = self.lines.leaf(kind::SHARED, number);
        let cells = match number {
            FOREIGN => 1,
            _ => usize::from(number) + 1,
        };
        self.contents(cell, cells)
    }

    fn number(&mut self) -> u16 {
        let number = self.random.below(4) as u16;
        self.lines.add(kind::NUMBER, 0, [number, 0, 0])
    }

    /// A cell of home, or a private one, that holds a number.
    fn number_cell(&mut self) -> u16 {
        match self.random.below(4) {
            0 => {
                let variable = self.lines.leaf(kind::VARIABLE, 0);
                self.contents(variable, self.variable_cells - 1)
            }
            1 => {
                let content = self.sum();
                self.new_cells(content, 1)
            }
            _ => {
                let number = self.random.below(usize::from(NESTED_SHARED_CELLS)) as u8;
                let cell = self.lines.leaf(kind::SHARED, number);
                self.contents(cell, usize::from(number))
            }
        }
    }

    /// The content of the content and so on.
    fn contents(&mut self, cell: u16, cells: usize) -> u16 {
        (0..cells).fold(cell, |cell, _| {
            self.lines.add(kind::CONTENT, 0, [cell, 0, 0])
        })
    }

    /// New cells, each in the next: those of home, then private ones, which no
    /// cell of home may hold.
    fn new_cells(&mut self, content: u16, cells: usize) -> u16 {
        let of_home = self.random.below(cells + 1);
        (0..cells).fold(content, |content, number| {
            let owner = if number < of_home { HOME } else { PRIVATE };
            self.lines.add(kind::NEW_CELL, owner, [content, 0, 0])
        })
    }
}

#[cfg(test)]
mod tests {
    use super::*;
    use crate::layout::Program;
    use crate::rules;
    use crate::text::PROGRAM_LINES;

    #[test]
    fn accepted_unless_a_fault_is_built_in() {
        for index in 0..5_000 {
            for end in [End::None, End::Spent, End::Fault] {
                let frames = ending_in(&mut Random::of_case(4, index), end);
                assert!(frames.len() <= PROGRAM_LINES, "{} frames", frames.len());
                let verdict = Program::new(frames).map(|program| rules::check(&program));
                let number = verdict.unwrap_or_else(|unreadable| unreadable).number;
                match end {
                    End::Fault => assert!(matches!(number, 8 | 9 | 11), "{number}"),
                    _ => assert_eq!(number, 0),
                }
            }
        }
    }
}
