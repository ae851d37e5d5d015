//! Frames, their kinds, and what each kind uses its fields for.

/// One line of a file.
#[derive(Clone, Copy, PartialEq, Eq, Debug, Default)]
pub struct Frame {
    pub kind: u8,
    pub s: u8,
    pub a: u16,
    pub b: u16,
    pub c: u16,
}

/// The kinds, by their numbers in 01 and, for events and links, in 02.
pub mod kind {
    pub const HEADER: u8 = 0x00;
    pub const SHARED_CELL: u8 = 0x01;
    pub const MODULE: u8 = 0x02;
    pub const EVENT: u8 = 0x03;
    pub const LINK: u8 = 0x04;
    pub const NOTHING: u8 = 0x10;
    pub const SEQUENCE: u8 = 0x11;
    pub const AT_PLACE: u8 = 0x12;
    pub const START: u8 = 0x13;
    pub const START_AND_WAIT: u8 = 0x14;
    pub const COOPERATE: u8 = 0x15;
    pub const LET: u8 = 0x16;
    pub const STORE: u8 = 0x17;
    pub const IF: u8 = 0x18;
    pub const WHILE: u8 = 0x19;
    pub const GENERATE: u8 = 0x1A;
    pub const AWAIT: u8 = 0x1B;
    pub const NUMBER: u8 = 0x20;
    pub const TRUTH: u8 = 0x21;
    pub const VARIABLE: u8 = 0x22;
    pub const SHARED: u8 = 0x23;
    pub const NEW_CELL: u8 = 0x24;
    pub const CONTENT: u8 = 0x25;
    pub const SUM: u8 = 0x26;
    pub const LESS: u8 = 0x27;
    pub const CHOOSE: u8 = 0x28;
}

/// What a kind uses one of the fields A, B, C for.
#[derive(Clone, Copy, PartialEq, Eq, Debug)]
pub enum Use {
    /// Must be 0.
    Unused,
    /// A number, a type word or, of a link, a scheduler.
    Data,
    /// A child, always there.
    Statement,
    /// A child, always there.
    Expression,
    /// A child that is an expression, or 0 for none.
    Argument,
}

/// What a kind makes of its fields.
#[derive(Clone, Copy)]
pub struct Shape {
    /// The uses of A, B, C; those with children come first.
    pub fields: [Use; 3],
    /// How many of A, B, C have a child; in 13 and 14, at most.
    children: u8,
    /// All ones where S, A, B or C must be 0.
    unused: [u16; 4],
}

impl Shape {
    const fn new(uses_s: bool, a: Use, b: Use, c: Use) -> Option<Shape> {
        const fn ones(unused: bool) -> u16 {
            if unused {
                0xFFFF
            } else {
                0
            }
        }
        Some(Shape {
            fields: [a, b, c],
            children: a.is_child() as u8 + b.is_child() as u8 + c.is_child() as u8,
            unused: [
                ones(!uses_s),
                ones(matches!(a, Use::Unused)),
                ones(matches!(b, Use::Unused)),
                ones(matches!(c, Use::Unused)),
            ],
        })
    }
}

impl Use {
    const fn is_child(self) -> bool {
        matches!(self, Use::Statement | Use::Expression | Use::Argument)
    }
}

/// The shapes of all 256 kinds; none where the papers have no such kind.
static SHAPES: [Option<Shape>; 256] = shapes();

const fn shapes() -> [Option<Shape>; 256] {
    use kind::*;
    use Use::*;
    let mut table = [None; 256];
    table[HEADER as usize] = Shape::new(true, Data, Data, Data);
    table[SHARED_CELL as usize] = Shape::new(true, Data, Data, Unused);
    table[MODULE as usize] = Shape::new(true, Statement, Data, Data);
    table[EVENT as usize] = Shape::new(true, Unused, Unused, Unused);
    table[LINK as usize] = Shape::new(true, Data, Unused, Unused);
    table[NOTHING as usize] = Shape::new(false, Unused, Unused, Unused);
    table[SEQUENCE as usize] = Shape::new(false, Statement, Statement, Unused);
    table[AT_PLACE as usize] = Shape::new(true, Statement, Unused, Unused);
    table[START as usize] = Shape::new(true, Argument, Argument, Unused);
    table[START_AND_WAIT as usize] = Shape::new(true, Argument, Argument, Unused);
    table[COOPERATE as usize] = Shape::new(false, Unused, Unused, Unused);
    table[LET as usize] = Shape::new(false, Expression, Statement, Unused);
    table[STORE as usize] = Shape::new(false, Expression, Expression, Unused);
    table[IF as usize] = Shape::new(false, Expression, Statement, Statement);
    table[WHILE as usize] = Shape::new(false, Expression, Statement, Unused);
    table[GENERATE as usize] = Shape::new(true, Unused, Unused, Unused);
    table[AWAIT as usize] = Shape::new(true, Unused, Unused, Unused);
    table[NUMBER as usize] = Shape::new(false, Data, Unused, Unused);
    table[TRUTH as usize] = Shape::new(true, Unused, Unused, Unused);
    table[VARIABLE as usize] = Shape::new(true, Unused, Unused, Unused);
    table[SHARED as usize] = Shape::new(true, Unused, Unused, Unused);
    table[NEW_CELL as usize] = Shape::new(true, Expression, Unused, Unused);
    table[CONTENT as usize] = Shape::new(false, Expression, Unused, Unused);
    table[SUM as usize] = Shape::new(false, Expression, Expression, Unused);
    table[LESS as usize] = Shape::new(false, Expression, Expression, Unused);
    table[CHOOSE as usize] = Shape::new(false, Expression, Expression, Expression);
    table
}

impl Frame {
    pub fn shape(&self) -> Option<&'static Shape> {
        SHAPES[usize::from(self.kind)].as_ref()
    }

    pub fn fields(&self) -> [u16; 3] {
        [self.a, self.b, self.c]
    }

    pub fn is_statement(&self) -> bool {
        self.kind >> 4 == 1
    }

    pub fn is_expression(&self) -> bool {
        self.kind >> 4 == 2
    }

    /// Is the kind known, and are the fields 0 that it does not use?
    pub fn has_shape(&self) -> bool {
        self.shape().is_some_and(|shape| {
            let [s, a, b, c] = shape.unused;
            u16::from(self.s) & s | self.a & a | self.b & b | self.c & c == 0
        })
    }

    /// Is this frame of the class that a parent's field asks for?
    pub fn is_of(&self, class: Use) -> bool {
        match class {
            Use::Statement => self.is_statement(),
            Use::Expression | Use::Argument => self.is_expression(),
            Use::Unused | Use::Data => false,
        }
    }

    /// How many of A, B, C, from A on, are children. In 13 and 14 those that
    /// are not 0; B needs A there, so refusal 5 goes before.
    #[inline]
    pub fn child_count(&self) -> usize {
        match self.kind {
            kind::START | kind::START_AND_WAIT => self.argument_count(),
            _ => self.shape().map_or(0, |shape| usize::from(shape.children)),
        }
    }

    /// Frame numbers of the children.
    #[inline]
    pub fn children(&self) -> impl Iterator<Item = u16> {
        self.fields().into_iter().take(self.child_count())
    }

    /// Arguments of a start.
    pub fn argument_count(&self) -> usize {
        usize::from(self.a != 0) + usize::from(self.b != 0)
    }
}
