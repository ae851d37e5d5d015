//! The builder's expressions.

use super::build::{Builder, Site};
use super::plan::Slip;
use crate::effect::Effect;
use crate::frame::kind;
use crate::place::PRIVATE;
use crate::rules::Rule;
use crate::types::Type;

/// More levels than any tree has: what cannot be made at all.
const NEVER: u16 = 1000;

impl Builder<'_> {
    /// Levels that an expression of the type needs, at least.
    fn least_room(&self, wanted: Type, allowed: Effect) -> u16 {
        if !wanted.is_cell() || self.scope.contains(&wanted) || self.shared.contains(&wanted) {
            1
        } else if allowed.covers(wanted.owner()) {
            1 + self.least_room(wanted.content(), allowed)
        } else {
            NEVER
        }
    }

    pub(super) fn fits(&self, wanted: Type, site: Site) -> bool {
        self.least_room(wanted, site.allowed) <= site.room
    }

    pub(super) fn is_full(&self) -> bool {
        self.lines.0.len() >= self.size
    }

    /// An expression of the type, which fits the site.
    pub(super) fn expression(&mut self, wanted: Type, site: Site) -> u16 {
        if let Some(missing) = self.missing() {
            return missing;
        }
        let compound = match self.is_full() || self.random.chance(2) {
            true => None,
            false => self.operation(wanted, site),
        };
        match compound {
            Some(f) => f,
            None => self.plain(wanted, site),
        }
    }

    /// A variable or shared cell that is not there. Expressions are many, so
    /// most are spared.
    fn missing(&mut self) -> Option<u16> {
        if self.slips.is_empty() || !self.random.chance(6) {
            None
        } else if self.slips(Slip::MissingVariable) {
            let number = self.scope.len() + self.random.below(3);
            Some(self.lines.leaf(kind::VARIABLE, number as u8))
        } else if self.slips(Slip::MissingSharedCell) {
            let number = self.shared.len() + self.random.below(3);
            Some(self.lines.leaf(kind::SHARED, number as u8))
        } else {
            None
        }
    }

    fn operation(&mut self, wanted: Type, site: Site) -> Option<u16> {
        let below = site.waiting(false).below()?;
        match (wanted, self.random.below(4)) {
            (Type::NUMBER, 0) => {
                let operands = self.operands(&[Type::NUMBER; 2], below);
                Some(self.lines.add(kind::SUM, 0, operands))
            }
            (Type::NUMBER, 1) => {
                let types = [Type::TRUTH, Type::NUMBER, Type::NUMBER];
                let operands = self.operands(&types, below);
                Some(self.lines.add(kind::CHOOSE, 0, operands))
            }
            (Type::TRUTH, 0..=1) => {
                let operands = self.operands(&[Type::NUMBER; 2], below);
                Some(self.lines.add(kind::LESS, 0, operands))
            }
            _ => self.content(wanted, below),
        }
    }

    fn operands(&mut self, types: &[Type], site: Site) -> [u16; 3] {
        let mut fields = [0; 3];
        for (field, &type_) in fields.iter_mut().zip(types) {
            *field = self.operand(type_, site, Rule::Operands);
        }
        fields
    }

    pub(super) fn operand(&mut self, wanted: Type, site: Site, rule: Rule) -> u16 {
        let slipped = match self.slips(rule) {
            true => self.some_type(site.allowed),
            false => wanted,
        };
        match self.fits(slipped, site) {
            true => self.expression(slipped, site),
            false => self.expression(wanted, site),
        }
    }

    /// The content of a cell at hand, or of a new one.
    fn content(&mut self, wanted: Type, below: Site) -> Option<u16> {
        let allowed = match self.slips(Rule::ContentEffect) {
            true => self.everywhere(),
            false => below.allowed,
        };
        let mut cells = self.types_at_hand();
        cells.retain(|cell| {
            cell.is_cell() && cell.content() == wanted && allowed.covers(cell.owner())
        });
        let cell = match self.random.pick(&cells) {
            Some(cell) if !self.random.chance(4) => cell,
            _ => {
                let owner = self.owner_within(allowed);
                let fits = owner == PRIVATE || wanted.is_public();
                fits.then(|| wanted.around(owner)).flatten()?
            }
        };
        if !self.fits(cell, below) {
            return None;
        }
        let cell = self.operand(cell, below, Rule::Operands);
        Some(self.lines.add(kind::CONTENT, 0, [cell, 0, 0]))
    }

    /// A constant, a variable, a shared cell, or else a new cell.
    fn plain(&mut self, wanted: Type, site: Site) -> u16 {
        let at_hand = self.references(wanted);
        let new = wanted.is_cell()
            && self.least_room(wanted.content(), site.allowed) < site.room
            && site.allowed.covers(wanted.owner());
        match self.random.pick(&at_hand) {
            Some((kind, number)) if !new || !self.random.chance(4) => self.lines.leaf(kind, number),
            _ if wanted == Type::NUMBER => {
                let number = self.some_number();
                self.lines.add(kind::NUMBER, 0, [number, 0, 0])
            }
            _ if wanted == Type::TRUTH => {
                let truth = !self.random.chance(4);
                self.lines.leaf(kind::TRUTH, u8::from(truth))
            }
            _ => {
                let room = site.room - 1;
                let content = self.expression(wanted.content(), Site { room, ..site });
                self.lines
                    .add(kind::NEW_CELL, wanted.owner(), [content, 0, 0])
            }
        }
    }

    /// Variables and shared cells of the type, as kind and number.
    fn references(&self, wanted: Type) -> Vec<(u8, u8)> {
        let of = |kind, types: &[Type]| -> Vec<(u8, u8)> {
            let fitting = (0..types.len()).filter(|&number| types[number] == wanted);
            fitting.map(|number| (kind, number as u8)).collect()
        };
        let mut found = of(kind::VARIABLE, &self.scope);
        found.extend(of(kind::SHARED, &self.shared));
        found
    }
}
