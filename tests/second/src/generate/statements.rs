//! The builder's statements.

use super::build::{Builder, Site};
use super::plan::Slip;
use crate::frame::kind;
use crate::place::{HOME, PRIVATE};
use crate::rules::Rule;
use crate::types::Type;

impl Builder<'_> {
    /// A statement that the site allows, unless it slips.
    pub(super) fn statement(&mut self, site: Site) -> u16 {
        if self.chain || !self.is_full() {
            for _ in 0..4 {
                if let Some(f) = self.compound(site) {
                    return f;
                }
            }
        }
        self.leaf(site)
    }

    fn leaf(&mut self, site: Site) -> u16 {
        if !site.waits && (site.unlinked || self.random.chance(2)) {
            return self.lines.leaf(kind::NOTHING, 0);
        }
        let leaf = self.lines.leaf(kind::COOPERATE, 0);
        if !site.unlinked {
            return leaf;
        }
        let place = self.scheduler();
        self.lines.add(kind::AT_PLACE, place, [leaf, 0, 0])
    }

    fn compound(&mut self, site: Site) -> Option<u16> {
        let choice = match self.chain {
            true => self.random.below(34),
            false => self.random.below(108),
        };
        match choice {
            0..=13 => self.at_place(site),
            14..=27 => self.let_(site),
            28..=35 => self.while_(site),
            36..=45 => self.if_(site),
            46..=57 => self.start(site),
            58..=73 => self.store(site),
            74..=81 => self.event_use(site),
            _ => self.sequence(site),
        }
    }

    fn sequence(&mut self, site: Site) -> Option<u16> {
        let below = site.below()?;
        let first_waits = self.random.chance(2);
        let a = self.statement(below.waiting(site.waits && first_waits));
        let b = self.statement(below.waiting(site.waits && !first_waits));
        Some(self.lines.add(kind::SEQUENCE, 0, [a, b, 0]))
    }

    fn at_place(&mut self, site: Site) -> Option<u16> {
        let place = match self.random.chance(3) {
            true => PRIVATE,
            false => self.scheduler(),
        };
        if place == PRIVATE && site.unlinked {
            return None;
        }
        let rules = [Rule::PlaceEffect, Rule::PlaceEvents];
        let [allowed, events] = self.effects_at(place, rules);
        let inside = Site {
            allowed,
            events,
            unlinked: place == PRIVATE && !self.slips(Rule::WhileUnlinked),
            ..site
        };
        let body = inside.below()?;
        let a = self.statement(body);
        Some(self.lines.add(kind::AT_PLACE, place, [a, 0, 0]))
    }

    fn let_(&mut self, site: Site) -> Option<u16> {
        let below = site.below()?;
        let (value, type_) = self.let_value(below.waiting(false));
        self.scope.push(type_);
        let body = self.statement(below);
        self.scope.pop();
        Some(self.lines.add(kind::LET, 0, [value, body, 0]))
    }

    fn let_value(&mut self, site: Site) -> (u16, Type) {
        if site.room > 4 {
            if let Some(slipped) = self.slipped_value(site) {
                return slipped;
            }
        }
        let type_ = match self.some_type(site.allowed) {
            type_ if self.fits(type_, site) => type_,
            _ => Type::NUMBER,
        };
        (self.expression(type_, site), type_)
    }

    /// A new cell that no rule allows.
    fn slipped_value(&mut self, site: Site) -> Option<(u16, Type)> {
        let (content, owner) = if self.slips(Rule::NewCellEffect) {
            (Type::NUMBER, self.scheduler())
        } else if self.slips(Rule::PublicContent) {
            let owner = self.owner_within(site.allowed).max(HOME);
            (self.private_type(), owner)
        } else if self.slips(Slip::FourthCell) {
            (Type(0x1111), PRIVATE)
        } else {
            return None;
        };
        let below = site.below()?;
        let value = self.expression(content, below);
        let cell = self.lines.add(kind::NEW_CELL, owner, [value, 0, 0]);
        Some((cell, content.around(owner).unwrap_or(content)))
    }

    /// One to three private cells around a number.
    fn private_type(&mut self) -> Type {
        [Type(0x0011), Type(0x0111), Type(0x1111)][self.random.below(3)]
    }

    fn store(&mut self, site: Site) -> Option<u16> {
        let below = site.below()?;
        if site.waits {
            return None;
        }
        let allowed = match self.slips(Rule::StoreEffect) {
            true => self.everywhere(),
            false => site.allowed,
        };
        let mut cells = self.types_at_hand();
        cells.retain(|cell| {
            cell.is_cell() && allowed.covers(cell.owner()) && self.fits(cell.content(), below)
        });
        let cell = match self.random.pick(&cells) {
            Some(cell) => cell,
            None => Type::NUMBER.around(self.owner_within(site.allowed))?,
        };
        if !self.fits(cell, below) {
            return None;
        }
        let a = self.operand(cell, below, Rule::Operands);
        let b = self.operand(cell.content(), below, Rule::StoredType);
        Some(self.lines.add(kind::STORE, 0, [a, b, 0]))
    }

    fn if_(&mut self, site: Site) -> Option<u16> {
        let below = site.below()?;
        let a = self.operand(Type::TRUTH, below.waiting(false), Rule::Operands);
        let b = self.statement(below);
        let c = self.statement(below);
        Some(self.lines.add(kind::IF, 0, [a, b, c]))
    }

    fn while_(&mut self, site: Site) -> Option<u16> {
        if site.waits {
            return None;
        }
        let waits = !self.slips(Rule::LoopBody);
        let below = site.waiting(waits).below()?;
        let a = self.operand(Type::TRUTH, below.waiting(false), Rule::Operands);
        let b = self.statement(below);
        Some(self.lines.add(kind::WHILE, 0, [a, b, 0]))
    }

    /// Both kinds of use can end at once.
    fn event_use(&mut self, site: Site) -> Option<u16> {
        if site.waits {
            return None;
        }
        let (kind, rule) = match self.random.chance(2) {
            true => (kind::GENERATE, Rule::GenerateEffect),
            false => (kind::AWAIT, Rule::AwaitEffect),
        };
        if self.slips(Slip::MissingEvent) {
            let number = self.events.len() + self.random.below(3);
            return Some(self.lines.leaf(kind, number as u8));
        }
        let any_owner = self.slips(rule);
        let fitting: Vec<usize> = (0..self.events.len())
            .filter(|&number| any_owner || site.events.covers(self.events[number]))
            .collect();
        let number = self.random.pick(&fitting)?;
        Some(self.lines.leaf(kind, number as u8))
    }

    fn start(&mut self, site: Site) -> Option<u16> {
        if site.unlinked {
            return None;
        }
        let kind = match site.waits || self.random.chance(2) {
            true => kind::START_AND_WAIT,
            false => kind::START,
        };
        let (number, types) = match self.slips(Rule::ModuleBelow) {
            true => self.module_not_below(),
            false => self.startable(site)?,
        };
        let mut fields = [0; 3];
        if !types.is_empty() {
            let below = site.waiting(false).below()?;
            for (field, &type_) in fields.iter_mut().zip(&types) {
                *field = self.operand(type_, below, Rule::Arguments);
            }
        }
        Some(self.lines.add(kind, number as u8, fields))
    }

    fn module_not_below(&mut self) -> (usize, Vec<Type>) {
        let number = self.modules.len() + self.random.below(3);
        let count = self.random.below(6).saturating_sub(3);
        (number, vec![Type::NUMBER; count])
    }

    /// A module that may be started here, and the types of its arguments.
    fn startable(&mut self, site: Site) -> Option<(usize, Vec<Type>)> {
        let any_effect = self.slips(Rule::StartEffect);
        let any_events = self.slips(Rule::StartEvents);
        let any_owner = self.slips(Rule::PublicArgument);
        let room = site.room - 1;
        let fitting: Vec<usize> = (0..self.modules.len())
            .filter(|&number| {
                let module = &self.modules[number];
                (any_effect || module.effect.within(site.allowed))
                    && (any_events || module.events.within(site.events))
                    && module.parameters.iter().all(|&type_| {
                        (any_owner || type_.is_public()) && self.fits(type_, Site { room, ..site })
                    })
            })
            .collect();
        let number = self.random.pick(&fitting)?;
        let mut types = self.modules[number].parameters.clone();
        if self.slips(Rule::Arguments) {
            types = vec![Type::NUMBER; self.random.below(3)];
        }
        Some((number, types))
    }
}
