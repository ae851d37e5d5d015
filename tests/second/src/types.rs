//! Type words.

use crate::place::PRIVATE;

/// Four hexadecimal digits: the base on the right, then the owners of the
/// cells around it, the outermost leftmost.
#[derive(Clone, Copy, PartialEq, Eq, Debug)]
pub struct Type(pub u16);

/// Owners that fit in a word.
const DEEPEST: u32 = 3;

impl Type {
    pub const NUMBER: Type = Type(1);
    pub const TRUTH: Type = Type(2);

    pub fn is_cell(self) -> bool {
        self.0 > 0xF
    }

    /// Cells around the base.
    pub fn cells(self) -> u32 {
        (15 - self.0.leading_zeros().min(15)) / 4
    }

    /// Owner of the outermost cell; 0 where there is no cell.
    pub fn owner(self) -> u8 {
        if self.is_cell() {
            (self.0 >> (4 * self.cells())) as u8
        } else {
            0
        }
    }

    /// The content type, where the type is a cell.
    pub fn content(self) -> Type {
        Type(self.0 & !(0xF << (4 * self.cells())))
    }

    /// A cell of this owner around the type, unless that is one cell too many.
    pub fn around(self, owner: u8) -> Option<Type> {
        let cells = self.cells();
        (cells < DEEPEST).then(|| Type(self.0 | u16::from(owner) << (4 * (cells + 1))))
    }

    pub fn is_public(self) -> bool {
        self.owner() != PRIVATE
    }

    /// Is this a type word of a file whose places end at `last_place`?
    pub fn is_well_formed(self, last_place: u8) -> bool {
        let mut owners = self.0 >> 4;
        let mut private = false;
        while owners != 0 {
            let owner = (owners & 0xF) as u8;
            if owner == 0 || owner > last_place || private && owner != PRIVATE {
                return false;
            }
            private = owner == PRIVATE;
            owners >>= 4;
        }
        matches!(self.0 & 0xF, 1 | 2)
    }
}

#[cfg(test)]
mod tests {
    use super::Type;

    /// 01's bench samples: type words of a parameter, two schedulers.
    #[test]
    fn type_word_samples() {
        for word in [0x0001, 0x0021, 0x0121, 0x0321] {
            assert!(Type(word).is_well_formed(3), "{word:04X}");
        }
        for word in [0x0211, 0x0201, 0x0020, 0x0003, 0x0041] {
            assert!(!Type(word).is_well_formed(3), "{word:04X}");
        }
        assert!(Type(0x1121).is_well_formed(3));
        assert!(!Type(0x0000).is_well_formed(3));
        assert!(!Type(0x2121).is_well_formed(3));
    }

    #[test]
    fn cells_are_put_on_and_taken_off() {
        let inner = Type::TRUTH.around(3).unwrap();
        let outer = inner.around(1).unwrap();
        assert_eq!((inner.0, outer.0), (0x0032, 0x0132));
        assert_eq!((inner.owner(), outer.owner()), (3, 1));
        assert_eq!((outer.content(), inner.content()), (inner, Type::TRUTH));
        assert!(inner.is_public() && !outer.is_public() && Type::TRUTH.is_public());
        assert_eq!(Type(0x1132).around(1), None);
        assert_eq!(Type(0x1132).cells(), 3);
    }
}
