//! Schedulers in step: a group of them shares its instants and its events
//! (document 02, change 7).

use crate::effect::Effect;
use crate::frame::Frame;
use crate::place::{HOME, SCHEDULERS};

/// The group of each scheduler: its class in the least equivalence that has
/// all links. A scheduler without a link is a group of its own.
#[derive(Clone, Copy, PartialEq, Eq, Debug)]
pub struct Groups([Effect; SCHEDULERS as usize]);

impl Groups {
    /// Of links that are well formed: S and A are schedulers of the file.
    pub fn new(links: &[Frame]) -> Groups {
        let mut groups = Groups(std::array::from_fn(|index| Effect::of(HOME + index as u8)));
        for link in links {
            groups.join(link.s, link.a as u8);
        }
        groups
    }

    /// All members of both groups get the union.
    pub fn join(&mut self, one: u8, other: u8) {
        let union = self.of(one).joined(self.of(other));
        for member in union.schedulers() {
            self.0[usize::from(member - HOME)] = union;
        }
    }

    /// The schedulers in step with this one, itself included; none where the
    /// place is private.
    pub fn of(&self, place: u8) -> Effect {
        let index = place.checked_sub(HOME).map(usize::from);
        let group = index.and_then(|index| self.0.get(index));
        group.copied().unwrap_or(Effect::EMPTY)
    }

    /// May a thread at this place use events of this owner, a scheduler?
    pub fn in_step(&self, place: u8, owner: u8) -> bool {
        self.of(place).covers(owner)
    }
}

#[cfg(test)]
mod tests {
    use super::*;
    use crate::frame::kind;
    use crate::place::PRIVATE;

    fn groups(links: &[(u8, u16)]) -> Groups {
        let link = |&(s, a): &(u8, u16)| Frame {
            kind: kind::LINK,
            s,
            a,
            ..Frame::default()
        };
        Groups::new(&links.iter().map(link).collect::<Vec<Frame>>())
    }

    fn group(groups: &Groups, place: u8) -> Vec<u8> {
        groups.of(place).schedulers().collect()
    }

    #[test]
    fn without_links_each_is_alone() {
        for place in HOME..HOME + SCHEDULERS {
            assert_eq!(group(&groups(&[]), place), [place]);
        }
        assert_eq!(group(&groups(&[(9, 2)]), PRIVATE), []);
        assert!(!groups(&[]).in_step(PRIVATE, HOME));
    }

    #[test]
    fn chains_are_carried_through() {
        // 4 with 2 and with 3: so 2 and 3 are in step.
        let two_to_four = groups(&[(4, 2), (4, 3)]);
        for place in 2..=4 {
            assert_eq!(group(&two_to_four, place), [2, 3, 4]);
        }
        assert_eq!(group(&two_to_four, 5), [5]);
        // Two groups, then one link between members that are not the lowest.
        let mut joined = groups(&[(3, 2), (7, 6), (9, 7)]);
        assert_eq!(
            (group(&joined, 2), group(&joined, 9)),
            (vec![2, 3], vec![6, 7, 9])
        );
        joined.join(7, 3);
        for place in [2, 3, 6, 7, 9] {
            assert_eq!(group(&joined, place), [2, 3, 6, 7, 9]);
        }
        assert_eq!(group(&joined, 8), [8]);
    }
}
