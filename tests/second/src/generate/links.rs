//! Links, which put schedulers in step (document 02, change 7).

use super::lines::Lines;
use super::random::Random;
use crate::frame::kind;
use crate::group::Groups;
use crate::layout::DECLARATIONS;
use crate::place::HOME;

/// Declares some links between the schedulers of a file and hands back the
/// groups. With one scheduler there are none. Events stand before.
pub fn declare(random: &mut Random, lines: &mut Lines, last_place: u8) -> Groups {
    let first = lines.0.len();
    for [one, other] in some(random, last_place) {
        let fields = [u16::from(one.min(other)), 0, 0];
        lines.add(kind::LINK, one.max(other), fields);
    }
    Groups::new(&lines.0[first..])
}

/// Pairs of schedulers, in any order, at times one of them twice, seldom more
/// of them than a file may have of other declarations.
fn some(random: &mut Random, last_place: u8) -> Vec<[u8; 2]> {
    let mut places: Vec<u8> = (HOME..=last_place).collect();
    let count = places.len();
    if count < 2 {
        return Vec::new();
    }
    random.shuffle(&mut places);
    let mut pairs = match random.below(10) {
        0..=2 => chain(&places),
        3..=4 => chain(&places[..random.between(2, count)]),
        5 => star(&places),
        6..=8 if count > 3 => {
            let [one, other] = two_parts(random, &places);
            [chain(one), chain(other)].concat()
        }
        _ => any(random, &places),
    };
    let count = match random.below(24) {
        0 => random.between(DECLARATIONS - 1, 2 * DECLARATIONS),
        1..=8 => pairs.len() + 1,
        _ => pairs.len(),
    };
    while pairs.len() < count {
        pairs.push(pairs[random.below(pairs.len())]);
    }
    random.shuffle(&mut pairs);
    pairs
}

/// Each with the next.
fn chain(places: &[u8]) -> Vec<[u8; 2]> {
    places.windows(2).map(|pair| [pair[0], pair[1]]).collect()
}

/// All with the first.
fn star(places: &[u8]) -> Vec<[u8; 2]> {
    places[1..]
        .iter()
        .map(|&place| [places[0], place])
        .collect()
}

/// Of two schedulers at least; some may be in neither.
fn two_parts<'p>(random: &mut Random, places: &'p [u8]) -> [&'p [u8]; 2] {
    let count = random.between(4, places.len());
    let (one, other) = places[..count].split_at(random.between(2, count - 2));
    [one, other]
}

/// Also in circles.
fn any(random: &mut Random, places: &[u8]) -> Vec<[u8; 2]> {
    let count = random.between(1, 2 * places.len());
    let mut pair = || {
        let one = random.below(places.len());
        let other = (one + random.between(1, places.len() - 1)) % places.len();
        [places[one], places[other]]
    };
    (0..count).map(|_| pair()).collect()
}
