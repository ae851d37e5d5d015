//! Who is in step with whom, read off the K 04 frames of a file.

use second::layout::Program;

/// The schedulers in step with this one, itself included, by number: as long
/// as a link leads out of the group, its other end is in it too.
pub fn members(program: &Program, place: u8) -> Vec<u8> {
    let links = program.frames.iter().filter(|frame| frame.kind == 0x04);
    let pairs: Vec<[u8; 2]> = links.map(|link| [link.s, link.a as u8]).collect();
    let mut members = vec![place];
    let mut grows = true;
    while grows {
        grows = false;
        for [one, other] in pairs.iter().flat_map(|&[s, a]| [[s, a], [a, s]]) {
            if members.contains(&one) && !members.contains(&other) {
                members.push(other);
                grows = true;
            }
        }
    }
    members.sort();
    members
}
