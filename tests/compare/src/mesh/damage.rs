//! One word of a buffer changed: in the header, the registers, a counter, a link's state or count, a packet in flight,
//! a place not in use, or what a round sets aside. docs/LAYOUT.md says whether the buffer still holds a mesh.

use super::layout::{link_at, CHIP, COUNTERS_AT, HEADER, LINK, PLACE, PLACES_AT};
use super::model::Mesh;
use crate::random::Random;

/// Changes one word of a buffer that holds this mesh, and answers which, and what it was.
pub fn damage(random: &mut Random, mesh: &Mesh, words: &mut [u32]) -> (usize, u32) {
    let chip = random.below(mesh.chips.len() as u32) as usize;
    let link = random.below(6) as usize;
    let (at, value) = match random.below(12) {
        0 | 1 => header(random, mesh),
        2 | 3 => registers(random, chip),
        4 => (HEADER + chip * CHIP + COUNTERS_AT + random.below(10) as usize, near_wrap(random)),
        5 => (link_at(chip, link), random.pick(&[0, 1, 1, 2, 3, 0x8000_0000, u32::MAX])),
        6 => (link_at(chip, link) + 1, random.pick(&[0, 1, 2, 5, 6, 7, 8, 9, 10, 0x8000_0000, u32::MAX])),
        7..=10 => packet(random, mesh, words, chip, link),
        _ => (link_at(chip, link) + random.below(LINK as u32) as usize, random.word()),
    };
    (at, std::mem::replace(&mut words[at], value))
}

fn header(random: &mut Random, mesh: &Mesh) -> (usize, u32) {
    let any = random.word();
    let at = random.below(HEADER as u32);
    let rounds = mesh.rounds_per_phase;
    let value = match at {
        0 | 1 => random.pick(&[0, 1, 2, 3, 4, 11, 12, 13, 16, 256, 0x1_0001, 0x8000_0001, u32::MAX]),
        2 => random.pick(&[0, 1, 2, mesh.rounds_in_phase, mesh.rounds_in_phase + 1, 65_535, 65_536, u32::MAX]),
        3 => random.pick(&[0, 10, 18, 19, 20, 21, 31, 32, 0x8000_0000, u32::MAX]),
        4 => random.pick(&[0, 1, 2, 3, 4, 5, 7, 0x8000_0000, u32::MAX]),
        _ => random.pick(&[0, 1, rounds - 1, rounds - 1, rounds, rounds + 1, 65_534, 65_535, u32::MAX]),
    };
    (at as usize, if random.one_in(16) { any } else { value })
}

fn registers(random: &mut Random, chip: usize) -> (usize, u32) {
    let any = random.word();
    let at = random.below(COUNTERS_AT as u32);
    let value = match at {
        0 => random.pick(&[0, 1, any & 0xff, any & 0xff, 255, 256, 257, 0x8000_0000, u32::MAX]),
        1 | 2 => random.pick(&[0, 0, 1, any]),
        3 => random.pick(&[0, 1, 4, 5, 6, 7, 0x8000_0000, u32::MAX]),
        6 => random.pick(&[0, 1, 5, 6, 7, 7, 8, 0x8000_0000, u32::MAX]),
        7 => random.pick(&[0, 1, 2, 3, 4, 7, 0x8000_0000, u32::MAX]),
        8 => random.pick(&[0, 1, 2, 65_530, 65_534, 65_535, 65_536, 0x8000_0000, u32::MAX]),
        _ => random.pick(&[0, 1, 1, 2, 3, 0x8000_0000, u32::MAX]),
    };
    (HEADER + chip * CHIP + at as usize, value)
}

fn near_wrap(random: &mut Random) -> u32 {
    let any = random.word();
    random.pick(&[u32::MAX, u32::MAX, u32::MAX - 1, u32::MAX - 2, u32::MAX - 5, 0, any])
}

/// A word of a packet in flight, of one on the named link if there is any there or on a busy one instead.
fn packet(random: &mut Random, mesh: &Mesh, words: &[u32], chip: usize, link: usize) -> (usize, u32) {
    let busy = |chip: usize, link: usize| !mesh.chips[chip].links[link].held.is_empty();
    let all = (0..mesh.chips.len()).flat_map(|chip| (0..6).map(move |link| (chip, link)));
    let (chip, link) = if busy(chip, link) {
        (chip, link)
    } else {
        all.clone().find(|&(chip, link)| busy(chip, link)).unwrap_or((chip, link))
    };
    let held = mesh.chips[chip].links[link].held.len().max(1) as u32;
    let number = random.below(PLACE as u32) as usize;
    let at = link_at(chip, link) + PLACES_AT + PLACE * random.below(held) as usize + number;
    let (old, any) = (words[at], random.word());
    let two_bits = 1 << random.below(8) ^ 1 << random.below(8);
    let value = match number {
        0 => random.pick(&[
            old ^ 1,
            old ^ 2,
            old ^ 3,
            old ^ two_bits,
            any & 0xff,
            old | 0xc0,
            old ^ 0xc0,
            old ^ 0xc0,
            old & 0x1f | 0xa0,
            old | 256,
        ]),
        _ => random.pick(&[old ^ 1 << (any & 31), old ^ 3 << (any & 31), any, 0]),
    };
    (at, value)
}
