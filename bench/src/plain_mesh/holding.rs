//! Whether a buffer holds a mesh.

use super::{CAME_IN_PHASE, MORE, MOST_UNITS, SOURCE, UNITS};
use super::{CHIP, COUNTERS_AT, HEADER, HELD, LINK, LINKS_AT, PLACE, PLACES_AT};
use super::{DOWN, HEIGHT, MONITOR, PHASE, ROUNDS_IN_PHASE, ROUNDS_PER_PHASE, WIDTH};
use crate::model::{direct_of, kind, kind_of, LOCAL};

pub fn holds(mesh: &[u32]) -> bool {
    if mesh.len() < HEADER || !header_fine(mesh) {
        return false;
    }
    let needed = HEADER + (mesh[WIDTH] * mesh[HEIGHT]) as usize * CHIP;
    mesh.len() >= needed && mesh[HEADER..needed].chunks_exact(CHIP).all(chip_fine)
}

fn header_fine(mesh: &[u32]) -> bool {
    (1..=12).contains(&mesh[WIDTH])
        && (1..=12).contains(&mesh[HEIGHT])
        && (1..=65_535).contains(&mesh[ROUNDS_PER_PHASE])
        && mesh[MONITOR] <= 19
        && mesh[PHASE] <= 3
        && mesh[ROUNDS_IN_PHASE] < mesh[ROUNDS_PER_PHASE]
}

fn chip_fine(chip: &[u32]) -> bool {
    registers_fine(&chip[..COUNTERS_AT]) && chip[LINKS_AT..].chunks_exact(LINK).all(link_fine)
}

fn registers_fine(words: &[u32]) -> bool {
    if words[UNITS] == 0 {
        words.iter().all(|&word| word == 0)
    } else {
        words[0] < 256
            && words[3] <= 5
            && words[4] <= 1
            && words[MORE] == u32::from(words[UNITS] > 1)
            && (words[SOURCE] <= 5 || words[SOURCE] == LOCAL)
            && words[CAME_IN_PHASE] <= 3
            && words[UNITS] <= MOST_UNITS
    }
}

fn link_fine(link: &[u32]) -> bool {
    link[DOWN] <= 1
        && link[HELD] <= 8
        && link[PLACES_AT..PLACES_AT + PLACE * link[HELD] as usize].chunks_exact(PLACE).all(packet_fine)
}

fn packet_fine(place: &[u32]) -> bool {
    let (control, word, payload) = (place[0], place[1], place[2]);
    control < 256
        && !(kind_of(control) == kind::NN && direct_of(control) == 1)
        && (control ^ word ^ payload).count_ones() % 2 == 1
        && (control >> 1 & 1 == 1 || payload == 0)
}
