//! All P2P codes by flooding towards each chip. `QUEUED` says how: level by level over all chips, as the library does, or, tuned, with
//! a queue of the chips that were just reached.

use super::holding::holds;
use super::{checks, chips_of, link_at, neighbour, DOWN};
use crate::model::{refusal, LINKS};

const MOST_CHIPS: usize = 144;
const SIX: usize = LINKS as usize;
const UNREACHED: u8 = 255;
const NOWHERE: u8 = 6;
const ONESELF: u8 = 7;

/// The chip that each link of each chip leads to, or none where it is down.
type Leads = [[Option<u8>; SIX]; MOST_CHIPS];

/// 8, 11.
pub fn flood<const QUEUED: bool>(mesh: &[u32], codes: &mut [u8]) -> u32 {
    if !holds(mesh) {
        return checks::NO_MESH;
    }
    let chips = chips_of(mesh);
    if codes.len() != chips * chips {
        return refusal::CODES;
    }
    let leads = leads_of(mesh, chips);
    let back = if QUEUED { back_of(&leads, chips) } else { leads };
    for to in 0..chips {
        let marks = if QUEUED { queued(&back, to) } else { level_by_level(&leads, chips, to) };
        for from in 0..chips {
            codes[from * chips + to] = code(&leads, &marks, from);
        }
    }
    0
}

fn leads_of(mesh: &[u32], chips: usize) -> Leads {
    let mut leads = [[None; SIX]; MOST_CHIPS];
    for chip in 0..chips {
        for link in 0..SIX {
            if mesh[link_at(chip, link) + DOWN] == 0 {
                leads[chip][link] = Some(neighbour(mesh, chip, link) as u8);
            }
        }
    }
    leads
}

/// The chips whose links lead to each chip: link i of one arrives by link (i + 3) mod 6 of the other.
fn back_of(leads: &Leads, chips: usize) -> Leads {
    let mut back = [[None; SIX]; MOST_CHIPS];
    for chip in 0..chips {
        for link in 0..SIX {
            if let Some(to) = leads[chip][link] {
                back[usize::from(to)][(link + 3) % SIX] = Some(chip as u8);
            }
        }
    }
    back
}

fn level_by_level(leads: &Leads, chips: usize, to: usize) -> [u8; MOST_CHIPS] {
    let mut marks = [UNREACHED; MOST_CHIPS];
    marks[to] = 0;
    for level in 1..chips as u8 {
        let mut more = false;
        for chip in 0..chips {
            if marks[chip] == UNREACHED && first_link(leads, &marks, chip, level).is_some() {
                marks[chip] = level;
                more = true;
            }
        }
        if !more {
            break;
        }
    }
    marks
}

fn queued(back: &Leads, to: usize) -> [u8; MOST_CHIPS] {
    let mut marks = [UNREACHED; MOST_CHIPS];
    let mut queue = [0; MOST_CHIPS];
    marks[to] = 0;
    queue[0] = to as u8;
    let (mut next, mut end) = (0, 1);
    while next < end {
        let chip = usize::from(queue[next]);
        next += 1;
        for from in back[chip].into_iter().flatten() {
            if marks[usize::from(from)] == UNREACHED {
                marks[usize::from(from)] = marks[chip] + 1;
                queue[end] = from;
                end += 1;
            }
        }
    }
    marks
}

fn code(leads: &Leads, marks: &[u8; MOST_CHIPS], chip: usize) -> u8 {
    match marks[chip] {
        0 => ONESELF,
        UNREACHED => NOWHERE,
        mark => first_link(leads, marks, chip, mark).map_or(NOWHERE, |link| link as u8),
    }
}

/// The lowest link to a mark below a level.
fn first_link(leads: &Leads, marks: &[u8; MOST_CHIPS], chip: usize, level: u8) -> Option<usize> {
    leads[chip].iter().position(|to| to.is_some_and(|to| marks[usize::from(to)] < level))
}
