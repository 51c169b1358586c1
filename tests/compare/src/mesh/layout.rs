//! The words of a mesh buffer, as docs/LAYOUT.md has them: where each stands, and the mesh that they hold.

use super::model::{Chip, Link, Mesh};
use super::passing::{carries_payload, is_odd, MOST_UNITS};
use crate::interface::{Packet, Registers};
use crate::model::{direct_of, kind, MOST_SIDE};

/// Words of the header, of a chip, of a directed link, and of a packet's place.
pub const HEADER: usize = 6;
pub const CHIP: usize = 325;
pub const LINK: usize = 51;
pub const PLACE: usize = 3;
/// Where counters and links begin in a chip, and a link's count and places in a link.
pub const COUNTERS_AT: usize = 9;
pub const LINKS_AT: usize = 19;
pub const HELD: usize = 1;
pub const PLACES_AT: usize = 2;
/// The most packets that a link holds.
pub const MOST_HELD: u32 = 8;

pub const MOST_ROUNDS: u32 = 65_535;
pub const PROCESSORS: u32 = 20;

pub fn words_for(width: u32, height: u32) -> usize {
    HEADER + (width * height) as usize * CHIP
}

/// Where a directed link's words begin in the buffer.
pub fn link_at(chip: usize, link: usize) -> usize {
    HEADER + chip * CHIP + LINKS_AT + link * LINK
}

/// The mesh that a buffer holds.
pub fn mesh_in(words: &[u32]) -> Option<Mesh> {
    let header: [u32; HEADER] = words.get(..HEADER)?.try_into().ok()?;
    let [width, height, rounds_per_phase, monitor, phase, rounds_in_phase] = header;
    let sides_fit = is_side(width) && is_side(height);
    let rounds_fit = is_rounds(rounds_per_phase) && rounds_in_phase < rounds_per_phase;
    if !sides_fit || !rounds_fit || monitor >= PROCESSORS || phase > 3 {
        return None;
    }
    let blocks = words.get(HEADER..words_for(width, height))?;
    let chips = blocks.chunks(CHIP).map(chip_in).collect::<Option<Vec<Chip>>>()?;
    Some(Mesh { width, height, rounds_per_phase, monitor, phase, rounds_in_phase, chips })
}

pub fn is_side(side: u32) -> bool {
    side >= 1 && side <= MOST_SIDE
}

pub fn is_rounds(rounds_per_phase: u32) -> bool {
    rounds_per_phase >= 1 && rounds_per_phase <= MOST_ROUNDS
}

fn chip_in(words: &[u32]) -> Option<Chip> {
    let mut chip = Chip { registers: registers_in(&words[..COUNTERS_AT])?, ..Chip::default() };
    chip.counters.copy_from_slice(&words[COUNTERS_AT..LINKS_AT]);
    for (link, words) in chip.links.iter_mut().zip(words[LINKS_AT..].chunks(LINK)) {
        *link = link_in(words)?;
    }
    Some(chip)
}

/// Some(None) where the registers are empty, None where they are out of range.
fn registers_in(words: &[u32]) -> Option<Option<Registers>> {
    let [control, word, payload, link, leg, more, source, phase, units] = words.try_into().ok()?;
    let registers = Registers { control, word, payload, link, leg, more, source, phase, units };
    if registers == Registers::default() {
        return Some(None);
    }
    let unit_fits = control < 256 && link < 6 && leg < 2 && source < 8 && source != 6 && phase < 4;
    let number_fits = units >= 1 && units <= MOST_UNITS && more == u32::from(units > 1);
    (unit_fits && number_fits).then_some(Some(registers))
}

fn link_in(words: &[u32]) -> Option<Link> {
    let (down, count) = (words[0], words[HELD]);
    if down > 1 || count > MOST_HELD {
        return None;
    }
    let places = words[PLACES_AT..].chunks(PLACE).take(count as usize);
    Some(Link { up: down == 0, held: places.map(packet_in).collect::<Option<Vec<Packet>>>()? })
}

fn packet_in(place: &[u32]) -> Option<Packet> {
    let (control, word, payload) = (place[0], place[1], place[2]);
    let nine = carries_payload(control);
    let packet = Packet { control, nine: nine.into(), word, payload };
    let sound_type = match control >> 6 {
        kind::MC | kind::P2P | kind::FIXED => true,
        kind::NN => direct_of(control) == 0,
        _ => false,
    };
    (sound_type && is_odd(&packet) && (nine || payload == 0)).then_some(packet)
}
