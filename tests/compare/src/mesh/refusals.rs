//! Which calls on a mesh are refused, and by which number: the first that applies of 8, 9, 15, 16, 17, 18, 11, 29, 10,
//! 2, 4, or on opening of 7, 6, 8. 0 is a call that is accepted. Injection and round have a place beside it.

use super::bad_tables::{Faults, Refused};
use super::layout::{is_rounds, is_side, words_for, PROCESSORS};
use super::model::{Mesh, COUNTERS};
use crate::interface::LentTables;
use crate::model::{direct_of, kind, kind_of, refusal, LINKS};

pub const NO_MESH: u32 = 8;
pub const NOT_THERE: u32 = 9;
pub const LOG: u32 = 10;
const RECORD: usize = 6;

pub fn size(width: u32, height: u32) -> u32 {
    number(!is_side(width) || !is_side(height), refusal::SIZE)
}

pub fn open(words: usize, width: u32, height: u32, rounds_per_phase: u32, monitor: u32) -> u32 {
    if size(width, height) != 0 || !is_rounds(rounds_per_phase) {
        return refusal::SIZE;
    }
    first(&[number(monitor >= PROCESSORS, refusal::RANGE), number(words < words_for(width, height), NO_MESH)])
}

pub fn inject(mesh: Option<&Mesh>, log: usize, chip: u32, packet: &[u8], tables: &LentTables) -> Refused {
    let Some(mesh) = mesh else { return NO_MESH.into() };
    let after = first(&[number(log < RECORD, LOG), of_packet(packet)]);
    first_refused(&[no_chip(mesh, chip).into(), of_tables(mesh, tables), after.into()])
}

pub fn round(mesh: Option<&Mesh>, log: usize, tables: &LentTables) -> Refused {
    let Some(mesh) = mesh else { return NO_MESH.into() };
    let after = number(log < RECORD * mesh.in_flight() as usize, LOG);
    first_refused(&[of_tables(mesh, tables), after.into()])
}

/// A link change, and a look at a link.
pub fn link(mesh: Option<&Mesh>, chip: u32, link: u32) -> u32 {
    first(&[read_registers(mesh, chip), number(link >= LINKS, NOT_THERE)])
}

/// 9 "also where the link holds none there".
pub fn flight(mesh: Option<&Mesh>, chip: u32, at_link: u32, place: u32) -> u32 {
    let held = |mesh: &Mesh| mesh.chips[chip as usize].links[at_link as usize].held.len();
    match (link(mesh, chip, at_link), mesh) {
        (0, Some(mesh)) => number(place as usize >= held(mesh), NOT_THERE),
        (refusal, _) => refusal,
    }
}

pub fn read_counter(mesh: Option<&Mesh>, chip: u32, counter: u32) -> u32 {
    first(&[read_registers(mesh, chip), number(counter >= COUNTERS, NOT_THERE)])
}

pub fn read_registers(mesh: Option<&Mesh>, chip: u32) -> u32 {
    mesh.map_or(NO_MESH, |mesh| no_chip(mesh, chip))
}

fn number(applies: bool, number: u32) -> u32 {
    if applies {
        number
    } else {
        0
    }
}

/// The first that is not 0.
fn first(numbers: &[u32]) -> u32 {
    numbers.iter().copied().find(|&number| number != 0).unwrap_or(0)
}

fn first_refused(all: &[Refused]) -> Refused {
    all.iter().copied().find(|refused| refused.number != 0).unwrap_or_default()
}

fn no_chip(mesh: &Mesh, chip: u32) -> u32 {
    number(chip as usize >= mesh.chips.len(), NOT_THERE)
}

pub fn of_tables(mesh: &Mesh, tables: &LentTables) -> Refused {
    Faults::of(tables, mesh.chips.len()).refused()
}

fn of_packet(packet: &[u8]) -> u32 {
    if packet.len() != 5 && packet.len() != 9 {
        return refusal::LENGTH;
    }
    let control = packet[0].into();
    match kind_of(control) {
        kind::NN => number(direct_of(control) == 1, refusal::DIRECT),
        _ => 0,
    }
}
