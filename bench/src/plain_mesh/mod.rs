//! Injection and round on a flat buffer of the same layout (docs/LAYOUT.md), in plain Rust, with the same checks at
//! each call: whether the buffer holds a mesh, the tables, the log, and for an injection the packet; and a replay, which
//! checks buffer and tables once. `JOINED` says how the numbers of the tables are checked, as in the one-router model.

mod checks;
mod flooding;
mod groups;
mod holding;
mod passing;
mod places;
mod replaying;

use crate::interface::{Added, LentTables};
use crate::model::{self, first_match, LINKS, LOCAL};
pub use flooding::flood;
pub use groups::round_in;
use passing::{packet_at, pass_at};
use places::place_of;
pub use replaying::replay;

const HEADER: usize = 6;
const WIDTH: usize = 0;
const HEIGHT: usize = 1;
const ROUNDS_PER_PHASE: usize = 2;
const MONITOR: usize = 3;
const PHASE: usize = 4;
const ROUNDS_IN_PHASE: usize = 5;

const CHIP: usize = 325;
const COUNTERS_AT: usize = 9;
const LINKS_AT: usize = 19;

const MORE: usize = 5;
const SOURCE: usize = 6;
const CAME_IN_PHASE: usize = 7;
const UNITS: usize = 8;
const MOST_UNITS: u32 = 65_535;

const LINK: usize = 51;
const DOWN: usize = 0;
const HELD: usize = 1;
const PLACES_AT: usize = 2;
const PLACE: usize = 3;
const ASIDE: usize = 26;

const RECORD: usize = 6;

pub fn inject<const JOINED: bool>(
    mesh: &mut [u32],
    log: &mut [u32],
    chip: u32,
    bytes: &[u8],
    tables: &LentTables,
) -> Added {
    if let Err(refusal) = checks::inject::<JOINED>(mesh, log, chip, bytes, tables) {
        return Added { refusal, added: 0, place: place_of(refusal, mesh, tables) };
    }
    match model::take(bytes) {
        Err(refusal) => Added { refusal, added: 0, place: 0 },
        Ok(packet) => accepted(pass_at(mesh, log, 0, chip as usize, LOCAL, packet, tables, first_match)),
    }
}

pub fn round<const JOINED: bool>(mesh: &mut [u32], log: &mut [u32], tables: &LentTables) -> Added {
    if let Err(refusal) = checks::round::<JOINED>(mesh, log, tables) {
        return Added { refusal, added: 0, place: place_of(refusal, mesh, tables) };
    }
    accepted(pass_all(mesh, log, 0, tables))
}

fn accepted(added: usize) -> Added {
    Added { refusal: 0, added: added as u32, place: 0 }
}

/// What a round does once it is accepted. The log has so many records before. Answers how many it has then. Inlined by
/// request: left to the compiler, the round of one program was a sixth slower than that of another.
#[inline(always)]
fn pass_all(mesh: &mut [u32], log: &mut [u32], mut records: usize, tables: &LentTables) -> usize {
    set_aside(mesh);
    for chip in 0..chips_of(mesh) {
        records = pass_chip(mesh, log, records, chip, tables, first_match);
    }
    end_round(mesh);
    records
}

/// All that arrives at a chip. `find` is how its rows are searched.
#[inline(always)]
fn pass_chip(
    mesh: &mut [u32],
    log: &mut [u32],
    mut records: usize,
    chip: usize,
    tables: &LentTables,
    find: impl Fn(&[u32], u32) -> Option<u32> + Copy,
) -> usize {
    for source in 0..LINKS as usize {
        let from = arrival_at(mesh, chip, source);
        for number in 0..mesh[from + ASIDE] as usize {
            let packet = packet_at(mesh, from + ASIDE + 1 + number * PLACE);
            records = pass_at(mesh, log, records, chip, source as u32, packet, tables, find);
        }
    }
    records
}

/// The words of the link that a chip's arrivals by a link come over.
fn arrival_at(mesh: &[u32], chip: usize, source: usize) -> usize {
    link_at(neighbour(mesh, chip, source), (source + 3) % LINKS as usize)
}

fn set_aside(mesh: &mut [u32]) {
    for chip in 0..chips_of(mesh) {
        for link in 0..LINKS as usize {
            let words = &mut mesh[link_at(chip, link)..][..LINK];
            let held = words[HELD] as usize;
            words.copy_within(PLACES_AT..PLACES_AT + held * PLACE, ASIDE + 1);
            words[ASIDE] = held as u32;
            words[HELD] = 0;
        }
    }
}

fn end_round(mesh: &mut [u32]) {
    mesh[ROUNDS_IN_PHASE] += 1;
    if mesh[ROUNDS_IN_PHASE] == mesh[ROUNDS_PER_PHASE] {
        mesh[ROUNDS_IN_PHASE] = 0;
        mesh[PHASE] = [1, 3, 0, 2][mesh[PHASE] as usize];
    }
}

fn chips_of(mesh: &[u32]) -> usize {
    (mesh[WIDTH] * mesh[HEIGHT]) as usize
}

fn link_at(chip: usize, link: usize) -> usize {
    HEADER + chip * CHIP + LINKS_AT + link * LINK
}

/// The chip that a link leads to.
fn neighbour(mesh: &[u32], chip: usize, link: usize) -> usize {
    let (width, height) = (mesh[WIDTH] as usize, mesh[HEIGHT] as usize);
    let (x, y) = (chip % width, chip / width);
    let (east, west) = ((x + 1) % width, (x + width - 1) % width);
    let (north, south) = ((y + 1) % height, (y + height - 1) % height);
    let (x, y) = match link {
        0 => (east, y),
        1 => (east, north),
        2 => (x, north),
        3 => (west, y),
        4 => (west, south),
        _ => (x, south),
    };
    y * width + x
}
