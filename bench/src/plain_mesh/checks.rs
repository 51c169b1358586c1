//! What injection, round and replay refuse, the first number that applies.

use super::holding::holds;
use super::{chips_of, link_at, HELD, RECORD};
use crate::interface::{LentTables, Packet};
use crate::model::{
    codes_fit, direct_of, is_route, kind, kind_of, refusal, room_fits, routes_fit, take, LINKS, MOST_ROWS,
};

pub const NO_MESH: u32 = 8;
pub const NOT_THERE: u32 = 9;
pub const LOG: u32 = 10;

/// 8, 9, 15, 16, 17, 18, 11, 29, 10, 2, 4.
pub fn inject<const JOINED: bool>(
    mesh: &[u32],
    log: &[u32],
    chip: u32,
    bytes: &[u8],
    tables: &LentTables,
) -> Result<(), u32> {
    if !holds(mesh) {
        return Err(NO_MESH);
    }
    if chip as usize >= chips_of(mesh) {
        return Err(NOT_THERE);
    }
    check_tables::<JOINED>(chips_of(mesh), tables)?;
    if log.len() < RECORD {
        return Err(LOG);
    }
    packet(bytes).map(|_| ())
}

/// 2, 4.
pub fn packet(bytes: &[u8]) -> Result<Packet, u32> {
    let packet = take(bytes)?;
    if kind_of(packet.control) == kind::NN && direct_of(packet.control) == 1 {
        return Err(refusal::DIRECT);
    }
    Ok(packet)
}

/// 8, 15, 16, 17, 18, 11, 29, 10.
pub fn round<const JOINED: bool>(mesh: &[u32], log: &[u32], tables: &LentTables) -> Result<(), u32> {
    if !holds(mesh) {
        return Err(NO_MESH);
    }
    check_tables::<JOINED>(chips_of(mesh), tables)?;
    if log.len() < RECORD * in_flight(mesh) {
        return Err(LOG);
    }
    Ok(())
}

/// 15, 16, 17, 18, 11, 29.
pub fn check_tables<const JOINED: bool>(chips: usize, tables: &LentTables) -> Result<(), u32> {
    let starts = tables.starts;
    let starts_fit = starts.len() == chips + 1
        && starts[0] == 0
        && starts.windows(2).all(|pair| pair[0] <= pair[1])
        && starts[chips] as usize == tables.rows.len() / 3;
    if !starts_fit {
        return Err(refusal::STARTS);
    }
    if starts.windows(2).any(|pair| (pair[1] - pair[0]) as usize > MOST_ROWS) {
        return Err(refusal::MANY_ROWS);
    }
    if !routes_fit::<JOINED>(tables.rows) {
        return Err(refusal::ROUTE);
    }
    if !fixed_fit::<JOINED>(tables.fixed, chips) {
        return Err(refusal::FIXED_ROUTE);
    }
    if !codes_fit::<JOINED>(tables.codes, (chips * chips) as u32) {
        return Err(refusal::CODES);
    }
    if tables.room != 0 && !room_fits(tables.room, longest_table(starts)) {
        return Err(refusal::GROUPS_ROOM);
    }
    Ok(())
}

fn longest_table(starts: &[u32]) -> usize {
    starts.windows(2).map(|pair| (pair[1] - pair[0]) as usize).max().unwrap_or(0)
}

fn fixed_fit<const JOINED: bool>(fixed: &[u32], chips: usize) -> bool {
    if fixed.len() != chips {
        return false;
    }
    if JOINED {
        is_route(fixed.iter().fold(0, |joined, route| joined | route))
    } else {
        fixed.iter().all(|&route| is_route(route))
    }
}

pub fn in_flight(mesh: &[u32]) -> usize {
    let mut packets = 0;
    for chip in 0..chips_of(mesh) {
        for link in 0..LINKS as usize {
            packets += mesh[link_at(chip, link) + HELD] as usize;
        }
    }
    packets
}
