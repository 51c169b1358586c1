//! One pass at a chip: its words, and its record in the log.

use super::{
    CHIP, COUNTERS_AT, DOWN, HEADER, HEIGHT, HELD, LINK, LINKS_AT, MONITOR, MORE, MOST_UNITS, PHASE, PLACE, PLACES_AT,
    RECORD, UNITS, WIDTH,
};
use crate::interface::{LentTables, Packet, PassCall};
use crate::model::{self, error, has, has_mark, kind, kind_of, mark, mark_of, with_mark, with_stamp, LINKS, LOCAL};

const PASSES: usize = 0;
const FIRST_ERROR: usize = 1;
const SENT: usize = 5;
const DELIVERED: usize = 6;
const DROPPED: usize = 7;
const SWALLOWED: usize = 8;
const LOCAL_MISSES: usize = 9;
const ERRORS: [u32; 4] = [error::PARITY, error::AGE, error::LENGTH, error::BAD_LOCAL];

pub fn packet_at(words: &[u32], at: usize) -> Packet {
    Packet { control: words[at], nine: words[at] >> 1 & 1, word: words[at + 1], payload: words[at + 2] }
}

/// The log has so many records before. Answers how many it has then. `find` is how the chip's rows are searched.
pub fn pass_at(
    mesh: &mut [u32],
    log: &mut [u32],
    records: usize,
    chip: usize,
    source: u32,
    packet: Packet,
    tables: &LentTables,
    find: impl Fn(&[u32], u32) -> Option<u32>,
) -> usize {
    let chips = (mesh[WIDTH] * mesh[HEIGHT]) as usize;
    let (first, end) = (tables.starts[chip] as usize, tables.starts[chip + 1] as usize);
    let at = HEADER + chip * CHIP;
    let call = PassCall {
        packet: &[],
        source,
        width: mesh[WIDTH],
        height: mesh[HEIGHT],
        rows: &tables.rows[3 * first..3 * end],
        codes: &tables.codes[chip * chips..(chip + 1) * chips],
        monitor: mesh[MONITOR],
        phase: mesh[PHASE],
        ready: ready_set(&mesh[at..at + CHIP]),
        fixed: tables.fixed[chip],
        room: tables.room,
    };
    let words = &mut mesh[at..at + CHIP];
    count(words, PASSES, 1);
    let errors = model::errors_of(&call, &packet);
    let (processors, packet) = if errors == 0 {
        sound_pass(words, &call, packet, find)
    } else {
        for (number, error) in ERRORS.iter().enumerate() {
            count(words, FIRST_ERROR + number, u32::from(errors & error != 0));
        }
        (1 << call.monitor, packet)
    };
    if processors == 0 {
        return records;
    }
    let record = [chip as u32, processors, errors, packet.control, packet.word, packet.payload];
    log[records * RECORD..][..RECORD].copy_from_slice(&record);
    records + 1
}

/// Answers the processors that get the packet, and the packet as it then stands.
fn sound_pass(
    words: &mut [u32],
    call: &PassCall,
    packet: Packet,
    find: impl Fn(&[u32], u32) -> Option<u32>,
) -> (u32, Packet) {
    let kind = kind_of(packet.control);
    let packet = if call.source == LOCAL && kind != kind::NN { with_stamp(&packet, call.phase) } else { packet };
    let (wanted, local_miss) = match kind {
        kind::MC => model::mc_wanted(call, &packet, find),
        kind::FIXED => (model::fixed_wanted(call, &packet), false),
        kind::P2P => (model::p2p_wanted(call, packet.word), false),
        _ => (model::nn_wanted(call, packet.control), false),
    };
    let leg_only = has_mark(kind) && mark_of(packet.control) == mark::EMERGENCY;
    count(words, DELIVERED, (wanted >> LINKS).count_ones());
    count(words, SWALLOWED, u32::from(wanted == 0 && !leg_only));
    count(words, LOCAL_MISSES, u32::from(local_miss));
    if has_mark(kind) {
        send_with_detours(words, &packet, wanted & 63, call);
        send_second_leg(words, &packet, call);
    } else {
        send_unchanged(words, &packet, wanted & 63, call);
    }
    (wanted >> LINKS, packet)
}

/// Drops go by link: the one for link 0, which link 5 would carry, is found last but kept first.
fn send_with_detours(words: &mut [u32], packet: &Packet, wanted: u32, call: &PassCall) {
    let ready = call.ready;
    let mut dropped = 0;
    for link in 0..LINKS {
        let next = (link + 1) % LINKS;
        let next_blocked = has(wanted, next) && !has(ready, next);
        if !has(ready, link) {
            dropped |= u32::from(next_blocked) << next;
        } else if has(wanted, link) || next_blocked {
            let mark = match (has(wanted, link), next_blocked) {
                (true, false) => mark::NORMAL,
                (true, true) => mark::BOTH,
                _ => mark::EMERGENCY,
            };
            send(words, link, &with_mark(packet, mark));
        }
    }
    drop_for(words, packet, dropped, call);
}

fn send_second_leg(words: &mut [u32], packet: &Packet, call: &PassCall) {
    if !matches!(mark_of(packet.control), mark::BOTH | mark::EMERGENCY) {
        return;
    }
    let link = (call.source + LINKS - 1) % LINKS;
    if has(call.ready, link) {
        send(words, link, &with_mark(packet, mark::SECOND_LEG));
    } else {
        keep(words, packet, link, 1, call);
    }
}

fn send_unchanged(words: &mut [u32], packet: &Packet, wanted: u32, call: &PassCall) {
    for link in (0..LINKS).filter(|&link| has(wanted & call.ready, link)) {
        send(words, link, packet);
    }
    drop_for(words, packet, wanted & !call.ready, call);
}

fn send(words: &mut [u32], link: u32, packet: &Packet) {
    count(words, SENT, 1);
    let held = &mut words[LINKS_AT + link as usize * LINK..][..LINK];
    let place = PLACES_AT + held[HELD] as usize * PLACE;
    held[place..place + PLACE].copy_from_slice(&[packet.control, packet.word, packet.payload]);
    held[HELD] += 1;
}

fn drop_for(words: &mut [u32], packet: &Packet, links: u32, call: &PassCall) {
    for link in (0..LINKS).filter(|&link| has(links, link)) {
        keep(words, packet, link, 0, call);
    }
}

/// Keeps the first dropped unit in the registers, and the number of units.
fn keep(words: &mut [u32], packet: &Packet, link: u32, leg: u32, call: &PassCall) {
    count(words, DROPPED, 1);
    let registers = &mut words[..COUNTERS_AT];
    if registers[UNITS] == 0 {
        let Packet { control, word, payload, .. } = *packet;
        registers.copy_from_slice(&[control, word, payload, link, leg, 0, call.source, call.phase, 1]);
    } else {
        registers[MORE] = 1;
        registers[UNITS] = MOST_UNITS.min(registers[UNITS] + 1);
    }
}

fn count(words: &mut [u32], counter: usize, more: u32) {
    words[COUNTERS_AT + counter] = words[COUNTERS_AT + counter].wrapping_add(more);
}

fn ready_set(words: &[u32]) -> u32 {
    let mut ready = 0;
    for (link, held) in words[LINKS_AT..].chunks_exact(LINK).enumerate() {
        ready |= u32::from(held[DOWN] == 0 && held[HELD] <= 6) << link;
    }
    ready
}
