//! The rules of the model in plain Rust: reading, packing and one pass. Written from the rules alone, not from the
//! Rattle sources, so that a mistake would have to be made twice to go unseen.

use crate::interface::{Counters, Fields, Packed, Packet, Pass, PassCall, Read, Registers};

pub const LINKS: u32 = 6;
pub const LOCAL: u32 = 7;
pub const MOST_ROWS: usize = 1024;
pub const MOST_SIDE: u32 = 12;
const ROW: usize = 3;
const ROUTE_BITS: u32 = 26;
const PROCESSORS: u32 = 20;

pub mod kind {
    pub const MC: u32 = 0;
    pub const P2P: u32 = 1;
    pub const NN: u32 = 2;
    pub const FIXED: u32 = 3;
}

pub mod mark {
    pub const NORMAL: u32 = 0;
    pub const BOTH: u32 = 1;
    pub const EMERGENCY: u32 = 2;
    pub const SECOND_LEG: u32 = 3;
}

pub mod error {
    pub const PARITY: u32 = 1;
    pub const AGE: u32 = 2;
    pub const LENGTH: u32 = 4;
    pub const BAD_LOCAL: u32 = 8;
}

pub mod refusal {
    pub const SOURCE: u32 = 1;
    pub const LENGTH: u32 = 2;
    pub const DIRECT: u32 = 4;
    pub const RANGE: u32 = 6;
    pub const SIZE: u32 = 7;
    pub const CODES: u32 = 11;
    pub const STARTS: u32 = 15;
    pub const MANY_ROWS: u32 = 16;
    pub const ROUTE: u32 = 17;
    pub const FIXED_ROUTE: u32 = 18;
    pub const GROUPS_ROOM: u32 = 29;
}

pub fn read(bytes: &[u8]) -> Read {
    match take(bytes) {
        Err(refusal) => Read { refusal, ..Read::default() },
        Ok(packet) => Read { refusal: 0, fields: fields_of(&packet) },
    }
}

pub fn pack(fields: &Fields) -> Packed {
    if !in_range(fields) {
        return Packed { refusal: refusal::RANGE, ..Packed::default() };
    }
    let mut bytes = [0; 9];
    bytes[0] = control_of(fields) as u8;
    let word = if fields.kind == kind::P2P { fields.source << 16 | fields.destination } else { fields.word };
    bytes[1..5].copy_from_slice(&word.to_be_bytes());
    bytes[5..9].copy_from_slice(&fields.payload.to_be_bytes());
    Packed { refusal: 0, length: if fields.nine == 1 { 9 } else { 5 }, bytes }
}

/// One pass. `JOINED` only says how the lent tables are checked: each number until one is too large, as one first writes
/// it; or all numbers joined and tested once, a loop that cannot end early and is compiled to vector instructions.
pub fn pass<const JOINED: bool>(call: &PassCall) -> Pass {
    match accept::<JOINED>(call) {
        Err(refusal) => Pass { refusal, place: place_of(refusal, call), ..Pass::default() },
        Ok(packet) => match errors_of(call, &packet) {
            0 => sound_pass(call, packet),
            errors => error_pass(call, packet, errors),
        },
    }
}

// Reading and packing

pub fn take(bytes: &[u8]) -> Result<Packet, u32> {
    let (nine, payload) = match bytes.len() {
        5 => (0, 0),
        9 => (1, word_at(bytes, 5)),
        _ => return Err(refusal::LENGTH),
    };
    Ok(Packet { control: u32::from(bytes[0]), nine, word: word_at(bytes, 1), payload })
}

fn word_at(bytes: &[u8], at: usize) -> u32 {
    u32::from_be_bytes([bytes[at], bytes[at + 1], bytes[at + 2], bytes[at + 3]])
}

fn fields_of(packet: &Packet) -> Fields {
    let control = packet.control;
    let mut fields = Fields {
        kind: kind_of(control),
        carries: carries_of(control),
        parity: control & 1,
        nine: packet.nine,
        payload: packet.payload,
        ..Fields::default()
    };
    match fields.kind {
        kind::MC | kind::FIXED => {
            fields.mark = mark_of(control);
            fields.stamp = stamp_of(control);
            fields.word = packet.word;
        }
        kind::P2P => {
            fields.sequence = control >> 4 & 3;
            fields.stamp = stamp_of(control);
            fields.source = packet.word >> 16;
            fields.destination = packet.word & 0xffff;
        }
        _ => {
            fields.direct = direct_of(control);
            fields.route = route_of(control);
            fields.word = packet.word;
        }
    }
    fields
}

/// Whether the numbers may be packed. A fixed-route packet has the fields of MC.
fn in_range(f: &Fields) -> bool {
    let common = f.carries <= 1 && f.parity <= 1 && f.nine <= 1 && (f.nine == 1 || f.payload == 0);
    let no_nn = f.direct == 0 && f.route == 0;
    let no_ids = f.source == 0 && f.destination == 0;
    common
        && match f.kind {
            kind::MC | kind::FIXED => f.mark <= 3 && f.stamp <= 3 && f.sequence == 0 && no_nn && no_ids,
            kind::P2P => {
                let ids = f.source <= 0xffff && f.destination <= 0xffff;
                f.sequence <= 3 && f.stamp <= 3 && ids && f.mark == 0 && no_nn && f.word == 0
            }
            kind::NN => f.direct <= 1 && f.route <= 7 && f.mark == 0 && f.sequence == 0 && f.stamp == 0 && no_ids,
            _ => false,
        }
}

fn control_of(f: &Fields) -> u32 {
    let middle = match f.kind {
        kind::MC | kind::FIXED => f.mark << 4 | f.stamp << 2,
        kind::P2P => f.sequence << 4 | f.stamp << 2,
        _ => f.direct << 5 | f.route << 2,
    };
    f.kind << 6 | middle | f.carries << 1 | f.parity
}

// The control byte

pub fn kind_of(control: u32) -> u32 {
    control >> 6 & 3
}

pub fn mark_of(control: u32) -> u32 {
    control >> 4 & 3
}

fn stamp_of(control: u32) -> u32 {
    control >> 2 & 3
}

pub fn direct_of(control: u32) -> u32 {
    control >> 5 & 1
}

fn route_of(control: u32) -> u32 {
    control >> 2 & 7
}

fn carries_of(control: u32) -> u32 {
    control >> 1 & 1
}

pub fn is_odd(packet: &Packet) -> bool {
    (packet.control ^ packet.word ^ packet.payload).count_ones() % 2 == 1
}

/// Two bits of the control byte rewritten, and parity set right.
fn rewritten(packet: &Packet, shift: u32, bits: u32) -> Packet {
    let mut new = Packet { control: packet.control & !(3 << shift) | bits << shift, ..*packet };
    if !is_odd(&new) {
        new.control ^= 1;
    }
    new
}

pub fn with_mark(packet: &Packet, mark: u32) -> Packet {
    rewritten(packet, 4, mark)
}

pub fn with_stamp(packet: &Packet, stamp: u32) -> Packet {
    rewritten(packet, 2, stamp)
}

// One pass

/// "0 but for 15 to 18", and "the chip is 0 where one table is lent": a bad row alone has a place of its own.
#[cold]
fn place_of(refusal: u32, call: &PassCall) -> u32 {
    if refusal == refusal::ROUTE {
        bad_row(call.rows).unwrap_or(0) as u32
    } else {
        0
    }
}

/// The first row that has a bad route; "words past the last whole row are a row without a route".
pub fn bad_row(rows: &[u32]) -> Option<usize> {
    rows.chunks(ROW).position(|row| row.len() < ROW || !is_route(row[2]))
}

/// The packet, or the first refusal that applies: 7, 6, 16, 17, 18, 11, 29, 1, 2, 4.
fn accept<const JOINED: bool>(call: &PassCall) -> Result<Packet, u32> {
    if !is_side(call.width) || !is_side(call.height) {
        return Err(refusal::SIZE);
    }
    if call.phase > 3 || call.ready >= 1 << LINKS || call.monitor >= PROCESSORS {
        return Err(refusal::RANGE);
    }
    if call.rows.len() / ROW > MOST_ROWS {
        return Err(refusal::MANY_ROWS);
    }
    if !routes_fit::<JOINED>(call.rows) {
        return Err(refusal::ROUTE);
    }
    if !is_route(call.fixed) {
        return Err(refusal::FIXED_ROUTE);
    }
    if !codes_fit::<JOINED>(call.codes, call.width * call.height) {
        return Err(refusal::CODES);
    }
    if !room_fits(call.room, call.rows.len() / ROW) {
        return Err(refusal::GROUPS_ROOM);
    }
    if call.source >= LINKS && call.source != LOCAL {
        return Err(refusal::SOURCE);
    }
    let packet = take(call.packet)?;
    if kind_of(packet.control) == kind::NN && direct_of(packet.control) == 1 {
        return Err(refusal::DIRECT);
    }
    Ok(packet)
}

/// No room, or at least "257 numbers plus 256 for each row of the longest table".
pub fn room_fits(room: usize, longest: usize) -> bool {
    room == 0 || room >= 257 + 256 * longest
}

fn is_side(side: u32) -> bool {
    (1..=MOST_SIDE).contains(&side)
}

pub fn is_route(route: u32) -> bool {
    route < 1 << ROUTE_BITS
}

/// There are whole rows alone, and all have a route.
pub fn routes_fit<const JOINED: bool>(rows: &[u32]) -> bool {
    if rows.len() % ROW != 0 {
        return false;
    }
    let mut rows = rows.chunks_exact(ROW);
    if JOINED {
        is_route(rows.fold(0, |joined, row| joined | row[2]))
    } else {
        rows.all(|row| is_route(row[2]))
    }
}

pub fn codes_fit<const JOINED: bool>(codes: &[u8], count: u32) -> bool {
    if codes.len() != count as usize {
        return false;
    }
    if JOINED {
        codes.iter().fold(0, |joined, code| joined | code) <= 7
    } else {
        codes.iter().all(|&code| code <= 7)
    }
}

/// Step 1.
pub fn errors_of(call: &PassCall, packet: &Packet) -> u32 {
    let kind = kind_of(packet.control);
    let mut errors = 0;
    if !is_odd(packet) {
        errors |= error::PARITY;
    }
    if call.source < LINKS && kind != kind::NN && stamp_of(packet.control) == call.phase ^ 3 {
        errors |= error::AGE;
    }
    if packet.nine != carries_of(packet.control) {
        errors |= error::LENGTH;
    }
    if call.source == LOCAL && has_mark(kind) && mark_of(packet.control) != mark::NORMAL {
        errors |= error::BAD_LOCAL;
    }
    errors
}

/// MC and fixed-route packets have a mark, detours and second legs.
pub fn has_mark(kind: u32) -> bool {
    kind == kind::MC || kind == kind::FIXED
}

fn error_pass(call: &PassCall, packet: Packet, errors: u32) -> Pass {
    let counted = |flag| u32::from(errors & flag != 0);
    Pass {
        errors,
        wanted: monitor_route(call),
        processors: 1 << call.monitor,
        delivered: packet,
        counters: Counters {
            count: [
                1,
                counted(error::PARITY),
                counted(error::AGE),
                counted(error::LENGTH),
                counted(error::BAD_LOCAL),
                0,
                0,
                0,
                0,
                0,
            ],
        },
        ..Pass::default()
    }
}

/// Inlined by request: the compiler does so of itself only while one pass calls it, and the bench has two.
#[inline(always)]
fn sound_pass(call: &PassCall, packet: Packet) -> Pass {
    let kind = kind_of(packet.control);
    let local = call.source == LOCAL;
    let packet = if local && kind != kind::NN { with_stamp(&packet, call.phase) } else { packet };

    let (wanted, local_miss) = match kind {
        kind::MC => mc_wanted(call, &packet, first_match),
        kind::FIXED => (fixed_wanted(call, &packet), false),
        kind::P2P => (p2p_wanted(call, packet.word), false),
        _ => (nn_wanted(call, packet.control), false),
    };
    let mut pass = Pass { wanted, ..Pass::default() };
    pass.processors = wanted >> LINKS;
    if pass.processors != 0 {
        pass.delivered = packet;
    }
    let wanted_links = wanted & 63;
    if has_mark(kind) {
        send_with_detours(&mut pass, &packet, wanted_links, call.ready);
        send_second_leg(&mut pass, &packet, call);
    } else {
        send_unchanged(&mut pass, &packet, wanted_links, call.ready);
    }
    let leg_only = has_mark(kind) && mark_of(packet.control) == mark::EMERGENCY;
    pass.registers = registers_of(&pass, &packet, call);
    pass.counters = counters_of(&pass, wanted == 0 && !leg_only, local_miss);
    pass
}

/// The wanted set of a multicast packet, and whether it is a local miss. `find` is how the rows are searched.
#[inline(always)]
pub fn mc_wanted(call: &PassCall, packet: &Packet, find: impl Fn(&[u32], u32) -> Option<u32>) -> (u32, bool) {
    let mark = mark_of(packet.control);
    if mark == mark::EMERGENCY {
        return (0, false);
    }
    match find(call.rows, packet.word) {
        Some(route) => (route, false),
        None if call.source == LOCAL => (monitor_route(call), true),
        None if mark == mark::SECOND_LEG => (1 << ((call.source + 2) % LINKS), false),
        None => (1 << ((call.source + 3) % LINKS), false),
    }
}

/// The wanted set of a fixed-route packet: the chip's route, local or not, whatever the key. It has no default route.
pub fn fixed_wanted(call: &PassCall, packet: &Packet) -> u32 {
    if mark_of(packet.control) == mark::EMERGENCY {
        0
    } else {
        call.fixed
    }
}

pub fn first_match(rows: &[u32], key: u32) -> Option<u32> {
    rows.chunks_exact(ROW).find(|row| key & row[1] == row[0]).map(|row| row[2])
}

pub fn p2p_wanted(call: &PassCall, word: u32) -> u32 {
    let (x, y) = (word >> 8 & 0xff, word & 0xff);
    if x >= call.width || y >= call.height {
        return 0;
    }
    match u32::from(call.codes[(y * call.width + x) as usize]) {
        6 => 0,
        7 => monitor_route(call),
        link => 1 << link,
    }
}

pub fn nn_wanted(call: &PassCall, control: u32) -> u32 {
    if call.source != LOCAL {
        return monitor_route(call);
    }
    match route_of(control) {
        7 => monitor_route(call),
        6 => 63,
        link => 1 << link,
    }
}

fn monitor_route(call: &PassCall) -> u32 {
    1 << (LINKS + call.monitor)
}

/// Step 5: a link i that is ready carries the detour of link i+1, which is wanted and not ready.
fn send_with_detours(pass: &mut Pass, packet: &Packet, wanted: u32, ready: u32) {
    for link in 0..LINKS {
        let next = (link + 1) % LINKS;
        let is_wanted = has(wanted, link);
        let next_blocked = has(wanted, next) && !has(ready, next);
        let mark = match (has(ready, link), is_wanted, next_blocked) {
            (true, true, false) => mark::NORMAL,
            (true, true, true) => mark::BOTH,
            (true, false, true) => mark::EMERGENCY,
            (true, false, false) => continue,
            (false, _, true) => {
                pass.dropped |= 1 << next;
                continue;
            }
            (false, _, false) => continue,
        };
        pass.sent |= 1 << link;
        pass.packets[link as usize] = with_mark(packet, mark);
    }
}

/// Steps 4 and 6.
fn send_second_leg(pass: &mut Pass, packet: &Packet, call: &PassCall) {
    if !matches!(mark_of(packet.control), mark::BOTH | mark::EMERGENCY) {
        return;
    }
    let link = (call.source + LINKS - 1) % LINKS;
    if has(call.ready, link) {
        pass.leg_sent = 1 << link;
        pass.leg = with_mark(packet, mark::SECOND_LEG);
    } else {
        pass.leg_dropped = 1 << link;
    }
}

/// Step 7.
fn send_unchanged(pass: &mut Pass, packet: &Packet, wanted: u32, ready: u32) {
    pass.sent = wanted & ready;
    pass.dropped = wanted & !ready;
    for link in 0..LINKS {
        if has(pass.sent, link) {
            pass.packets[link as usize] = *packet;
        }
    }
}

pub fn has(set: u32, member: u32) -> bool {
    set >> member & 1 == 1
}

/// The first dropped unit, by link, the second leg last, where it came in and when; and how many were dropped.
fn registers_of(pass: &Pass, packet: &Packet, call: &PassCall) -> Registers {
    let leg = pass.dropped == 0;
    let first = if leg { pass.leg_dropped } else { pass.dropped };
    if first == 0 {
        return Registers::default();
    }
    Registers {
        control: packet.control,
        word: packet.word,
        payload: packet.payload,
        link: first.trailing_zeros(),
        leg: u32::from(leg),
        more: u32::from(dropped_units(pass) > 1),
        source: call.source,
        phase: call.phase,
        units: dropped_units(pass),
    }
}

fn counters_of(pass: &Pass, swallowed: bool, local_miss: bool) -> Counters {
    let sent = (pass.sent | pass.leg_sent << LINKS).count_ones();
    let delivered = pass.processors.count_ones();
    let count = [1, 0, 0, 0, 0, sent, delivered, dropped_units(pass), u32::from(swallowed), u32::from(local_miss)];
    Counters { count }
}

fn dropped_units(pass: &Pass) -> u32 {
    (pass.dropped | pass.leg_dropped << LINKS).count_ones()
}
