//! How often each thing that a call can do was reached.

use crate::interface::{Fields, Packed, Packet, Pass, PassCall, Read};
use crate::model::{self, error, is_route, kind, kind_of, mark, mark_of, refusal, MOST_ROWS};

pub type Events<Answer> = &'static [(&'static str, fn(&Answer) -> bool)];

const READ: Events<Read> = &[
    ("read accepted", |read| read.refusal == 0),
    ("read refusal 2, length", |read| read.refusal == refusal::LENGTH),
    ("read of a fixed-route packet", |read| read.fields.kind == kind::FIXED && read.fields.mark != 0),
];

const PACK: Events<Packed> = &[
    ("pack accepted", |packed| packed.refusal == 0),
    ("pack refusal 6, range", |packed| packed.refusal == refusal::RANGE),
    ("pack of a fixed-route packet", |packed| packed.refusal == 0 && kind_of(packed.bytes[0].into()) == kind::FIXED),
];

/// Fields that were not packed.
const UNPACKED: Events<Fields> = &[
    ("pack refusal 6, type 11 with a field that MC lacks", |fields| fields.kind == kind::FIXED && lacks_in_mc(fields)),
    ("pack refusal 6, type above 11", |fields| fields.kind > kind::FIXED),
];

fn lacks_in_mc(fields: &Fields) -> bool {
    fields.sequence | fields.direct | fields.route | fields.source | fields.destination != 0
}

const PASS_CALL: Events<Pass> = &[
    ("pass accepted", |pass| pass.refusal == 0),
    ("pass refusal 7, size", |pass| pass.refusal == refusal::SIZE),
    ("pass refusal 6, range", |pass| pass.refusal == refusal::RANGE),
    ("pass refusal 16, many rows", |pass| pass.refusal == refusal::MANY_ROWS),
    ("pass refusal 17, a row's route", |pass| pass.refusal == refusal::ROUTE),
    ("pass refusal 18, the fixed route", |pass| pass.refusal == refusal::FIXED_ROUTE),
    ("pass refusal 11, codes", |pass| pass.refusal == refusal::CODES),
    ("pass refusal 29, room for groups", |pass| pass.refusal == refusal::GROUPS_ROOM),
    ("pass refusal 1, source", |pass| pass.refusal == refusal::SOURCE),
    ("pass refusal 2, length", |pass| pass.refusal == refusal::LENGTH),
    ("pass refusal 4, NN with T = 1", |pass| pass.refusal == refusal::DIRECT),
];

/// What a pass that was refused was lent, and the row that it told of.
struct BadTables {
    refusal: u32,
    place: u32,
    /// Words of the rows, and rows with a bad route.
    words: usize,
    bad_rows: usize,
    bad_fixed: bool,
    bad_code: bool,
    of_fixed: bool,
    bad_source: bool,
    room: usize,
}

impl BadTables {
    fn new(call: &PassCall, answer: &Pass) -> BadTables {
        BadTables {
            refusal: answer.refusal,
            place: answer.place,
            words: call.rows.len(),
            bad_rows: call.rows.chunks_exact(3).filter(|row| !is_route(row[2])).count(),
            bad_fixed: !is_route(call.fixed),
            bad_code: call.codes.iter().any(|&code| code > 7),
            bad_source: call.source == 6 || call.source > model::LOCAL,
            room: call.room,
            of_fixed: call.packet.first().is_some_and(|&control| kind_of(control.into()) == kind::FIXED),
        }
    }

    fn is_short(&self) -> bool {
        !model::room_fits(self.room, self.words / 3)
    }

    /// How many words there are from the row that it told of on; 17 alone tells of one.
    fn from_row(&self) -> usize {
        if self.refusal == refusal::ROUTE {
            self.words - 3 * self.place as usize
        } else {
            0
        }
    }
}

const BAD_TABLES: Events<BadTables> = &[
    ("16, 1,025 rows", |case| case.refusal == refusal::MANY_ROWS && case.words / 3 == MOST_ROWS + 1),
    ("16 before 17", |case| case.refusal == refusal::MANY_ROWS && case.bad_rows > 0),
    ("16 before 18", |case| case.refusal == refusal::MANY_ROWS && case.bad_fixed),
    ("17, row 0", |case| case.refusal == refusal::ROUTE && case.place == 0),
    ("17, row 1,023", |case| case.refusal == refusal::ROUTE && case.place == 1_023),
    ("17, the last row of some", |case| case.place > 0 && case.from_row() == 3),
    ("17, the first row of some that are bad", |case| case.refusal == refusal::ROUTE && case.bad_rows > 1),
    ("17, one word past the rows", |case| case.from_row() == 1),
    ("17, two words past the rows", |case| case.from_row() == 2),
    ("17, a row, and words past the rows", |case| case.from_row() >= 3 && case.words % 3 != 0),
    ("17, words past 1,024 rows", |case| case.refusal == refusal::ROUTE && case.place == 1_024),
    ("17 before 18", |case| case.refusal == refusal::ROUTE && case.bad_fixed),
    ("17 before 11", |case| case.refusal == refusal::ROUTE && case.bad_code),
    ("18, packet of type 11", |case| case.refusal == refusal::FIXED_ROUTE && case.of_fixed),
    ("18, packet of another type", |case| case.refusal == refusal::FIXED_ROUTE && !case.of_fixed),
    ("18 before 11", |case| case.refusal == refusal::FIXED_ROUTE && case.bad_code),
    ("11 before 29", |case| case.refusal == refusal::CODES && case.is_short()),
    ("29, room for one number", |case| case.refusal == refusal::GROUPS_ROOM && case.room == 1),
    ("29, room for 256 numbers, no rows", |case| {
        case.refusal == refusal::GROUPS_ROOM && case.room == 256 && case.words == 0
    }),
    ("29, one number short, some rows", |case| {
        case.refusal == refusal::GROUPS_ROOM && case.words > 0 && model::room_fits(case.room + 1, case.words / 3)
    }),
    ("29 before 1", |case| case.refusal == refusal::GROUPS_ROOM && case.bad_source),
    ("7 before 17", |case| case.refusal == refusal::SIZE && case.bad_rows > 0),
    ("6 before 17", |case| case.refusal == refusal::RANGE && case.bad_rows > 0),
];

/// What a pass does, in the one-router call and in a mesh.
const PASS: Events<Pass> = &[
    ("parity error", |pass| pass.errors & error::PARITY != 0),
    ("age error", |pass| pass.errors & error::AGE != 0),
    ("length error", |pass| pass.errors & error::LENGTH != 0),
    ("bad local", |pass| pass.errors & error::BAD_LOCAL != 0),
    ("errors together", |pass| pass.errors.count_ones() > 1),
    ("detour beside a packet, mark 01", |pass| pass.packets.iter().any(|packet| has_mark(packet, mark::BOTH))),
    ("detour alone, mark 10", |pass| pass.packets.iter().any(|packet| has_mark(packet, mark::EMERGENCY))),
    ("second leg sent", |pass| pass.leg_sent != 0),
    ("second leg dropped", |pass| pass.leg_dropped != 0),
    ("two packets on one link", |pass| pass.sent & pass.leg_sent != 0),
    ("dropped for a link", |pass| pass.dropped != 0),
    ("more dropped after the first", |pass| pass.registers.more != 0),
    ("delivered without error", |pass| pass.counters.count[6] != 0),
    ("swallowed", |pass| pass.counters.count[8] != 0),
    ("local miss", |pass| pass.counters.count[9] != 0),
];

fn has_mark(packet: &Packet, mark: u32) -> bool {
    model::has_mark(kind_of(packet.control)) && mark_of(packet.control) == mark
}

/// A pass that was accepted, and what it was given.
#[derive(Debug)]
pub struct Seen {
    /// The control byte as it came.
    pub control: u32,
    pub local: bool,
    pub fixed: u32,
    /// Whether a row takes the packet's word.
    pub has_row: bool,
    pub pass: Pass,
}

/// What a pass of a fixed-route packet does.
const FIXED: Events<Seen> = &[
    ("local", |seen| seen.local && seen.is_sound()),
    ("local, stamp rewritten", |seen| seen.local && seen.pass.processors != 0 && seen.is_restamped()),
    ("from a link, mark 00", |seen| seen.came(mark::NORMAL)),
    ("from a link, mark 01", |seen| seen.came(mark::BOTH)),
    ("from a link, mark 10", |seen| seen.came(mark::EMERGENCY)),
    ("from a link, mark 11", |seen| seen.came(mark::SECOND_LEG)),
    ("from a link, mark 11, with a wanted set", |seen| seen.came(mark::SECOND_LEG) && seen.pass.wanted != 0),
    ("mark 10, nothing wanted of its route", |seen| seen.came(mark::EMERGENCY) && seen.fixed != 0),
    ("local, though a row takes its key", |seen| seen.local && seen.is_sound() && seen.has_row),
    ("from a link, though a row takes its key", |seen| !seen.local && seen.is_sound() && seen.has_row),
    ("local, no row takes its key", |seen| seen.local && seen.is_sound() && !seen.has_row),
    ("route to links alone", |seen| seen.is_sound() && seen.fixed & 63 != 0 && seen.fixed >> 6 == 0),
    ("route to processors alone", |seen| seen.is_sound() && seen.fixed & 63 == 0 && seen.fixed >> 6 != 0),
    ("route to both", |seen| seen.is_sound() && seen.fixed & 63 != 0 && seen.fixed >> 6 != 0),
    ("route 0, local, swallowed", |seen| seen.local && seen.swallowed()),
    ("route 0, from a link, swallowed", |seen| !seen.local && seen.swallowed()),
    ("route 0, mark 01, swallowed beside its second leg", |seen| seen.came(mark::BOTH) && seen.swallowed()),
    ("route 0, mark 10, not swallowed", |seen| seen.came(mark::EMERGENCY) && seen.fixed == 0),
    ("parity error", |seen| seen.pass.errors & error::PARITY != 0),
    ("age error", |seen| seen.pass.errors & error::AGE != 0),
    ("age error, mark 01", |seen| seen.pass.errors == error::AGE && mark_of(seen.control) == mark::BOTH),
    ("length error", |seen| seen.pass.errors & error::LENGTH != 0),
    ("bad local", |seen| seen.pass.errors & error::BAD_LOCAL != 0),
    ("detour beside a packet, mark 01", |seen| seen.pass.packets.iter().any(|packet| has_mark(packet, mark::BOTH))),
    ("detour alone, mark 10", |seen| seen.pass.packets.iter().any(|packet| has_mark(packet, mark::EMERGENCY))),
    ("second leg sent", |seen| seen.pass.leg_sent != 0),
    ("second leg dropped", |seen| seen.pass.leg_dropped != 0),
    ("two packets on one link", |seen| seen.pass.sent & seen.pass.leg_sent != 0),
    ("dropped for a link", |seen| seen.pass.dropped != 0),
    ("more dropped after the first", |seen| seen.pass.registers.more != 0),
];

impl Seen {
    fn is_sound(&self) -> bool {
        self.pass.errors == 0
    }

    /// Processors got another stamp than came.
    fn is_restamped(&self) -> bool {
        self.is_sound() && (self.pass.delivered.control ^ self.control) & 12 != 0
    }

    /// From a link, without error, with this mark.
    fn came(&self, mark: u32) -> bool {
        !self.local && self.is_sound() && mark_of(self.control) == mark
    }

    fn swallowed(&self) -> bool {
        self.is_sound() && self.pass.counters.count[8] == 1
    }
}

#[derive(Default)]
pub struct Tally {
    read: [u64; READ.len()],
    pack: [u64; PACK.len()],
    unpacked: [u64; UNPACKED.len()],
    pass_call: [u64; PASS_CALL.len()],
    bad_tables: [u64; BAD_TABLES.len()],
    passes: PassTally,
}

impl Tally {
    pub fn read(&mut self, answer: &Read) {
        count(READ, &mut self.read, answer);
    }

    pub fn pack(&mut self, fields: &Fields, answer: &Packed) {
        count(PACK, &mut self.pack, answer);
        if answer.refusal != 0 {
            count(UNPACKED, &mut self.unpacked, fields);
        }
    }

    pub fn pass(&mut self, call: &PassCall, answer: &Pass) {
        count(PASS_CALL, &mut self.pass_call, answer);
        if answer.refusal != 0 {
            count(BAD_TABLES, &mut self.bad_tables, &BadTables::new(call, answer));
        }
        if answer.refusal == 0 {
            let word = u32::from_be_bytes([call.packet[1], call.packet[2], call.packet[3], call.packet[4]]);
            self.passes.pass(&Seen {
                control: call.packet[0].into(),
                local: call.source == model::LOCAL,
                fixed: call.fixed,
                has_row: model::first_match(call.rows, word).is_some(),
                pass: *answer,
            });
        }
    }

    /// Prints a line for each, and answers whether all were reached.
    pub fn print(&self) -> bool {
        let calls = print_all("", READ, &self.read) & print_all("", PACK, &self.pack);
        let refused = print_all("", UNPACKED, &self.unpacked) & print_all("", PASS_CALL, &self.pass_call);
        calls & refused & print_all("pass refusal ", BAD_TABLES, &self.bad_tables) & self.passes.print("")
    }
}

#[derive(Default)]
pub struct PassTally {
    all: [u64; PASS.len()],
    fixed: [u64; FIXED.len()],
}

impl PassTally {
    pub fn pass(&mut self, seen: &Seen) {
        count(PASS, &mut self.all, &seen.pass);
        if kind_of(seen.control) == kind::FIXED {
            count(FIXED, &mut self.fixed, seen);
        }
    }

    pub fn print(&self, before: &str) -> bool {
        print_all(before, PASS, &self.all) & print_all(&format!("{before}fixed route, "), FIXED, &self.fixed)
    }
}

pub fn count<Answer>(events: Events<Answer>, counts: &mut [u64], answer: &Answer) {
    for ((_, reached), count) in events.iter().zip(counts) {
        *count += u64::from(reached(answer));
    }
}

/// Prints a line for each, and answers whether all were reached.
pub fn print_all<Answer>(before: &str, events: Events<Answer>, counts: &[u64]) -> bool {
    events.iter().zip(counts).fold(true, |all, ((name, _), &count)| all & print_line(&format!("{before}{name}"), count))
}

/// Answers whether it was reached.
pub fn print_line(name: &str, count: u64) -> bool {
    println!("{count:>12}  {name}{}", if count == 0 { ": never reached" } else { "" });
    count != 0
}
