//! How often each kind of room for groups was lent, and how often groups were asked for, built and used.

use super::bad_tables::{longest_table, Faults};
use super::groups::{room_for, Written};
use super::model::Mesh;
use super::tally::Call;
use crate::interface::LentTables;
use crate::model::refusal;
use crate::tally::{count, print_all, print_line, Events};

/// A call on a mesh that was lent room.
struct RoomCase {
    refusal: u32,
    /// How many numbers, and how many are enough.
    lent: usize,
    enough: usize,
    faults: Faults,
    /// No log.
    no_log: bool,
}

const LENT: Events<RoomCase> = &[
    ("none", |case| case.refusal == 0 && case.lent == 0),
    ("just enough", |case| case.refusal == 0 && case.lent == case.enough),
    ("more", |case| case.refusal == 0 && case.lent > case.enough),
    ("29, one number short", |case| case.is_29() && case.lent + 1 == case.enough),
    ("29, one number", |case| case.is_29() && case.lent == 1),
    ("29, 256 numbers, no rows", |case| case.is_29() && case.lent == 256 && case.enough == 257),
    ("29, one number short of those for 1,024 rows", |case| case.is_29() && case.lent + 1 == room_for(1024)),
    ("11, room short too", |case| case.refusal == refusal::CODES && case.faults.room),
    ("29, no log either", |case| case.is_29() && case.no_log),
];

impl RoomCase {
    fn is_29(&self) -> bool {
        self.refusal == refusal::GROUPS_ROOM
    }
}

/// What was written for one chip whose groups were built.
const BUILT: Events<Written> = &[
    ("fewer than 128 rows", |written| written.rows < 128),
    ("1,024 rows", |written| written.rows == 1024),
    ("rows between", |written| written.rows >= 128 && written.rows < 1024),
    ("8 to 10 packets", |written| written.packets <= 10),
    ("48 packets, the most", |written| written.packets == 48),
    ("48 groups are asked for", |written| written.asked.len() == 48),
    ("one group is asked for", |written| written.asked.len() == 1),
    ("one is asked for by no MC packet", |written| written.by_others > 0),
    ("one that is asked for has no row", |written| written.empty > 0),
    ("every row fixes the top byte", |written| written.fix_none + written.fix_part == 0),
    ("a row fixes none of it", |written| written.fix_none > 0),
    ("a row fixes part of it", |written| written.fix_part > 0),
    ("room behind the groups", |written| room_for(written.rows) < written.lent),
    ("a packet goes by a row of one group", |written| written.by_group > 0),
    ("a packet goes by a row of every group", |written| written.by_every > 0),
    ("a packet goes by no row", |written| written.by_none > 0),
];

/// Of one chip for which groups were asked for, built or not.
const ASKED: Events<Written> = &[
    ("built", |written| written.built),
    ("not built", |written| !written.built),
    ("not built, every row fixes the top byte", |written| !written.built && written.fix_none + written.fix_part == 0),
];

const CALLS: [&str; 3] = ["inject", "round", "replay"];

#[derive(Default)]
pub struct RoomTally {
    lent: [[u64; LENT.len()]; CALLS.len()],
    asked: [[u64; ASKED.len()]; CALLS.len()],
    built: [[u64; BUILT.len()]; CALLS.len()],
    many_chips: u64,
    packets: u64,
}

impl RoomTally {
    /// A call with so many words of log was refused by this number, or made; what a bad buffer was lent does not count.
    pub fn lent(&mut self, call: Call, tables: &LentTables, mesh: Option<&Mesh>, refusal: u32, log: usize) {
        let Some(mesh) = mesh else { return };
        let faults = Faults::of(tables, mesh.chips.len());
        let enough = room_for(longest_table(tables.starts));
        let case = RoomCase { refusal, lent: tables.room, enough, faults, no_log: log == 0 && mesh.in_flight() > 0 };
        count(LENT, &mut self.lent[number(call)], &case);
    }

    /// What one round wrote, or all rounds of a replay.
    pub fn written(&mut self, call: Call, all: &[Written]) {
        all.iter().for_each(|written| count(ASKED, &mut self.asked[number(call)], written));
        for built in all.iter().filter(|written| written.built) {
            count(BUILT, &mut self.built[number(call)], built);
            self.packets += (built.by_group + built.by_every + built.by_none) as u64;
        }
        let over = |pair: &[Written]| pair[0].chip < pair[1].chip && !pair[0].asked.is_subset(&pair[1].asked);
        self.many_chips += u64::from(all.windows(2).any(over));
    }

    /// Prints a line for each, and answers whether all were reached.
    pub fn print(&self) -> bool {
        let mut all = true;
        for (name, counts) in CALLS.iter().zip(&self.lent) {
            all &= print_all(&format!("{name}, room for groups, "), LENT, counts);
        }
        for (name, counts) in CALLS.iter().zip(&self.asked).skip(1) {
            all &= print_all(&format!("{name}, groups of a chip asked for, "), ASKED, counts);
        }
        for (name, counts) in CALLS.iter().zip(&self.built).skip(1) {
            all &= print_all(&format!("{name}, groups of a chip, "), BUILT, counts);
        }
        all & print_line("groups of one chip not asked for by the next", self.many_chips)
            & print_line("packet looked up by groups", self.packets)
    }
}

fn number(call: Call) -> usize {
    match call {
        Call::Inject => 0,
        Call::Round => 1,
        _ => 2,
    }
}
