//! How often each thing that a replay can do was reached.

use super::model::Mesh;
use super::packets::is_fixed;
use super::refusals::{self, LOG, NOT_THERE, NO_MESH};
use super::replay::Played;
use crate::interface::{KeptCall, LentTables, Registers, Replayed};
use crate::model::{error, kind::FIXED, kind_of, refusal};
use crate::records::model::{kind, refusal as of_record};
use crate::tally::{count, print_all, print_line, Events};

/// What a replay was given, and what came of it.
#[derive(Default)]
pub struct ReplayCase {
    /// Bytes of the trace, and words of the log.
    trace: usize,
    room: usize,
    holds_mesh: bool,
    /// What the tables are refused by, or 0.
    tables: u32,
    answer: Replayed,
    calls: Vec<KeptCall>,
    /// The kind of the call that was refused, or 0 where a record was.
    refused: u32,
    parity: bool,
    /// Whether a round passed a packet of type 11.
    fixed_in_round: bool,
    drop_emptied: bool,
    phase_steps: bool,
}

impl ReplayCase {
    pub fn begun(mesh: Option<&Mesh>, room: usize, trace: &[u8], tables: &LentTables) -> ReplayCase {
        let holds_mesh = mesh.is_some();
        let tables = mesh.map_or(0, |mesh| refusals::of_tables(mesh, tables).number);
        ReplayCase { trace: trace.len(), room, holds_mesh, tables, ..ReplayCase::default() }
    }

    pub fn over(self, played: &Played, phase_steps: bool) -> ReplayCase {
        ReplayCase {
            answer: played.answer,
            calls: played.calls.clone(),
            refused: played.refused.map_or(0, |call| call.kind),
            parity: played.done.passes.iter().any(|seen| seen.pass.errors & error::PARITY != 0),
            fixed_in_round: played.done.passes.iter().any(|seen| kind_of(seen.control) == FIXED && !seen.local),
            drop_emptied: played.registers.iter().any(|registers| *registers != Registers::default()),
            phase_steps,
            ..self
        }
    }

    fn made(&self, kind: u32) -> bool {
        self.calls.iter().any(|call| call.kind == kind)
    }

    fn whole(&self) -> bool {
        self.answer.refusal == 0 && self.trace > 0
    }

    /// Stopped by this number at a record behind calls that were made.
    fn later(&self, number: u32) -> bool {
        self.answer.refusal == number && !self.calls.is_empty()
    }

    /// Stopped by this number though the buffer holds no mesh.
    fn before_mesh(&self, number: u32) -> bool {
        self.answer.refusal == number && !self.holds_mesh
    }

    /// Stopped by this number though the tables are bad too.
    fn before_tables(&self, number: u32) -> bool {
        self.answer.refusal == number && self.tables != 0
    }
}

const REPLAY: Events<ReplayCase> = &[
    ("of no bytes", |case| case.trace == 0),
    ("of no bytes, without a mesh", |case| case.trace == 0 && !case.holds_mesh),
    ("of no bytes, with bad tables", |case| case.trace == 0 && case.tables != 0),
    ("of all four kinds", |case| case.whole() && (1..=4).all(|kind| case.made(kind))),
    ("with a parity error passed", |case| case.whole() && case.parity),
    ("with fixed-route packets passed in a round", |case| case.whole() && case.fixed_in_round),
    ("of calls that pass nothing, with bad fixed routes", |case| case.whole() && case.tables == refusal::FIXED_ROUTE),
    ("with a drop emptied from registers", |case| case.whole() && case.drop_emptied),
    ("over a step of the phase", |case| case.whole() && case.phase_steps),
    ("that fills the log", |case| case.whole() && case.answer.added > 0 && case.room == 6 * case.answer.added),
    ("of calls that pass nothing, with bad tables", |case| case.whole() && case.tables != 0),
];

const STOPPED: Events<ReplayCase> = &[
    ("at its first record", |case| case.answer.refusal != 0 && case.answer.at == 0),
    ("with log records added", |case| case.answer.refusal != 0 && case.answer.added > 0),
    ("by 8", |case| case.answer.refusal == NO_MESH),
    ("later, by 12", |case| case.later(of_record::CUT_SHORT)),
    ("later, by 13", |case| case.later(of_record::VERSION)),
    ("later, by 14", |case| case.later(of_record::NO_CALL)),
    ("later, by 9 at an injection", |case| case.later(NOT_THERE) && case.refused == kind::INJECTION),
    ("later, by 9 at a link change", |case| case.later(NOT_THERE) && case.refused == kind::LINK_CHANGE),
    ("later, by 9 at a read", |case| case.later(NOT_THERE) && case.refused == kind::REGISTERS),
    ("later, by 15 at an injection", |case| case.later(refusal::STARTS) && case.refused == kind::INJECTION),
    ("later, by 15 at a round", |case| case.later(refusal::STARTS) && case.refused == kind::ROUND),
    ("later, by 16 at an injection", |case| case.later(refusal::MANY_ROWS) && case.refused == kind::INJECTION),
    ("later, by 16 at a round", |case| case.later(refusal::MANY_ROWS) && case.refused == kind::ROUND),
    ("later, by 17 at an injection", |case| case.later(refusal::ROUTE) && case.refused == kind::INJECTION),
    ("later, by 17 at a round", |case| case.later(refusal::ROUTE) && case.refused == kind::ROUND),
    ("later, by 18 at an injection", |case| case.later(refusal::FIXED_ROUTE) && case.refused == kind::INJECTION),
    ("later, by 18 at a round", |case| case.later(refusal::FIXED_ROUTE) && case.refused == kind::ROUND),
    ("later, with a place", |case| case.answer.place > 0 && !case.calls.is_empty()),
    ("later, by 11 at an injection", |case| case.later(refusal::CODES) && case.refused == kind::INJECTION),
    ("later, by 11 at a round", |case| case.later(refusal::CODES) && case.refused == kind::ROUND),
    ("later, by 10 at an injection", |case| case.later(LOG) && case.refused == kind::INJECTION),
    ("later, by 10 at a round", |case| case.later(LOG) && case.refused == kind::ROUND),
    ("later, by 4", |case| case.later(refusal::DIRECT)),
    ("by 12, without a mesh", |case| case.before_mesh(of_record::CUT_SHORT)),
    ("by 13, without a mesh", |case| case.before_mesh(of_record::VERSION)),
    ("by 14, without a mesh", |case| case.before_mesh(of_record::NO_CALL)),
    ("by 12, with bad tables", |case| case.before_tables(of_record::CUT_SHORT)),
    ("by 13, with bad tables", |case| case.before_tables(of_record::VERSION)),
    ("by 14, with bad tables", |case| case.before_tables(of_record::NO_CALL)),
    ("by 9 at an injection, with bad tables", |case| case.before_tables(NOT_THERE) && case.refused == kind::INJECTION),
];

/// The calls that replays made.
const MADE: Events<KeptCall> = &[
    ("injections of five bytes", |call| call.kind == kind::INJECTION && call.length == 5),
    ("injections of nine bytes", |call| call.kind == kind::INJECTION && call.length == 9),
    ("injections of a fixed-route packet", |call| call.kind == kind::INJECTION && is_fixed(&call.bytes)),
    ("rounds", |call| call.kind == kind::ROUND),
    ("links taken down", |call| call.kind == kind::LINK_CHANGE && call.up == 0),
    ("links brought up", |call| call.kind == kind::LINK_CHANGE && call.up == 1),
    ("reads of registers", |call| call.kind == kind::REGISTERS),
];

#[derive(Default)]
pub struct ReplayTally {
    replays: [u64; REPLAY.len()],
    stopped: [u64; STOPPED.len()],
    made: [u64; MADE.len()],
    /// Kept traces that left what the direct calls left, as a whole and in parts.
    pub as_direct: u64,
    pub in_parts: u64,
    /// Kept traces that were stopped by 10.
    pub one_word_short: u64,
    /// Nothing was lent at all.
    pub of_nothing: u64,
}

impl ReplayTally {
    pub fn count(&mut self, case: &ReplayCase) {
        count(REPLAY, &mut self.replays, case);
        count(STOPPED, &mut self.stopped, case);
        case.calls.iter().for_each(|call| count(MADE, &mut self.made, call));
    }

    /// Prints a line for each, and answers whether all were reached.
    pub fn print(&self) -> bool {
        let made = print_all("replay, ", REPLAY, &self.replays) & print_all("replay, made ", MADE, &self.made);
        made & print_all("replay, stopped ", STOPPED, &self.stopped)
            & print_line("replay, of a kept trace, left what the direct calls left", self.as_direct)
            & print_line("replay, of a kept trace, log one word short", self.one_word_short)
            & print_line("replay, of a kept trace, in parts", self.in_parts)
            & print_line("replay, of nothing on nothing", self.of_nothing)
    }
}
