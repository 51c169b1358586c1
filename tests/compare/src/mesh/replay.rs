//! A replay in plain Rust, written from the rules, without sight of the Rattle sources: records are read one after another
//! and their calls made on the model's mesh, "each with the rest of the log", up to the first refusal.

use super::bad_tables::Refused;
use super::groups::{self, Written};
use super::model::{Done, Mesh};
use super::refusals;
use crate::interface::{KeptCall, LentTables, Registers, Replayed};
use crate::records::model::{kind, take};

const LOG_RECORD: usize = 6;

/// What a replay did.
#[derive(Default)]
pub struct Played {
    pub answer: Replayed,
    /// The calls that were made, in order, and what they did, joined.
    pub calls: Vec<KeptCall>,
    pub done: Done,
    /// What the registers held that were read, and that nobody got.
    pub registers: Vec<Registers>,
    /// The call that was refused, unless its record was.
    pub refused: Option<KeptCall>,
    /// What its rounds wrote in the room for groups.
    pub written: Vec<Written>,
}

/// `room` words of the log are lent; `groups` is the room for groups.
pub fn replay(mesh: &mut Option<Mesh>, room: usize, trace: &[u8], tables: &LentTables, groups: &mut [u32]) -> Played {
    let mut played = Played::default();
    while played.answer.at < trace.len() {
        match played.next(mesh, room, &trace[played.answer.at..], tables, groups) {
            Ok(length) => played.answer.at += length,
            Err(refused) => {
                (played.answer.refusal, played.answer.place) = (refused.number, refused.place);
                break;
            }
        }
    }
    played.answer.added = played.done.records.len();
    played
}

impl Played {
    /// Makes the call at the start of what is left of the trace, and answers how long its record is.
    fn next(
        &mut self,
        mesh: &mut Option<Mesh>,
        room: usize,
        left: &[u8],
        tables: &LentTables,
        groups: &mut [u32],
    ) -> Result<usize, Refused> {
        let (length, call) = take(left)?;
        let rest = room - LOG_RECORD * self.done.records.len();
        match (refused_by(mesh.as_ref(), rest, &call, tables), mesh) {
            (Refused { number: 0, .. }, Some(mesh)) => self.make(mesh, &call, tables, groups),
            (refused, _) => {
                self.refused = Some(call);
                return Err(refused);
            }
        }
        Ok(length)
    }

    fn make(&mut self, mesh: &mut Mesh, call: &KeptCall, tables: &LentTables, groups: &mut [u32]) {
        match call.kind {
            kind::INJECTION => self.did(mesh.inject(call.chip, packet_of(call), tables)),
            kind::ROUND => {
                self.written.extend(groups::after_round(mesh, tables, groups));
                self.did(mesh.round(tables));
            }
            kind::LINK_CHANGE => mesh.set_link(call.chip, call.link, call.up == 1),
            _ => self.registers.push(mesh.read_registers(call.chip)),
        }
        self.calls.push(*call);
    }

    fn did(&mut self, done: Done) {
        self.done.records.extend(done.records);
        self.done.passes.extend(done.passes);
        self.done.wraps += done.wraps;
    }
}

/// The tables are looked at by calls that pass packets alone.
fn refused_by(mesh: Option<&Mesh>, rest: usize, call: &KeptCall, tables: &LentTables) -> Refused {
    match call.kind {
        kind::INJECTION => refusals::inject(mesh, rest, call.chip, packet_of(call), tables),
        kind::ROUND => refusals::round(mesh, rest, tables),
        kind::LINK_CHANGE => refusals::link(mesh, call.chip, call.link).into(),
        _ => refusals::read_registers(mesh, call.chip).into(),
    }
}

fn packet_of(call: &KeptCall) -> &[u8] {
    &call.bytes[..call.length as usize]
}
