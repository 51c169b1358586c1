//! Calls made directly on a mesh, of which each accepted one is kept as a record: the trace of a run.

use super::layout::words_for;
use super::model::Mesh;
use super::packets::{self, PACKET_DAMAGES};
use super::pair::Pair;
use super::tables::Tables;
use super::tally::MeshTally;
use crate::interface::{KeptCall, Written};
use crate::random::Random;
use crate::records::model::{kind, record_of};
use crate::trace_calls;

const LONGEST_RECORD: usize = 15;

pub struct Kept {
    pub pair: Pair,
    pub tables: Tables,
    pub keys: Vec<u32>,
    /// The words of the buffer before the first call that is kept.
    pub start: Vec<u32>,
    pub trace: Vec<u8>,
    /// Where each record of the trace starts.
    pub records: Vec<usize>,
    /// The log records of the calls, joined as the calls left them.
    pub log: Vec<u32>,
    /// The log words that a replay of the trace needs.
    pub room: usize,
}

impl Kept {
    /// Nothing is kept yet of a mesh that was opened.
    pub fn new(pair: Pair, tables: Tables, keys: Vec<u32>) -> Kept {
        let start = pair.words.clone();
        Kept { pair, tables, keys, start, trace: vec![], records: vec![], log: vec![], room: 0 }
    }

    /// What was kept is forgotten, the mesh stays.
    pub fn forget(self) -> Kept {
        Kept::new(self.pair, self.tables, self.keys)
    }

    /// A packet at a chip. Some are refused, and not kept.
    pub fn inject(&mut self, tally: &mut MeshTally, random: &mut Random) {
        let mut chip = random.below(self.chips());
        let mut packet = packets::random(random, self.mesh().width, self.mesh().height, &self.keys);
        match random.below(32) {
            0 => chip = random.pick(&[self.chips(), 60_000, u32::MAX]),
            1 => PACKET_DAMAGES[random.below(2) as usize](&mut packet, random),
            _ => {}
        }
        let added = self.pair.inject(tally, 6, chip, &packet, &self.tables.lent());
        if added.refusal == 0 {
            let mut bytes = [0; 9];
            bytes[..packet.len()].copy_from_slice(&packet);
            let length = packet.len() as u32;
            let call = KeptCall { kind: kind::INJECTION, chip, length, bytes, ..KeptCall::default() };
            self.keep(&call, 6, added.added as usize);
        }
    }

    pub fn round(&mut self, tally: &mut MeshTally, random: &mut Random) {
        let needed = 6 * self.mesh().in_flight() as usize;
        let room = if random.one_in(16) { needed.saturating_sub(1) } else { needed };
        let added = self.pair.round(tally, room, &self.tables.lent());
        if added.refusal == 0 {
            self.keep(&KeptCall { kind: kind::ROUND, ..KeptCall::default() }, needed, added.added as usize);
        }
    }

    pub fn change_link(&mut self, tally: &mut MeshTally, random: &mut Random) {
        let (chip, up) = (random.below(self.chips()), random.one_in(2));
        let link = if random.one_in(16) { 200 } else { random.below(6) };
        if self.pair.set_link(tally, chip, link, up) == 0 {
            let call = KeptCall { kind: kind::LINK_CHANGE, chip, link, up: up.into(), ..KeptCall::default() };
            self.keep(&call, 0, 0);
        }
    }

    pub fn read_registers(&mut self, tally: &mut MeshTally, random: &mut Random) {
        let chip = if random.one_in(16) { self.chips() } else { random.below(self.chips()) };
        if self.pair.read_registers(tally, chip) == 0 {
            self.keep(&KeptCall { kind: kind::REGISTERS, chip, ..KeptCall::default() }, 0, 0);
        }
    }

    /// A call that was accepted: it needed so many words of the log, and added so many records to it.
    fn keep(&mut self, call: &KeptCall, needed: usize, added: usize) {
        let at = self.trace.len();
        self.trace.resize(at + LONGEST_RECORD, 0);
        let record = record_of(call).expect("an accepted call can be kept");
        let written = trace_calls::write_record(&mut self.trace[at..], call);
        self.pair.same("write record", &Written { refusal: 0, length: record.len() }, &written);
        self.trace.truncate(at + record.len());
        self.pair.same("record", &record[..], &self.trace[at..]);
        self.records.push(at);
        self.room = self.room.max(self.log.len() + needed);
        self.log.extend_from_slice(&self.pair.log[..6 * added]);
    }

    pub fn chips(&self) -> u32 {
        self.mesh().width * self.mesh().height
    }

    pub fn words_needed(&self) -> usize {
        words_for(self.mesh().width, self.mesh().height)
    }

    fn mesh(&self) -> &Mesh {
        self.pair.mesh.as_ref().expect("the calls are made on a mesh")
    }
}
