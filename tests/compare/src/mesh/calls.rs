//! Each call on a mesh, made on the library's buffer and on the model's mesh, and what both answer and leave compared.

use super::account;
use super::groups;
use super::layout::{link_at, words_for, CHIP, COUNTERS_AT, HEADER};
use super::model::{Done, Mesh};
use super::pair::Pair;
use super::refusals;
use super::tally::{Call, MeshTally};
use crate::interface::{Added, CountRead, Flight, LentTables, LinkLook, MeshLook, Packet, RegistersRead, Size};
use crate::mesh_calls;

impl Pair {
    pub fn size(&mut self, tally: &mut MeshTally, width: u32, height: u32) {
        self.begin("size", || format!("{width:x} by {height:x}"));
        let refusal = refusals::size(width, height);
        let words = if refusal == 0 { words_for(width, height) as u32 } else { 0 };
        self.same("answer", &Size { refusal, words }, &mesh_calls::size(width, height));
        self.settle_exactly();
        tally.refusal(Call::Size, refusal);
    }

    pub fn open(&mut self, tally: &mut MeshTally, width: u32, height: u32, rounds: u32, monitor: u32) {
        self.begin("open", || format!("{width:x} by {height:x}, rounds {rounds:x}, monitor {monitor:x}"));
        let refusal = refusals::open(self.lent, width, height, rounds, monitor);
        let answer = mesh_calls::open(&mut self.words[..self.lent], width, height, rounds, monitor);
        self.same("answer", &refusal, &answer);
        if refusal == 0 {
            self.mesh = Some(Mesh::open(width, height, rounds, monitor));
        }
        self.settle(refusal);
        tally.refusal(Call::Open, refusal);
    }

    /// `room` words of the log are lent.
    pub fn inject(
        &mut self,
        tally: &mut MeshTally,
        room: usize,
        chip: u32,
        packet: &[u8],
        tables: &LentTables,
    ) -> Added {
        let tables = &self.lender.lend(tables);
        self.begin("inject", || format!("at {chip:x}, log {room:x}, {packet:x?}, {tables:x?}"));
        let refused = refusals::inject(self.mesh.as_ref(), room, chip, packet, tables);
        let in_flight = account::in_flight(self.mesh.as_ref());
        let done = match &mut self.mesh {
            Some(mesh) if refused.number == 0 => mesh.inject(chip, packet, tables),
            _ => Done::default(),
        };
        let (words, log) = (&mut self.words[..self.lent], &mut self.log[..room]);
        let answer = mesh_calls::inject_in(words, log, chip, packet, tables, self.lender.room());
        self.settle_moved(refused, &done, answer);
        self.settle_room();
        tally.rooms.lent(Call::Inject, tables, self.mesh.as_ref(), refused.number, room);
        self.settle_account(in_flight, &done);
        tally.refusal(Call::Inject, refused.number);
        tally.places.inject.tables(self.mesh.as_ref(), tables, refused);
        tally.moved(&done, self.mesh.as_ref());
        answer
    }

    pub fn round(&mut self, tally: &mut MeshTally, room: usize, tables: &LentTables) -> Added {
        let tables = &self.lender.lend(tables);
        self.begin("round", || format!("log {room:x}, {tables:x?}"));
        let refused = refusals::round(self.mesh.as_ref(), room, tables);
        let in_flight = account::in_flight(self.mesh.as_ref());
        let done = match &mut self.mesh {
            Some(mesh) if refused.number == 0 => {
                tally.round_begins(mesh, room);
                let written = groups::after_round(mesh, tables, self.lender.expected());
                tally.rooms.written(Call::Round, &written);
                mesh.round(tables)
            }
            _ => Done::default(),
        };
        let (words, log) = (&mut self.words[..self.lent], &mut self.log[..room]);
        let answer = mesh_calls::round_in(words, log, tables, self.lender.room());
        self.settle_moved(refused, &done, answer);
        self.settle_room();
        tally.rooms.lent(Call::Round, tables, self.mesh.as_ref(), refused.number, room);
        self.settle_account(in_flight, &done);
        tally.refusal(Call::Round, refused.number);
        tally.places.round.tables(self.mesh.as_ref(), tables, refused);
        tally.moved(&done, self.mesh.as_ref());
        if refused.number == 0 {
            tally.round_over(self.mesh.as_ref());
        }
        answer
    }

    /// Answers the refusal, or 0.
    pub fn set_link(&mut self, tally: &mut MeshTally, chip: u32, link: u32, up: bool) -> u32 {
        self.begin("set link", || format!("{link:x} of {chip:x}, up {up}"));
        let refusal = refusals::link(self.mesh.as_ref(), chip, link);
        let answer = mesh_calls::set_link(&mut self.words[..self.lent], chip, link, up);
        self.same("answer", &refusal, &answer);
        if let (Some(mesh), 0) = (&mut self.mesh, refusal) {
            tally.link_set(mesh, chip, link, up);
            mesh.set_link(chip, link, up);
            // Nothing else at all changes, not even a word that is no part of the mesh.
            self.before[link_at(chip as usize, link as usize)] = u32::from(!up);
            self.settle_exactly();
        }
        self.settle(refusal);
        tally.refusal(Call::SetLink, refusal);
        refusal
    }

    /// Answers the refusal, or 0.
    pub fn read_registers(&mut self, tally: &mut MeshTally, chip: u32) -> u32 {
        self.begin("read registers", || format!("of {chip:x}"));
        let refusal = refusals::read_registers(self.mesh.as_ref(), chip);
        let registers = match &mut self.mesh {
            Some(mesh) if refusal == 0 => mesh.read_registers(chip),
            _ => Default::default(),
        };
        let answer = mesh_calls::read_registers(&mut self.words[..self.lent], chip);
        self.same("answer", &RegistersRead { refusal, registers }, &answer);
        if refusal == 0 {
            let at = HEADER + chip as usize * CHIP;
            self.before[at..at + COUNTERS_AT].fill(0);
            self.settle_exactly();
            tally.registers(&registers);
        }
        self.settle(refusal);
        tally.refusal(Call::ReadRegisters, refusal);
        refusal
    }

    pub fn read_counter(&mut self, tally: &mut MeshTally, chip: u32, counter: u32) {
        self.begin("read counter", || format!("{counter:x} of {chip:x}"));
        let refusal = refusals::read_counter(self.mesh.as_ref(), chip, counter);
        let count = match &self.mesh {
            Some(mesh) if refusal == 0 => mesh.chips[chip as usize].counters[counter as usize],
            _ => 0,
        };
        let answer = mesh_calls::read_counter(&self.words[..self.lent], chip, counter);
        self.same("answer", &CountRead { refusal, count }, &answer);
        tally.refusal(Call::ReadCounter, refusal);
    }

    pub fn look(&mut self, tally: &mut MeshTally) {
        self.begin("look at the mesh", String::new);
        let none = MeshLook { refusal: refusals::NO_MESH, ..MeshLook::default() };
        let look = self.mesh.as_ref().map_or(none, Mesh::look);
        self.same("answer", &look, &mesh_calls::look(&self.words[..self.lent]));
        tally.refusal(Call::Mesh, look.refusal);
    }

    pub fn look_at_link(&mut self, tally: &mut MeshTally, chip: u32, link: u32) {
        self.begin("look at link", || format!("{link:x} of {chip:x}"));
        let refusal = refusals::link(self.mesh.as_ref(), chip, link);
        let look = match &self.mesh {
            Some(mesh) if refusal == 0 => mesh.look_at_link(chip, link),
            _ => LinkLook { refusal, ..LinkLook::default() },
        };
        self.same("answer", &look, &mesh_calls::look_at_link(&self.words[..self.lent], chip, link));
        tally.refusal(Call::Link, refusal);
    }

    pub fn flight(&mut self, tally: &mut MeshTally, chip: u32, link: u32, place: u32) {
        self.begin("flight", || format!("at place {place:x} of link {link:x} of {chip:x}"));
        let refusal = refusals::flight(self.mesh.as_ref(), chip, link, place);
        let packet = match &self.mesh {
            Some(mesh) if refusal == 0 => mesh.chips[chip as usize].links[link as usize].held[place as usize],
            _ => Packet::default(),
        };
        let answer = mesh_calls::flight(&self.words[..self.lent], chip, link, place);
        self.same("answer", &Flight { refusal, packet }, &answer);
        tally.refusal(Call::Flight, refusal);
        if refusal == 0 {
            tally.flight(place, &packet);
        }
    }

    /// Every packet on a link, the oldest first, and the place behind them.
    pub fn flights(&mut self, tally: &mut MeshTally, chip: u32, link: u32) {
        let held = match &self.mesh {
            Some(mesh) if refusals::link(Some(mesh), chip, link) == 0 => {
                mesh.chips[chip as usize].links[link as usize].held.len() as u32
            }
            _ => 0,
        };
        (0..=held).for_each(|place| self.flight(tally, chip, link, place));
    }
}
