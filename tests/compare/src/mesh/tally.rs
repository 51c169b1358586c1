//! How often each thing that a call on a mesh can do was reached.

use super::layout::MOST_HELD;
use super::model::{Done, Mesh};
use super::passing::MOST_UNITS;
use super::place_tally::PlaceTallies;
use super::replay_tally::ReplayTally;
use super::room_tally::RoomTally;
use crate::interface::{Packet, Registers};
use crate::model::{kind, kind_of, LOCAL};
use crate::tally::{print_line, PassTally};

#[derive(Clone, Copy)]
pub enum Call {
    Size,
    Open,
    Inject,
    Round,
    SetLink,
    ReadRegisters,
    ReadCounter,
    Mesh,
    Link,
    Flight,
    Replay,
}

/// Each call's name, and what it refuses, in order. 0 is a call that is accepted.
const CALLS: [(&str, &[u32]); 11] = [
    ("size", &[0, 7]),
    ("open", &[0, 7, 6, 8]),
    ("inject", &[0, 8, 9, 15, 16, 17, 18, 11, 29, 10, 2, 4]),
    ("round", &[0, 8, 15, 16, 17, 18, 11, 29, 10]),
    ("set link", &[0, 8, 9]),
    ("read registers", &[0, 8, 9]),
    ("read counter", &[0, 8, 9]),
    ("look at the mesh", &[0, 8]),
    ("look at link", &[0, 8, 9]),
    ("flight", &[0, 8, 9]),
    ("replay", &[0, 12, 13, 14, 8, 9, 15, 16, 17, 18, 11, 29, 10, 4]),
];
const NUMBERS: usize = 30;

#[derive(Default)]
pub struct MeshTally {
    refusals: [[u64; NUMBERS]; CALLS.len()],
    passes: PassTally,
    pub sequences: u64,
    pub one_chip: u64,
    pub largest: u64,
    rounds_with_none: u64,
    most_in_flight: u64,
    records: u64,
    wraps: u64,
    links_with_7: u64,
    links_with_8: u64,
    from_down: u64,
    exact_log: u64,
    phase_steps: u64,
    taken_down_busy: u64,
    brought_up: u64,
    registers_empty: u64,
    registers_one: u64,
    registers_more: u64,
    registers_leg: u64,
    registers_local: u64,
    registers_later_phase: u64,
    registers_most: u64,
    pub full_table: u64,
    changed_holds: u64,
    changed_holds_none: u64,
    pub cut_short: u64,
    pub reopened: u64,
    flights_of_five: u64,
    flights_of_nine: u64,
    flights_at_last: u64,
    flights_of_fixed: u64,
    changed_to_fixed: u64,
    most_fixed_in_flight: u64,
    pub places: PlaceTallies,
    pub replays: ReplayTally,
    pub rooms: RoomTally,
}

impl MeshTally {
    pub fn refusal(&mut self, call: Call, refusal: u32) {
        self.refusals[call as usize][refusal as usize] += 1;
    }

    pub fn moved(&mut self, done: &Done, mesh: Option<&Mesh>) {
        done.passes.iter().for_each(|pass| self.passes.pass(pass));
        self.records += done.records.len() as u64;
        self.wraps += done.wraps;
        if done.passes.is_empty() {
            return;
        }
        for link in mesh.iter().flat_map(|mesh| &mesh.chips).flat_map(|chip| &chip.links) {
            self.links_with_7 += u64::from(link.held.len() == 7);
            self.links_with_8 += u64::from(link.held.len() == MOST_HELD as usize);
        }
    }

    pub fn round_begins(&mut self, mesh: &Mesh, room: usize) {
        let in_flight = u64::from(mesh.in_flight());
        self.most_in_flight = self.most_in_flight.max(in_flight);
        self.most_fixed_in_flight = self.most_fixed_in_flight.max(mesh.fixed_in_flight() as u64);
        self.rounds_with_none += u64::from(in_flight == 0);
        self.exact_log += u64::from(in_flight != 0 && room as u64 == 6 * in_flight);
        let links = mesh.chips.iter().flat_map(|chip| &chip.links);
        self.from_down += links.filter(|link| !link.up).map(|link| link.held.len() as u64).sum::<u64>();
    }

    pub fn round_over(&mut self, mesh: Option<&Mesh>) {
        self.phase_steps += u64::from(mesh.is_some_and(|mesh| mesh.rounds_in_phase == 0));
    }

    pub fn link_set(&mut self, mesh: &Mesh, chip: u32, link: u32, up: bool) {
        let link = &mesh.chips[chip as usize].links[link as usize];
        self.taken_down_busy += u64::from(link.up && !up && !link.held.is_empty());
        self.brought_up += u64::from(!link.up && up);
    }

    pub fn registers(&mut self, registers: &Registers) {
        let empty = *registers == Registers::default();
        self.registers_empty += u64::from(empty);
        self.registers_one += u64::from(!empty && registers.more == 0);
        self.registers_more += u64::from(registers.more == 1);
        self.registers_leg += u64::from(registers.leg == 1);
        self.registers_local += u64::from(registers.source == LOCAL);
        self.registers_later_phase += u64::from(registers.phase != 0);
        self.registers_most += u64::from(registers.units == MOST_UNITS);
    }

    pub fn flight(&mut self, place: u32, packet: &Packet) {
        self.flights_of_five += u64::from(packet.nine == 0);
        self.flights_of_nine += u64::from(packet.nine == 1);
        self.flights_at_last += u64::from(place + 1 == MOST_HELD);
        self.flights_of_fixed += u64::from(kind_of(packet.control) == kind::FIXED);
    }

    /// A word of a buffer was changed; with so many packets of type 11 in flight before.
    pub fn changed_word(&mut self, mesh: Option<&Mesh>, fixed_before: usize) {
        self.changed_holds += u64::from(mesh.is_some());
        self.changed_holds_none += u64::from(mesh.is_none());
        self.changed_to_fixed += u64::from(mesh.is_some_and(|mesh| mesh.fixed_in_flight() > fixed_before));
    }

    /// Prints a line for each, and answers whether all were reached.
    pub fn print(&self) -> bool {
        let mut all = true;
        for ((name, numbers), counts) in CALLS.iter().zip(&self.refusals) {
            let applies = |number: usize| numbers.contains(&(number as u32));
            assert!((0..NUMBERS).all(|number| applies(number) || counts[number] == 0), "{name} refuses another number");
            for &number in *numbers {
                let outcome = if number == 0 { "accepted".into() } else { format!("refusal {number}") };
                all &= print_line(&format!("{name}, {outcome}"), counts[number as usize]);
            }
        }
        all &= self.passes.print("mesh, ");
        for (name, count) in self.events() {
            all &= print_line(&format!("mesh, {name}"), count);
        }
        all &= self.places.print() & self.replays.print() & self.rooms.print();
        println!("{:>12}  mesh, most packets in flight", self.most_in_flight);
        println!("{:>12}  mesh, calls", self.refusals.iter().flatten().sum::<u64>());
        all
    }

    fn events(&self) -> [(&'static str, u64); 31] {
        [
            ("sequences", self.sequences),
            ("sequences on one chip", self.one_chip),
            ("sequences on 12 by 12", self.largest),
            ("round with nothing in flight", self.rounds_with_none),
            ("log record", self.records),
            ("log just long enough for what is in flight", self.exact_log),
            ("counter past its width", self.wraps),
            ("phase step", self.phase_steps),
            ("link holding 7 after a call", self.links_with_7),
            ("link holding 8 after a call", self.links_with_8),
            ("packet handed over by a link that is down", self.from_down),
            ("link taken down with packets on it", self.taken_down_busy),
            ("link brought up", self.brought_up),
            ("registers read, empty", self.registers_empty),
            ("registers read, one drop", self.registers_one),
            ("registers read, more followed", self.registers_more),
            ("registers read, a second leg", self.registers_leg),
            ("registers read, a local packet", self.registers_local),
            ("registers read, a drop in another phase than 00", self.registers_later_phase),
            ("registers read, 65,535 units", self.registers_most),
            ("tables with 1,024 rows for a chip", self.full_table),
            ("changed word, buffer still holds a mesh", self.changed_holds),
            ("changed word, buffer holds none", self.changed_holds_none),
            ("buffer cut short", self.cut_short),
            ("buffer opened again", self.reopened),
            ("flight of five bytes", self.flights_of_five),
            ("flight of nine bytes", self.flights_of_nine),
            ("flight at the last of eight places", self.flights_at_last),
            ("flight of a fixed-route packet", self.flights_of_fixed),
            ("changed word, one more of type 11 in flight", self.changed_to_fixed),
            ("most fixed-route packets in flight when a round begins", self.most_fixed_in_flight),
        ]
    }
}
