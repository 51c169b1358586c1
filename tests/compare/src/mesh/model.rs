//! A mesh of routers in plain Rust, written from the rules, without sight of the Rattle sources, with a pass of its own
//! (passing.rs).

use super::passing::{Router, Source};
use crate::interface::{LentTables, LinkLook, MeshLook, Packet, Registers};
use crate::model::{first_match, kind, kind_of};
use crate::tally::Seen;

pub const COUNTERS: u32 = 10;
const MOST_HELD_WHEN_READY: usize = 6;

#[derive(Clone, Debug, PartialEq)]
pub struct Mesh {
    pub width: u32,
    pub height: u32,
    pub rounds_per_phase: u32,
    pub monitor: u32,
    pub phase: u32,
    pub rounds_in_phase: u32,
    /// By number y * width + x.
    pub chips: Vec<Chip>,
}

#[derive(Clone, Debug, Default, PartialEq)]
pub struct Chip {
    /// None where they are empty.
    pub registers: Option<Registers>,
    pub counters: [u32; 10],
    pub links: [Link; 6],
}

#[derive(Clone, Debug, PartialEq)]
pub struct Link {
    pub up: bool,
    /// Oldest first.
    pub held: Vec<Packet>,
}

/// What an injection or a round did.
#[derive(Debug, Default)]
pub struct Done {
    /// The log records in order.
    pub records: Vec<[u32; 6]>,
    /// Every pass made, in order.
    pub passes: Vec<Seen>,
    /// How often a counter went past its width.
    pub wraps: u64,
}

impl Default for Link {
    fn default() -> Link {
        Link { up: true, held: Vec::new() }
    }
}

impl Link {
    /// "A link is ready when it is up and holds at most 6 outgoing"
    pub fn is_ready(&self) -> bool {
        self.up && self.held.len() <= MOST_HELD_WHEN_READY
    }
}

impl Chip {
    /// Answers how many counters went past their width.
    fn count(&mut self, counts: &[u32; 10]) -> u64 {
        let mut wraps = 0;
        for (counter, more) in self.counters.iter_mut().zip(counts) {
            let (sum, wrapped) = counter.overflowing_add(*more);
            *counter = sum;
            wraps += u64::from(wrapped);
        }
        wraps
    }
}

impl Mesh {
    pub fn open(width: u32, height: u32, rounds_per_phase: u32, monitor: u32) -> Mesh {
        let chips = vec![Chip::default(); (width * height) as usize];
        Mesh { width, height, rounds_per_phase, monitor, phase: 0, rounds_in_phase: 0, chips }
    }

    pub fn inject(&mut self, chip: u32, packet: &[u8], tables: &LentTables) -> Done {
        let mut done = Done::default();
        self.pass_at(chip, packet_of(packet), Source::Local, tables, &mut done);
        done
    }

    /// "A round takes exactly what was in flight when it began, all of it set aside first: chips by number y*W + x,
    /// arrival links 0 to 5, oldest first"
    pub fn round(&mut self, tables: &LentTables) -> Done {
        let mut done = Done::default();
        let mut aside = self.set_aside();
        for chip in 0..self.chips.len() as u32 {
            for arrival in 0..6 {
                let (sender, link) = (self.neighbour(chip, arrival), (arrival + 3) % 6);
                for packet in std::mem::take(&mut aside[sender as usize][link as usize]) {
                    self.pass_at(chip, packet, Source::Link(arrival), tables, &mut done);
                }
            }
        }
        self.end_round();
        done
    }

    pub fn set_link(&mut self, chip: u32, link: u32, up: bool) {
        self.chips[chip as usize].links[link as usize].up = up;
    }

    /// "Reading hands them over and empties them; empty ones are all zeros."
    pub fn read_registers(&mut self, chip: u32) -> Registers {
        self.chips[chip as usize].registers.take().unwrap_or_default()
    }

    pub fn in_flight(&self) -> u32 {
        self.chips.iter().flat_map(|chip| &chip.links).map(|link| link.held.len() as u32).sum()
    }

    pub fn fixed_in_flight(&self) -> usize {
        let held = self.chips.iter().flat_map(|chip| &chip.links).flat_map(|link| &link.held);
        held.filter(|packet| kind_of(packet.control) == kind::FIXED).count()
    }

    pub fn look(&self) -> MeshLook {
        MeshLook {
            refusal: 0,
            width: self.width,
            height: self.height,
            rounds_per_phase: self.rounds_per_phase,
            monitor: self.monitor,
            phase: self.phase,
            rounds_in_phase: self.rounds_in_phase,
            in_flight: self.in_flight(),
        }
    }

    pub fn look_at_link(&self, chip: u32, link: u32) -> LinkLook {
        let link = &self.chips[chip as usize].links[link as usize];
        LinkLook { refusal: 0, up: link.up.into(), held: link.held.len() as u32, ready: link.is_ready().into() }
    }

    /// What each link of each chip held; the links hold nothing after it.
    fn set_aside(&mut self) -> Vec<[Vec<Packet>; 6]> {
        let of_chip = |chip: &mut Chip| chip.links.each_mut().map(|link| std::mem::take(&mut link.held));
        self.chips.iter_mut().map(of_chip).collect()
    }

    /// The packets that the next round passes at a chip, by the links that they arrive by.
    pub fn arriving(&self, chip: u32) -> impl Iterator<Item = &Packet> + '_ {
        let from = move |arrival| &self.chips[self.neighbour(chip, arrival) as usize].links[(arrival as usize + 3) % 6];
        (0..6).flat_map(move |arrival| &from(arrival).held)
    }

    /// The chip that this link of a chip leads to, which is also the one that arrivals by this link come from.
    pub fn neighbour(&self, chip: u32, link: u32) -> u32 {
        let (width, height) = (self.width, self.height);
        let (x, y) = (chip % width, chip / width);
        let (east, west) = ((x + 1) % width, (x + width - 1) % width);
        let (north, south) = ((y + 1) % height, (y + height - 1) % height);
        let (to_x, to_y) = match link {
            0 => (east, y),
            1 => (east, north),
            2 => (x, north),
            3 => (west, y),
            4 => (west, south),
            _ => (x, south),
        };
        to_y * width + to_x
    }

    fn pass_at(&mut self, number: u32, packet: Packet, source: Source, tables: &LentTables, done: &mut Done) {
        let router = self.router(number, tables);
        let passed = router.pass(packet, source);
        let chip = &mut self.chips[number as usize];
        for (link, packet) in passed.sendings() {
            chip.links[link].held.push(packet);
        }
        passed.note_drops(&mut chip.registers);
        done.wraps += chip.count(&passed.counts());
        done.records.extend(passed.record(number));
        done.passes.push(Seen {
            control: packet.control,
            local: source == Source::Local,
            fixed: router.fixed,
            has_row: first_match(router.rows, packet.word).is_some(),
            pass: passed.answer(),
        });
    }

    /// A chip's router as it now stands, with its own part of the lent tables.
    fn router<'a>(&self, number: u32, tables: &LentTables<'a>) -> Router<'a> {
        let (number, chips) = (number as usize, self.chips.len());
        let (first, end) = (tables.starts[number] as usize, tables.starts[number + 1] as usize);
        Router {
            width: self.width,
            height: self.height,
            monitor: self.monitor,
            phase: self.phase,
            rows: &tables.rows[3 * first..3 * end],
            codes: &tables.codes[number * chips..(number + 1) * chips],
            fixed: tables.fixed[number],
            ready: self.chips[number].links.each_ref().map(Link::is_ready),
        }
    }

    /// "then, after each F rounds, the phase steps on"
    fn end_round(&mut self) {
        self.rounds_in_phase += 1;
        if self.rounds_in_phase == self.rounds_per_phase {
            self.rounds_in_phase = 0;
            self.phase = next_phase(self.phase);
        }
    }
}

/// "The phase code runs 00, 01, 11, 10 and round again."
fn next_phase(phase: u32) -> u32 {
    match phase {
        0b00 => 0b01,
        0b01 => 0b11,
        0b11 => 0b10,
        _ => 0b00,
    }
}

/// The packet in five or nine bytes.
fn packet_of(bytes: &[u8]) -> Packet {
    let big_endian = |bytes: &[u8]| bytes.iter().fold(0, |word, &byte| word << 8 | u32::from(byte));
    Packet {
        control: bytes[0].into(),
        nine: (bytes.len() == 9).into(),
        word: big_endian(&bytes[1..5]),
        payload: big_endian(&bytes[5..]),
    }
}
