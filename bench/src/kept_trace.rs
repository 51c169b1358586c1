//! A trace of 100,000 calls on the largest mesh, the same at every run.
//!
//! Every fiftieth record is a round. Of 98 others 4 change a link, 4 read registers and 90 inject. Of ten packets eight
//! are multicast: at every second chip such a packet goes on by one link or two, and at the next one it ends. One is
//! point-to-point and goes by some six links, one is nearest neighbour and goes by one. Half of them have nine bytes. A
//! link change brings a link up nine times in ten, so that in the long run one link in ten is down, with detours and
//! drops. A round then finds some tens of packets in flight, 47 on the average.

use crate::interface::{KeptCall, LentTables, Replayed};
use crate::random::Random;
use crate::{busy_mesh, mesh_calls, trace_calls};
use std::ops::Range;

pub const CALLS: u32 = 100_000;
const SIDE: u32 = 12;
const CHIPS: u32 = SIDE * SIDE;
const ROUNDS_IN_PHASE: u32 = 100;
const SEED: u64 = 20;
/// Log records that there is room for.
const RECORDS: usize = 250_000;
const LONGEST_RECORD: usize = 15;
const KEYS: u32 = 4;
/// The keys of rows that no packet matches.
const SPARE: u32 = 0x1000;

pub type Replay = fn(&mut [u32], &mut [u32], &[u8], &LentTables) -> Replayed;

#[derive(Clone)]
pub struct KeptTrace {
    pub words: Vec<u32>,
    pub log: Vec<u32>,
    pub trace: Vec<u8>,
    /// Where the records of rounds begin.
    pub rounds: Vec<usize>,
    rows: Vec<u32>,
    starts: Vec<u32>,
    codes: Vec<u8>,
    fixed: Vec<u32>,
}

impl KeptTrace {
    /// With so many rows a chip, those that match last.
    pub fn new(rows_a_chip: u32) -> KeptTrace {
        let mut words = vec![0; mesh_calls::size(SIDE, SIDE).words as usize];
        assert_eq!(mesh_calls::open(&mut words, SIDE, SIDE, ROUNDS_IN_PHASE, 0), 0);
        let (mut rows, mut starts) = (vec![], vec![0]);
        for chip in 0..CHIPS {
            (KEYS..rows_a_chip).for_each(|row| rows.extend_from_slice(&[SPARE + row, u32::MAX, 1]));
            (0..KEYS).for_each(|key| rows.extend_from_slice(&[key, u32::MAX, route(chip, key)]));
            starts.push(rows.len() as u32 / 3);
        }
        let codes = (0..CHIPS).flat_map(|chip| (0..CHIPS).map(move |to| code(chip, to))).collect();
        let (trace, rounds) = trace();
        let fixed = vec![0; CHIPS as usize];
        KeptTrace { words, log: vec![0; 6 * RECORDS], trace, rounds, rows, starts, codes, fixed }
    }

    /// Makes the calls of the trace, in one way or another.
    pub fn on(&mut self, replay: Replay) -> Replayed {
        self.on_part(0..self.trace.len(), replay)
    }

    pub fn on_part(&mut self, bytes: Range<usize>, replay: Replay) -> Replayed {
        let tables =
            LentTables { rows: &self.rows, starts: &self.starts, codes: &self.codes, fixed: &self.fixed, room: 0 };
        replay(&mut self.words, &mut self.log, &self.trace[bytes], &tables)
    }

    /// Mesh and log of another that was made in the same way.
    pub fn copy_from(&mut self, other: &KeptTrace) {
        self.words.copy_from_slice(&other.words);
        self.log.copy_from_slice(&other.log);
    }
}

/// On to the next chip from every second one, and there to processors.
fn route(chip: u32, key: u32) -> u32 {
    let (x, y) = (chip % SIDE, chip / SIDE);
    let processor = |number: u32| 1 << (6 + number);
    match (key, x % 2, y % 2) {
        (0, 0, _) => 1 << 0,
        (0, _, _) => processor(1),
        (1, _, 0) => 1 << 1,
        (1, _, _) => processor(2),
        (2, _, 0) => 1 << 2 | processor(3),
        (2, _, _) => processor(4),
        (_, x, y) if x == y => 1 << 3 | 1 << 5,
        _ => processor(5) | processor(6),
    }
}

/// East or west, then north or south, by the shorter way.
fn code(chip: u32, to: u32) -> u8 {
    let ahead = |from: u32, to: u32| (to + SIDE - from) % SIDE;
    let (east, north) = (ahead(chip % SIDE, to % SIDE), ahead(chip / SIDE, to / SIDE));
    match (east, north) {
        (0, 0) => 7,
        (0, north) if north <= SIDE / 2 => 2,
        (0, _) => 5,
        (east, _) if east <= SIDE / 2 => 0,
        _ => 3,
    }
}

/// The trace, and where the records of rounds begin in it.
fn trace() -> (Vec<u8>, Vec<usize>) {
    let mut random = Random::new(SEED);
    let (mut trace, mut rounds) = (vec![], vec![]);
    for number in 1..=CALLS {
        let at = trace.len();
        let call = if number % 50 == 0 {
            rounds.push(at);
            KeptCall { kind: 2, ..KeptCall::default() }
        } else {
            call(&mut random)
        };
        trace.resize(at + LONGEST_RECORD, 0);
        let written = trace_calls::write_record(&mut trace[at..], &call);
        assert_eq!(written.refusal, 0);
        trace.truncate(at + written.length);
    }
    (trace, rounds)
}

fn call(random: &mut Random) -> KeptCall {
    let chip = random.below(CHIPS);
    match random.below(98) {
        0..=3 => {
            let up = u32::from(!random.one_in(10));
            KeptCall { kind: 3, chip, link: random.below(6), up, ..KeptCall::default() }
        }
        4..=7 => KeptCall { kind: 4, chip, ..KeptCall::default() },
        _ => {
            let packet = packet(random);
            let mut bytes = [0; 9];
            bytes[..packet.len()].copy_from_slice(&packet);
            KeptCall { kind: 1, chip, length: packet.len() as u32, bytes, ..KeptCall::default() }
        }
    }
}

fn packet(random: &mut Random) -> Vec<u8> {
    let carries = random.pick(&[0, 2]);
    let (control, word) = match random.below(10) {
        0 => (0x80 | random.below(6) << 2, random.word()),
        1 => (0x40, random.below(SIDE) << 8 | random.below(SIDE)),
        _ => (0x00, random.below(KEYS)),
    };
    busy_mesh::bytes((control | carries) as u8, word)
}
