//! Inputs of the one-router call: random ones that are accepted, and the ways to damage them so that they are refused.

use crate::interface::PassCall;
use crate::model::{kind, LOCAL, MOST_ROWS, MOST_SIDE};
use crate::random::Random;

#[derive(Clone, Debug, Default)]
pub struct PassCase {
    pub packet: Vec<u8>,
    pub source: u32,
    pub width: u32,
    pub height: u32,
    pub rows: Vec<u32>,
    pub codes: Vec<u8>,
    pub monitor: u32,
    pub phase: u32,
    pub ready: u32,
    pub fixed: u32,
    /// How many numbers are lent for groups.
    pub room: usize,
}

impl PassCase {
    pub fn call(&self) -> PassCall<'_> {
        PassCall {
            packet: &self.packet,
            source: self.source,
            width: self.width,
            height: self.height,
            rows: &self.rows,
            codes: &self.codes,
            monitor: self.monitor,
            phase: self.phase,
            ready: self.ready,
            fixed: self.fixed,
            room: self.room,
        }
    }

    /// An input that is accepted, its packet mostly without error. Buffers are kept from the last one.
    pub fn fill(&mut self, random: &mut Random) {
        self.source = random.pick(&[0, 1, 2, 3, 4, 5, LOCAL]);
        let most = if random.one_in(8) { MOST_SIDE } else { 3 };
        self.width = 1 + random.below(most);
        self.height = 1 + random.below(most);
        self.monitor = random.below(20);
        self.phase = random.below(4);
        self.ready = if random.one_in(4) { 63 } else { random.below(64) };
        let kind = random.pick(&[kind::MC, kind::MC, kind::MC, kind::FIXED, kind::FIXED, kind::P2P, kind::NN]);
        let word = self.random_word(random, kind);
        self.set_packet(random, kind, word);
        self.set_rows(random, word);
        self.fixed = random_route(random);
        self.codes.clear();
        self.codes.extend((0..self.width * self.height).map(|_| random.below(8) as u8));
        self.room = if random.one_in(4) { self.enough_room() + random.pick(&[0, 0, 1, 300]) as usize } else { 0 };
    }

    fn enough_room(&self) -> usize {
        257 + 256 * (self.rows.len() / 3)
    }

    fn random_word(&self, random: &mut Random, kind: u32) -> u32 {
        if kind == kind::P2P && !random.one_in(8) {
            let (x, y) = (random.below(self.width + 1), random.below(self.height + 1));
            random.word() << 16 | x << 8 | y
        } else {
            random.word()
        }
    }

    fn set_packet(&mut self, random: &mut Random, kind: u32, word: u32) {
        let middle = match kind {
            kind::NN => random.below(8) << 2,
            kind::MC | kind::FIXED if self.source == LOCAL && !random.one_in(8) => random.below(4) << 2,
            _ => random.below(4) << 4 | self.random_stamp(random) << 2,
        };
        let nine = random.one_in(2);
        let carries = nine != random.one_in(16);
        let payload = if nine { random.word() } else { 0 };
        let even = kind << 6 | middle | u32::from(carries) << 1;
        let right = 1 ^ (even ^ word ^ payload).count_ones() & 1;
        let parity = right ^ u32::from(random.one_in(16));
        self.packet.clear();
        self.packet.push((even | parity) as u8);
        self.packet.extend_from_slice(&word.to_be_bytes());
        if nine {
            self.packet.extend_from_slice(&payload.to_be_bytes());
        }
    }

    fn random_stamp(&self, random: &mut Random) -> u32 {
        if random.one_in(4) {
            random.below(4)
        } else {
            self.phase
        }
    }

    fn set_rows(&mut self, random: &mut Random, key: u32) {
        let count = match random.below(1024) {
            0 => MOST_ROWS as u32,
            1 => MOST_ROWS as u32 - 1,
            2..=9 => random.below(256),
            _ => random.below(6),
        };
        self.rows.clear();
        for _ in 0..count {
            let mask = match random.below(4) {
                0 => u32::MAX,
                1 => random.word(),
                2 => 1 << random.below(32),
                _ => u32::MAX << random.below(32),
            };
            let any = random.word();
            let row_key = if random.one_in(count) { key & mask } else { random.pick(&[any, any & mask, key | !mask]) };
            self.rows.extend_from_slice(&[row_key, mask, random_route(random)]);
        }
    }
}

/// To links and processors, links alone, processors alone, or nowhere.
pub fn random_route(random: &mut Random) -> u32 {
    let kept = random.pick(&[u32::MAX, u32::MAX, 63, !63, 0]);
    random.word() >> 6 & kept
}

pub type Damage = fn(&mut PassCase, &mut Random);

/// Each gives an input that was accepted a reason to be refused.
pub const DAMAGES: [Damage; 15] = [
    |case, random| case.width = random.pick(&[0, 13, 14, 255, 0x1_0000, 0x8000_0001, u32::MAX]),
    |case, random| case.height = random.pick(&[0, 13, 14, 255, 0x1_0000, 0x8000_0001, u32::MAX]),
    |case, random| case.phase = random.pick(&[4, 5, 7, 8, 0x8000_0000, u32::MAX]),
    |case, random| case.ready = random.pick(&[64, 65, 127, 128, 0x8000_0000, u32::MAX]),
    |case, random| case.monitor = random.pick(&[20, 21, 25, 26, 31, 32, 0x8000_0000, u32::MAX]),
    |case, random| {
        let more = 1 + random.below(2) as usize;
        let odd_words = case.rows.len() / 3 * 3 + more;
        case.rows.resize(odd_words, 0);
    },
    |case, random| {
        let row_count = MOST_ROWS + random.pick(&[1, 1, 1, 2, 1024, 2000]) as usize;
        case.rows.resize(3 * row_count, 0);
    },
    |case, random| {
        if case.rows.len() < 3 {
            case.rows.resize(3, 0);
        }
        let row = random.below(case.rows.len() as u32 / 3) as usize;
        case.rows[3 * row + 2] |= 1 << (26 + random.below(6));
    },
    |case, random| {
        let count = case.codes.len();
        let wrong = [0, count + 1, count.saturating_sub(1), 2 * count, 145, 256][random.below(6) as usize];
        case.codes.resize(if wrong == count { 1 } else { wrong }, 0);
    },
    |case, random| {
        let code = random.pick(&[8, 9, 15, 16, 127, 128, 255]) as u8;
        let at = random.below(case.codes.len().max(1) as u32) as usize;
        if let Some(place) = case.codes.get_mut(at) {
            *place = code;
        }
    },
    |case, random| case.source = random.pick(&[6, 8, 9, 13, 255, 0x8000_0000, u32::MAX]),
    |case, random| {
        let wrong = random.pick(&[0, 1, 2, 3, 4, 6, 7, 8, 10, 11, 12]) as usize;
        case.packet.resize(wrong, 0);
    },
    |case, random| case.fixed |= 1 << (26 + random.below(6)),
    |case, _| case.set_control(|control| control & 0x3f | 0xa0),
    |case, random| {
        let short = case.enough_room() as u32 - 1;
        case.room = random.pick(&[1, 256, short, short]) as usize;
    },
];

impl PassCase {
    fn set_control(&mut self, new: fn(u8) -> u8) {
        if let Some(control) = self.packet.first_mut() {
            *control = new(*control);
        }
    }
}
