//! Meshes with many packets for each chip and tables of 64 to 1,024 rows, for which groups mostly pay: rounds, and replays
//! of injections and rounds.

use super::layout::MOST_HELD;
use super::packets;
use super::pair::Pair;
use super::sequence::new_pair;
use super::tables::{Tables, TABLE_DAMAGES};
use super::tally::MeshTally;
use crate::interface::KeptCall;
use crate::model::{kind as packet, MOST_ROWS};
use crate::random::Random;
use crate::records::model::{kind, record_of};

const LINKS: u32 = 6;

struct Crowd<'a> {
    random: Random,
    tally: &'a mut MeshTally,
    pair: Pair,
    width: u32,
    height: u32,
    keys: Vec<u32>,
    tables: Tables,
}

/// Runs the crowd of this seed and number.
pub fn run(tally: &mut MeshTally, seed: u64, number: u64, prints: bool) {
    let mut random = Random::new((seed << 32 ^ number).rotate_left(20) ^ 29);
    let (width, height) = (1 + random.below(3), 1 + random.below(2));
    let mut pair = new_pair(&mut random, format!("crowd {number} of seed {seed}"), prints, width, height);
    pair.lender.lends_short = true;
    pair.open(tally, width, height, random.pick(&[2, 5, 65_535]), random.below(20));
    let keys = random_keys(&mut random);
    let tables = random_tables(&mut random, width * height, &keys);
    let mut crowd = Crowd { random, tally, pair, width, height, keys, tables };
    for _ in 0..2 {
        crowd.fill();
        crowd.refused_round();
        crowd.rounds();
        crowd.fill();
        crowd.replay();
        crowd.fill_links();
        if crowd.random.one_in(2) {
            crowd.rounds();
        } else {
            crowd.replay();
        }
    }
}

/// Spread over the top byte, or of two values of it.
fn random_keys(random: &mut Random) -> Vec<u32> {
    let (one, other, spread) = (random.word(), random.word(), !random.one_in(4));
    let tops = [one & 0xff00_0000, other & 0xff00_0000, 0, 0xff00_0000];
    let key = |_| {
        let word = random.word();
        if spread {
            word
        } else {
            random.pick(&tops) | word >> 8
        }
    };
    (0..16).map(key).collect()
}

fn random_tables(random: &mut Random, chips: u32, keys: &[u32]) -> Tables {
    let mut tables = Tables { rows: vec![], starts: vec![0], ..Tables::random(random, chips as usize, keys) };
    for _ in 0..chips {
        let (any, few) = (64 + random.below(961), 63 + random.below(65));
        let count = random.pick(&[any, any, few, few, 128, 256, MOST_ROWS as u32, MOST_ROWS as u32]);
        let unfixed = random.pick(&[0, 0, 1, 2, 4, 8, count / 16, count / 2]);
        for _ in 0..count {
            let fixes = random.below(count) >= unfixed;
            let [key, mask] = random_row(random, keys, count, fixes);
            let links = random.below(1 << LINKS) | random.below(1 << LINKS);
            let processor = if random.one_in(4) { 1 << (6 + random.below(20)) } else { 0 };
            tables.rows.extend_from_slice(&[key, mask, links | processor]);
        }
        tables.starts.push(tables.rows.len() as u32 / 3);
    }
    tables
}

/// A key and a mask. Few rows that fix the top byte have a known key, so that a packet is mostly taken by a row far down.
fn random_row(random: &mut Random, keys: &[u32], count: u32, fixes: bool) -> [u32; 2] {
    let (any, low) = (random.word(), random.word() | random.word());
    let low = random.pick(&[u32::MAX, u32::MAX, low, any]) & 0x00ff_ffff;
    let part = any & !(1 << (24 + random.below(8))) & 0xff00_0000;
    let top = if fixes { 0xff00_0000 } else { random.pick(&[0, 0, part, 0x7f00_0000, 0xfe00_0000]) };
    let mask = top | low;
    let known = keys[random.below(keys.len() as u32) as usize];
    let is_known = if fixes { random.one_in(count / 12) } else { random.one_in(2) };
    let key = if is_known { known } else { random.word() };
    let outside = if random.one_in(16) { !mask & random.word() } else { 0 };
    [key & mask | outside, mask]
}

impl Crowd<'_> {
    /// Packets at every chip, until its links are mostly full.
    fn fill(&mut self) {
        let most = 4 + self.random.below(12);
        for chip in 0..self.width * self.height {
            for _ in 0..most {
                let packet = self.packet();
                self.pair.inject(self.tally, 6, chip, &packet, &self.tables.lent());
            }
        }
    }

    /// Links with one packet or two, or with all that they hold, written as calls may have left them. Their words are known
    /// keys, all the same one, or have a top byte for each that comes to a chip.
    fn fill_links(&mut self) {
        let (few, way, one) = (self.random.one_in(2), self.random.below(3), self.known_key());
        for (chip, link) in (0..self.width * self.height).flat_map(|chip| (0..LINKS).map(move |link| (chip, link))) {
            let held = if few { 1 + self.random.below(2) } else { MOST_HELD };
            let next = |place: u32| {
                let word = match way {
                    0 => self.known_key(),
                    1 => one,
                    _ => one.wrapping_add(5 * (MOST_HELD * link + place) << 24),
                };
                (self.random.pick(&[packet::MC, packet::MC, packet::MC, packet::FIXED]), word)
            };
            let packets: Vec<_> = (0..held).map(next).collect();
            self.pair.hold(chip, link, &packets);
        }
    }

    fn known_key(&mut self) -> u32 {
        self.keys[self.random.below(self.keys.len() as u32) as usize]
    }

    fn packet(&mut self) -> Vec<u8> {
        packets::random(&mut self.random, self.width, self.height, &self.keys)
    }

    fn log_needed(&self) -> usize {
        self.pair.mesh.as_ref().map_or(0, |mesh| 6 * mesh.in_flight() as usize)
    }

    fn rounds(&mut self) {
        for _ in 0..self.random.pick(&[1, 2, 3]) {
            let log = self.log_needed();
            self.pair.round(self.tally, log, &self.tables.lent());
        }
    }

    /// With no log, or with damaged tables.
    fn refused_round(&mut self) {
        let mut tables = self.tables.clone();
        let log = if self.random.one_in(2) { 0 } else { self.log_needed() };
        if log != 0 {
            let damage = TABLE_DAMAGES[self.random.below(TABLE_DAMAGES.len() as u32) as usize];
            damage(&mut tables, &mut self.random);
        }
        self.pair.round(self.tally, log, &tables.lent());
    }

    /// A round, a few injections, and a round again.
    fn replay(&mut self) {
        let round = record_of(&KeptCall { kind: kind::ROUND, ..KeptCall::default() }).expect("a round can be kept");
        let mut trace = round.clone();
        for chip in 0..self.width * self.height {
            let packet = self.packet();
            let mut bytes = [0; 9];
            bytes[..packet.len()].copy_from_slice(&packet);
            let call =
                KeptCall { kind: kind::INJECTION, chip, length: packet.len() as u32, bytes, ..KeptCall::default() };
            trace.extend(record_of(&call).expect("an injection can be kept"));
        }
        trace.extend(round);
        let log = self.random.pick(&[0, self.log_needed() as u32, self.pair.log.len() as u32 - 16]) as usize;
        self.pair.replay(self.tally, log, &trace, &self.tables.lent());
    }
}
