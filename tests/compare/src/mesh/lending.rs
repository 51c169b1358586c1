//! Room for groups, lent to each injection, round and replay: at random none, just enough, more, and at choice too little.
//! It is full of anything, at times of what an earlier call left there.

use super::bad_tables::longest_table;
use super::groups::room_for;
use crate::interface::LentTables;
use crate::model::MOST_ROWS;
use crate::random::Random;

/// Numbers before and behind the room, which no call may touch.
const CANARY: usize = 16;

pub struct Lender {
    random: Random,
    /// Whether room that is too short is lent too, and whether there is always room enough.
    pub lends_short: bool,
    pub lends_always: bool,
    memory: Vec<u32>,
    /// What the memory has to be.
    expected: Vec<u32>,
    at: usize,
    length: usize,
}

impl Lender {
    /// The same for the same name, so that a sequence that is run alone lends the same.
    pub fn new(name: &str) -> Lender {
        let seed = name.bytes().fold(0u64, |seed, byte| seed.wrapping_mul(257).wrapping_add(byte.into()));
        let random = Random::new(seed);
        Lender { random, lends_short: false, lends_always: false, memory: vec![], expected: vec![], at: 0, length: 0 }
    }

    /// The tables with room for the next call.
    pub fn lend<'a>(&mut self, tables: &LentTables<'a>) -> LentTables<'a> {
        let enough = room_for(longest_table(tables.starts).min(MOST_ROWS));
        let kind = if self.lends_always { 3 + self.random.below(29) } else { self.random.below(64) };
        self.length = match kind {
            0 if self.lends_short => enough - 1,
            1 if self.lends_short => 1,
            2 if self.lends_short => self.random.pick(&[2, 255, 256]) as usize,
            3..=15 => enough,
            16..=23 => enough + 1 + self.random.below(40) as usize,
            24..=31 => 2 * enough,
            _ => 0,
        };
        self.at = self.random.below(CANARY as u32) as usize;
        self.fill();
        LentTables { room: self.length, ..*tables }
    }

    /// Any number where there was none yet, and one time of four over some of what an earlier call left.
    fn fill(&mut self) {
        let random = &mut self.random;
        if self.length != 0 && random.one_in(4) {
            let until = self.memory.len().min(self.at + 400);
            self.memory[..until].fill_with(|| random.word());
            self.expected[..until].copy_from_slice(&self.memory[..until]);
        }
        let needed = self.at + self.length + CANARY;
        if self.length != 0 && self.memory.len() < needed {
            let had = self.memory.len();
            self.memory.resize_with(needed, || random.word());
            self.expected.extend_from_slice(&self.memory[had..]);
        }
    }

    /// What is lent to the library.
    pub fn room(&mut self) -> &mut [u32] {
        if self.length == 0 {
            return &mut [];
        }
        &mut self.memory[self.at..self.at + self.length]
    }

    /// What it has to be after.
    pub fn expected(&mut self) -> &mut [u32] {
        if self.length == 0 {
            return &mut [];
        }
        &mut self.expected[self.at..self.at + self.length]
    }

    /// What has to be in the memory about the room, and what is.
    pub fn both(&self) -> (&[u32], &[u32]) {
        let until = if self.length == 0 { 0 } else { self.at + self.length + CANARY };
        (&self.expected[..until], &self.memory[..until])
    }
}
