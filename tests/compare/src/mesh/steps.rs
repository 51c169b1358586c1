//! The steps of a sequence that the calls accept.

use super::packets;
use super::sequence::Sequence;
use super::tables::Tables;
use crate::model::MOST_ROWS;

impl Sequence<'_> {
    pub fn open(&mut self, width: u32, height: u32) {
        if self.random.one_in(4) {
            self.refused_opening(width, height);
        }
        let (few, any) = (1 + self.random.below(8), 1 + self.random.below(65_535));
        let rounds = self.random.pick(&[1, 2, 3, few, few, few, 65_535, any]);
        let monitor = self.random.below(20);
        self.pair.size(self.tally, width, height);
        self.pair.open(self.tally, width, height, rounds, monitor);
        self.new_tables();
    }

    pub fn open_again(&mut self) {
        if let Some((width, height)) = self.sides() {
            self.tally.reopened += 1;
            self.open(width, height);
        }
    }

    pub fn new_tables(&mut self) {
        self.pair.same("tables", &self.kept_tables, &self.tables);
        let chips = self.chips() as usize;
        self.tables = Tables::random(&mut self.random, chips, &self.keys);
        self.kept_tables = self.tables.clone();
        let full = |pair: &[u32]| (pair[1] - pair[0]) as usize == MOST_ROWS;
        self.tally.full_table += u64::from(self.tables.starts.windows(2).any(full));
    }

    /// A packet at a chip, or a burst of it that fills links.
    pub fn inject_some(&mut self) {
        let chip = self.any_chip();
        let packet = self.packet();
        for _ in 0..self.random.pick(&[1, 1, 1, 2, 4, 9]) {
            let room = self.random.pick(&[6, 6, 7, 12]) as usize;
            self.pair.inject(self.tally, room, chip, &packet, &self.tables.lent());
        }
    }

    /// Mostly with something in flight.
    pub fn round_some(&mut self) {
        if self.room_needed() == 0 && !self.random.one_in(4) {
            self.inject_some();
        }
        for _ in 0..self.random.pick(&[1, 1, 1, 2, 3, 6]) {
            let room = self.room_needed() + self.random.pick(&[0, 0, 1, 6]) as usize;
            self.pair.round(self.tally, room, &self.tables.lent());
        }
    }

    pub fn change_link(&mut self) {
        let (chip, link, up) = (self.any_chip(), self.random.below(6), self.random.one_in(2));
        self.pair.set_link(self.tally, chip, link, up);
    }

    pub fn read_registers(&mut self) {
        let chip = self.any_chip();
        self.pair.read_registers(self.tally, chip);
    }

    pub fn packet(&mut self) -> Vec<u8> {
        let (width, height) = self.sides().unwrap_or((1, 1));
        packets::random(&mut self.random, width, height, &self.keys)
    }
}
