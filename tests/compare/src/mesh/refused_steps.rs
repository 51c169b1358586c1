//! The steps of a sequence that the calls refuse, for one reason or for some at once.

use super::damage::damage;
use super::layout::words_for;
use super::packets::PACKET_DAMAGES;
use super::sequence::Sequence;
use super::tables::{Tables, TABLE_DAMAGES};

impl Sequence<'_> {
    pub fn refused_opening(&mut self, width: u32, height: u32) {
        let (lent, needed) = (self.pair.lent, words_for(width, height) as u32);
        let mut given = [width, height, 3, 5];
        for _ in 0..1 + self.random.below(3) {
            match self.random.below(5) {
                0 | 1 => given[self.random.below(2) as usize] = self.random.pick(&[0, 13, 14, 0x1_0001, u32::MAX]),
                2 => given[2] = self.random.pick(&[0, 65_536, 0x8000_0001, u32::MAX]),
                3 => given[3] = self.random.pick(&[20, 21, 32, 0x8000_0000, u32::MAX]),
                _ => self.pair.lent = self.random.pick(&[0, 1, 5, 6, needed - 1, needed / 2]) as usize,
            }
        }
        let [width, height, rounds, monitor] = given;
        self.pair.size(self.tally, width, height);
        self.pair.open(self.tally, width, height, rounds, monitor);
        self.pair.lent = lent;
        self.pair.read_anew();
    }

    pub fn refused_injection(&mut self) {
        let (mut chip, mut packet, mut room) = (self.any_chip(), self.packet(), 6);
        let mut tables = self.tables.clone();
        for _ in 0..1 + self.random.below(3) {
            match self.random.below(7) {
                0 => chip = self.wrong_chip(),
                1 => room = self.random.below(6) as usize,
                2..=4 => PACKET_DAMAGES[self.random.below(2) as usize](&mut packet, &mut self.random),
                _ => self.damage_tables(&mut tables),
            }
        }
        self.pair.inject(self.tally, room, chip, &packet, &tables.lent());
    }

    pub fn refused_round(&mut self) {
        let mut tables = self.tables.clone();
        let mut room = self.room_needed() as u32;
        for _ in 0..1 + self.random.below(2) {
            if self.random.one_in(2) {
                room = self.random.pick(&[room.saturating_sub(1), room.saturating_sub(6), 0]);
            } else {
                self.damage_tables(&mut tables);
            }
        }
        self.pair.round(self.tally, room as usize, &tables.lent());
    }

    fn damage_tables(&mut self, tables: &mut Tables) {
        TABLE_DAMAGES[self.random.below(TABLE_DAMAGES.len() as u32) as usize](tables, &mut self.random);
    }

    /// A chip, link or counter that is not there.
    pub fn refused_number(&mut self) {
        let wrong_chip = self.wrong_chip();
        let chip = if self.random.one_in(2) { wrong_chip } else { self.any_chip() };
        let wrong = self.random.pick(&[6, 7, 10, 11, 255, 0x8000_0000, u32::MAX]);
        let (link, place) = (self.random.below(6), self.random.pick(&[8, 9, 0x8000_0000, u32::MAX]));
        match self.random.below(6) {
            0 => assert_ne!(self.pair.set_link(self.tally, chip, wrong, true), 0),
            1 => assert_ne!(self.pair.read_registers(self.tally, wrong_chip), 0),
            2 => self.pair.read_counter(self.tally, chip, wrong.max(10)),
            3 => self.pair.look_at_link(self.tally, chip, wrong),
            4 => self.pair.flight(self.tally, chip, wrong, 0),
            _ => self.pair.flight(self.tally, chip, link, place),
        }
    }

    fn wrong_chip(&mut self) -> u32 {
        let chips = self.chips();
        self.random.pick(&[chips, chips, chips + 1, 144, 145, 0x8000_0000, u32::MAX])
    }

    /// A word is changed. If the buffer still holds a mesh, the sequence goes on with that one; else every call is refused,
    /// and the word is put back.
    pub fn changed_word(&mut self) {
        let Some(mesh) = &self.pair.mesh else { return };
        let (sides, fixed) = ((mesh.width, mesh.height), mesh.fixed_in_flight());
        let (at, old) = damage(&mut self.random, mesh, &mut self.pair.words);
        self.pair.read_anew();
        let holds = self.pair.mesh.is_some();
        self.tally.changed_word(self.pair.mesh.as_ref(), fixed);
        if holds && self.sides() != Some(sides) {
            self.new_tables();
        }
        self.call_each();
        if !holds {
            self.pair.words[at] = old;
            self.pair.read_anew();
        }
    }

    /// Fewer words are lent than the mesh needs, or just as many.
    pub fn cut_short(&mut self) {
        let Some((width, height)) = self.sides() else { return };
        let (lent, needed) = (self.pair.lent, words_for(width, height) as u32);
        let any = self.random.below(needed);
        self.pair.lent = self.random.pick(&[0, 1, 5, 6, needed - 1, needed - 1, needed, any]) as usize;
        self.pair.read_anew();
        self.tally.cut_short += u64::from(self.pair.mesh.is_none());
        self.call_each();
        self.pair.lent = lent;
        self.pair.read_anew();
    }

    /// Every call on a mesh once; opening apart, which needs none.
    fn call_each(&mut self) {
        let (chip, packet) = (self.any_chip(), self.packet());
        let room = self.room_needed();
        self.look_at(chip);
        self.pair.inject(self.tally, 6, chip, &packet, &self.tables.lent());
        self.pair.round(self.tally, room + 36, &self.tables.lent());
        self.refused_injection();
        self.refused_round();
        self.pair.set_link(self.tally, chip, packet.len() as u32 % 6, packet.len() == 9);
        self.pair.read_registers(self.tally, chip);
    }
}
