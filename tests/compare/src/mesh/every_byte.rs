//! A short trace of all kinds on small meshes: cut at every byte, with every byte set to every value, with every length of
//! log, with each bad record at each place, and with each kind of bad tables and buffers. Then traces of no bytes.

use super::bad_records;
use super::kept::Kept;
use super::layout::words_for;
use super::pair::Pair;
use super::tables::{Tables, TABLE_DAMAGES};
use super::tally::MeshTally;
use super::traces::spare_log;
use crate::interface::LentTables;
use crate::random::Random;

const CALLS: usize = 18;
/// Replays of each way to damage the tables.
const TIMES: usize = 8;

pub fn all(tally: &mut MeshTally, seed: u64) {
    let random = &mut Random::new(seed);
    for (width, height) in [(1, 1), (2, 1), (2, 2)] {
        let name = format!("every byte, {width} by {height}, of seed {seed}");
        let kept = short_run(tally, random, name.clone(), width, height);
        let log = spare_log(random, kept.room);
        let mut trial = Trial { twin: Pair::new(name, false, kept.start.clone(), kept.pair.lent, log), kept, tally };
        trial.flights();
        trial.cuts();
        trial.bytes();
        trial.logs();
        trial.bad_records(random);
        trial.bad_tables(random);
        trial.bad_buffers();
        trial.no_bytes(random);
    }
    of_nothing(tally);
}

/// Links fill before anything is kept.
fn short_run(tally: &mut MeshTally, random: &mut Random, name: String, width: u32, height: u32) -> Kept {
    let words = (0..words_for(width, height) + 16).map(|_| random.word()).collect();
    let mut pair = Pair::new(name, false, words, words_for(width, height), vec![0; 6 * 6 * 8 * 4]);
    pair.open(tally, width, height, 2, 19);
    let keys = vec![random.word(), random.word()];
    let tables = Tables::random(random, (width * height) as usize, &keys);
    let mut kept = Kept::new(pair, tables, keys);
    for _ in 0..40 {
        kept.inject(tally, random);
    }
    let mut kept = kept.forget();
    for call in 0..CALLS {
        match call % 6 {
            0 => kept.change_link(tally, random),
            1 => kept.read_registers(tally, random),
            4 => kept.round(tally, random),
            _ => kept.inject(tally, random),
        }
    }
    kept
}

struct Trial<'a> {
    kept: Kept,
    twin: Pair,
    tally: &'a mut MeshTally,
}

impl Trial<'_> {
    /// From the same start each time.
    fn replay(&mut self, room: usize, trace: &[u8], tables: &LentTables) {
        self.twin.go_back_to(&self.kept.start);
        self.twin.replay(self.tally, room, trace, tables);
    }

    /// Every place of every link, and numbers that are not there.
    fn flights(&mut self) {
        let numbers = |most: u32| (0..=most).chain([most + 1, 0x8000_0000, u32::MAX]);
        for chip in numbers(self.kept.chips()) {
            for link in numbers(6) {
                numbers(9).for_each(|place| self.twin.flight(self.tally, chip, link, place));
            }
        }
        self.twin.settle_exactly();
    }

    fn cuts(&mut self) {
        let (trace, tables) = (self.kept.trace.clone(), self.kept.tables.clone());
        for length in 0..=trace.len() {
            self.replay(self.kept.room, &trace[..length], &tables.lent());
        }
    }

    fn bytes(&mut self) {
        let (mut trace, tables) = (self.kept.trace.clone(), self.kept.tables.clone());
        for at in 0..trace.len() {
            let old = trace[at];
            for value in 0..=255 {
                trace[at] = value;
                self.replay(self.kept.room, &trace, &tables.lent());
            }
            trace[at] = old;
        }
    }

    fn logs(&mut self) {
        let (trace, tables) = (self.kept.trace.clone(), self.kept.tables.clone());
        for room in 0..=self.kept.room + 7 {
            self.replay(room, &trace, &tables.lent());
        }
    }

    /// Between any two records, with all else in order, with bad tables, and without a mesh.
    fn bad_records(&mut self, random: &mut Random) {
        let tables = self.kept.tables.clone();
        let bad_tables = LentTables { codes: &[8], ..tables.lent() };
        let bad_fixed = LentTables { fixed: &[1 << 26], ..tables.lent() };
        let ends: Vec<usize> = self.kept.records.iter().copied().chain([self.kept.trace.len()]).collect();
        for record in bad_records::all(random, self.kept.chips()) {
            for &at in &ends {
                let mut trace = self.kept.trace.clone();
                trace.splice(at..at, record.iter().copied());
                self.replay(self.kept.room, &trace, &tables.lent());
                self.replay(self.kept.room, &trace[..at + record.len()], &tables.lent());
                self.replay(self.kept.room, &trace, &bad_tables);
                self.replay(self.kept.room, &trace, &bad_fixed);
            }
            self.replay(self.kept.room, &record, &bad_tables);
            self.without_mesh(&record, &tables.lent());
            self.without_mesh(&record[..record.len() - 1], &tables.lent());
        }
    }

    fn without_mesh(&mut self, trace: &[u8], tables: &LentTables) {
        self.twin.go_back_to(&self.kept.start);
        self.twin.words[0] = 0;
        self.twin.read_anew();
        self.twin.replay(self.tally, self.kept.room, trace, tables);
    }

    /// Behind calls that pass nothing, and with nothing but such calls.
    fn bad_tables(&mut self, random: &mut Random) {
        let trace = self.kept.trace.clone();
        let passes_nothing = [0, 6, 1, 3, 0, 0, 5, 0, 0, 4, 1, 4, 0, 0, 0, 6, 1, 3, 0, 0, 5, 1];
        let round = [0, 2, 1, 2];
        for damage in TABLE_DAMAGES.iter().flat_map(|damage| std::iter::repeat(damage).take(TIMES)) {
            let mut tables = self.kept.tables.clone();
            damage(&mut tables, random);
            self.replay(self.kept.room, &trace, &tables.lent());
            self.replay(self.kept.room, &passes_nothing, &tables.lent());
            self.replay(self.kept.room, &[&passes_nothing[..], &round].concat(), &tables.lent());
            self.replay(self.kept.room, &[&passes_nothing[..], &trace].concat(), &tables.lent());
        }
        let none = LentTables { rows: &[], starts: &[], codes: &[], fixed: &[], room: 0 };
        self.replay(self.kept.room, &passes_nothing, &none);
        self.replay(0, &passes_nothing, &none);
        self.replay(self.kept.room, &trace, &none);
    }

    /// One word of the header at a time that no mesh has, and each of some lengths that are too short.
    fn bad_buffers(&mut self) {
        let (trace, tables) = (self.kept.trace.clone(), self.kept.tables.clone());
        for at in 0..6 {
            self.twin.go_back_to(&self.kept.start);
            self.twin.words[at] = u32::MAX;
            self.twin.read_anew();
            for start in self.kept.records.clone() {
                self.twin.replay(self.tally, self.kept.room, &trace[start..], &tables.lent());
            }
        }
        let lent = self.twin.lent;
        for shorter in [0, 1, 5, 6, 7, lent / 2, lent - 1] {
            self.twin.go_back_to(&self.kept.start);
            self.twin.lent = shorter;
            self.twin.read_anew();
            for start in self.kept.records.clone() {
                self.twin.replay(self.tally, self.kept.room, &trace[start..], &tables.lent());
            }
        }
        self.twin.lent = lent;
    }

    fn no_bytes(&mut self, random: &mut Random) {
        for damage in TABLE_DAMAGES {
            let mut tables = self.kept.tables.clone();
            damage(&mut tables, random);
            self.replay(0, &[], &tables.lent());
            self.replay(self.kept.room, &self.kept.trace.clone()[..0], &tables.lent());
            self.without_mesh(&[], &tables.lent());
        }
    }
}

/// Nothing is lent at all.
fn of_nothing(tally: &mut MeshTally) {
    let mut pair = Pair::new("a replay of nothing".to_string(), false, vec![0; 8], 0, vec![0; 8]);
    let none = LentTables { rows: &[], starts: &[], codes: &[], fixed: &[], room: 0 };
    pair.replay(tally, 0, &[], &none);
    pair.replay(tally, 0, &[0, 2, 1, 2], &none);
    tally.replays.of_nothing += 1;
}
