//! Tables that are wrong at every place where they can be: each start, each chip's rows, each row's route, each chip's fixed
//! route, and their numbers; one damage at a time, two of a kind, and then every set of damages at once. Each is lent to an
//! injection, a round and a replay.

use super::layout::words_for;
use super::packets::{self, PACKET_DAMAGES};
use super::pair::Pair;
use super::tables::{Tables, TABLE_DAMAGES};
use super::tally::MeshTally;
use crate::model::{refusal, MOST_ROWS};
use crate::random::Random;
use std::ops::RangeInclusive;

const SIZES: [(u32, u32); 6] = [(1, 1), (2, 1), (1, 3), (2, 2), (4, 3), (12, 12)];
/// Chips above which not all bits and counts are tried at each place.
const FEW_CHIPS: usize = 12;
const BAD_BITS: RangeInclusive<u32> = 26..=31;
const ROUTE: u32 = 0x03ff_ffff;
const TIMES: usize = 4;
/// Of TABLE_DAMAGES those that are refused by 15, 16, 17, 18 and 11.
const DAMAGES_BY_NUMBER: [&[usize]; 5] = [&[3, 4, 5, 6, 7], &[1], &[0, 2], &[8, 9], &[10, 11]];

pub fn all(tally: &mut MeshTally, seed: u64) {
    let random = &mut Random::new(seed);
    for (width, height) in SIZES {
        let mut trial =
            Trial::new(tally, random, format!("every place, {width} by {height}, of seed {seed}"), width, height);
        trial.name_places();
        trial.starts();
        trial.start_counts();
        trial.crowds();
        trial.routes();
        trial.words_past();
        trial.fixed();
        trial.fixed_counts();
        trial.last_before_first();
        trial.together();
    }
}

struct Trial<'a> {
    tally: &'a mut MeshTally,
    random: &'a mut Random,
    pair: Pair,
    sides: (u32, u32),
    chips: usize,
    /// These are accepted.
    tables: Tables,
    keys: Vec<u32>,
    /// The words of a mesh with something in flight.
    busy: Vec<u32>,
}

impl Trial<'_> {
    fn new<'a>(tally: &'a mut MeshTally, random: &'a mut Random, name: String, width: u32, height: u32) -> Trial<'a> {
        let chips = (width * height) as usize;
        let words: Vec<u32> = (0..words_for(width, height) + 16).map(|_| random.word()).collect();
        let (lent, log) = (words.len() - 16, vec![0; 6 * 6 * 8 * chips]);
        let mut pair = Pair::new(name, false, words, lent, log);
        pair.open(tally, width, height, 3, random.below(20));
        let keys = vec![random.word(), random.word()];
        let tables = some_rows(random, chips, &keys);
        for _ in 0..4 * chips {
            let packet = packets::random(random, width, height, &keys);
            pair.inject(tally, 6, random.below(chips as u32), &packet, &tables.lent());
        }
        let busy = pair.words.clone();
        Trial { tally, random, pair, sides: (width, height), chips, tables, keys, busy }
    }

    /// Every place that there is: no start can fall to position 1, before which stands 0.
    fn name_places(&mut self) {
        let (chips, rows) = (self.chips, self.tables.rows.len() as u32 / 3);
        let starts = (0..=chips as u32).filter(|&at| at != 1 || chips == 1).map(|at| (refusal::STARTS, at));
        let each_chip = |number: u32| (0..chips as u32).map(move |chip| (number, chip));
        let by_chip = each_chip(refusal::MANY_ROWS).chain(each_chip(refusal::FIXED_ROUTE));
        let all = starts.chain(by_chip).chain((0..=rows).map(|row| (refusal::ROUTE, row)));
        self.tally.places.places.extend(all.map(|(number, place)| (number, chips, place)));
    }

    /// Every call that is lent tables, with these.
    fn lend(&mut self, tables: &Tables) {
        let (chip, packet) = (self.random.below(self.chips as u32), self.packet());
        let room = self.pair.log.len();
        if self.pair.inject(self.tally, 6, chip, &packet, &tables.lent()).refusal == 0 {
            self.pair.go_back_to(&self.busy);
        }
        if self.pair.round(self.tally, room, &tables.lent()).refusal == 0 {
            self.pair.go_back_to(&self.busy);
        }
        let [high, low] = (chip as u16).to_be_bytes();
        let injection = [&[0, 4 + packet.len() as u8, 1, 1, high, low], &packet[..]].concat();
        let passing = if self.random.one_in(2) { vec![0, 2, 1, 2] } else { injection };
        let passes_nothing = [0, 6, 1, 3, high, low, self.random.below(6) as u8, 0, 0, 4, 1, 4, high, low];
        let before = if self.random.one_in(8) { &passes_nothing[..] } else { &[] };
        let played = self.pair.replay(self.tally, room, &[before, &passing].concat(), &tables.lent());
        if played.answer.at > 0 {
            self.pair.go_back_to(&self.busy);
        }
    }

    fn packet(&mut self) -> Vec<u8> {
        packets::random(self.random, self.sides.0, self.sides.1, &self.keys)
    }

    /// The tables with something changed.
    fn lend_changed(&mut self, change: impl FnOnce(&mut Tables)) {
        let mut tables = self.tables.clone();
        change(&mut tables);
        self.lend(&tables);
    }

    /// A start raised above the next, or put below the one before, at each position, and then with another at a second.
    fn starts(&mut self) {
        for at in 0..=self.chips {
            let second = self.random.below(self.chips as u32 + 1) as usize;
            let any = self.random.word();
            for more in [1, 2, 1025, 0x8000_0000, u32::MAX, any.max(1)] {
                self.lend_changed(|tables| raise(tables, at, more));
                self.lend_changed(|tables| lower(tables, at, more));
                self.lend_changed(|tables| {
                    raise(tables, at, more);
                    raise(tables, second, 1);
                });
                self.lend_changed(|tables| {
                    lower(tables, at, more);
                    lower(tables, second, 1);
                    raise(tables, tables.starts.len() - 1, 1);
                });
            }
        }
    }

    /// Each other number of starts, in order and with a fall among them.
    fn start_counts(&mut self) {
        let chips = self.chips;
        let rows = self.tables.rows.len() as u32 / 3;
        for count in some_counts(chips + 1).into_iter().chain([0, 1, chips, chips + 2]) {
            self.lend_changed(|tables| tables.starts.resize(count, rows));
            let at = self.random.below(chips as u32 + 1) as usize;
            self.lend_changed(|tables| {
                raise(tables, at, 3);
                tables.starts.resize(count, rows);
            });
        }
    }

    /// Each chip with one row too many, alone and beside another; and each with just as many as it can have.
    fn crowds(&mut self) {
        for chip in 0..self.chips {
            let second = self.random.below(self.chips as u32) as usize;
            self.lend_changed(|tables| fill(tables, chip, MOST_ROWS + 1));
            self.lend_changed(|tables| fill(tables, chip, MOST_ROWS + 700));
            self.lend_changed(|tables| {
                fill(tables, chip, MOST_ROWS + 1);
                fill(tables, second, MOST_ROWS + 2);
            });
            if self.chips <= FEW_CHIPS {
                self.lend_changed(|tables| fill(tables, chip, MOST_ROWS));
                self.lend_changed(|tables| {
                    fill(tables, chip, MOST_ROWS);
                    let row = tables.starts[chip + 1] as usize - 1;
                    tables.rows[3 * row + 2] |= 1 << 26;
                });
            }
        }
    }

    /// Each row with each bad bit, alone, beside all good ones, and with a second row or words past the rows.
    fn routes(&mut self) {
        let rows = self.tables.rows.len() / 3;
        for row in 0..rows {
            let second = self.random.below(rows as u32) as usize;
            for bit in self.some_bits() {
                self.lend_changed(|tables| tables.rows[3 * row + 2] = 1 << bit);
                self.lend_changed(|tables| {
                    tables.rows[3 * row + 2] = ROUTE | 1 << bit;
                    tables.rows[3 * second + 2] |= 1 << 31;
                });
                self.lend_changed(|tables| {
                    tables.rows[3 * row + 2] |= 1 << bit;
                    tables.rows.extend(&[u32::MAX; 2][..1 + second % 2]);
                });
            }
        }
    }

    /// One word or two past the last whole row, with any bits, where there are rows and where there are none; and with a last
    /// start that counts them.
    fn words_past(&mut self) {
        for word in [0, ROUTE, 1 << 26, u32::MAX] {
            for count in 1..=2 {
                self.lend_changed(|tables| tables.rows.extend(&[word; 2][..count]));
                self.lend_changed(|tables| {
                    tables.rows = vec![word; count];
                    tables.starts.fill(0);
                });
                self.lend_changed(|tables| {
                    tables.rows.extend(&[word; 2][..count]);
                    *tables.starts.last_mut().expect("there is one more than chips") += 1;
                });
                self.lend_changed(|tables| {
                    fill(tables, 0, MOST_ROWS + 1);
                    tables.rows.extend(&[word; 2][..count]);
                });
            }
        }
    }

    /// Each chip's fixed route with each bad bit, alone, beside all good ones, and with a second one.
    fn fixed(&mut self) {
        for chip in 0..self.chips {
            let second = self.random.below(self.chips as u32) as usize;
            for bit in self.some_bits() {
                self.lend_changed(|tables| tables.fixed[chip] = 1 << bit);
                self.lend_changed(|tables| {
                    tables.fixed[chip] = ROUTE | 1 << bit;
                    tables.fixed[second] |= 1 << 31;
                });
                self.lend_changed(|tables| {
                    tables.fixed[chip] |= 1 << bit;
                    tables.codes[0] = 8;
                });
            }
        }
    }

    /// Each other number of fixed routes, all good, or the last one bad.
    fn fixed_counts(&mut self) {
        for count in some_counts(self.chips) {
            self.lend_changed(|tables| tables.fixed.resize(count, 1));
            self.lend_changed(|tables| {
                tables.fixed.resize(count, 1);
                tables.fixed.last_mut().into_iter().for_each(|route| *route = u32::MAX);
            });
        }
    }

    /// The last place of each number beside the first of the next.
    fn last_before_first(&mut self) {
        let (last_chip, last_row) = (self.chips - 1, self.tables.rows.len() / 3 - 1);
        self.lend_changed(|tables| {
            fill(tables, 0, MOST_ROWS + 1);
            tables.starts[last_chip + 1] += 1;
        });
        self.lend_changed(|tables| {
            tables.rows[2] = u32::MAX;
            tables.starts[last_chip + 1] += 1;
        });
        self.lend_changed(|tables| {
            fill(tables, last_chip, MOST_ROWS + 1);
            tables.rows[2] = u32::MAX;
        });
        self.lend_changed(|tables| {
            tables.rows[3 * last_row + 2] = u32::MAX;
            tables.fixed[0] = u32::MAX;
        });
        self.lend_changed(|tables| {
            tables.fixed[last_chip] = u32::MAX;
            tables.codes[0] = u8::MAX;
        });
    }

    /// Every set of damages to the tables, and with them a chip that is not there, no log, a bad packet or no mesh.
    fn together(&mut self) {
        let times = if self.chips <= FEW_CHIPS { TIMES } else { 1 };
        for set in (0..1 << DAMAGES_BY_NUMBER.len()).flat_map(|set| std::iter::repeat(set).take(times)) {
            for others in 0..1 << 4 {
                let mut tables = self.tables.clone();
                for kind in (0..DAMAGES_BY_NUMBER.len()).filter(|kind| set >> kind & 1 == 1) {
                    let choices = DAMAGES_BY_NUMBER[kind];
                    let damage = choices[self.random.below(choices.len() as u32) as usize];
                    TABLE_DAMAGES[damage](&mut tables, self.random);
                }
                self.tally.places.together.insert(set << 4 | others);
                self.with_others(others, &tables);
            }
        }
    }

    /// Bits: 1 a chip that is not there, 2 a log that is too short, 4 a packet that is not taken, 8 no mesh.
    fn with_others(&mut self, others: u32, tables: &Tables) {
        let has = |bit: u32| others & bit != 0;
        let chip = if has(1) { self.chips as u32 } else { self.random.below(self.chips as u32) };
        let room = if has(2) { 5 } else { self.pair.log.len() };
        let mut packet = self.packet();
        if has(4) {
            PACKET_DAMAGES[self.random.below(2) as usize](&mut packet, self.random);
        }
        if has(8) {
            self.pair.words[0] = 0;
            self.pair.read_anew();
        }
        let injected = self.pair.inject(self.tally, room, chip, &packet, &tables.lent());
        let rounded = self.pair.round(self.tally, room, &tables.lent());
        let [high, low] = (chip as u16).to_be_bytes();
        let trace = [&[0, 4 + packet.len() as u8, 1, 1, high, low], &packet[..], &[0, 2, 1, 2]].concat();
        let played = self.pair.replay(self.tally, room, &trace, &tables.lent());
        if has(8) || injected.refusal == 0 || rounded.refusal == 0 || played.answer.at > 0 {
            self.pair.go_back_to(&self.busy);
        }
    }

    fn some_bits(&mut self) -> Vec<u32> {
        if self.chips <= FEW_CHIPS {
            BAD_BITS.collect()
        } else {
            vec![26 + self.random.below(6)]
        }
    }
}

/// Tables with one row a chip or some, but for every third chip, which has none.
fn some_rows(random: &mut Random, chips: usize, keys: &[u32]) -> Tables {
    let mut tables = Tables { rows: vec![], starts: vec![0], ..Tables::random(random, chips, keys) };
    for chip in 0..chips {
        let count = if chip % 3 == 1 { 0 } else { 1 + random.below(3) };
        for _ in 0..count {
            let key = keys[random.below(keys.len() as u32) as usize];
            tables.rows.extend([key, u32::MAX, random.word() & ROUTE]);
        }
        tables.starts.push(tables.rows.len() as u32 / 3);
    }
    tables
}

/// Numbers that are not this one: all about it, and some far off.
fn some_counts(right: usize) -> Vec<usize> {
    let near = right.saturating_sub(13)..right + 4;
    near.chain([0, 1, 2 * right, 145, 146]).filter(|&count| count != right).collect()
}

/// The start at a position becomes so much more than the next; the last more than it was.
fn raise(tables: &mut Tables, at: usize, more: u32) {
    let next = tables.starts[(at + 1).min(tables.starts.len() - 1)];
    tables.starts[at] = next.saturating_add(more);
}

/// The start at a position becomes so much less than the one before, as far as that can be; the first becomes 1.
fn lower(tables: &mut Tables, at: usize, less: u32) {
    tables.starts[at] = if at == 0 { 1 } else { tables.starts[at - 1].saturating_sub(less) };
}

/// A chip gets so many rows, the starts behind it move along.
fn fill(tables: &mut Tables, chip: usize, rows: usize) {
    let (from, to) = (tables.starts[chip] as usize, tables.starts[chip + 1] as usize);
    tables.rows.splice(3 * from..3 * to, [0, u32::MAX, 1].into_iter().cycle().take(3 * rows));
    tables.starts.iter_mut().skip(chip + 1).for_each(|start| *start = *start + rows as u32 - (to - from) as u32);
}
