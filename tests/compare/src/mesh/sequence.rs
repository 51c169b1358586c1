//! One sequence of calls on one buffer: injections and rounds that fill the links, links that go down and come up,
//! reads and looks, and between them calls that are refused and buffers with a changed word.

use super::layout::{words_for, CHIP, HEADER};
use super::pair::Pair;
use super::tables::Tables;
use super::tally::MeshTally;
use crate::random::Random;

/// Words behind what is lent, which no call may touch.
pub const CANARY: usize = 16;
/// The log words for all that a chip's links can hold.
const RECORDS: usize = 6 * 6 * 8;

pub struct Sequence<'a> {
    pub random: Random,
    pub tally: &'a mut MeshTally,
    pub pair: Pair,
    pub keys: Vec<u32>,
    pub tables: Tables,
    /// What the tables have to be still, whatever was called with them.
    pub kept_tables: Tables,
    /// How often each kind of step is taken.
    weights: [u32; STEPS.len()],
}

type Step = fn(&mut Sequence);

const STEPS: [Step; 11] = [
    |sequence| sequence.inject_some(),
    |sequence| sequence.round_some(),
    |sequence| sequence.change_link(),
    |sequence| sequence.read_registers(),
    |sequence| sequence.new_tables(),
    |sequence| sequence.refused_injection(),
    |sequence| sequence.refused_round(),
    |sequence| sequence.refused_number(),
    |sequence| sequence.changed_word(),
    |sequence| sequence.cut_short(),
    |sequence| sequence.open_again(),
];
const USUAL_WEIGHTS: [u32; STEPS.len()] = [16, 12, 4, 2, 1, 2, 2, 1, 2, 1, 0];

/// Runs the sequence of this seed and number.
pub fn run(tally: &mut MeshTally, seed: u64, number: u64, prints: bool) {
    let mut random = Random::new(seed << 32 ^ number);
    let (width, height) = random_size(&mut random);
    tally.sequences += 1;
    tally.one_chip += u64::from(width * height == 1);
    tally.largest += u64::from(width * height == 144);

    let name = format!("sequence {number} of seed {seed}");
    let mut pair = new_pair(&mut random, name, prints, width, height);
    pair.lender.lends_short = true;
    let keys = (0..1 + random.below(4)).map(|_| random.word()).collect();
    let weights = random_weights(&mut random);
    let mut sequence =
        Sequence { random, tally, pair, keys, tables: Tables::default(), kept_tables: Tables::default(), weights };
    sequence.open(width, height);
    let steps = if width * height > 16 { 6 + sequence.random.below(20) } else { 10 + sequence.random.below(50) };
    for _ in 0..steps {
        sequence.step();
        let chip = sequence.any_chip();
        sequence.look_at(chip);
    }
    sequence.end();
}

/// Mostly small meshes, on which links fill soon.
pub fn random_size(random: &mut Random) -> (u32, u32) {
    let any = |random: &mut Random, most| 1 + random.below(most);
    match random.below(256) {
        0 => (12, 12),
        1 => (any(random, 12), any(random, 12)),
        2..=9 => (1, 1),
        10..=14 => (any(random, 12), 1),
        15..=19 => (1, any(random, 12)),
        20..=29 => (any(random, 6), any(random, 6)),
        _ => (any(random, 3), any(random, 3)),
    }
}

/// Buffer and log full of anything, the words at times zeros: a larger mesh may then fit where a side is changed.
pub fn new_pair(random: &mut Random, name: String, prints: bool, width: u32, height: u32) -> Pair {
    let lent = words_for(width, height) + random.pick(&[0, 0, 1, 5, CHIP as u32, 2000]) as usize;
    let mut words: Vec<u32> = (0..lent + CANARY).map(|_| random.word()).collect();
    if random.one_in(4) {
        words.fill(0);
    }
    let room = RECORDS * ((lent - HEADER) / CHIP);
    let log = (0..room + CANARY).map(|_| random.word()).collect();
    Pair::new(name, prints, words, lent, log)
}

/// Two kinds of step at most are taken more often than usual.
fn random_weights(random: &mut Random) -> [u32; STEPS.len()] {
    let mut weights = USUAL_WEIGHTS;
    for _ in 0..random.below(3) {
        weights[random.below(STEPS.len() as u32) as usize] += 10;
    }
    weights
}

impl Sequence<'_> {
    fn step(&mut self) {
        let mut left = self.random.below(self.weights.iter().sum());
        for (step, weight) in STEPS.iter().zip(self.weights) {
            if left < weight {
                return step(self);
            }
            left -= weight;
        }
    }

    /// The mesh, a chip's links with what is in flight on them, and its counters.
    pub fn look_at(&mut self, chip: u32) {
        self.pair.look(self.tally);
        for link in 0..6 {
            self.pair.look_at_link(self.tally, chip, link);
            self.pair.flights(self.tally, chip, link);
        }
        (0..10).for_each(|counter| self.pair.read_counter(self.tally, chip, counter));
        self.pair.settle_exactly();
    }

    /// Every chip of a small mesh, some of a large one, registers last.
    fn end(&mut self) {
        for _ in 0..self.chips().min(9) {
            let chip = self.any_chip();
            self.look_at(chip);
        }
        for chip in 0..self.chips().min(9) {
            self.pair.read_registers(self.tally, chip);
        }
        self.pair.same("tables", &self.kept_tables, &self.tables);
    }

    pub fn sides(&self) -> Option<(u32, u32)> {
        self.pair.mesh.as_ref().map(|mesh| (mesh.width, mesh.height))
    }

    pub fn chips(&self) -> u32 {
        self.sides().map_or(1, |(width, height)| width * height)
    }

    pub fn any_chip(&mut self) -> u32 {
        let chips = self.chips();
        self.random.below(chips)
    }

    /// The log words that a round needs.
    pub fn room_needed(&self) -> usize {
        self.pair.mesh.as_ref().map_or(0, |mesh| 6 * mesh.in_flight() as usize)
    }
}
