//! Where groups begin to pay: every number of rows, with as many packets as do not yet pay and with one more, by the rows that
//! are looked at before.

use super::groups::{spares, SAMPLE};
use super::layout::{words_for, MOST_HELD};
use super::pair::Pair;
use super::tables::Tables;
use super::tally::MeshTally;
use crate::model::{kind, LINKS, MOST_ROWS};
use crate::random::Random;

const MOST_PACKETS: usize = (LINKS * MOST_HELD) as usize;
const MOST_TAKEN: usize = 3;

/// All packets of a round have one word, so that they ask for one group.
pub fn all(tally: &mut MeshTally, seed: u64) {
    let random = &mut Random::new(seed);
    let lent = words_for(1, 1);
    let log = vec![0; 6 * MOST_PACKETS];
    let mut pair = Pair::new(format!("where groups pay, of seed {seed}"), false, vec![0; lent], lent, log);
    pair.open(tally, 1, 1, 5, 0);
    pair.lender.lends_always = true;
    let any = Tables::random(random, 1, &[1]);
    for rows in 63..=MOST_ROWS {
        for taken in 0..=MOST_TAKEN.min(rows / SAMPLE) {
            let least = (1..=MOST_PACKETS).find(|&packets| spares(packets, rows, taken));
            for packets in [least.map_or(MOST_PACKETS, |least| least - 1), least.unwrap_or(MOST_PACKETS)] {
                let word = random.word();
                fill(&mut pair, packets, word);
                let rows = random_rows(random, rows, taken, word);
                let tables = Tables { starts: vec![0, rows.len() as u32 / 3], rows, ..any.clone() };
                pair.round(tally, 6 * packets, &tables.lent());
            }
        }
    }
}

/// As many packets on the links of the one chip, and no others.
fn fill(pair: &mut Pair, packets: usize, word: u32) {
    let all = vec![(kind::MC, word); packets];
    let mut left = all.chunks(MOST_HELD as usize);
    (0..LINKS).for_each(|link| pair.hold(0, link, left.next().unwrap_or(&[])));
}

/// Of those that are looked at so many go into the group of the word, one after another; of the others half do.
fn random_rows(random: &mut Random, count: usize, taken: usize, word: u32) -> Vec<u32> {
    let samples = count / SAMPLE;
    let first = random.below((samples - taken + 1) as u32) as usize;
    let mut rows = vec![];
    for row in 0..count {
        let is_sample = row % SAMPLE == 0 && row / SAMPLE < samples;
        let goes_in = if is_sample { (first..first + taken).contains(&(row / SAMPLE)) } else { random.one_in(2) };
        let other_top = (1 + random.below(255)) << 24;
        let (key, mask) = match goes_in {
            false => (word ^ other_top, u32::MAX),
            true if random.one_in(2) => (word ^ random.below(4), u32::MAX),
            true => (word & 0x00ff_ffff ^ random.below(4), 0x00ff_ffff),
        };
        rows.extend_from_slice(&[key, mask, 1 << random.below(26)]);
    }
    rows
}
