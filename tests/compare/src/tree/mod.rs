//! Multicast trees: the way between every two chips of every size of mesh, lists of targets, what is refused, every word of the room that
//! is lent, the library's beside the model's; and packets sent with the rows.

mod asked_tally;
mod model;
mod refusals;
mod sending;
mod tally;

use crate::compare::same;
use crate::interface::{Tree, TreeCall};
use crate::model::MOST_SIDE;
use crate::random::Random;
use crate::tree_calls;
use asked_tally::Seen;
use model::PROCESSORS;
pub use tally::TreeTally;

/// Of the pairs of chips, one in so many sends a packet.
const PAIRS_A_PACKET: u32 = 200;

/// The words that are lent, beyond what is needed or short of it.
#[derive(Clone, Copy, Debug, Default)]
struct Room {
    rows: isize,
    starts: isize,
}

pub fn systematic(tally: &mut TreeTally, random: &mut Random) {
    for width in 1..=MOST_SIDE {
        for height in 1..=MOST_SIDE {
            every_pair(tally, random, width, height);
            every_chip(tally, random, width, height);
            tally.sizes += 1;
        }
    }
    refusals::all(tally, random);
}

/// Random lists of targets, some damaged once or more.
pub fn random(tally: &mut TreeTally, random: &mut Random, times: u64) {
    for _ in 0..times {
        let (width, height) = (1 + random.below(MOST_SIDE), 1 + random.below(MOST_SIDE));
        let chips = width * height;
        let few = random.below(chips.min(8) + 1);
        let count = if random.one_in(2) { few } else { random.below(chips + 1) };
        let targets = random_targets(random, chips, count);
        let mut call = with_key(random, width, height, targets);
        let mut room = Room { rows: random.pick(&[0, 0, 1, 2, 3, 40]) as isize, starts: 0 };
        for _ in 0..random.pick(&[0, 0, 0, 0, 1, 1, 2, 3]) {
            refusals::damage(random, &mut call, &mut room);
        }
        grow(tally, random, &call, room, true);
    }
}

/// The way alone: one target.
fn every_pair(tally: &mut TreeTally, random: &mut Random, width: u32, height: u32) {
    let chips = width * height;
    for (source, target) in (0..chips).flat_map(|source| (0..chips).map(move |target| (source, target))) {
        let targets = vec![target, random_set(random)];
        let call = TreeCall { source, ..with_key(random, width, height, targets) };
        let sends = random.one_in(PAIRS_A_PACKET);
        grow(tally, random, &call, Room::default(), sends);
        tally.pairs += 1;
    }
}

/// All chips as targets: by number up, down, and in any order, from any chip.
fn every_chip(tally: &mut TreeTally, random: &mut Random, width: u32, height: u32) {
    let chips = width * height;
    let by_number = random_sets(random, (0..chips).collect());
    let down = random_sets(random, (0..chips).rev().collect());
    let shuffled = random_targets(random, chips, chips);
    for targets in [by_number, down, shuffled] {
        let call = with_key(random, width, height, targets);
        grow(tally, random, &call, Room { rows: 1, starts: 0 }, true);
    }
}

/// A call from any chip of a mesh, for a key within its mask.
fn with_key(random: &mut Random, width: u32, height: u32, targets: Vec<u32>) -> TreeCall {
    let any = random.word();
    let mask = random.pick(&[0, u32::MAX, 0xffff_0000, any]);
    TreeCall { width, height, source: random.below(width * height), key: random.word() & mask, mask, targets }
}

/// As many different chips, in any order, with any sets.
fn random_targets(random: &mut Random, chips: u32, count: u32) -> Vec<u32> {
    let mut all: Vec<u32> = (0..chips).collect();
    for at in 0..count as usize {
        all.swap(at, at + random.below(chips - at as u32) as usize);
    }
    all.truncate(count as usize);
    random_sets(random, all)
}

fn random_sets(random: &mut Random, chips: Vec<u32>) -> Vec<u32> {
    chips.into_iter().flat_map(|chip| [chip, random_set(random)]).collect()
}

/// Processors 0 to 19, at least one.
fn random_set(random: &mut Random) -> u32 {
    let one = 1 << random.below(PROCESSORS);
    let more = random.word() >> 12;
    random.pick(&[1, 1 << 19, (1 << PROCESSORS) - 1, one, one | more])
}

/// One call of the library, all that it can do held to what it should.
fn grow(tally: &mut TreeTally, random: &mut Random, call: &TreeCall, room: Room, sends: bool) {
    let chips = call.width.wrapping_mul(call.height).min(MOST_SIDE * MOST_SIDE) as usize;
    let (mut rows, mut starts) = (lent(random, 3 * chips, room.rows), lent(random, chips + 1, room.starts));
    let refusal = model::refusal(call, rows.len(), starts.len());
    let grown = (refusal == 0).then(|| model::grown(call));
    let (mut rows_after, mut starts_after) = (rows.clone(), starts.clone());
    let mut answer = Tree { refusal, rows: 0 };
    if let Some(grown) = &grown {
        let (own_rows, own_starts) = grown.tables();
        answer.rows = own_rows.len() as u32 / 3;
        rows_after[..own_rows.len()].copy_from_slice(&own_rows);
        starts_after.copy_from_slice(&own_starts);
    }
    let given = tree_calls::tree(call, &mut rows, &mut starts);
    same("tree", call, &(answer, &rows_after, &starts_after), &(given, &rows, &starts));
    if let Some(grown) = &grown {
        tally.grow(grown);
        if sends {
            tally.send(&sending::send(random, grown, &rows[..3 * answer.rows as usize], &starts));
        }
    }
    tally.ask(&Seen { call: call.clone(), rows_room: rows.len(), starts_room: starts.len(), answer });
}

/// Room with one word throughout, which rows and starts need not hold.
fn lent(random: &mut Random, needed: usize, more: isize) -> Vec<u32> {
    vec![random.word(); needed.saturating_add_signed(more)]
}
