//! Trees that are refused: each reason at each place, and all reasons together in every choice of them.

use super::{grow, random_set, random_targets, with_key, Room, TreeTally};
use crate::interface::TreeCall;
use crate::random::Random;

/// Each spoils a call in one way that the rules name, at a target that is given as a number.
const FAULTS: [fn(&mut Random, &mut TreeCall, &mut Room, usize); 10] = [
    |random, call, _, _| *side(random, call) = 0,
    |random, call, _, _| *side(random, call) = random.pick(&[13, 14, 0x1_0000, 0x8000_0000, u32::MAX]),
    |random, call, _, _| call.source = off_mesh(random, call),
    |random, call, _, at| {
        let chip = off_mesh(random, call);
        set(call, 2 * at, chip);
    },
    |random, call, _, at| {
        let targets = call.targets.len() as u32 / 2;
        if targets > 1 {
            let other = (at as u32 + 1 + random.below(targets - 1)) % targets;
            set(call, 2 * at, call.targets[2 * other as usize]);
        }
    },
    |_, call, _, at| set(call, 2 * at + 1, 0),
    |random, call, _, at| {
        let above = 1 << (20 + random.below(12));
        let processors = random.pick(&[1 << 20, above, above | 1, u32::MAX]);
        set(call, 2 * at + 1, processors);
    },
    |random, call, _, _| {
        call.mask &= !(1 << random.below(32));
        call.key |= !call.mask & call.mask.wrapping_add(1) | !call.mask & random.word();
    },
    |random, _, room, _| room.rows = -1 - random.below(5) as isize,
    |random, _, room, _| room.starts = random.pick(&[0, 1, 3, 5]) as isize - 2,
];

/// A fault, or a word more or fewer in the list.
pub fn damage(random: &mut Random, call: &mut TreeCall, room: &mut Room) {
    let at = random.below(call.targets.len() as u32 / 2 + 1) as usize;
    match FAULTS.get(random.below(FAULTS.len() as u32 + 2) as usize) {
        Some(fault) => fault(random, call, room, at),
        None if random.one_in(2) => odd_word(random, call),
        None => drop(call.targets.pop()),
    }
}

pub fn all(tally: &mut TreeTally, random: &mut Random) {
    for (width, height) in [(1, 1), (1, 4), (3, 1), (2, 2), (4, 3), (12, 12)] {
        let chips = width * height;
        for count in (0..chips.min(6)).chain([chips]) {
            for at in 0..count.max(1) {
                each_fault(tally, random, width, height, count, at as usize);
            }
        }
        key_bits(tally, random, width, height);
        rooms(tally, random, width, height);
        long_lists(tally, random, width, height);
        every_choice(tally, random, width, height);
    }
}

/// One fault at one place of a list; with an odd word behind it, and with another fault at any place.
fn each_fault(tally: &mut TreeTally, random: &mut Random, width: u32, height: u32, count: u32, at: usize) {
    for fault in FAULTS {
        for turn in 0..8 {
            let targets = random_targets(random, width * height, count);
            let mut call = with_key(random, width, height, targets);
            let mut room = Room::default();
            fault(random, &mut call, &mut room, at);
            if turn > 3 {
                damage(random, &mut call, &mut room);
            }
            grow(tally, random, &call, room, false);
            odd_word(random, &mut call);
            grow(tally, random, &call, room, false);
        }
    }
}

/// Each bit of the key alone outside the mask, and each bit of a mask alone.
fn key_bits(tally: &mut TreeTally, random: &mut Random, width: u32, height: u32) {
    for bit in 0..32 {
        for (key, mask) in [(1 << bit, !(1 << bit)), (1 << bit, 1 << bit), (u32::MAX, !(1 << bit)), (0, 1 << bit)] {
            let targets = random_targets(random, width * height, 1);
            let call = TreeCall { key, mask, ..with_key(random, width, height, targets) };
            grow(tally, random, &call, Room::default(), false);
        }
    }
}

/// Room that is short or long by every small number, and none at all.
fn rooms(tally: &mut TreeTally, random: &mut Random, width: u32, height: u32) {
    let none = -1_000;
    for rows in (-4..5).chain([none]) {
        for starts in (-3..4).chain([none]) {
            let count = random.below(width * height + 1);
            let targets = random_targets(random, width * height, count);
            let call = with_key(random, width, height, targets);
            grow(tally, random, &call, Room { rows, starts }, false);
        }
    }
}

/// More targets than chips, so that one is named twice; with one more that is off the mesh, or without.
fn long_lists(tally: &mut TreeTally, random: &mut Random, width: u32, height: u32) {
    let chips = width * height;
    for count in [chips + 1, chips + 2, 2 * chips, 1_000] {
        let targets: Vec<u32> = (0..count).flat_map(|number| [number % chips, 1]).collect();
        let mut call = with_key(random, width, height, targets);
        grow(tally, random, &call, Room::default(), false);
        call.targets.extend([chips, 1]);
        grow(tally, random, &call, Room::default(), false);
    }
}

/// Every choice of the faults at once, each at a place of its own.
fn every_choice(tally: &mut TreeTally, random: &mut Random, width: u32, height: u32) {
    for choice in 0..1 << FAULTS.len() {
        let count = random.below((width * height).min(8) + 1);
        let targets = random_targets(random, width * height, count);
        let mut call = with_key(random, width, height, targets);
        let mut room = Room::default();
        // the sides last, so that a chip off the mesh is so by the size as it was
        for fault in (0..FAULTS.len()).rev().filter(|fault| choice >> fault & 1 == 1) {
            let at = random.below(count.max(1)) as usize;
            FAULTS[fault](random, &mut call, &mut room, at);
        }
        if random.one_in(3) {
            odd_word(random, &mut call);
        }
        grow(tally, random, &call, room, false);
    }
}

/// A word more, which makes a list of pairs odd: any chip, a chip of the list, or one off the mesh.
fn odd_word(random: &mut Random, call: &mut TreeCall) {
    let any = random.below(call.width.wrapping_mul(call.height).max(1));
    let named = call.targets.first().copied().unwrap_or(0);
    let off = off_mesh(random, call);
    let set = random_set(random);
    call.targets.push(random.pick(&[any, any, named, off, set]));
}

/// Sets a word of the list, if it is there.
fn set(call: &mut TreeCall, at: usize, word: u32) {
    if let Some(place) = call.targets.get_mut(at) {
        *place = word;
    }
}

fn side<'a>(random: &mut Random, call: &'a mut TreeCall) -> &'a mut u32 {
    if random.one_in(2) {
        &mut call.width
    } else {
        &mut call.height
    }
}

fn off_mesh(random: &mut Random, call: &TreeCall) -> u32 {
    let chips = call.width.wrapping_mul(call.height);
    random.pick(&[chips, chips, chips.wrapping_add(1), chips | 0x8000_0000, 0x1_0000, u32::MAX])
}
