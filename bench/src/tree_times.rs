//! Multicast trees grown and their rows written, beside plain Rust of the same method.

use crate::interface::{Tree, TreeCall};
use crate::random::Random;
use crate::{plain_tree, timing, tree_calls};
use std::cell::RefCell;

const MOST_CHIPS: usize = 144;

type Version = fn(&TreeCall, &mut [u32], &mut [u32]) -> Tree;
type Room = ([u32; 3 * MOST_CHIPS], [u32; MOST_CHIPS + 1]);

thread_local! {
    /// The room for rows and starts.
    static ROOM: RefCell<Room> = const { RefCell::new(([0; 3 * MOST_CHIPS], [0; MOST_CHIPS + 1])) };
}

pub fn all(turns: usize) {
    line("tree, 12 by 12, 144 targets", turns, 12, 144);
    line("tree, 12 by 12, 12 targets", turns, 12, 12);
    line("tree, 4 by 4, 16 targets", turns, 4, 16);
}

fn line(name: &str, turns: usize, side: u32, targets: u32) {
    let call = call(side, targets);
    let ends = [tree_calls::tree as Version, plain_tree::tree].map(|version| {
        ROOM.with_borrow_mut(|room| *room = ([0; 3 * MOST_CHIPS], [0; MOST_CHIPS + 1]));
        (on(version, &call), ROOM.with_borrow(|room| *room))
    });
    assert!(ends[0].0.refusal == 0 && ends[0] == ends[1], "{name}: the two ends differ");
    timing::line(name, turns, &call, [|call| on(tree_calls::tree, call), |call| on(plain_tree::tree, call)]);
}

fn on(version: Version, call: &TreeCall) -> Tree {
    let chips = (call.width * call.height) as usize;
    ROOM.with_borrow_mut(|(rows, starts)| version(call, &mut rows[..3 * chips], &mut starts[..chips + 1]))
}

/// From a chip in the middle to as many chips, in any order, with any processors.
pub fn call(side: u32, targets: u32) -> TreeCall {
    let random = &mut Random::new(1);
    let chips = side * side;
    let mut all: Vec<u32> = (0..chips).collect();
    for at in 0..targets {
        all.swap(at as usize, (at + random.below(chips - at)) as usize);
    }
    let targets = all[..targets as usize].iter().flat_map(|&chip| [chip, 1 + random.below((1 << 20) - 1)]).collect();
    TreeCall { width: side, height: side, source: chips / 2, key: 0x1200, mask: 0xffff_ff00, targets }
}
