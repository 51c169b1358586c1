//! How the calls that grow a tree ended: accepted, or refused and why, at which place and before what.

use super::model::{KEY, OFF_MESH, PROCESSORS, ROOM, SIZE, TARGET};
use crate::interface::{Tree, TreeCall};
use crate::model::MOST_SIDE;
use crate::tally::{count, print_all, Events};

/// A tree that was asked for.
pub struct Seen {
    pub call: TreeCall,
    pub rows_room: usize,
    pub starts_room: usize,
    pub answer: Tree,
}

const ASKED: Events<Seen> = &[
    ("accepted", |seen| seen.is(0)),
    ("accepted, longer room for rows", |seen| seen.is(0) && seen.rows_room > 3 * seen.chips() as usize),
    ("accepted, fewer rows than chips", |seen| seen.is(0) && seen.answer.rows < seen.chips()),
    ("accepted, a row for each of many chips", |seen| {
        seen.is(0) && seen.answer.rows == seen.chips() && seen.chips() > 6
    }),
    ("refusal 7, width", |seen| seen.is(SIZE) && is_side(seen.call.height)),
    ("refusal 7, height", |seen| seen.is(SIZE) && is_side(seen.call.width)),
    ("refusal 7, 0", |seen| seen.is(SIZE) && seen.call.width.min(seen.call.height) == 0),
    ("refusal 7, 13", |seen| seen.is(SIZE) && seen.call.width.max(seen.call.height) == 13),
    ("refusal 7 before 20", |seen| seen.is(SIZE) && seen.has_bad_set()),
    ("refusal 7 before 21", |seen| seen.is(SIZE) && seen.has_bad_key()),
    ("refusal 19, the source alone", |seen| seen.is(OFF_MESH) && seen.off_mesh().is_empty()),
    ("refusal 19, the source, one past the last", |seen| seen.is(OFF_MESH) && seen.call.source == seen.chips()),
    ("refusal 19, the first of some", |seen| seen.off_at(|at, _| at == 0)),
    ("refusal 19, a middle one", |seen| seen.off_at(|at, targets| at > 0 && at + 1 < targets)),
    ("refusal 19, the last of some", |seen| seen.off_at(|at, targets| at > 0 && at + 1 == targets)),
    ("refusal 19, a word past the pairs", |seen| seen.is(OFF_MESH) && seen.off_mesh() == [seen.targets()]),
    ("refusal 19 behind a 20", |seen| seen.is(OFF_MESH) && is_before(seen.bad_sets().first(), seen.off_mesh().first())),
    ("refusal 19 behind a chip named twice", |seen| {
        seen.is(OFF_MESH) && is_before(seen.twice().first(), seen.off_mesh().first())
    }),
    ("refusal 19 behind more targets than chips", |seen| seen.off_at(|at, _| at > 144)),
    ("refusal 19 before 21", |seen| seen.is(OFF_MESH) && seen.has_bad_key()),
    ("refusal 19 before 26", |seen| seen.is(OFF_MESH) && (seen.is_short() || seen.has_other_starts())),
    ("refusal 20, a chip named twice", |seen| seen.is(TARGET) && !seen.has_bad_set() && !seen.is_odd()),
    ("refusal 20, first and last the same chip", |seen| {
        let chips = seen.whole();
        seen.is(TARGET) && chips.len() > 3 && chips[0].0 == chips[chips.len() - 1].0
    }),
    ("refusal 20, the source named twice", |seen| {
        seen.is(TARGET) && seen.whole().iter().filter(|target| target.0 == seen.call.source).count() > 1
    }),
    ("refusal 20, more targets than chips", |seen| seen.is(TARGET) && seen.targets() > seen.chips() as usize),
    ("refusal 20, an empty set", |seen| seen.is(TARGET) && seen.whole().iter().any(|target| target.1 == 0)),
    ("refusal 20, bit 20", |seen| seen.is(TARGET) && seen.whole().iter().any(|target| target.1 == 1 << 20)),
    ("refusal 20, bit 31", |seen| seen.is(TARGET) && seen.whole().iter().any(|target| target.1 >> 31 == 1)),
    ("refusal 20, the first of some", |seen| seen.bad_set_at(|at, _| at == 0)),
    ("refusal 20, a middle one", |seen| seen.bad_set_at(|at, targets| at > 0 && at + 1 < targets)),
    ("refusal 20, the last of some", |seen| seen.bad_set_at(|at, targets| at > 0 && at + 1 == targets)),
    ("refusal 20, a word past the pairs", |seen| {
        seen.is(TARGET) && seen.is_odd() && !seen.has_bad_set() && seen.twice().is_empty()
    }),
    ("refusal 20, one word alone", |seen| seen.is(TARGET) && seen.call.targets.len() == 1),
    ("refusal 20 before 21", |seen| seen.is(TARGET) && seen.has_bad_key()),
    ("refusal 20 before 26", |seen| seen.is(TARGET) && (seen.is_short() || seen.has_other_starts())),
    ("refusal 21, one bit", |seen| seen.is(KEY) && (seen.call.key & !seen.call.mask).is_power_of_two()),
    ("refusal 21, bits", |seen| seen.is(KEY) && (seen.call.key & !seen.call.mask).count_ones() > 1),
    ("refusal 21 before 26", |seen| seen.is(KEY) && (seen.is_short() || seen.has_other_starts())),
    ("refusal 26, rows", |seen| seen.is(ROOM) && !seen.has_other_starts()),
    ("refusal 26, a word short", |seen| seen.is(ROOM) && seen.rows_room + 1 == 3 * seen.chips() as usize),
    ("refusal 26, room for the rows, not for one a chip", |seen| {
        seen.is(ROOM) && seen.targets() == 1 && seen.rows_room > 36
    }),
    ("refusal 26, no room", |seen| seen.is(ROOM) && seen.rows_room == 0 && seen.starts_room == 0),
    ("refusal 26, a start short", |seen| {
        seen.is(ROOM) && !seen.is_short() && seen.starts_room == seen.chips() as usize
    }),
    ("refusal 26, a start too many", |seen| {
        seen.is(ROOM) && !seen.is_short() && seen.starts_room == seen.chips() as usize + 2
    }),
    ("refusal 26, both", |seen| seen.is(ROOM) && seen.is_short() && seen.has_other_starts()),
];

fn is_side(side: u32) -> bool {
    (1..=MOST_SIDE).contains(&side)
}

fn is_before(one: Option<&usize>, other: Option<&usize>) -> bool {
    matches!((one, other), (Some(one), Some(other)) if one < other)
}

impl Seen {
    fn is(&self, refusal: u32) -> bool {
        self.answer.refusal == refusal
    }

    /// Where the size is in range.
    fn chips(&self) -> u32 {
        self.call.width.wrapping_mul(self.call.height)
    }

    /// Whole pairs.
    fn targets(&self) -> usize {
        self.call.targets.len() / 2
    }

    fn whole(&self) -> Vec<(u32, u32)> {
        self.call.targets.chunks_exact(2).map(|target| (target[0], target[1])).collect()
    }

    fn is_odd(&self) -> bool {
        self.call.targets.len() % 2 == 1
    }

    /// The places of chips off the mesh, a word past the pairs among them.
    fn off_mesh(&self) -> Vec<usize> {
        let chips = self.call.targets.iter().step_by(2).enumerate();
        chips.filter(|(_, &chip)| chip >= self.chips()).map(|(at, _)| at).collect()
    }

    fn bad_sets(&self) -> Vec<usize> {
        let whole = self.whole();
        (0..whole.len()).filter(|&at| whole[at].1 == 0 || whole[at].1 >> PROCESSORS != 0).collect()
    }

    /// The places of chips that were named before.
    fn twice(&self) -> Vec<usize> {
        let whole = self.whole();
        (0..whole.len()).filter(|&at| whole[..at].iter().any(|target| target.0 == whole[at].0)).collect()
    }

    fn has_bad_set(&self) -> bool {
        !self.bad_sets().is_empty()
    }

    fn has_bad_key(&self) -> bool {
        self.call.key & !self.call.mask != 0
    }

    fn is_short(&self) -> bool {
        self.rows_room < 3 * self.chips() as usize
    }

    fn has_other_starts(&self) -> bool {
        self.starts_room != self.chips() as usize + 1
    }

    /// Refused for one chip of some that is off the mesh, alone.
    fn off_at(&self, is: fn(usize, usize) -> bool) -> bool {
        let at = self.off_mesh();
        self.is(OFF_MESH)
            && self.call.source < self.chips()
            && at.len() == 1
            && self.targets() > 2
            && is(at[0], self.targets())
    }

    /// Refused for one processor set of some, alone.
    fn bad_set_at(&self, is: fn(usize, usize) -> bool) -> bool {
        let at = self.bad_sets();
        let alone = !self.is_odd() && self.twice().is_empty() && at.len() == 1 && self.targets() > 2;
        self.is(TARGET) && alone && is(at[0], self.targets())
    }
}

pub struct AskedTally([u64; ASKED.len()]);

impl Default for AskedTally {
    fn default() -> AskedTally {
        AskedTally([0; ASKED.len()])
    }
}

impl AskedTally {
    pub fn count(&mut self, seen: &Seen) {
        count(ASKED, &mut self.0, seen);
    }

    pub fn print(&self) -> bool {
        print_all("tree, ", ASKED, &self.0)
    }
}
