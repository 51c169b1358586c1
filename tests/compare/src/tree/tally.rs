//! What the trees, their ways and the packets reached.

use super::asked_tally::{AskedTally, Seen};
use super::model::{Added, Grown, Way};
use crate::model::LINKS;
use crate::tally::{count, print_all, print_line, Events};

/// Pairs of chips on all sizes up to 12 by 12: the squares of 1 to 12, added, and that squared.
const ALL_PAIRS: u64 = 650 * 650;
/// A way of fewest links has at most so many, on 12 by 12.
const MOST_LINKS: u32 = 8;

const WAYS: Events<Way> = &[
    ("no link, the source is the target", |way| way.links.is_empty()),
    ("diagonal links alone", |way| way.all_by(&[1]) || way.all_by(&[4])),
    ("north-east, then east", |way| way.turns(1, 0)),
    ("north-east, then north", |way| way.turns(1, 2)),
    ("south-west, then west", |way| way.turns(4, 3)),
    ("south-west, then south", |way| way.turns(4, 5)),
    ("east, then south", |way| way.turns(0, 5)),
    ("west, then north", |way| way.turns(3, 2)),
    ("the most links", |way| way.links.len() as u32 == MOST_LINKS),
    ("over the edge of the mesh", |way| {
        let x = way.from as i32 % way.width as i32 + way.east;
        let y = way.from as i32 / way.width as i32 + way.north;
        !(0..way.width as i32).contains(&x) || !(0..way.height as i32).contains(&y)
    }),
    ("more steps than the mesh is wide or high", |way| {
        way.east.unsigned_abs() > way.width || way.north.unsigned_abs() > way.height
    }),
    ("2 east and 2 north on 1 by 4", |way| (way.width, way.height, way.east, way.north) == (1, 4, 2, 2)),
    ("equal ways, the larger count east", |way| way.equal_ways(|(east, _), other| east > other.0)),
    ("equal ways, the larger count north", |way| {
        way.equal_ways(|(east, north), other| east == other.0 && north > other.1)
    }),
    ("equal ways, four or more", |way| way.equal.len() >= 4),
];

impl Way {
    fn all_by(&self, links: &[usize]) -> bool {
        !self.links.is_empty() && self.links.iter().all(|link| links.contains(link))
    }

    /// Goes on by the second link after the first.
    fn turns(&self, first: usize, second: usize) -> bool {
        self.links.windows(2).any(|two| two == [first, second])
    }

    /// Against the way that is taken, another of as few links.
    fn equal_ways(&self, is: fn((i32, i32), (i32, i32)) -> bool) -> bool {
        self.equal.iter().any(|&other| is((self.east, self.north), other))
    }
}

const GROWN: Events<Grown> = &[
    ("no targets", |grown| grown.call.targets.is_empty()),
    ("all 144 chips", |grown| grown.call.targets.len() == 288),
    ("the source alone", |grown| grown.call.targets.len() == 2 && grown.call.targets[0] == grown.call.source),
    ("the source among targets", |grown| {
        grown.call.targets.len() > 2 && grown.call.targets.chunks(2).any(|target| target[0] == grown.call.source)
    }),
    ("a way cut after the source", |grown| grown.any_added(|added| added.last_shared > 0)),
    ("a way that adds nothing", |grown| {
        grown.any_added(|added| !added.way.links.is_empty() && added.last_shared == added.way.links.len())
    }),
    ("a chip passed straight through, without a row", |grown| {
        (0..grown.branches.len()).any(|chip| grown.branches[chip].is_some() && !grown.has_row(chip))
    }),
    ("a row for a turn alone", |grown| {
        grown.any_row(|link, route| route.count_ones() == 1 && route < 1 << LINKS && route != 1 << link)
    }),
    ("a row straight on with a branch", |grown| {
        grown.any_row(|link, route| route < 1 << LINKS && route >> link & 1 == 1 && route.count_ones() > 1)
    }),
    ("a row straight on with processors", |grown| {
        grown.any_row(|link, route| route & ((1 << LINKS) - 1) == 1 << link && route >> LINKS != 0)
    }),
    ("a row for processors alone", |grown| {
        grown.any_row(|_, route| route & ((1 << LINKS) - 1) == 0 && route >> LINKS != 0)
    }),
    ("a branch by three links", |grown| grown.any_row(|_, route| (route & 63).count_ones() == 3)),
    ("the source leads out by six links", |grown| {
        grown.branches[grown.call.source as usize].as_ref().is_some_and(|source| source.route & 63 == 63)
    }),
    ("a tree of the most links deep", |grown| grown.deep() == MOST_LINKS),
    ("a mask of all bits", |grown| grown.call.mask == u32::MAX),
    ("a mask of no bits", |grown| grown.call.mask == 0),
];

impl Grown {
    fn any_added(&self, is: fn(&Added) -> bool) -> bool {
        self.added.iter().any(is)
    }

    /// The link that a chip other than the source was sent by, and its route.
    fn sent_on(&self, chip: usize) -> Option<(usize, u32)> {
        let branch = self.branches[chip].as_ref()?;
        Some((branch.sent_by?, branch.route))
    }

    fn any_row(&self, is: fn(usize, u32) -> bool) -> bool {
        (0..self.branches.len()).filter_map(|chip| self.sent_on(chip)).any(|(link, route)| is(link, route))
    }
}

/// A packet that was sent with the rows of a tree.
pub struct Sent {
    pub deep: u32,
    pub rounds_per_phase: u32,
    pub processors: u32,
    pub targets: usize,
    /// A phase ends while it is on its way.
    pub over_a_phase: bool,
    pub stamped_anew: bool,
    /// Its key differs from the rows' outside the mask.
    pub other_key: bool,
}

const SENT: Events<Sent> = &[
    ("packet to one chip", |sent| sent.targets == 1 && sent.deep > 0),
    ("packet to several chips", |sent| sent.targets > 1),
    ("packet to all 144 chips", |sent| sent.targets == 144),
    ("packet to more than 500 processors", |sent| sent.processors > 500),
    ("packet to the source's own processors alone", |sent| sent.targets == 1 && sent.deep == 0),
    ("packet to no one, swallowed", |sent| sent.targets == 0),
    ("packet by a tree F links deep", |sent| sent.deep == sent.rounds_per_phase),
    ("packet by a tree F links deep, a phase ends meanwhile", |sent| {
        sent.over_a_phase && sent.deep == sent.rounds_per_phase
    }),
    ("packet with another stamp than the phase's", |sent| sent.stamped_anew),
    ("packet with another key within the mask", |sent| sent.other_key),
];

#[derive(Default)]
pub struct TreeTally {
    ways: [u64; WAYS.len()],
    grown: [u64; GROWN.len()],
    asked: AskedTally,
    sent: [u64; SENT.len()],
    pub pairs: u64,
    pub sizes: u64,
}

impl TreeTally {
    pub fn ask(&mut self, seen: &Seen) {
        self.asked.count(seen);
    }

    pub fn grow(&mut self, grown: &Grown) {
        count(GROWN, &mut self.grown, grown);
        grown.added.iter().for_each(|added| count(WAYS, &mut self.ways, &added.way));
    }

    pub fn send(&mut self, sent: &Sent) {
        count(SENT, &mut self.sent, sent);
    }

    /// Prints a line for each, and answers whether all were reached.
    pub fn print(&self) -> bool {
        let sizes = print_line("tree, sizes of a mesh", self.sizes) & (self.sizes >= 144);
        let pairs = print_line("tree, pairs of chips", self.pairs) & (self.pairs >= ALL_PAIRS);
        let asked = self.asked.print();
        let grown = print_all("tree, ", GROWN, &self.grown);
        sizes
            & pairs
            & asked
            & grown
            & print_all("tree, way: ", WAYS, &self.ways)
            & print_all("tree, ", SENT, &self.sent)
    }
}
