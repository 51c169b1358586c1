//! A multicast tree in plain Rust, written from the rules, without sight of the Rattle sources: ways by trying every two signed
//! counts, the tree as what each chip was sent by and leads out by, and its rows.

use crate::interface::TreeCall;
use crate::model::{LINKS, MOST_SIDE};

pub const SIZE: u32 = 7;
pub const OFF_MESH: u32 = 19;
pub const TARGET: u32 = 20;
pub const KEY: u32 = 21;
pub const ROOM: u32 = 26;
pub const PROCESSORS: u32 = 20;
const ROW: usize = 3;
/// No way of fewest links has as many as this: going round a side at most by half takes 12 for both.
const MOST_STEPS: i32 = 24;
/// What links 0 to 5 add to x and y: "east (+1,0), north-east (+1,+1), north (0,+1), west, south-west, south".
const STEPS: [(i32, i32); LINKS as usize] = [(1, 0), (1, 1), (0, 1), (-1, 0), (-1, -1), (0, -1)];

/// The first that applies of 7, 19, 20, 21, 26, or 0.
pub fn refusal(call: &TreeCall, rows_room: usize, starts_room: usize) -> u32 {
    let is_side = |side: u32| (1..=MOST_SIDE).contains(&side);
    if !is_side(call.width) || !is_side(call.height) {
        return SIZE;
    }
    let chips = call.width * call.height;
    // a word past the last pair is a chip with no processors
    let targets: Vec<(u32, u32)> =
        call.targets.chunks(2).map(|pair| (pair[0], pair.get(1).copied().unwrap_or(0))).collect();
    if call.source >= chips || targets.iter().any(|&(chip, _)| chip >= chips) {
        return OFF_MESH;
    }
    let is_set = |processors: u32| processors != 0 && processors >> PROCESSORS == 0;
    let is_twice = |at: usize| targets[..at].iter().any(|&(chip, _)| chip == targets[at].0);
    if targets.iter().any(|&(_, processors)| !is_set(processors)) || (0..targets.len()).any(is_twice) {
        return TARGET;
    }
    if call.key & !call.mask != 0 {
        return KEY;
    }
    if rows_room < ROW * chips as usize || starts_room != chips as usize + 1 {
        return ROOM;
    }
    0
}

/// A way by signed counts east and north, and its links in order.
#[derive(Clone, Debug)]
pub struct Way {
    pub width: u32,
    pub height: u32,
    pub from: u32,
    pub east: i32,
    pub north: i32,
    pub links: Vec<usize>,
    /// The counts of all ways of as few links.
    pub equal: Vec<(i32, i32)>,
}

/// "The way from source to destination uses signed steps east and north, least over all ways round the mesh [..]; of equal ways the
/// one with the larger signed count east, then north, is taken."
pub fn way(width: u32, height: u32, from: u32, to: u32) -> Way {
    let leads = |count: i32, side: u32, from: u32, to: u32| (from as i32 + count - to as i32) % side as i32 == 0;
    let counts =
        |side: u32, from: u32, to: u32| (-MOST_STEPS..=MOST_STEPS).filter(move |&count| leads(count, side, from, to));
    let mut fewest = usize::MAX;
    let mut equal = Vec::new();
    for east in counts(width, from % width, to % width) {
        for north in counts(height, from / width, to / width) {
            let links = links_of(east, north).count();
            if links < fewest {
                fewest = links;
                equal.clear();
            }
            if links == fewest {
                equal.push((east, north));
            }
        }
    }
    let &(east, north) = equal.iter().max().expect("a way leads everywhere");
    Way { width, height, from, east, north, links: links_of(east, north).collect(), equal }
}

/// "Diagonal links first, then east or west, then north or south."
fn links_of(east: i32, north: i32) -> impl Iterator<Item = usize> {
    let diagonal = if east.signum() == north.signum() { east.abs().min(north.abs()) } else { 0 };
    let [by_diagonal, by_row, by_column] =
        [if east > 0 { 1 } else { 4 }, if east > 0 { 0 } else { 3 }, if north > 0 { 2 } else { 5 }];
    let times = |link: usize, count: i32| std::iter::repeat_n(link, count as usize);
    times(by_diagonal, diagonal)
        .chain(times(by_row, east.abs() - diagonal))
        .chain(times(by_column, north.abs() - diagonal))
}

/// The chip that a link leads to.
fn over(width: u32, height: u32, chip: u32, link: usize) -> u32 {
    let (east, north) = STEPS[link];
    let x = (chip % width).wrapping_add_signed(east).wrapping_add(width) % width;
    let y = (chip / width).wrapping_add_signed(north).wrapping_add(height) % height;
    y * width + x
}

/// A chip of the tree.
#[derive(Clone, Debug, Default)]
pub struct Branch {
    /// The link that it was sent by, None at the source.
    pub sent_by: Option<usize>,
    /// Links from the source.
    pub deep: u32,
    /// Route bits: the links out, and its processors.
    pub route: u32,
}

#[derive(Clone, Debug)]
pub struct Grown {
    pub call: TreeCall,
    /// Chip by chip, None for one that is not in the tree.
    pub branches: Vec<Option<Branch>>,
    /// For each target in order.
    pub added: Vec<Added>,
}

/// What one target's way added.
#[derive(Clone, Debug)]
pub struct Added {
    pub way: Way,
    /// The place in the way, the source at 0, of the last chip that the tree had.
    pub last_shared: usize,
}

/// "Chips go in list order; only the part of a way after its last chip shared with the tree so far is added."
pub fn grown(call: &TreeCall) -> Grown {
    let mut branches = vec![None; (call.width * call.height) as usize];
    branches[call.source as usize] = Some(Branch::default());
    let mut added = Vec::new();
    for target in call.targets.chunks_exact(2) {
        let way = way(call.width, call.height, call.source, target[0]);
        let mut chips = vec![call.source];
        chips.extend(way.links.iter().scan(call.source, |chip, &link| {
            *chip = over(call.width, call.height, *chip, link);
            Some(*chip)
        }));
        let shared = |&chip: &u32| branches[chip as usize].is_some();
        let last_shared = chips.iter().rposition(shared).expect("the source is in the tree");
        for at in last_shared..way.links.len() {
            let from = branches[chips[at] as usize].as_mut().expect("a chip of the tree");
            from.route |= 1 << way.links[at];
            let deep = from.deep + 1;
            branches[chips[at + 1] as usize] = Some(Branch { sent_by: Some(way.links[at]), deep, route: 0 });
        }
        branches[target[0] as usize].as_mut().expect("the way ends at the target").route |= target[1] << LINKS;
        added.push(Added { way, last_shared });
    }
    Grown { call: call.clone(), branches, added }
}

impl Grown {
    /// "A chip passed straight through, with no processor and no branch, gets no row; the source always gets one."
    pub fn has_row(&self, chip: usize) -> bool {
        let straight = |branch: &Branch| branch.sent_by.is_some_and(|link| branch.route == 1 << link);
        self.branches[chip].as_ref().is_some_and(|branch| !straight(branch))
    }

    /// Rows and starts, chips by number.
    pub fn tables(&self) -> (Vec<u32>, Vec<u32>) {
        let (mut rows, mut starts) = (Vec::new(), vec![0]);
        for (chip, branch) in self.branches.iter().enumerate() {
            if let Some(branch) = branch.as_ref().filter(|_| self.has_row(chip)) {
                rows.extend([self.call.key, self.call.mask, branch.route]);
            }
            starts.push((rows.len() / ROW) as u32);
        }
        (rows, starts)
    }

    /// The links of the deepest chip.
    pub fn deep(&self) -> u32 {
        self.branches.iter().flatten().map(|branch| branch.deep).max().unwrap_or(0)
    }

    /// Every chip but the source was sent by one link.
    pub fn links(&self) -> u32 {
        self.branches.iter().flatten().count() as u32 - 1
    }
}
