//! A multicast tree in plain Rust by the library's method: of the best way in each of the four pairs of directions the one of fewest
//! links, walked once to find the last chip shared and once more to add the rest.

use crate::interface::{Tree, TreeCall};

const MOST_CHIPS: usize = 144;
const MOST_SIDE: u32 = 12;
const PROCESSORS: u32 = 20;
const LINKS: u32 = 6;
/// Marks beside the links by which chips are entered.
const SOURCE: u8 = 6;
const OUTSIDE: u8 = 7;

struct Grown {
    entered: [u8; MOST_CHIPS],
    routes: [u32; MOST_CHIPS],
}

pub fn tree(call: &TreeCall, rows: &mut [u32], starts: &mut [u32]) -> Tree {
    let refusal = refusal_of(call, rows.len(), starts.len());
    if refusal != 0 {
        return Tree { refusal, rows: 0 };
    }
    let mut grown = Grown { entered: [OUTSIDE; MOST_CHIPS], routes: [0; MOST_CHIPS] };
    grown.entered[call.source as usize] = SOURCE;
    for target in call.targets.chunks_exact(2) {
        add(call, target[0], &mut grown);
        grown.routes[target[0] as usize] |= target[1] << LINKS;
    }
    Tree { refusal: 0, rows: write_rows(call, &grown, rows, starts) }
}

/// 7, 19, 20, 21, 26.
fn refusal_of(call: &TreeCall, rows_room: usize, starts_room: usize) -> u32 {
    let is_side = |side: u32| (1..=MOST_SIDE).contains(&side);
    if !is_side(call.width) || !is_side(call.height) {
        return 7;
    }
    let chips = call.width * call.height;
    if call.source >= chips || call.targets.iter().step_by(2).any(|&chip| chip >= chips) {
        return 19;
    }
    let mut named = [false; MOST_CHIPS];
    for target in call.targets.chunks(2) {
        let processors = target.get(1).copied().unwrap_or(0);
        if processors == 0 || processors >> PROCESSORS != 0 || named[target[0] as usize] {
            return 20;
        }
        named[target[0] as usize] = true;
    }
    if call.key & !call.mask != 0 {
        return 21;
    }
    if rows_room < 3 * chips as usize || starts_room != chips as usize + 1 {
        return 26;
    }
    0
}

fn add(call: &TreeCall, target: u32, grown: &mut Grown) {
    let way = way_to(call, target);
    let source = Chip { x: call.source % call.width, y: call.source / call.width };
    let (mut from, mut at, mut chip) = (source, 0, source);
    for step in 0..way.links() {
        chip = over(call, chip, way.link(step));
        if grown.entered[number(call, chip)] != OUTSIDE {
            (from, at) = (chip, step + 1);
        }
    }
    for step in at..way.links() {
        let link = way.link(step);
        grown.routes[number(call, from)] |= 1 << link;
        from = over(call, from, link);
        grown.entered[number(call, from)] = link as u8;
    }
}

#[derive(Clone, Copy)]
struct Way {
    east: i32,
    north: i32,
}

impl Way {
    fn diagonal(self) -> u32 {
        if (self.east < 0) == (self.north < 0) {
            self.east.unsigned_abs().min(self.north.unsigned_abs())
        } else {
            0
        }
    }

    fn links(self) -> u32 {
        self.east.unsigned_abs() + self.north.unsigned_abs() - self.diagonal()
    }

    fn link(self, step: u32) -> u32 {
        if step < self.diagonal() {
            return if self.east < 0 { 4 } else { 1 };
        }
        if step < self.east.unsigned_abs() {
            return if self.east < 0 { 3 } else { 0 };
        }
        if self.north < 0 {
            5
        } else {
            2
        }
    }
}

fn way_to(call: &TreeCall, target: u32) -> Way {
    let (width, height) = (call.width, call.height);
    let east = wrapped(target % width + width - call.source % width, width);
    let north = wrapped(target / width + height - call.source / width, height);
    // forwards in both, steps up to the larger number cost nothing
    let far = east.max(north);
    let forwards =
        Way { east: (far - within(far - east, width)) as i32, north: (far - within(far - north, height)) as i32 };
    let (west, south) = (-(wrapped(width - east, width) as i32), -(wrapped(height - north, height) as i32));
    let others = [
        Way { east: east as i32, north: south },
        Way { east: west, north: north as i32 },
        Way { east: west, north: south },
    ];
    others.into_iter().fold(forwards, |best, other| if other.links() < best.links() { other } else { best })
}

/// What is left of a division, without one.
fn wrapped(place: u32, size: u32) -> u32 {
    if place < size {
        place
    } else {
        place - size
    }
}

fn within(steps: u32, size: u32) -> u32 {
    if steps < size {
        steps
    } else {
        steps % size
    }
}

#[derive(Clone, Copy)]
struct Chip {
    x: u32,
    y: u32,
}

fn number(call: &TreeCall, chip: Chip) -> usize {
    (chip.y * call.width + chip.x) as usize
}

fn over(call: &TreeCall, Chip { x, y }: Chip, link: u32) -> Chip {
    let up = |at: u32, side: u32| if at + 1 == side { 0 } else { at + 1 };
    let down = |at: u32, side: u32| if at == 0 { side - 1 } else { at - 1 };
    let (x, y) = match link {
        0 => (up(x, call.width), y),
        1 => (up(x, call.width), up(y, call.height)),
        2 => (x, up(y, call.height)),
        3 => (down(x, call.width), y),
        4 => (down(x, call.width), down(y, call.height)),
        _ => (x, down(y, call.height)),
    };
    Chip { x, y }
}

fn write_rows(call: &TreeCall, grown: &Grown, rows: &mut [u32], starts: &mut [u32]) -> u32 {
    let mut count = 0;
    let chips = (call.width * call.height) as usize;
    for chip in 0..chips {
        starts[chip] = count as u32;
        let (entered, route) = (grown.entered[chip], grown.routes[chip]);
        if entered == SOURCE || entered < SOURCE && route != 1 << entered {
            rows[3 * count..3 * count + 3].copy_from_slice(&[call.key, call.mask, route]);
            count += 1;
        }
    }
    starts[chips] = count as u32;
    count as u32
}
