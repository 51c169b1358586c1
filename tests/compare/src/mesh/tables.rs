//! Tables for a mesh: random ones that are accepted, and the ways to damage them so that they are refused.

use crate::interface::LentTables;
use crate::model::MOST_ROWS;
use crate::random::Random;

#[derive(Clone, Debug, Default, PartialEq)]
pub struct Tables {
    pub rows: Vec<u32>,
    pub starts: Vec<u32>,
    pub codes: Vec<u8>,
    pub fixed: Vec<u32>,
}

/// What the routes of one mesh's tables are like.
#[derive(Clone, Copy)]
enum Routes {
    /// On by one link, the same at every chip.
    OneLink(u32),
    /// To some links and some processors.
    Any,
    /// To many links at once, so that links fill.
    Flood,
}

impl Tables {
    pub fn lent(&self) -> LentTables<'_> {
        LentTables { rows: &self.rows, starts: &self.starts, codes: &self.codes, fixed: &self.fixed, room: 0 }
    }

    /// Rows for these keys, with what matches more than one of them between.
    pub fn random(random: &mut Random, chips: usize, keys: &[u32]) -> Tables {
        let mut tables = Tables { starts: vec![0], ..Tables::default() };
        let routes = random_routes(random);
        let most = random.pick(&[0, 1, 3, 6, 6, 10, 20]);
        let full_chip = if random.one_in(64) { random.below(chips as u32) as usize } else { chips };
        for chip in 0..chips {
            let count = if chip == full_chip { MOST_ROWS as u32 } else { random.below(most + 1) };
            for _ in 0..count {
                tables.add_row(random, keys, routes);
            }
            tables.starts.push(tables.rows.len() as u32 / 3);
        }
        tables.codes = random_codes(random, chips * chips);
        tables.fixed = random_fixed(random, chips);
        tables
    }

    fn add_row(&mut self, random: &mut Random, keys: &[u32], routes: Routes) {
        let mask = match random.below(16) {
            0 => 0,
            1 => random.word(),
            2 => u32::MAX << random.below(32),
            _ => u32::MAX,
        };
        let outside = if random.one_in(4) { random.word() & !mask } else { 0 };
        let key = keys[random.below(keys.len() as u32) as usize] & mask | outside;
        self.rows.extend_from_slice(&[key, mask, random_route(random, routes)]);
    }
}

fn random_routes(random: &mut Random) -> Routes {
    match random.below(4) {
        0 => Routes::OneLink(random.below(6)),
        1 => Routes::Any,
        2 => Routes::Flood,
        _ => [Routes::Any, Routes::OneLink(random.below(6))][random.below(2) as usize],
    }
}

fn random_route(random: &mut Random, routes: Routes) -> u32 {
    let (one_link, any_links) = (1 << random.below(6), random.below(64));
    let processors = random.word() & random.word() & 0x03ff_ffc0;
    match routes {
        Routes::OneLink(link) => 1 << link | if random.one_in(4) { processors } else { 0 },
        Routes::Any => random.pick(&[any_links, any_links | processors, processors, one_link, 0]),
        Routes::Flood => any_links | random.below(64) | if random.one_in(4) { processors } else { 0 },
    }
}

/// One route a chip, of one kind, with some that end at processors or nowhere.
fn random_fixed(random: &mut Random, chips: usize) -> Vec<u32> {
    let routes = random_routes(random);
    let usual = random.below(4);
    let route = |_| match random.below(4 + usual) {
        0 => random.word() & 0x03ff_ffc0,
        1 if random.one_in(4) => 0,
        _ => random_route(random, routes),
    };
    (0..chips).map(route).collect()
}

fn random_codes(random: &mut Random, count: usize) -> Vec<u8> {
    let usual = random.below(8) as u8;
    let always = random.one_in(3);
    (0..count).map(|_| if always || random.one_in(2) { usual } else { random.below(8) as u8 }).collect()
}

pub type TableDamage = fn(&mut Tables, &mut Random);

/// Each gives tables that were accepted a reason to be refused. The first ten are refusals 15 to 18, the others 11.
pub const TABLE_DAMAGES: [TableDamage; 12] = [
    |tables, random| tables.rows.extend(std::iter::repeat(0).take(1 + random.below(2) as usize)),
    |tables, random| {
        // One chip with too many rows, and the starts behind it moved along.
        let chip = random.below(tables.starts.len().max(2) as u32 - 1) as usize;
        let more = 3 * (MOST_ROWS + random.pick(&[1, 1, 1, 2, 500]) as usize);
        tables.rows.extend(std::iter::repeat(0).take(more));
        for start in tables.starts.iter_mut().skip(chip + 1) {
            *start = start.wrapping_add(more as u32 / 3);
        }
    },
    |tables, random| {
        if tables.rows.is_empty() {
            tables.rows.extend([0; 3]);
            tables.starts.last_mut().map(|last| *last = last.wrapping_add(1));
        }
        let row = random.below(tables.rows.len() as u32 / 3) as usize;
        if let Some(route) = tables.rows.get_mut(3 * row + 2) {
            *route |= 1 << (26 + random.below(6));
        }
    },
    |tables, random| tables.starts.resize(tables.starts.len() + 1 + random.below(2) as usize, u32::MAX),
    |tables, random| {
        let count = random.below(tables.starts.len().max(1) as u32) as usize;
        tables.starts.truncate(count);
    },
    |tables, random| {
        let any = random.word();
        if let Some(first) = tables.starts.first_mut() {
            *first = [1, 2, 0x8000_0000, u32::MAX, any.max(1)][random.below(5) as usize];
        }
    },
    |tables, random| {
        let any = random.word();
        let rows = tables.rows.len() as u32 / 3;
        if let Some(last) = tables.starts.last_mut() {
            let wrong = random.pick(&[rows + 1, rows.wrapping_sub(1), 3 * rows + 1, u32::MAX, rows | 0x8000_0000, any]);
            *last = if wrong == rows { rows + 1 } else { wrong };
        }
    },
    |tables, random| {
        // A fall: one number more than the next.
        let at = random.below(tables.starts.len().max(1) as u32) as usize;
        if at + 1 < tables.starts.len() {
            tables.starts[at] = tables.starts[at + 1].saturating_add(random.pick(&[1, 1, 2, 1024, u32::MAX]));
        }
    },
    |tables, random| {
        let at = random.below(tables.fixed.len().max(1) as u32) as usize;
        if let Some(route) = tables.fixed.get_mut(at) {
            *route |= 1 << (26 + random.below(6));
        }
    },
    |tables, random| {
        let count = tables.fixed.len();
        let wrong = [0, count + 1, count + 1, count.saturating_sub(1), 2 * count, 145][random.below(6) as usize];
        tables.fixed.resize(if wrong == count { count + 2 } else { wrong }, 0);
    },
    |tables, random| {
        let count = tables.codes.len();
        let side = tables.starts.len().saturating_sub(1);
        let wrong = [0, count + 1, count.saturating_sub(1), side, 2 * count][random.below(5) as usize];
        tables.codes.resize(if wrong == count { count + 2 } else { wrong }, 0);
    },
    |tables, random| {
        let at = random.below(tables.codes.len().max(1) as u32) as usize;
        if let Some(code) = tables.codes.get_mut(at) {
            *code = random.pick(&[8, 9, 15, 16, 127, 128, 255]) as u8;
        }
    },
];
