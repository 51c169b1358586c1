//! Tables to be made fewer rows: small ones with rows that are covered, unused and joinable in chains, and large ones.

use super::MOST_ROWS;
use crate::interface::Row;
use crate::random::Random;

const MOST_SMALL: u32 = 24;

/// Rows over few bits, so that many have to do with each other.
pub fn random(random: &mut Random) -> Vec<Row> {
    let bits = 1 + random.below(6);
    let low = random.below(33 - bits);
    let span = (1 << bits) - 1;
    let other = random.pick(&[0, 0, u32::MAX, 0x8000_0001]) & !(span << low);
    let routes = 1 + random.below(4);
    let wide = random.pick(&[1, 3, 8]);
    let count = random.below(MOST_SMALL + 1) as usize;
    let mut rows: Vec<Row> = Vec::new();
    while rows.len() < count {
        let mask = if random.one_in(wide) { random.below(span + 1) } else { span };
        let key = random.below(span + 1) & if random.one_in(9) { span } else { mask };
        let route = random.below(routes);
        let row = Row { key: key << low | other, mask: mask << low | other, route };
        match random.below(4) {
            0 => rows.push(row),
            _ => split(random, &mut rows, row),
        }
    }
    for _ in 0..random.below(3) {
        let (one, two) = (random.below(rows.len().max(1) as u32), random.below(rows.len().max(1) as u32));
        if !rows.is_empty() {
            rows.swap(one as usize, two as usize);
        }
    }
    rows.truncate(count);
    rows
}

/// A row as those that would be joined to it, again and again, at times with another between.
fn split(random: &mut Random, rows: &mut Vec<Row>, row: Row) {
    let mut parts = vec![row];
    for _ in 0..random.below(4) {
        let free = !parts[0].mask & 0xffff;
        let bit = 1u32 << random.below(16);
        if free & bit == 0 {
            continue;
        }
        let part = |row: &Row, key: u32| Row { key: row.key | key, mask: row.mask | bit, ..*row };
        let upper = if random.one_in(2) { bit } else { 0 };
        parts = parts.iter().flat_map(|row| [part(row, upper), part(row, bit ^ upper)]).collect();
    }
    if random.one_in(3) {
        let at = random.below(parts.len() as u32 + 1) as usize;
        let earlier = parts[random.below(parts.len() as u32) as usize];
        parts.insert(at, Row { route: random.below(3), ..earlier });
    }
    rows.extend(parts);
}

pub fn large(random: &mut Random) -> Vec<Vec<Row>> {
    let most = MOST_ROWS as u32;
    vec![
        (0..most).map(|key| Row { key, mask: u32::MAX, route: 5 }).collect(),
        (0..most).map(|key| Row { key: key ^ key >> 1, mask: u32::MAX, route: 5 }).collect(),
        (0..most - 1).map(|key| Row { key, mask: u32::MAX, route: key & 1 }).collect(),
        (0..most).map(|_| Row { key: 0, mask: u32::MAX, route: random.below(3) }).collect(),
        (0..most).map(|_| Row { key: 1, mask: 0, route: random.below(3) }).collect(),
        some(random, most, 12, 3),
        some(random, most, 20, 2),
        some(random, 5_000, 14, 1),
        some(random, 1_025, 10, 2),
        runs(random, most),
        runs(random, 1_024),
    ]
}

/// Random rows over so many bits, with a few masks.
fn some(random: &mut Random, count: u32, bits: u32, routes: u32) -> Vec<Row> {
    let span = (1 << bits) - 1;
    let row = |_| {
        let mask = span & !(random.below(8) & random.below(8)) & !(1 << random.below(4 * bits) % 64 % 31);
        Row { key: random.below(span + 1) & mask, mask, route: random.below(routes) }
    };
    (0..count).map(row).collect()
}

/// Runs of neighbouring keys with one route, as tables have them that are made chip by chip.
fn runs(random: &mut Random, count: u32) -> Vec<Row> {
    let mut rows = Vec::new();
    while rows.len() < count as usize {
        let (start, route) = (random.word() & !0xff, random.below(1 << 26));
        let long = 1 + random.below(64);
        rows.extend((0..long).map(|key| Row { key: start + key, mask: u32::MAX, route }));
        if random.one_in(4) {
            rows.push(Row { key: start, mask: !0x3f, route });
        }
    }
    rows.truncate(count as usize);
    rows
}
