//! Fewer rows in plain Rust by the library's method: one walk that takes out, then joinings from the top, each followed by one walk
//! that holds the rows below to the joined one alone.

use crate::interface::Fewer;

#[derive(Clone, Copy)]
struct Held {
    key: u32,
    mask: u32,
    route: u32,
    number: u32,
}

const MOST_ROWS: usize = 16_384;

pub fn fewer(rows: &[u32], left: &mut [u32], gone: &mut [u32]) -> Fewer {
    let count = rows.len() / 3;
    let bad_row = (0..count).find(|row| rows[3 * row + 2] >> 26 != 0).or((rows.len() % 3 != 0).then_some(count));
    let refused = |refusal: u32, place: usize| Fewer { refusal, place: place as u32, ..Fewer::default() };
    match bad_row {
        _ if count > MOST_ROWS => return refused(16, 0),
        Some(row) => return refused(17, row),
        None if left.len() < rows.len() || gone.len() < count => return refused(28, 0),
        None => (),
    }
    let mut held = Vec::with_capacity(count);
    let mut listed = 0;
    for (number, row) in rows.chunks_exact(3).enumerate() {
        let row = Held { key: row[0], mask: row[1], route: row[2], number: number as u32 };
        if row.key & row.mask == row.key && !held.iter().any(|earlier| covers(earlier, &row)) {
            held.push(row);
        } else {
            gone[listed] = row.number;
            listed += 1;
        }
    }
    let mut at = 0;
    while at + 1 < held.len() {
        let (upper, lower) = (held[at], held[at + 1]);
        if !is_pair(&upper, &lower) {
            at += 1;
            continue;
        }
        let one = Held { key: upper.key & lower.key, mask: upper.mask ^ upper.key ^ lower.key, ..upper };
        held[at] = one;
        gone[listed] = lower.number;
        listed += 1;
        let mut kept = at + 1;
        for next in at + 2..held.len() {
            let row = held[next];
            if covers(&one, &row) {
                gone[listed] = row.number;
                listed += 1;
            } else {
                held[kept] = row;
                kept += 1;
            }
        }
        held.truncate(kept);
        at = at.saturating_sub(1);
    }
    for (row, words) in held.iter().zip(left.chunks_exact_mut(3)) {
        words.copy_from_slice(&[row.key, row.mask, row.route]);
    }
    Fewer { refusal: 0, rows: held.len() as u32, gone: listed as u32, place: 0 }
}

fn covers(earlier: &Held, later: &Held) -> bool {
    earlier.mask & later.mask == earlier.mask && later.key & earlier.mask == earlier.key
}

fn is_pair(upper: &Held, lower: &Held) -> bool {
    let apart = upper.key ^ lower.key;
    upper.mask == lower.mask && upper.route == lower.route && apart.is_power_of_two() && apart & upper.mask == apart
}
