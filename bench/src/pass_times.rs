//! The one-router call on the largest mesh, with the match in the last row of a table, or with none, and with a fixed-route
//! packet, for which no row is searched.

use crate::interface::{Pass, PassCall};
use crate::{model, no_room, timing};

const SIDE: u32 = 12;
const KEY: u32 = 0x1234;
/// Two links, one of them blocked, and two processors.
const ROUTE: u32 = 1 << 2 | 1 << 3 | 1 << 6 | 1 << 9;
const READY: u32 = 63 & !(1 << 3);

pub fn all(rounds: usize) {
    let versions: [fn(&PassCall) -> Pass; 3] = [no_room::pass, model::pass::<false>, model::pass::<true>];
    for row_count in [16, 256, 1024] {
        for matches in [true, false] {
            let rows = table(row_count, matches);
            let name = format!("pass, {row_count} rows, {}", if matches { "last matches" } else { "none matches" });
            timing::line(&name, rounds, &call(&rows), versions);
        }
        let rows = table(row_count, true);
        timing::line(&format!("pass, {row_count} rows, fixed route"), rounds, &fixed_call(&rows), versions);
    }
}

pub fn call(rows: &[u32]) -> PassCall<'_> {
    let packet = &[0x00, 0x00, 0x00, 0x12, 0x34];
    let codes = &[6; (SIDE * SIDE) as usize];
    let (monitor, phase, ready, fixed) = (0, 0, READY, ROUTE);
    PassCall { packet, source: 0, width: SIDE, height: SIDE, rows, codes, monitor, phase, ready, fixed, room: 0 }
}

/// A fixed-route packet with the route that the rows have.
fn fixed_call(rows: &[u32]) -> PassCall<'_> {
    PassCall { packet: &[0xc0, 0x00, 0x00, 0x12, 0x34], ..call(rows) }
}

/// Rows of other keys; the last one's key is the packet's where it is to match.
pub fn table(row_count: u32, matches: bool) -> Vec<u32> {
    let mut rows: Vec<u32> = (1..=row_count).flat_map(|row| [KEY + row, u32::MAX, ROUTE]).collect();
    if matches {
        let last = rows.len() - 3;
        rows[last] = KEY;
    }
    rows
}
