//! The first place where tables are wrong, found once they are refused: a call that is accepted does not look for it.

use super::chips_of;
use crate::interface::LentTables;
use crate::model::{bad_row, is_route, refusal, MOST_ROWS};

/// 0 but for 15 to 18, before which the buffer was found to hold a mesh.
#[cold]
pub fn place_of(refusal: u32, mesh: &[u32], tables: &LentTables) -> u32 {
    let place = match refusal {
        refusal::STARTS => bad_start(tables.starts, chips_of(mesh)),
        refusal::MANY_ROWS => tables.starts.windows(2).position(|pair| (pair[1] - pair[0]) as usize > MOST_ROWS),
        refusal::ROUTE => bad_row(tables.rows),
        refusal::FIXED_ROUTE if tables.fixed.len() == chips_of(mesh) => {
            tables.fixed.iter().position(|&route| !is_route(route))
        }
        _ => None,
    };
    place.unwrap_or(0) as u32
}

/// Where nothing else is wrong, the last start is.
fn bad_start(starts: &[u32], chips: usize) -> Option<usize> {
    if starts.len() != chips + 1 || starts[0] != 0 {
        return None;
    }
    let falls = starts.windows(2).position(|pair| pair[1] < pair[0]);
    Some(falls.map_or(chips, |before| before + 1))
}
