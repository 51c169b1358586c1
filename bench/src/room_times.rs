//! Rounds with room for groups beside the same without, and beside plain Rust of the same method. Keys are spread over the
//! top byte or alike in it; the last number is how many rows fix no top byte.

use crate::busy_mesh::BusyMesh;
use crate::interface::Added;
use crate::{mesh_calls, plain_mesh, timing};

const SIDE: u32 = 12;
type Version = fn(&mut BusyMesh) -> Added;
const WITH: Version = |mesh| mesh.in_room(mesh_calls::round_in);
const WITHOUT: Version = |mesh| mesh.on(mesh_calls::round);
const PLAIN: Version = |mesh| mesh.in_room(plain_mesh::round_in::<true>);

/// A round by rows takes milliseconds: a tenth of the turns is enough.
pub fn all(turns: usize) {
    let turns = turns.div_ceil(10);
    print!("{:<34} {:>14}", "rounds per second, 12 by 12", "with room");
    println!(" {:>14} {:>7} {:>14} {:>7}", "without", "ratio", "plain Rust", "ratio");
    for rows in [256, 1024] {
        for on_each in [1, 4, 7] {
            for (spread, unfixed) in [(true, 0), (true, 8), (true, rows / 2), (false, 8), (false, rows / 2)] {
                let mesh = BusyMesh::grouped(SIDE, on_each, rows, unfixed, spread);
                let keys = if spread { "spread" } else { "alike" };
                let name = format!("{rows} rows, {on_each} a link, {keys}, {unfixed}");
                if rows == 1024 && on_each == 4 {
                    timing::line_from(&name, turns, &mesh, [WITH, WITHOUT, PLAIN]);
                } else {
                    timing::line_from(&name, turns, &mesh, [WITH, WITHOUT]);
                }
            }
        }
    }
}
