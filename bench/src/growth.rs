//! What the time of a round grows with: chips, packets in flight, and rows of the tables that are lent; not with how
//! long the mesh has run, nor with how much longer than needed buffer and log are.

use crate::busy_mesh::BusyMesh;
use crate::mesh_times::library_round;
use crate::timing;

pub fn all(turns: usize) {
    println!("{:<44} {:>14}", "nanoseconds of the library's round", "");
    for side in [1, 2, 3, 6, 9, 12] {
        for on_each in [0, 1, 2, 4, 7] {
            let mesh = BusyMesh::circling(side, side, on_each, 0);
            let name = format!("{side} by {side}, {} in flight", mesh.in_flight());
            timing::nanoseconds(&name, turns, &mesh, library_round);
        }
    }
    let usual = || BusyMesh::circling(12, 12, 1, 0);
    timing::nanoseconds("12 by 12, 864 in flight", turns, &usual(), library_round);
    timing::nanoseconds("the same after 30,000 rounds", turns, &usual().after(30_000), library_round);
    let longer = usual().with_more_lent(100_000, 100_000);
    timing::nanoseconds("the same, 100,000 words more lent of each", turns, &longer, library_round);
    for rows in [16, 64, 256, 1018] {
        let mesh = BusyMesh::circling(12, 12, 0, rows);
        let name = format!("12 by 12, 0 in flight, {} rows a chip", rows + 6);
        timing::nanoseconds(&name, turns, &mesh, library_round);
        let mesh = BusyMesh::circling(12, 12, 1, rows);
        let name = format!("12 by 12, 864 in flight, {} rows a chip", rows + 6);
        timing::nanoseconds(&name, turns, &mesh, library_round);
    }
}
