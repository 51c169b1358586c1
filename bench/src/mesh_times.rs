//! Rounds and injections on the largest mesh, and what a round's time depends on.

use crate::busy_mesh::{bytes, BusyMesh};
use crate::interface::Added;
use crate::{mesh_calls, plain_mesh, timing};

const SIDE: u32 = 12;

pub fn all(turns: usize) {
    rounds("round, 12 by 12, 1 a link", turns, BusyMesh::circling(SIDE, SIDE, 1, 0));
    rounds("round, 12 by 12, 4 a link", turns, BusyMesh::circling(SIDE, SIDE, 4, 0));
    rounds("round, 12 by 12, 1 a link, mixed", turns, BusyMesh::mixed(SIDE, SIDE, 1).after(100));
    rounds("round, 12 by 12, 6 east, fixed", turns, BusyMesh::fixed_east(SIDE, SIDE, 6));
    rounds("round, 12 by 12, none in flight", turns, BusyMesh::circling(SIDE, SIDE, 0, 0));
    injections("inject, 12 by 12, none in flight", turns, BusyMesh::circling(SIDE, SIDE, 0, 0));
    injections("inject, 12 by 12, 1 a link", turns, BusyMesh::circling(SIDE, SIDE, 1, 0));
}

/// A round by the library.
pub fn library_round(mesh: &mut BusyMesh) -> Added {
    mesh.on(mesh_calls::round)
}

fn rounds(name: &str, turns: usize, mesh: BusyMesh) {
    let links = mesh.in_flight();
    timing::line_from(
        name,
        turns,
        &mesh,
        [library_round, |mesh| mesh.on(plain_mesh::round::<false>), |mesh| mesh.on(plain_mesh::round::<true>)],
    );
    assert!(mesh.after(100).in_flight() >= links, "{name}: the load is sustained");
}

/// Each injection is at the next chip, and goes out by link 2.
fn injections(name: &str, turns: usize, mesh: BusyMesh) {
    timing::line_from(
        name,
        turns,
        &mesh,
        [
            |mesh| mesh.inject_by(mesh_calls::inject, &packet()),
            |mesh| mesh.inject_by(plain_mesh::inject::<false>, &packet()),
            |mesh| mesh.inject_by(plain_mesh::inject::<true>, &packet()),
        ],
    );
}

fn packet() -> Vec<u8> {
    bytes(0x02, 2)
}
