//! The known passes 14 and 15, held against the model of a mesh: so the model is not only equal to the library but
//! right.

use super::model::Mesh;
use super::refusals;
use super::tables::Tables;
use crate::model::refusal;

const P: [u8; 5] = [0, 0, 0, 0, 1];
const PASSES: usize = 0;
const AGE: usize = 2;
const SENT: usize = 5;

pub fn all() {
    crosses_four_links();
    ready_before_the_seventh();
    most_rows();
}

/// 14. "W 2, H 1, F 2; every chip has a row for key 1 to link 0; P injected after 3 rounds crosses 4 links, and ends at the
/// fourth further round."
fn crosses_four_links() {
    let tables = to_link_0(2);
    let mut mesh = Mesh::open(2, 1, 2, 0);
    for _ in 0..3 {
        assert_eq!(mesh.round(&tables.lent()).passes.len(), 0, "known pass 14: nothing is in flight");
    }
    mesh.inject(0, &P, &tables.lent());
    for _ in 0..3 {
        mesh.round(&tables.lent());
        assert_eq!(mesh.in_flight(), 1, "known pass 14: still in flight");
    }
    let ends = mesh.round(&tables.lent());
    let counted = |counter: usize| mesh.chips.iter().map(|chip| chip.counters[counter]).sum::<u32>();
    assert_eq!((mesh.in_flight(), counted(SENT), counted(PASSES), counted(AGE)), (0, 4, 5, 1), "known pass 14");
    // Stamped 01 in the second phase, it ends at chip 0 in phase 10.
    assert_eq!(ends.records, [[0, 1, 2, 0b0101, 1, 0]], "known pass 14: its record");
}

/// 15. "A chip sends 7 packets on one link: ready before the seventh, not after it."
fn ready_before_the_seventh() {
    let tables = to_link_0(1);
    let mut mesh = Mesh::open(1, 1, 1, 0);
    for sent in 0..7 {
        assert!(mesh.chips[0].links[0].is_ready(), "known pass 15: ready with {sent}");
        mesh.inject(0, &P, &tables.lent());
    }
    assert!(!mesh.chips[0].links[0].is_ready(), "known pass 15: not ready with 7");
}

/// 15. "1,024 rows pass; 1,025 are refused."
fn most_rows() {
    let mesh = Mesh::open(1, 1, 1, 0);
    for (rows, expected) in [(1024, 0), (1025, refusal::MANY_ROWS)] {
        let tables = Tables { rows: vec![0; 3 * rows], starts: vec![0, rows as u32], codes: vec![0], fixed: vec![0] };
        let refused = refusals::inject(Some(&mesh), 6, 0, &P, &tables.lent());
        assert_eq!(refused.number, expected, "known pass 15: {rows} rows");
    }
}

/// One row a chip: key 1 to link 0.
fn to_link_0(chips: u32) -> Tables {
    Tables {
        rows: [1, u32::MAX, 1].repeat(chips as usize),
        starts: (0..=chips).collect(),
        codes: vec![6; (chips * chips) as usize],
        fixed: vec![0; chips as usize],
    }
}
