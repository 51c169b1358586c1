//! P2P codes in plain Rust, written from the rules, without sight of the Rattle sources: how far each chip is from each by a
//! search outwards from where a way begins, and a code from these numbers.

use super::model::{Chip, Mesh};
use std::collections::VecDeque;

pub const NOWHERE: u8 = 6;
pub const ONESELF: u8 = 7;
const NO_MESH: u32 = 8;
const WRONG_SIZE: u32 = 11;

/// How many links the shortest way from a chip to another has: `ways[from][to]`, None where there is no way.
pub type Ways = Vec<Vec<Option<u32>>>;

/// "Refusals: 8 for a buffer without a mesh, 11 for a table of the wrong size."
pub fn refusal(mesh: Option<&Mesh>, codes: usize) -> u32 {
    match mesh {
        None => NO_MESH,
        Some(mesh) if codes != mesh.chips.len() * mesh.chips.len() => WRONG_SIZE,
        Some(_) => 0,
    }
}

pub fn ways(mesh: &Mesh) -> Ways {
    (0..mesh.chips.len()).map(|from| ways_from(mesh, from)).collect()
}

fn ways_from(mesh: &Mesh, from: usize) -> Vec<Option<u32>> {
    let mut far = vec![None; mesh.chips.len()];
    far[from] = Some(0);
    let mut next = VecDeque::from([(from, 0)]);
    while let Some((chip, links)) = next.pop_front() {
        for (_, to) in up_links(mesh, chip) {
            if far[to].is_none() {
                far[to] = Some(links + 1);
                next.push_back((to, links + 1));
            }
        }
    }
    far
}

/// Chip after chip, as they are lent.
pub fn codes(mesh: &Mesh, ways: &Ways) -> Vec<u8> {
    let chips = 0..mesh.chips.len();
    chips.clone().flat_map(|from| chips.clone().map(move |to| code(mesh, ways, from, to))).collect()
}

/// "A chip's code for itself is 7; for a chip it can't reach over up links, 6; else the lowest link that begins a way of
/// fewest links."
fn code(mesh: &Mesh, ways: &Ways, from: usize, to: usize) -> u8 {
    if from == to {
        return ONESELF;
    }
    first_links(mesh, ways, from, to).into_iter().min().map_or(NOWHERE, |link| link as u8)
}

/// The links that begin a way of fewest links to another chip.
pub fn first_links(mesh: &Mesh, ways: &Ways, from: usize, to: usize) -> Vec<usize> {
    let Some(fewest) = ways[from][to] else { return Vec::new() };
    let begins = |&(_, over): &(usize, usize)| ways[over][to].is_some_and(|rest| rest + 1 == fewest);
    up_links(mesh, from).into_iter().filter(begins).map(|(link, _)| link).collect()
}

/// A chip's links that are up, in their own direction, whatever they hold, with the chip that each leads to.
fn up_links(mesh: &Mesh, chip: usize) -> Vec<(usize, usize)> {
    let Chip { links, .. } = &mesh.chips[chip];
    let up = (0..links.len()).filter(|&link| links[link].up);
    up.map(|link| (link, mesh.neighbour(chip as u32, link as u32) as usize)).collect()
}
