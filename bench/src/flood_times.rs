//! All P2P codes of the largest mesh by flooding. The plain version goes level by level as the library does, the tuned one by a queue.

use crate::random::Random;
use crate::{mesh_calls, plain_mesh, timing};

const SIDE: u32 = 12;
const LINKS: u32 = 6;
/// A call takes long, so that there are fewer turns.
const FEWER: usize = 10;

type Flood = fn(&[u32], &mut [u8]) -> u32;

pub fn all(turns: usize) {
    line("flood, 12 by 12, all up", turns, |_| false);
    line("flood, 12 by 12, a third down", turns, |random| random.one_in(3));
}

fn line(name: &str, turns: usize, is_down: fn(&mut Random) -> bool) {
    timing::line(
        name,
        turns.div_ceil(FEWER),
        &mesh(is_down),
        [
            |mesh| flooded(mesh, mesh_calls::flood),
            |mesh| flooded(mesh, plain_mesh::flood::<false>),
            |mesh| flooded(mesh, plain_mesh::flood::<true>),
        ],
    );
}

fn mesh(is_down: fn(&mut Random) -> bool) -> Vec<u32> {
    let random = &mut Random::new(1);
    let mut words = vec![0; mesh_calls::size(SIDE, SIDE).words as usize];
    assert_eq!(mesh_calls::open(&mut words, SIDE, SIDE, 1, 0), 0);
    for (chip, link) in (0..SIDE * SIDE).flat_map(|chip| (0..LINKS).map(move |link| (chip, link))) {
        if is_down(random) {
            assert_eq!(mesh_calls::set_link(&mut words, chip, link, false), 0);
        }
    }
    words
}

fn flooded(mesh: &[u32], flood: Flood) -> Vec<u8> {
    let mut codes = vec![0; (SIDE * SIDE * SIDE * SIDE) as usize];
    assert_eq!(flood(mesh, &mut codes), 0);
    codes
}
