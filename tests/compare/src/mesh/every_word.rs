//! Every word of a busy buffer set to values about each of its bounds: the library has to say that it holds no mesh
//! exactly where docs/LAYOUT.md does.

use super::layout::{mesh_in, words_for};
use super::model::Mesh;
use super::packets;
use super::pair::Pair;
use super::tables::Tables;
use super::tally::MeshTally;
use crate::random::Random;

const VALUES: [u32; 26] = [
    0,
    1,
    2,
    3,
    4,
    5,
    6,
    7,
    8,
    9,
    12,
    13,
    19,
    20,
    31,
    32,
    63,
    64,
    160,
    192,
    255,
    256,
    65_535,
    65_536,
    0x8000_0000,
    u32::MAX,
];

pub fn all(tally: &mut MeshTally, seed: u64) {
    let random = &mut Random::new(seed);
    for (width, height) in [(1, 1), (2, 1), (1, 3), (2, 2)] {
        let name = format!("every word, {width} by {height}, of seed {seed}");
        let mut pair = busy(tally, random, name, width, height);
        let fixed = fixed_in_flight(&pair);
        for at in 0..words_for(width, height) {
            let old = pair.words[at];
            let bits = (0..32).map(|bit| old ^ 1 << bit);
            for value in VALUES.into_iter().chain(bits).chain([random.word(), old ^ 0xc0]) {
                pair.words[at] = value;
                pair.read_anew();
                tally.changed_word(pair.mesh.as_ref(), fixed);
                pair.look(tally);
                pair.settle_exactly();
            }
            pair.words[at] = old;
        }
    }
}

fn fixed_in_flight(pair: &Pair) -> usize {
    pair.mesh.as_ref().map_or(0, Mesh::fixed_in_flight)
}

/// A mesh with packets on its links, some of which are down, some of type 11, and with drops in its registers.
fn busy(tally: &mut MeshTally, random: &mut Random, name: String, width: u32, height: u32) -> Pair {
    let words = vec![0; words_for(width, height)];
    let lent = words.len();
    let mut pair = Pair::new(name, false, words, lent, vec![0; 6 * 6 * 8 * 4]);
    let keys = [random.word(), random.word()];
    pair.open(tally, width, height, 9, 19);
    for step in 0.. {
        if step >= 100 && fixed_in_flight(&pair) > 0 {
            break;
        }
        let chip = random.below(width * height);
        if step % 8 == 0 {
            let tables = Tables::random(random, (width * height) as usize, &keys);
            let room = 6 * pair.mesh.as_ref().map_or(0, Mesh::in_flight) as usize;
            pair.round(tally, room, &tables.lent());
            pair.set_link(tally, chip, random.below(6), random.one_in(2));
        }
        let tables = Tables::random(random, (width * height) as usize, &keys);
        pair.inject(tally, 6, chip, &packets::random(random, width, height, &keys), &tables.lent());
    }
    assert_eq!(mesh_in(&pair.words), pair.mesh);
    pair
}
