//! More units dropped on one chip than its registers count: all links are down, and each packet is dropped for all six.

use super::layout::words_for;
use super::pair::Pair;
use super::passing::MOST_UNITS;
use super::tables::Tables;
use super::tally::MeshTally;
use crate::model::LINKS;
use crate::random::Random;

const ALL_LINKS: u32 = (1 << LINKS) - 1;
/// Multicast, with key 1.
const PACKET: [u8; 5] = [0, 0, 0, 0, 1];

pub fn all(tally: &mut MeshTally, seed: u64) {
    let lent = words_for(1, 1);
    let mut pair = Pair::new(format!("most units, of seed {seed}"), false, vec![0; lent], lent, vec![0; 6]);
    let any = Tables::random(&mut Random::new(seed), 1, &[1]);
    let tables = Tables { rows: vec![1, u32::MAX, ALL_LINKS], starts: vec![0, 1], ..any };
    pair.open(tally, 1, 1, 2, 0);
    (0..LINKS).for_each(|link| assert_eq!(pair.set_link(tally, 0, link, false), 0));

    // Six units a packet: the last before the top is the one after 65,532. The phase steps on meanwhile.
    let packets = MOST_UNITS / LINKS;
    for expected in [packets, packets + 1, packets + 1000] {
        for number in 0..expected {
            pair.inject(tally, 6, 0, &PACKET, &tables.lent());
            if number % 1000 == 0 {
                pair.round(tally, 0, &tables.lent());
            }
        }
        let kept = pair.mesh.as_ref().and_then(|mesh| mesh.chips[0].registers).expect("registers keep a unit");
        assert_eq!(kept.units, MOST_UNITS.min(expected * LINKS), "units of {expected} packets");
        pair.read_registers(tally, 0);
    }
}
