//! Packets to inject: mostly without error, with keys that the tables know.

use crate::model::{kind, kind_of};
use crate::random::Random;

/// A packet that injection takes, if the call is otherwise accepted.
pub fn random(random: &mut Random, width: u32, height: u32, keys: &[u32]) -> Vec<u8> {
    let kind = random.pick(&[kind::MC, kind::MC, kind::MC, kind::MC, kind::FIXED, kind::FIXED, kind::P2P, kind::NN]);
    let any = random.word();
    let word = match kind {
        kind::MC | kind::FIXED if !random.one_in(8) => keys[random.below(keys.len() as u32) as usize],
        kind::P2P if !random.one_in(8) => any << 16 | random.below(width + 1) << 8 | random.below(height + 1),
        _ => any,
    };
    let middle = match kind {
        kind::NN => random.below(8) << 2,
        kind::MC | kind::FIXED if !random.one_in(16) => random.below(4) << 2,
        _ => random.below(16) << 2,
    };
    let nine = random.one_in(2);
    let carries = nine != random.one_in(32);
    let payload = if nine { random.word() } else { 0 };
    let even = kind << 6 | middle | u32::from(carries) << 1;
    let right = 1 ^ (even.count_ones() + word.count_ones() + payload.count_ones()) & 1;
    let parity = right ^ u32::from(random.one_in(32));
    let mut bytes = vec![(even | parity) as u8];
    bytes.extend_from_slice(&word.to_be_bytes());
    if nine {
        bytes.extend_from_slice(&payload.to_be_bytes());
    }
    bytes
}

/// Whether a packet is of type 11.
pub fn is_fixed(packet: &[u8]) -> bool {
    packet.first().is_some_and(|&control| kind_of(control.into()) == kind::FIXED)
}

pub type PacketDamage = fn(&mut Vec<u8>, &mut Random);

/// Each gives a packet that was taken a reason to be refused: 2, 4.
pub const PACKET_DAMAGES: [PacketDamage; 2] = [
    |packet, random| packet.resize(random.pick(&[0, 1, 2, 3, 4, 6, 7, 8, 10, 11, 12]) as usize, 0),
    |packet, _| packet.iter_mut().take(1).for_each(|control| *control = *control & 0x1f | 0xa0),
];
