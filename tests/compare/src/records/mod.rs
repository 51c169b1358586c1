//! Records of a kept trace: one is written and one is read, by the library and by the model.

pub mod model;
mod reading;
mod tally;
mod writing;

use crate::interface::KeptCall;
use crate::random::Random;
use model::kind;
pub use tally::RecordTally;

pub fn systematic(tally: &mut RecordTally, random: &mut Random) {
    writing::systematic(tally, random);
    reading::systematic(tally, random);
}

pub fn random(tally: &mut RecordTally, random: &mut Random, count: u64) {
    for _ in 0..count {
        writing::random(tally, random);
        reading::random(tally, random);
    }
}

/// One call of each shape that a record can have.
fn each_shape(random: &mut Random) -> [KeptCall; 6] {
    let mut bytes = [0; 9];
    bytes.fill_with(|| 1 + random.below(255) as u8);
    let mut short = bytes;
    short[5..].fill(0);
    let chip = random.word() >> 16;
    let link = random.below(256);
    let none = KeptCall::default();
    [
        KeptCall { kind: kind::INJECTION, chip, length: 5, bytes: short, ..none },
        KeptCall { kind: kind::INJECTION, chip, length: 9, bytes, ..none },
        KeptCall { kind: kind::ROUND, ..none },
        KeptCall { kind: kind::LINK_CHANGE, chip, link, up: 1, ..none },
        KeptCall { kind: kind::LINK_CHANGE, chip, link, up: 0, ..none },
        KeptCall { kind: kind::REGISTERS, chip, ..none },
    ]
}
