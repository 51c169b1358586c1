//! Records to put into a trace: such as no writer writes, such as a mesh refuses, and some that it passes, of type 11 or as an
//! error.

use crate::interface::KeptCall;
use crate::random::Random;
use crate::records::model::{kind, record_of};

/// Every record that stops a replay wherever it stands, for a mesh of so many chips, and some that do not.
pub fn all(random: &mut Random, chips: u32) -> Vec<Vec<u8>> {
    let chip = random.below(chips);
    let mut records = without_call(chip);
    records.extend(refused_by_the_mesh(chip, chips).iter().map(|call| record_of(call).expect("it can be kept")));
    records.extend([0x01, 0xc1, 0xc0, 0xd1, 0xe1, 0xf0].map(|control| taken(chip, control)));
    records
}

/// 13 and 14.
fn without_call(chip: u32) -> Vec<Vec<u8>> {
    let [high, low] = (chip as u16).to_be_bytes();
    let mut records = vec![vec![0, 0], vec![0, 1, 1], vec![0, 1, 2]];
    for version in [0, 2, 128, 255] {
        records.push(vec![0, 2, version, 2]);
        records.push(vec![0, 4, version, 4, high, low]);
        records.push(vec![0, 6, version, 3, high, low, 0, 1]);
        records.push(vec![0, 9, version, 1, high, low, 0, 0, 0, 0, 1]);
    }
    for kind in [0, 5, 6, 128, 255] {
        records.push(vec![0, 2, 1, kind]);
        records.push(vec![0, 6, 1, kind, high, low, 0, 0]);
    }
    for (kind, lengths) in [(1, 2..15), (2, 3..5), (3, 2..9), (4, 2..7)] {
        let right: &[u8] = [&[9, 13][..], &[2], &[6], &[4]][kind as usize - 1];
        for length in lengths.filter(|length| !right.contains(length)) {
            let mut record = vec![0, length, 1, kind, high, low];
            record.resize(2 + usize::from(length), 0);
            records.push(record);
        }
    }
    records.push(vec![1, 2, 1, 2]);
    records.extend([2, 3, 128, 255].map(|up| vec![0, 6, 1, 3, high, low, 0, up]));
    records
}

/// 9 and 4.
fn refused_by_the_mesh(chip: u32, chips: u32) -> Vec<KeptCall> {
    let none = KeptCall::default();
    let inject = |chip: u32, control: u8| {
        let bytes = [control, 0, 0, 0, 1, 0, 0, 0, 0];
        KeptCall { kind: kind::INJECTION, chip, length: 5, bytes, ..none }
    };
    let mut calls = vec![inject(chip, 0xa0), inject(chip, 0xbf)];
    for chip in [chips, chips + 1, 60_000, 65_535] {
        calls.push(inject(chip, 0));
        calls.push(KeptCall { kind: kind::LINK_CHANGE, chip, up: 1, ..none });
        calls.push(KeptCall { kind: kind::REGISTERS, chip, ..none });
    }
    calls.extend([6, 7, 200, 255].map(|link| KeptCall { kind: kind::LINK_CHANGE, chip, link, ..none }));
    // A chip that is not there goes before a packet that is not taken.
    calls.push(inject(chips, 0xa0));
    calls
}

/// A packet that is taken: of even parity, of type 11, or a bad local one.
fn taken(chip: u32, control: u8) -> Vec<u8> {
    let [high, low] = (chip as u16).to_be_bytes();
    vec![0, 9, 1, 1, high, low, control, 0, 0, 0, 1]
}
