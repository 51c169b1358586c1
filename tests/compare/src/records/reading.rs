//! Bytes to read a record from: written records cut and changed at each byte, each kind with each length, and any bytes.

use super::model;
use super::tally::{ReadCase, RecordTally};
use super::{each_shape, KeptCall};
use crate::compare::same;
use crate::random::Random;
use crate::trace_calls;

/// The most bytes that a length can ask for.
const MOST_BODY: usize = 65_535;

pub fn systematic(tally: &mut RecordTally, random: &mut Random) {
    for call in each_shape(random) {
        changed_bytes(tally, random, &call);
    }
    kinds_by_length(tally, random);
    every_length(tally, random);
}

/// A record cut at each byte and with each byte set to each value, alone and with more behind it.
fn changed_bytes(tally: &mut RecordTally, random: &mut Random, call: &KeptCall) {
    let record = model::record_of(call).expect("each shape of call can be kept");
    let mut trace = record.clone();
    trace.extend((0..20).map(|_| random.word() as u8));
    (0..=trace.len()).for_each(|length| read(tally, &trace[..length]));
    for at in 0..record.len() {
        for value in 0..=255 {
            trace[at] = value;
            read(tally, &trace[..record.len()]);
            read(tally, &trace);
        }
        trace[at] = record[at];
    }
}

/// Each version near 1 and each kind, with each length of body, as long as it says and one byte short.
fn kinds_by_length(tally: &mut RecordTally, random: &mut Random) {
    for version in [0, 1, 2, 3, 128, 255] {
        for kind in 0..=255 {
            for length in 0..=20 {
                let mut trace = vec![0, length, version, kind];
                trace.extend((0..20).map(|_| random.pick(&[0, 1, 2, 255]) as u8));
                read(tally, &trace[..2 + length as usize]);
                read(tally, &trace[..1 + length as usize]);
            }
        }
    }
}

/// Each number that the two length bytes can say, with as many bytes behind them or one fewer.
fn every_length(tally: &mut RecordTally, random: &mut Random) {
    for call in each_shape(random) {
        let mut trace = model::record_of(&call).expect("each shape of call can be kept");
        trace.resize(2 + MOST_BODY, 0);
        for length in 0..=MOST_BODY {
            trace[..2].copy_from_slice(&(length as u16).to_be_bytes());
            read(tally, &trace[..2 + length]);
            read(tally, &trace[..1 + length]);
        }
    }
}

/// Bytes that are mostly near a record's.
pub fn random(tally: &mut RecordTally, random: &mut Random) {
    let mut trace = [0; 24];
    trace.fill_with(|| random.word() as u8);
    let length = random.below(25) as usize;
    if !random.one_in(8) {
        let bodies = [0, 1, 2, 3, 4, 5, 6, 7, 8, 9, 10, 13, 14];
        let usual = [random.pick(&[0, 0, 0, 0, 0, 0, 0, 1]), random.pick(&bodies), random.pick(&[1, 1, 1, 1, 1, 0, 2])];
        let kind = random.below(6);
        usual.iter().chain([&kind]).zip(&mut trace).for_each(|(&value, byte)| *byte = value as u8);
        if random.one_in(2) {
            trace[7] = random.below(3) as u8;
        }
    }
    read(tally, &trace[..length]);
}

fn read(tally: &mut RecordTally, trace: &[u8]) {
    let answer = model::read(trace);
    same("read record", &trace, &answer, &trace_calls::read_record(trace));
    tally.read(&ReadCase::new(trace, answer));
}
