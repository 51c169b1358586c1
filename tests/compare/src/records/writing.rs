//! Calls to write: each shape of record with one field or two set to anything, in rooms from none to more than enough.

use super::each_shape;
use super::model::{self, refusal};
use super::tally::{RecordTally, WriteCase};
use crate::compare::same;
use crate::interface::{KeptCall, RecordRead, Written};
use crate::random::Random;
use crate::trace_calls;

/// The longest record has 15 bytes.
const MOST_ROOM: usize = 20;
/// Bytes before and behind the room, which no call may touch.
const CANARY: usize = 8;
const FIELDS: u32 = 14;
const VALUES: [u32; 22] = [
    0,
    1,
    2,
    3,
    4,
    5,
    6,
    8,
    9,
    10,
    13,
    127,
    128,
    255,
    256,
    257,
    65_535,
    65_536,
    65_537,
    0x8000_0000,
    0x8000_0001,
    u32::MAX,
];

pub fn systematic(tally: &mut RecordTally, random: &mut Random) {
    for call in each_shape(random) {
        for first in 0..FIELDS {
            for value in VALUES {
                let mut one_set = call;
                set(&mut one_set, first, value);
                (0..=MOST_ROOM).for_each(|room| write(tally, random, room, &one_set));
                for second in first + 1..FIELDS {
                    for value in VALUES {
                        let mut two_set = one_set;
                        set(&mut two_set, second, value);
                        let room = random.below(MOST_ROOM as u32 + 1) as usize;
                        write(tally, random, room, &two_set);
                    }
                }
            }
        }
    }
}

pub fn random(tally: &mut RecordTally, random: &mut Random) {
    let mut call = each_shape(random)[random.below(6) as usize];
    for _ in 0..random.pick(&[0, 0, 1, 1, 2, 5]) {
        let any = random.word() >> random.below(32);
        let value = VALUES[random.below(VALUES.len() as u32) as usize];
        set(&mut call, random.below(FIELDS), random.pick(&[any, value]));
    }
    let room = random.below(MOST_ROOM as u32 + 1) as usize;
    write(tally, random, room, &call);
}

fn set(call: &mut KeptCall, field: u32, value: u32) {
    match field {
        0 => call.kind = value,
        1 => call.chip = value,
        2 => call.link = value,
        3 => call.up = value,
        4 => call.length = value,
        byte => call.bytes[byte as usize - 5] = value as u8,
    }
}

/// What is written reads back as the call.
fn write(tally: &mut RecordTally, random: &mut Random, room: usize, call: &KeptCall) {
    let mut memory = [0; CANARY + MOST_ROOM + CANARY];
    memory.fill_with(|| random.word() as u8);
    let mut expected = memory;
    let at = random.below(CANARY as u32) as usize;
    let answer = match model::record_of(call) {
        Err(refusal) => Written { refusal, length: 0 },
        Ok(record) if record.len() > room => Written { refusal: refusal::ROOM, length: 0 },
        Ok(record) => {
            expected[at..at + record.len()].copy_from_slice(&record);
            Written { refusal: 0, length: record.len() }
        }
    };
    let written = trace_calls::write_record(&mut memory[at..at + room], call);
    same("write record, its answer", &(call, room), &answer, &written);
    same("write record, the memory about the room", &(call, room), &expected, &memory);
    if answer.refusal == 0 {
        let back = RecordRead { refusal: 0, length: answer.length, call: *call };
        let read = trace_calls::read_record(&memory[at..at + room]);
        same("read record of what was written", &(call, room), &back, &read);
    }
    tally.write(&WriteCase { call: *call, room, answer });
}
