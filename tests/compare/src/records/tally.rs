//! How often each thing that writing or reading a record can do was reached.

use super::model::{kind, refusal};
use crate::interface::{KeptCall, RecordRead, Written};
use crate::tally::{count, print_all, print_line, Events};

pub struct WriteCase {
    pub call: KeptCall,
    pub room: usize,
    pub answer: Written,
}

pub struct ReadCase {
    /// How many bytes were given, and the first of them; 0 where there are none.
    given: usize,
    first: [u8; 8],
    answer: RecordRead,
}

impl ReadCase {
    pub fn new(trace: &[u8], answer: RecordRead) -> ReadCase {
        let mut first = [0; 8];
        first.iter_mut().zip(trace).for_each(|(first, &byte)| *first = byte);
        ReadCase { given: trace.len(), first, answer }
    }

    /// What the two length bytes say.
    fn body(&self) -> usize {
        usize::from(self.first[0]) << 8 | usize::from(self.first[1])
    }

    fn is_cut_short(&self) -> bool {
        self.answer.refusal == refusal::CUT_SHORT
    }

    fn has_no_version(&self) -> bool {
        self.answer.refusal == refusal::VERSION
    }

    /// Refused by 14, with this kind byte.
    fn has_no_call(&self, kind: u8) -> bool {
        self.answer.refusal == refusal::NO_CALL && self.body() > 1 && self.first[3] == kind
    }
}

/// What a record can hold.
const SHAPES: Events<KeptCall> = &[
    ("an injection of five bytes", |call| call.kind == kind::INJECTION && call.length == 5),
    ("an injection of nine bytes", |call| call.kind == kind::INJECTION && call.length == 9),
    ("a round", |call| call.kind == kind::ROUND),
    ("a link taken down", |call| call.kind == kind::LINK_CHANGE && call.up == 0),
    ("a link brought up", |call| call.kind == kind::LINK_CHANGE && call.up == 1),
    ("a read of registers", |call| call.kind == kind::REGISTERS),
];

/// Why a call cannot be kept as it is.
const REASONS: Events<KeptCall> = &[
    ("kind", |call| call.kind == 0 || call.kind > 4),
    ("packet length", |call| call.kind == kind::INJECTION && call.length != 5 && call.length != 9),
    ("chip above 65,535", |call| has_chip(call) && call.chip > 65_535),
    ("link above 255", |call| call.kind == kind::LINK_CHANGE && call.link > 255),
    ("up above 1", |call| call.kind == kind::LINK_CHANGE && call.up > 1),
    ("a chip for a round", |call| call.kind == kind::ROUND && call.chip != 0),
    ("a link that the kind lacks", |call| is_other(call, kind::LINK_CHANGE) && call.link != 0),
    ("a link state that the kind lacks", |call| is_other(call, kind::LINK_CHANGE) && call.up != 0),
    ("a packet length that the kind lacks", |call| is_other(call, kind::INJECTION) && call.length != 0),
    ("a byte that the kind lacks", |call| is_other(call, kind::INJECTION) && call.bytes != [0; 9]),
    ("a byte past the packet", |call| call.kind == kind::INJECTION && call.length == 5 && call.bytes[5..] != [0; 4]),
];

fn has_chip(call: &KeptCall) -> bool {
    matches!(call.kind, kind::INJECTION | kind::LINK_CHANGE | kind::REGISTERS)
}

fn is_other(call: &KeptCall, kind: u32) -> bool {
    (1..=4).contains(&call.kind) && call.kind != kind
}

const WRITE: Events<WriteCase> = &[
    ("room as long as the record", |case| case.answer.refusal == 0 && case.room == case.answer.length),
    ("room longer than the record", |case| case.answer.refusal == 0 && case.room > case.answer.length),
    ("refusal 14, with no room either", |case| case.answer.refusal == refusal::NO_CALL && case.room == 0),
    ("refusal 27, no room", |case| case.answer.refusal == refusal::ROOM && case.room == 0),
    ("refusal 27, room for 14 bytes of 15", |case| case.answer.refusal == refusal::ROOM && case.room == 14),
    ("refusal 27, room for 3 bytes of 4", |case| {
        case.answer.refusal == refusal::ROOM && case.room == 3 && case.call.kind == kind::ROUND
    }),
];

const READ: Events<ReadCase> = &[
    ("no more behind it", |case| case.answer.refusal == 0 && case.given == case.answer.length),
    ("more behind it", |case| case.answer.refusal == 0 && case.given > case.answer.length),
    ("refusal 12, no bytes", |case| case.is_cut_short() && case.given == 0),
    ("refusal 12, one byte", |case| case.is_cut_short() && case.given == 1),
    ("refusal 12, no body", |case| case.is_cut_short() && case.given == 2),
    ("refusal 12, some of the body", |case| case.is_cut_short() && case.given > 2),
    ("refusal 12, one byte of 65,537 short", |case| case.is_cut_short() && case.given == 65_536),
    ("refusal 12, version wrong too", |case| case.is_cut_short() && case.given > 2 && case.first[2] != 1),
    ("refusal 13, empty body", |case| case.has_no_version() && case.body() == 0),
    ("refusal 13, version", |case| case.has_no_version() && case.body() != 0),
    ("refusal 13, kind wrong too", |case| case.has_no_version() && case.body() > 1 && case.first[3] > 4),
    ("refusal 14, no kind", |case| case.answer.refusal == refusal::NO_CALL && case.body() == 1),
    ("refusal 14, kind 0", |case| case.has_no_call(0)),
    ("refusal 14, kind 5", |case| case.has_no_call(5)),
    ("refusal 14, kind 255", |case| case.has_no_call(255)),
    ("refusal 14, length of an injection", |case| case.has_no_call(1)),
    ("refusal 14, length of a round", |case| case.has_no_call(2)),
    ("refusal 14, length of a link change", |case| case.has_no_call(3) && case.body() != 6),
    ("refusal 14, length of a read", |case| case.has_no_call(4)),
    ("refusal 14, link state", |case| case.has_no_call(3) && case.body() == 6 && case.first[7] > 1),
];

#[derive(Default)]
pub struct RecordTally {
    written: [u64; SHAPES.len()],
    write: [u64; WRITE.len()],
    /// Calls that cannot be kept for one reason alone.
    reasons: [u64; REASONS.len()],
    many_reasons: u64,
    read_shapes: [u64; SHAPES.len()],
    read: [u64; READ.len()],
}

impl RecordTally {
    pub fn write(&mut self, case: &WriteCase) {
        count(WRITE, &mut self.write, case);
        let reasons = REASONS.iter().filter(|(_, holds)| holds(&case.call)).count();
        assert_eq!(reasons != 0, case.answer.refusal == refusal::NO_CALL, "{:?}", case.call);
        match reasons {
            0 if case.answer.refusal == 0 => count(SHAPES, &mut self.written, &case.call),
            0 => {}
            1 => count(REASONS, &mut self.reasons, &case.call),
            _ => self.many_reasons += 1,
        }
    }

    pub fn read(&mut self, case: &ReadCase) {
        count(READ, &mut self.read, case);
        if case.answer.refusal == 0 {
            count(SHAPES, &mut self.read_shapes, &case.answer.call);
        }
    }

    /// Prints a line for each, and answers whether all were reached.
    pub fn print(&self) -> bool {
        let accepted =
            print_all("write record, ", SHAPES, &self.written) & print_all("write record, ", WRITE, &self.write);
        let refused = print_all("write record, refusal 14, ", REASONS, &self.reasons)
            & print_line("write record, refusal 14, for many reasons", self.many_reasons);
        let read = print_all("read record, ", SHAPES, &self.read_shapes) & print_all("read record, ", READ, &self.read);
        accepted & refused & read
    }
}
