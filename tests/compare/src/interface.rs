//! The structs of include/yagbolshen.h, and the arguments of a call as one value.

#[repr(C)]
#[derive(Clone, Copy, Debug, Default, PartialEq, Eq)]
pub struct Packet {
    pub control: u32,
    pub nine: u32,
    pub word: u32,
    pub payload: u32,
}

#[repr(C)]
#[derive(Clone, Copy, Debug, Default, PartialEq, Eq)]
pub struct Fields {
    pub kind: u32,
    pub mark: u32,
    pub sequence: u32,
    pub stamp: u32,
    pub direct: u32,
    pub route: u32,
    pub carries: u32,
    pub parity: u32,
    pub nine: u32,
    pub word: u32,
    pub source: u32,
    pub destination: u32,
    pub payload: u32,
}

#[repr(C)]
#[derive(Clone, Copy, Debug, Default, PartialEq, Eq)]
pub struct Registers {
    pub control: u32,
    pub word: u32,
    pub payload: u32,
    pub link: u32,
    pub leg: u32,
    pub more: u32,
    pub source: u32,
    pub phase: u32,
    pub units: u32,
}

/// Passes, parity, age, length, bad local, sent, delivered, dropped, swallowed, local misses.
#[repr(C)]
#[derive(Clone, Copy, Debug, Default, PartialEq, Eq)]
pub struct Counters {
    pub count: [u32; 10],
}

#[repr(C)]
#[derive(Clone, Copy, Debug, Default, PartialEq, Eq)]
pub struct Read {
    pub refusal: u32,
    pub fields: Fields,
}

#[repr(C)]
#[derive(Clone, Copy, Debug, Default, PartialEq, Eq)]
pub struct Packed {
    pub refusal: u32,
    pub length: u32,
    pub bytes: [u8; 9],
}

#[repr(C)]
#[derive(Clone, Copy, Debug, Default, PartialEq, Eq)]
pub struct Pass {
    pub refusal: u32,
    pub errors: u32,
    pub wanted: u32,
    pub sent: u32,
    pub dropped: u32,
    pub leg_sent: u32,
    pub leg_dropped: u32,
    pub processors: u32,
    pub delivered: Packet,
    pub packets: [Packet; 6],
    pub leg: Packet,
    pub registers: Registers,
    pub counters: Counters,
    pub place: u32,
}

/// The arguments of `yagbolshen_pass`.
#[derive(Clone, Copy, Debug)]
pub struct PassCall<'a> {
    pub packet: &'a [u8],
    pub source: u32,
    pub width: u32,
    pub height: u32,
    pub rows: &'a [u32],
    pub codes: &'a [u8],
    pub monitor: u32,
    pub phase: u32,
    pub ready: u32,
    pub fixed: u32,
    /// How many numbers are lent for groups.
    pub room: usize,
}

#[repr(C)]
#[derive(Clone, Copy, Debug, Default, PartialEq, Eq)]
pub struct Size {
    pub refusal: u32,
    pub words: u32,
}

#[repr(C)]
#[derive(Clone, Copy, Debug, Default, PartialEq, Eq)]
pub struct Added {
    pub refusal: u32,
    pub added: u32,
    pub place: u32,
}

#[repr(C)]
#[derive(Clone, Copy, Debug, Default, PartialEq, Eq)]
pub struct RegistersRead {
    pub refusal: u32,
    pub registers: Registers,
}

#[repr(C)]
#[derive(Clone, Copy, Debug, Default, PartialEq, Eq)]
pub struct CountRead {
    pub refusal: u32,
    pub count: u32,
}

#[repr(C)]
#[derive(Clone, Copy, Debug, Default, PartialEq, Eq)]
pub struct MeshLook {
    pub refusal: u32,
    pub width: u32,
    pub height: u32,
    pub rounds_per_phase: u32,
    pub monitor: u32,
    pub phase: u32,
    pub rounds_in_phase: u32,
    pub in_flight: u32,
}

#[repr(C)]
#[derive(Clone, Copy, Debug, Default, PartialEq, Eq)]
pub struct LinkLook {
    pub refusal: u32,
    pub up: u32,
    pub held: u32,
    pub ready: u32,
}

/// The packet at a place of a directed link, 0 the oldest.
#[repr(C)]
#[derive(Clone, Copy, Debug, Default, PartialEq, Eq)]
pub struct Flight {
    pub refusal: u32,
    pub packet: Packet,
}

#[repr(C)]
#[derive(Clone, Copy, Debug, Default, PartialEq, Eq)]
pub struct Row {
    pub key: u32,
    pub mask: u32,
    pub route: u32,
}

/// `row` is its number modulo 2^32; both are 0 where `found` is.
#[repr(C)]
#[derive(Clone, Copy, Debug, Default, PartialEq, Eq)]
pub struct Found {
    pub found: u32,
    pub row: u32,
    pub route: u32,
}

/// One call as a trace keeps it. A field that the kind lacks is 0, and so are bytes past `length`.
#[repr(C)]
#[derive(Clone, Copy, Debug, Default, PartialEq, Eq)]
pub struct KeptCall {
    pub kind: u32,
    pub chip: u32,
    pub link: u32,
    pub up: u32,
    pub length: u32,
    pub bytes: [u8; 9],
}

/// `length` counts the record's bytes, its two length bytes among them.
#[repr(C)]
#[derive(Clone, Copy, Debug, Default, PartialEq, Eq)]
pub struct Written {
    pub refusal: u32,
    pub length: usize,
}

#[repr(C)]
#[derive(Clone, Copy, Debug, Default, PartialEq, Eq)]
pub struct RecordRead {
    pub refusal: u32,
    pub length: usize,
    pub call: KeptCall,
}

/// `at` and `added` are given beside a refusal too; `place` is that of the call that was refused.
#[repr(C)]
#[derive(Clone, Copy, Debug, Default, PartialEq, Eq)]
pub struct Replayed {
    pub refusal: u32,
    pub at: usize,
    pub added: usize,
    pub place: u32,
}

/// `rows` are left and `gone` are listed; `place` is the row of refusal 17.
#[repr(C)]
#[derive(Clone, Copy, Debug, Default, PartialEq, Eq)]
pub struct Fewer {
    pub refusal: u32,
    pub rows: u32,
    pub gone: u32,
    pub place: u32,
}

/// `rows` were written, over all chips.
#[repr(C)]
#[derive(Clone, Copy, Debug, Default, PartialEq, Eq)]
pub struct Tree {
    pub refusal: u32,
    pub rows: u32,
}

/// What a tree is grown from: `targets` has two words for each chip, its number and its processor set.
#[derive(Clone, Debug, Default)]
pub struct TreeCall {
    pub width: u32,
    pub height: u32,
    pub source: u32,
    pub key: u32,
    pub mask: u32,
    pub targets: Vec<u32>,
}

/// The tables that are lent to an injection, a round or a replay.
#[derive(Clone, Copy, Debug)]
pub struct LentTables<'a> {
    pub rows: &'a [u32],
    pub starts: &'a [u32],
    pub codes: &'a [u8],
    /// One route a chip.
    pub fixed: &'a [u32],
    /// How many numbers are lent for groups beside them.
    pub room: usize,
}
