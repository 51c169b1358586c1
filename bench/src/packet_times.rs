//! Reading and packing.

use crate::interface::{Fields, Packed, Read};
use crate::{lib_calls, model, timing};

const NINE: [u8; 9] = [0x17, 0x12, 0x34, 0x56, 0x78, 0x9a, 0xbc, 0xde, 0xf0];

pub fn all(rounds: usize) {
    let library: fn(&[u8; 9]) -> Read = |bytes| lib_calls::read(bytes);
    let plain: fn(&[u8; 9]) -> Read = |bytes| model::read(bytes);
    timing::line("read, nine bytes", rounds, &NINE, [library, plain]);

    let fields = model::read(&NINE).fields;
    let library: fn(&Fields) -> Packed = lib_calls::pack;
    let plain: fn(&Fields) -> Packed = model::pack;
    let handed_over: fn(&Fields) -> Packed = |fields| pack_by_value(*fields);
    timing::line("pack, nine bytes", rounds, &fields, [library, plain]);
    timing::line("pack, nine bytes, both by value", rounds, &fields, [library, handed_over]);
}

/// Plain Rust behind the interface that the library has: the fields are copied to the call.
#[inline(never)]
extern "C" fn pack_by_value(fields: Fields) -> Packed {
    model::pack(&fields)
}
