//! The static library's functions as safe calls. The library takes any input, so a slice or a number is all it needs.
//! An empty slice is lent as NULL, as a C program would.

use crate::interface::{Fields, Found, Packed, Pass, PassCall, Read, Row};

extern "C" {
    fn yagbolshen_read(packet: *const u8, packet_len: usize) -> Read;
    fn yagbolshen_pack(fields: Fields) -> Packed;
    fn yagbolshen_pass(
        packet: *const u8,
        packet_len: usize,
        source: u32,
        width: u32,
        height: u32,
        rows: *const u32,
        rows_len: usize,
        codes: *const u8,
        codes_len: usize,
        monitor: u32,
        phase: u32,
        ready: u32,
        fixed: u32,
        room: *mut u32,
        room_len: usize,
    ) -> Pass;
    fn yagbolshen_find(rows: *const Row, rows_len: usize, key: u32) -> Found;
}

pub fn read(bytes: &[u8]) -> Read {
    unsafe { yagbolshen_read(pointer(bytes), bytes.len()) }
}

pub fn pack(fields: &Fields) -> Packed {
    unsafe { yagbolshen_pack(*fields) }
}

/// The room that is lent has the call's length.
pub fn pass_in(call: &PassCall, room: &mut [u32]) -> Pass {
    unsafe {
        yagbolshen_pass(
            pointer(call.packet),
            call.packet.len(),
            call.source,
            call.width,
            call.height,
            pointer(call.rows),
            call.rows.len(),
            pointer(call.codes),
            call.codes.len(),
            call.monitor,
            call.phase,
            call.ready,
            call.fixed,
            pointer_mut(room),
            room.len(),
        )
    }
}

pub fn find(rows: &[Row], key: u32) -> Found {
    unsafe { yagbolshen_find(pointer(rows), rows.len(), key) }
}

pub fn pointer<T>(slice: &[T]) -> *const T {
    if slice.is_empty() {
        std::ptr::null()
    } else {
        slice.as_ptr()
    }
}

pub fn pointer_mut<T>(slice: &mut [T]) -> *mut T {
    if slice.is_empty() {
        std::ptr::null_mut()
    } else {
        slice.as_mut_ptr()
    }
}
