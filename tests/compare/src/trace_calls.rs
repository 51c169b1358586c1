//! The static library's calls about a kept trace, made safe as in lib_calls.rs.

use crate::interface::{KeptCall, LentTables, RecordRead, Replayed, Written};
use crate::lib_calls::{pointer, pointer_mut};

extern "C" {
    fn yagbolshen_write_record(trace: *mut u8, trace_len: usize, call: KeptCall) -> Written;
    fn yagbolshen_read_record(trace: *const u8, trace_len: usize) -> RecordRead;
    fn yagbolshen_replay(
        mesh: *mut u32,
        mesh_len: usize,
        log: *mut u32,
        log_len: usize,
        trace: *const u8,
        trace_len: usize,
        rows: *const u32,
        rows_len: usize,
        starts: *const u32,
        starts_len: usize,
        codes: *const u8,
        codes_len: usize,
        fixed: *const u32,
        fixed_len: usize,
        room: *mut u32,
        room_len: usize,
    ) -> Replayed;
}

pub fn write_record(room: &mut [u8], call: &KeptCall) -> Written {
    unsafe { yagbolshen_write_record(pointer_mut(room), room.len(), *call) }
}

pub fn read_record(trace: &[u8]) -> RecordRead {
    unsafe { yagbolshen_read_record(pointer(trace), trace.len()) }
}

pub fn replay_in(mesh: &mut [u32], log: &mut [u32], trace: &[u8], tables: &LentTables, room: &mut [u32]) -> Replayed {
    unsafe {
        yagbolshen_replay(
            pointer_mut(mesh),
            mesh.len(),
            pointer_mut(log),
            log.len(),
            pointer(trace),
            trace.len(),
            pointer(tables.rows),
            tables.rows.len(),
            pointer(tables.starts),
            tables.starts.len(),
            pointer(tables.codes),
            tables.codes.len(),
            pointer(tables.fixed),
            tables.fixed.len(),
            pointer_mut(room),
            room.len(),
        )
    }
}
