//! Pass and replay by the library with no room for groups, as all calls are timed that the room is not about.

use crate::interface::{LentTables, Pass, PassCall, Replayed};
use crate::{lib_calls, trace_calls};

pub fn pass(call: &PassCall) -> Pass {
    lib_calls::pass_in(call, &mut [])
}

pub fn replay(mesh: &mut [u32], log: &mut [u32], trace: &[u8], tables: &LentTables) -> Replayed {
    trace_calls::replay_in(mesh, log, trace, tables, &mut [])
}
