//! The static library's call that grows a multicast tree, as a safe call.

use crate::interface::{Tree, TreeCall};
use crate::lib_calls::{pointer, pointer_mut};

extern "C" {
    fn yagbolshen_tree(
        width: u32,
        height: u32,
        source: u32,
        key: u32,
        mask: u32,
        targets: *const u32,
        targets_len: usize,
        rows: *mut u32,
        rows_len: usize,
        starts: *mut u32,
        starts_len: usize,
    ) -> Tree;
}

pub fn tree(call: &TreeCall, rows: &mut [u32], starts: &mut [u32]) -> Tree {
    let (rows_len, starts_len) = (rows.len(), starts.len());
    unsafe {
        yagbolshen_tree(
            call.width,
            call.height,
            call.source,
            call.key,
            call.mask,
            pointer(&call.targets),
            call.targets.len(),
            pointer_mut(rows),
            rows_len,
            pointer_mut(starts),
            starts_len,
        )
    }
}
