//! The static library's call that makes tables fewer rows, as a safe call.

use crate::interface::Fewer;
use crate::lib_calls::{pointer, pointer_mut};

extern "C" {
    fn yagbolshen_fewer(
        rows: *const u32,
        rows_len: usize,
        left: *mut u32,
        left_len: usize,
        gone: *mut u32,
        gone_len: usize,
    ) -> Fewer;
}

pub fn fewer(rows: &[u32], left: &mut [u32], gone: &mut [u32]) -> Fewer {
    let (left_len, gone_len) = (left.len(), gone.len());
    unsafe { yagbolshen_fewer(pointer(rows), rows.len(), pointer_mut(left), left_len, pointer_mut(gone), gone_len) }
}
