//! The coverage counters of the reference program, which runs in this process. The compiler adds one to nearly every
//! branch, and the runtime of its profiler knows where they are.

use std::slice;

extern "C" {
    fn __llvm_profile_begin_counters() -> *mut u64;
    fn __llvm_profile_end_counters() -> *mut u64;
    fn __llvm_profile_reset_counters();
}

/// Sets every counter to 0.
pub fn clear() {
    // SAFETY: only the reference program has counters, and it runs on this thread alone.
    unsafe { __llvm_profile_reset_counters() }
}

/// Every counter's count since they were cleared.
pub fn counts() -> Vec<u64> {
    // SAFETY: the counters are one section of this program, and only this thread writes to it.
    unsafe {
        let first = __llvm_profile_begin_counters();
        let count = __llvm_profile_end_counters().offset_from(first);
        slice::from_raw_parts(first, count as usize).to_vec()
    }
}
