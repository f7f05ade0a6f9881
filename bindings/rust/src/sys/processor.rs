//! What the library's code needs of the processor.
use std::arch::is_x86_feature_detected;

/// Panics where the processor lacks an instruction that the library is built with, those of x86-64-v2.
#[inline]
pub(super) fn check() {
    let is_there = is_x86_feature_detected!("sse4.2")
        && is_x86_feature_detected!("sse4.1")
        && is_x86_feature_detected!("ssse3")
        && is_x86_feature_detected!("sse3")
        && is_x86_feature_detected!("popcnt")
        && is_x86_feature_detected!("cmpxchg16b");
    if !is_there {
        refuse();
    }
}

#[cold]
fn refuse() -> ! {
    panic!("the processor lacks instructions of x86-64-v2, as those of SSE4.2, with which the library is built")
}
