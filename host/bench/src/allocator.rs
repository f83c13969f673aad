//! How the C library's allocator treats the buffers that `compose_float` makes anew in each call (ours makes none).

unsafe extern "C" {
    fn mallopt(parameter: i32, value: i32) -> i32;
}

const TRIM_THRESHOLD: i32 = -1;
const MMAP_THRESHOLD: i32 = -3;

/// Freed buffers are kept, as in a process that has run for long and had luck with its sizes. Without this they go back
/// to the system, as they do when a process starts, and the next call's are new to it.
pub fn keep() {
    for parameter in [TRIM_THRESHOLD, MMAP_THRESHOLD] {
        assert_eq!(unsafe { mallopt(parameter, 1 << 30) }, 1, "the allocator has no such setting");
    }
}
