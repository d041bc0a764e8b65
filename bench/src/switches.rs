//! How often the processor was taken from this thread, so that a disturbed run can be told.

const RUSAGE_THREAD: i32 = 1;

/// Linux's `struct rusage` on 64 bits: two times of two words each, then 14 counts.
#[repr(C)]
struct Usage {
    times: [i64; 4],
    counts: [i64; 14],
}

extern "C" {
    fn getrusage(who: i32, usage: *mut Usage) -> i32;
}

/// The thread's context switches so far, voluntary and not: the last two counts.
pub fn switches() -> i64 {
    let mut usage = Usage {
        times: [0; 4],
        counts: [0; 14],
    };
    // SAFETY: getrusage writes one `struct rusage`, which `Usage` is, and keeps no pointer.
    let failed = unsafe { getrusage(RUSAGE_THREAD, &mut usage) };
    assert_eq!(failed, 0, "getrusage");
    let _ = usage.times;
    usage.counts[12] + usage.counts[13]
}
