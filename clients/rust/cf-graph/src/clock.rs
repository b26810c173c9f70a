//! The computer's clock.

/// What the C library has for a moment on x86-64 Linux, for which the library for C is.
#[repr(C)]
struct Timespec {
    seconds: i64,
    nanos: i64,
}

extern "C" {
    fn clock_gettime(clock: i32, moment: *mut Timespec) -> i32;
}

const MONOTONIC: i32 = 1;

/// Nanoseconds of the clock that [`Instant`](std::time::Instant) reads, which goes on evenly, since some moment of the past. An `Instant` and
/// the difference of two take three times as many instructions.
///
/// ```
/// let begun = cf_graph::nanos();
/// assert!(begun > 0 && cf_graph::nanos() >= begun);
/// ```
#[must_use]
#[inline]
pub fn nanos() -> u64 {
    let mut moment = Timespec { seconds: 0, nanos: 0 };
    // SAFETY: pointers: `moment` is a local. The clock is one that each Linux has.
    unsafe { clock_gettime(MONOTONIC, &mut moment) };
    (moment.seconds as u64).wrapping_mul(1_000_000_000).wrapping_add(moment.nanos as u64)
}
