//! Times as the proved code has them, in milliseconds since any start, and as `Duration`s since that start.

use core::time::Duration;

/// The milliseconds of a current time: what is less than one of them is left out. The latest is 2^64 - 1.
pub(crate) fn current(time: Duration) -> u64 {
    u64::try_from(time.as_millis()).unwrap_or(u64::MAX)
}

/// The first millisecond at or after a deadline, so that nothing ends early.
pub(crate) fn deadline(time: Duration) -> u64 {
    u64::try_from(time.as_nanos().div_ceil(1_000_000)).unwrap_or(u64::MAX)
}

/// A length of time in milliseconds, rounded up; 2^32 - 1 if it is longer.
pub(crate) fn length(time: Duration) -> u32 {
    u32::try_from(deadline(time)).unwrap_or(u32::MAX)
}

/// These milliseconds.
pub(crate) fn millis(milliseconds: impl Into<u64>) -> Duration {
    Duration::from_millis(milliseconds.into())
}
