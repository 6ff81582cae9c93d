//! The time of a cache, in nanoseconds since an origin of its own.

use std::fmt;
use std::sync::Arc;
use std::sync::atomic::{AtomicBool, Ordering};
use std::time::{Duration, Instant};

/// Where a cache's time comes from.
#[derive(Clone)]
pub(crate) enum Source {
    /// The system's monotonic clock, since this moment.
    System(Instant),
    /// A clock of the user's.
    User(Arc<dyn Fn() -> Duration + Send + Sync>),
}

/// A cache's clock, which is read only once something can expire.
pub(crate) struct Clock {
    source: Source,
    expires: AtomicBool,
}

// Times are 64 bits of nanoseconds, 584 years. What is later counts as that.
pub(crate) fn nanoseconds(time: Duration) -> u64 {
    u64::try_from(time.as_nanos()).unwrap_or(u64::MAX)
}

impl Clock {
    pub(crate) fn new(source: Source, expires: bool) -> Self {
        Clock { source, expires: AtomicBool::new(expires) }
    }

    /// Returns the current time, or 0 while no record was given a time to live: then nobody compares it.
    #[inline(always)]
    pub(crate) fn now(&self) -> u64 {
        if self.expires.load(Ordering::Relaxed) { self.read() } else { 0 }
    }

    /// Returns when a record expires that is inserted now with this time to live.
    #[inline]
    pub(crate) fn expiry(&self, time_to_live: Option<Duration>) -> Option<u64> {
        let time_to_live = time_to_live?;
        self.expires.store(true, Ordering::Relaxed);
        Some(self.read().saturating_add(nanoseconds(time_to_live)))
    }

    /// Returns the current time, also for a call during which others give the first time to live.
    #[cold]
    #[inline(never)]
    pub(crate) fn read(&self) -> u64 {
        match &self.source {
            Source::System(start) => nanoseconds(start.elapsed()),
            Source::User(clock) => nanoseconds(clock()),
        }
    }
}

impl fmt::Debug for Clock {
    fn fmt(&self, f: &mut fmt::Formatter<'_>) -> fmt::Result {
        f.write_str("Clock")
    }
}
