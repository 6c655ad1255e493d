//! Replaces Rattle's `std::time`: points in time, and the clock of a system.

use crate::io;
use crate::rt::HostRuntime;

pub use core::time::Duration;

/// A system with a clock.
pub trait Clock {
    /// Returns the time since a point in time that does not change while the program runs.
    ///
    /// # Errors
    ///
    /// Returns an error of the kind `Unsupported` if the system has no clock.
    fn monotonic(&self) -> io::Result<Duration>;
}

impl Clock for HostRuntime {
    fn monotonic(&self) -> io::Result<Duration> {
        use std::sync::OnceLock;
        static START: OnceLock<std::time::Instant> = OnceLock::new();
        Ok(START.get_or_init(std::time::Instant::now).elapsed())
    }
}

/// A point in time, as measured by a [`Clock`].
#[derive(Clone, Copy, Debug, PartialEq, Eq, PartialOrd, Ord)]
pub struct Instant(Duration);

impl Instant {
    /// Returns the current time of `clock`.
    ///
    /// # Errors
    ///
    /// Returns the error of [`Clock::monotonic`].
    pub fn now(clock: &impl Clock) -> io::Result<Instant> {
        Ok(Instant(clock.monotonic()?))
    }

    /// Returns the time from this point to the current time of `clock`.
    ///
    /// # Errors
    ///
    /// Returns the error of [`Clock::monotonic`].
    pub fn elapsed(&self, clock: &impl Clock) -> io::Result<Duration> {
        Ok(Instant::now(clock)?.duration_since(*self))
    }

    /// Returns the time from the point `earlier` to this one, or 0 if `earlier` is later.
    pub fn duration_since(&self, earlier: Instant) -> Duration {
        self.0.saturating_sub(earlier.0)
    }
}
