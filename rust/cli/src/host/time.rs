//! Times of a clock.

use super::rt::Clock;
use std::io;

pub use std::time::Duration;

/// A time.
#[derive(Clone, Copy)]
pub struct Instant(std::time::Instant);

impl Instant {
    /// The time that it is.
    pub fn now<R: Clock>(rt: &R) -> io::Result<Instant> {
        Ok(Instant(rt.now()))
    }

    /// How long ago another time was.
    pub fn duration_since(&self, earlier: Instant) -> Duration {
        self.0.duration_since(earlier.0)
    }
}

#[cfg(test)]
mod tests {
    use super::super::rt::HostRuntime;
    use super::*;

    #[test]
    fn time_passes() {
        let wait = Duration::from_millis(20);
        let before = Instant::now(&HostRuntime).unwrap();
        std::thread::sleep(wait);
        let after = Instant::now(&HostRuntime).unwrap();
        assert!(after.duration_since(before) >= wait);
        assert_eq!(before.duration_since(after), Duration::ZERO);
    }
}
