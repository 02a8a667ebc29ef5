//! The one clock: a free-running 32-bit millisecond counter.

use std::time::Instant;

/// Counts from its start, and goes round.
#[derive(Clone, Copy, Debug)]
pub struct Clock {
    start: Instant,
    first: u32,
}

impl Clock {
    /// A clock whose first reading is given.
    pub fn starting_at(first: u32) -> Clock {
        Clock {
            start: Instant::now(),
            first,
        }
    }

    /// The milliseconds counted, modulo 2^32.
    pub fn reading(&self) -> u32 {
        self.first
            .wrapping_add(self.start.elapsed().as_millis() as u32)
    }
}

#[cfg(test)]
mod tests {
    use super::*;
    use std::thread;
    use std::time::Duration;

    #[test]
    fn goes_round() {
        let clock = Clock::starting_at(u32::MAX);
        thread::sleep(Duration::from_millis(5));
        let reading = clock.reading();
        assert!((4..60_000).contains(&reading), "{reading}");
    }
}
