//! How far a long run is, on standard error.

use std::time::{Duration, Instant};

/// A short run says nothing; a longer one a line after each such while.
const WHILE: Duration = Duration::from_secs(3);

pub struct Progress {
    minutes: i64,
    last: Instant,
}

impl Progress {
    pub fn new(minutes: i64) -> Progress {
        Progress {
            minutes,
            last: Instant::now(),
        }
    }

    /// Says that `minute` minutes of the room are done, if the last line is old enough.
    pub fn show(&mut self, minute: i64) {
        if self.last.elapsed() >= WHILE {
            eprintln!("minute {minute} of {} ...", self.minutes);
            self.last = Instant::now();
        }
    }
}
