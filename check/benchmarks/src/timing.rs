//! Times two programs in turns, so that what slows the machine slows both.

use crate::case::{Batch, Case};
use std::time::{Duration, Instant};

/// How often each case is timed; the median is taken.
pub const ROUNDS: usize = 41;

/// How long one batch of calls takes at least.
const BATCH: Duration = Duration::from_millis(2);

/// The median nanoseconds for one call.
pub struct Medians {
    pub library: f64,
    pub reference: f64,
}

/// The medians of each case.
pub fn measure(cases: &mut [Case]) -> Vec<Medians> {
    let counts: Vec<u32> = cases.iter_mut().map(batch_size).collect();
    let mut library = vec![Vec::new(); cases.len()];
    let mut reference = library.clone();
    for _ in 0..ROUNDS {
        for (i, case) in cases.iter_mut().enumerate() {
            library[i].push(nanoseconds(&mut case.library, counts[i]));
            reference[i].push(nanoseconds(&mut case.reference, counts[i]));
        }
    }
    library
        .into_iter()
        .zip(reference)
        .map(|(library, reference)| Medians {
            library: median(library),
            reference: median(reference),
        })
        .collect()
}

/// How often each of several programs is timed in turns, and how long one turn takes at least: many
/// short turns, most of which no other work of the machine cuts in on.
pub const TURNS: usize = 401;
const TURN: Duration = Duration::from_micros(200);

/// The median nanoseconds for one call of each of several programs that do the same.
pub fn in_turns(programs: &mut [Batch]) -> Vec<f64> {
    let counts: Vec<u32> = programs.iter_mut().map(enough).collect();
    let mut times = vec![Vec::new(); programs.len()];
    for _ in 0..TURNS {
        for (i, program) in programs.iter_mut().enumerate() {
            times[i].push(nanoseconds(program, counts[i]));
        }
    }
    times.into_iter().map(median).collect()
}

/// How many calls of a program take a turn.
fn enough(program: &mut Batch) -> u32 {
    let mut count = 1;
    while time(program, count) < TURN {
        count *= 2;
    }
    count
}

/// How many calls make a batch: enough for the faster program to take long enough.
fn batch_size(case: &mut Case) -> u32 {
    let mut count = 1;
    while time(&mut case.library, count).min(time(&mut case.reference, count)) < BATCH {
        count *= 2;
    }
    count
}

fn time(batch: &mut Batch, count: u32) -> Duration {
    let start = Instant::now();
    batch(count);
    start.elapsed()
}

/// The nanoseconds for one call of a batch.
fn nanoseconds(batch: &mut Batch, count: u32) -> f64 {
    time(batch, count).as_nanos() as f64 / f64::from(count)
}

fn median(mut times: Vec<f64>) -> f64 {
    times.sort_by(f64::total_cmp);
    times[times.len() / 2]
}
