//! The quickest and the median time of two programs that take turns, and the machine's load.

use std::time::{Duration, Instant};

/// Makes a call that many times.
pub type Batch<'a> = Box<dyn FnMut(u32) + 'a>;

/// How long a batch takes at least.
const BATCH: Duration = Duration::from_micros(500);

/// The quickest batch's nanoseconds for one call, and the median's.
#[derive(Clone, Copy)]
pub struct Times {
    pub quickest: f64,
    pub median: f64,
}

fn time(batch: &mut Batch, count: u32) -> Duration {
    let begin = Instant::now();
    batch(count);
    begin.elapsed()
}

/// The number of calls that a batch needs.
fn enough(batch: &mut Batch) -> u32 {
    let mut count = 1;
    while time(batch, count) < BATCH {
        count *= 2;
    }
    count
}

/// The times of two programs, in turns.
pub fn in_turns(rounds: usize, mut programs: [Batch; 2]) -> [Times; 2] {
    let counts = programs.each_mut().map(enough);
    let mut times = [Vec::new(), Vec::new()];
    for _ in 0..rounds {
        for (i, program) in programs.iter_mut().enumerate() {
            let taken = time(program, counts[i]).as_nanos() as f64;
            times[i].push(taken / f64::from(counts[i]));
        }
    }
    times.map(|mut times| {
        times.sort_by(f64::total_cmp);
        Times {
            quickest: times[0],
            median: times[times.len() / 2],
        }
    })
}

/// The number of rounds that the first argument names, or another.
pub fn rounds(usual: usize) -> usize {
    match std::env::args().nth(1).map(|word| word.parse()) {
        None => usual,
        Some(Ok(rounds)) if rounds > 0 => rounds,
        Some(_) => {
            eprintln!("the argument is the number of rounds, at least 1");
            std::process::exit(2);
        }
    }
}

pub fn print_load(when: &str) {
    let load = std::fs::read_to_string("/proc/loadavg").unwrap_or_default();
    println!("load {when}: {}", load.trim());
}

/// The heading of a table whose lines `print_times` prints.
pub fn print_heading(rounds: usize, what: &str, other: &str) {
    println!("nanoseconds for one call: the quickest of {rounds} batches | the median");
    println!("{what:<36}  library {other:>9}  ratio |  library {other:>9}  ratio");
}

pub fn print_times(name: &str, [library, other]: [Times; 2]) {
    print!("{name:<36}");
    for (of, end) in [
        (|times: Times| times.quickest, " |"),
        (|times: Times| times.median, "\n"),
    ] as [(fn(Times) -> f64, &str); 2]
    {
        let (a, b) = (of(library), of(other));
        print!("{a:>9.1} {b:>9.1}{:>7.2}{end}", a / b);
    }
}
