//! Runs bench files by the rules of this program, and prints what comes of them.
//!
//! `run_bench FILE [WORD..]` sets up what the first file says. Each word behind it is done in turn:
//! a number runs that many events, `all` those that are left, `show` prints the seats, and a further
//! FILE takes the place of the first, with no event of it done and the seats as they are.
//!
//! It prints `set-up ANSWER`, for each run `ran ANSWER COUNT` and `answers A A ..` of those events,
//! and for a seat its clock, its links and its entries. The class's table has the NHOSTS of the
//! file's first seat, and no rows. It ends with 1 where a file cannot be read, and with 2 where
//! it is called otherwise.

use std::env;
use std::fs;
use std::process::ExitCode;

use reference::bench::layout::{header, number, seat};
use reference::bench::{run, set_up, Bench, File, EVENTS};
use reference::{answer, Entry, NetTable, Settings, HOSTS, PLACES};

/// A bench with all that its calls borrow.
struct Class {
    file: Vec<u8>,
    net: NetTable,
    bench: Box<Bench>,
    entries: Vec<Entry>,
}

impl Class {
    fn set_up(file: Vec<u8>) -> Class {
        let mut class = Class {
            net: NetTable::without_rows(nhosts(&file)),
            file,
            bench: Box::new(Bench::ZERO),
            entries: vec![Entry::FRESH; HOSTS * PLACES],
        };
        let outcome = set_up(
            &class.file,
            &class.net,
            &mut class.bench,
            &mut class.entries,
        );
        println!("set-up {}", answer(&outcome));
        class
    }

    fn go_on_with(&mut self, file: Vec<u8>) {
        self.file = file;
        self.bench.done = 0;
    }

    fn run(&mut self, allowance: usize) {
        let before = self.bench.done;
        let outcome = run(
            &self.file,
            &self.net,
            &mut self.bench,
            &mut self.entries,
            allowance,
        );
        let count = outcome.unwrap_or(0);
        println!("ran {} {count}", answer(&outcome));
        let answers = self.bench.answers[before..before + count].iter();
        let answers: Vec<_> = answers.map(u8::to_string).collect();
        println!("answers {}", answers.join(" "));
    }

    fn show(&self) {
        if let Ok(file) = File::read(&self.file, &self.net) {
            for (number, settings) in file.seats.iter().enumerate() {
                self.show_seat(number, settings);
            }
        }
    }

    fn show_seat(&self, number: usize, settings: &Settings) {
        let state = &self.bench.seats[number];
        let clock = state.clock;
        println!(
            "seat {number} clock {} delta {} hold {} date {}",
            clock.clock.0, clock.delta.0, clock.hold, clock.date.0
        );
        for (link, state) in state.links[..settings.link_count].iter().enumerate() {
            let [a, b, c, d] = state.neighbor.0;
            println!(
                "seat {number} link {} neighbor {a}.{b}.{c}.{d} keep-alive {} tsp {}",
                link + 1,
                state.keep_alive,
                state.tsp
            );
        }
        let entries = &self.entries[PLACES * number..];
        for (id, entry) in entries[..settings.nhosts].iter().enumerate() {
            println!(
                "seat {number} host {id} delay {} offset {} ttl {} pid {} here {} time {}",
                entry.delay, entry.offset, entry.ttl, entry.pid, entry.here, entry.updated
            );
        }
    }
}

/// NHOSTS of a file's first seat, or 1 where it has none.
fn nhosts(file: &[u8]) -> usize {
    match file.get(header::SIZE..header::SIZE + seat::SIZE) {
        Some(record) => number(record, seat::NHOSTS) as usize,
        None => 1,
    }
}

fn read(path: &str) -> Result<Vec<u8>, ExitCode> {
    fs::read(path).map_err(|error| {
        eprintln!("{path}: {error}");
        ExitCode::FAILURE
    })
}

fn perform(words: &[String]) -> Result<(), ExitCode> {
    let Some((first, words)) = words.split_first() else {
        eprintln!("usage: run_bench FILE [COUNT | all | show | FILE]..");
        return Err(ExitCode::from(2));
    };
    let mut class = Class::set_up(read(first)?);
    for word in words {
        match (word.as_str(), word.parse()) {
            (_, Ok(allowance)) => class.run(allowance),
            ("all", _) => class.run(EVENTS),
            ("show", _) => class.show(),
            (path, _) => class.go_on_with(read(path)?),
        }
    }
    Ok(())
}

fn main() -> ExitCode {
    let words: Vec<_> = env::args().skip(1).collect();
    match perform(&words) {
        Ok(()) => ExitCode::SUCCESS,
        Err(status) => status,
    }
}
