//! A room of HELLO hosts on cables: runs it for some minutes and shows what each host has learned. Or
//! a bench file, which is run to its end.

mod conditions;
mod drive;
mod exercise;
mod host;
mod laws;
mod progress;
mod random;
mod record;
mod report;
mod room;

use demo::arguments::{self, Request};
use demo::plan::{Plan, MINUTE};
use progress::Progress;
use room::Room;
use std::env;
use std::fs;
use std::io::{self, ErrorKind, Write};
use std::path::Path;
use std::process::ExitCode;

fn main() -> ExitCode {
    let request = match arguments::parse(env::args().skip(1)) {
        Ok(request) => request,
        Err(message) => return refused(&message),
    };
    let mut out = io::stdout();
    let done = match request {
        Request::Help => out
            .write_all(arguments::HELP.as_bytes())
            .map_err(Failure::from),
        Request::Run(plan) => run(&mut out, &plan),
        Request::Bench(exercise) => match exercise::run(&exercise) {
            Ok(ended) => ended.report(&mut out).map_err(Failure::from),
            Err(message) => return refused(&message),
        },
    };
    match done {
        Err(Failure { error, .. }) if error.kind() == ErrorKind::BrokenPipe => ExitCode::SUCCESS,
        Err(Failure { place, error }) => {
            eprintln!("{place}: {error}");
            ExitCode::FAILURE
        }
        Ok(()) => ExitCode::SUCCESS,
    }
}

/// Says what is wrong with the arguments, or with the file that they name.
fn refused(message: &str) -> ExitCode {
    eprintln!("{message}\nTry --help.");
    ExitCode::from(2)
}

/// What could not be written.
struct Failure {
    place: String,
    error: io::Error,
}

impl From<io::Error> for Failure {
    fn from(error: io::Error) -> Failure {
        let place = "standard output".to_string();
        Failure { place, error }
    }
}

/// Runs the planned room, and writes what it is and what came of it.
fn run(out: &mut impl Write, plan: &Plan) -> Result<(), Failure> {
    report::plan(out, plan)?;
    let mut end = plan.minutes * MINUTE;
    if plan.save.is_some() {
        end = Room::fresh(plan).fits_until(end);
    }
    let mut room = Room::fresh(plan);
    let mut progress = Progress::new(plan.minutes);
    for minute in 1..=plan.minutes {
        room.run_until(end.min(minute * MINUTE));
        progress.show(minute);
    }
    if let Some(path) = &plan.save {
        save(path, &room)?;
        report::saved(out, path, &room, end)?;
    }
    report::result(out, plan, &mut room)?;
    Ok(())
}

/// Writes the room's record as a bench file.
fn save(path: &Path, room: &Room) -> Result<(), Failure> {
    fs::write(path, room.record.octets()).map_err(|error| {
        let place = path.display().to_string();
        Failure { place, error }
    })
}
