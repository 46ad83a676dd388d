//! Answers `--help` and wrong arguments before the library is there. Ends with 0 if a room or a bench
//! file is to run, with 77 after the help, with 2 if an argument is wrong.

use demo::arguments::{self, Request};
use std::env;
use std::process::ExitCode;

/// The help was printed. `./run` tells it by this number, which cargo, a panic and the shell do not
/// return.
const HELP_PRINTED: u8 = 77;

fn main() -> ExitCode {
    match arguments::parse(env::args().skip(1)) {
        Ok(Request::Run(_) | Request::Bench(_)) => ExitCode::SUCCESS,
        Ok(Request::Help) => {
            print!("{}", arguments::HELP);
            ExitCode::from(HELP_PRINTED)
        }
        Err(message) => {
            eprintln!("{message}\nTry --help.");
            ExitCode::from(2)
        }
    }
}
