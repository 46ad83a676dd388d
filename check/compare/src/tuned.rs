//! The fast program that the benchmarks time the library against, given the same call on a copy of the
//! same state.

use crate::call::{Call, Octets, Outcome, Trial, Value};
use crate::convert;
use crate::sides::{next, Library};

/// The outcome of a call, and the state of its host after it.
pub struct Tuned {
    outcome: Outcome,
    clock: hello::Clock,
    links: hello::Links,
    walk: hello::Walk,
    copy: Vec<u8>,
    entries: Vec<hello::Entry>,
}

impl Tuned {
    /// Makes the call on a copy of the library's state; none for the calls that the program does not have.
    pub fn perform(library: &Library, trial: &Trial) -> Option<Tuned> {
        if let Call::Checksum { octets } = &trial.call {
            let sum = Value::Checksum(tuned::checksum::checksum(&octets.0));
            return Some(Tuned::of(library, trial, |_, _| Outcome::new(0, sum)));
        }
        if trial.call.is_tutors() || matches!(trial.call, Call::Initialize | Call::Packet { .. }) {
            return None;
        }
        Some(Tuned::of(library, trial, call))
    }

    fn of(
        library: &Library,
        trial: &Trial,
        call: impl FnOnce(&mut hello::State, &Trial) -> Outcome,
    ) -> Tuned {
        let mut clock = library.clocks[trial.host];
        let mut links = library.links[trial.host];
        let mut walk = library.walks[trial.host];
        let mut copy = library.copies[trial.host][..trial.copy_length].to_vec();
        let mut entries = library.run[..trial.run_length].to_vec();
        let mut state = hello::State {
            settings: &trial.settings,
            table: &library.table,
            number: trial.number,
            clock: &mut clock,
            links: &mut links,
            walk: &mut walk,
            copy: &mut copy,
            entries: &mut entries,
        };
        let outcome = call(&mut state, trial);
        Tuned {
            outcome,
            clock,
            links,
            walk,
            copy,
            entries,
        }
    }

    /// Whether the library's outcome and state after the call are the same.
    pub fn equals(&self, library: &Library, trial: &Trial, outcome: &Outcome) -> bool {
        self.outcome == *outcome
            && self.clock == library.clocks[trial.host]
            && self.links == library.links[trial.host]
            && self.walk == library.walks[trial.host]
            && self.copy == library.copies[trial.host][..trial.copy_length]
            && self.entries == library.run[..trial.run_length]
    }

    /// The outcome, for the report of a difference.
    pub fn outcome(&self) -> &Outcome {
        &self.outcome
    }
}

/// A call with the parts of the state as its first arguments.
macro_rules! on {
    ($state:ident, $call:ident, $($more:expr),*) => {
        tuned::$call(
            $state.settings,
            $state.table,
            $state.number,
            $state.clock,
            $state.links,
            $state.walk,
            $state.copy,
            $state.entries,
            $($more),*
        )
    };
}

fn call(state: &mut hello::State, trial: &Trial) -> Outcome {
    match &trial.call {
        Call::Tick { count } => Outcome::of(on!(state, tick, *count)),
        Call::Adjust { count } => Outcome::of(on!(state, adjust, *count)),
        Call::Set { ms, count } => Outcome::of(on!(state, set, *ms, *count)),
        Call::Read { counter } => {
            let read = on!(state, read, *counter);
            let value = Value::Time {
                time: read.time,
                date: read.date,
            };
            Outcome::new(read.answer, value)
        }
        Call::Second => Outcome::of(on!(state, second,)),
        Call::SelfReport { counter } => Outcome::of(on!(state, self_report, *counter)),
        Call::Send {
            link,
            counter,
            buffer,
        } => {
            let mut octets = buffer.0.clone();
            let sent = on!(state, send, *link, *counter, &mut octets);
            Outcome {
                answer: sent.answer,
                value: Value::Length(sent.length),
                buffer: Octets(octets),
            }
        }
        Call::Inspect { link, packet } => {
            let seen = on!(state, inspect, *link, &packet.0);
            let value = Value::Inspected {
                source: convert::address(seen.source),
                time: seen.time,
                tsp: seen.tsp,
                nhosts: seen.nhosts,
            };
            Outcome::new(seen.answer, value)
        }
        Call::Act {
            link,
            counter,
            packet,
        } => Outcome::of(on!(state, act, *link, *counter, &packet.0)),
        Call::Receive {
            link,
            counter,
            packet,
        } => Outcome::of(on!(state, receive, *link, *counter, &packet.0)),
        Call::OpenWalk { link, packet } => next(on!(state, open_walk, *link, &packet.0)),
        Call::Step { counter } => next(on!(state, step, *counter)),
        Call::Lookup { address } => {
            let route = on!(state, lookup, *address);
            let value = Value::Route {
                host: route.id,
                pid: route.pid,
            };
            Outcome::new(route.answer, value)
        }
        _ => unreachable!("the program does not have this call"),
    }
}
