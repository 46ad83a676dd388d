//! Times every call of the proved library beside the fast program of `check/tuned`, on the same inputs,
//! in turns, and prints the machine's load before and after.
//!
//! `tuned [ROUNDS]`: for each call and NHOSTS the quickest and the median batch of each program, and the
//! growth for each entry more from NHOSTS 64 to 255.

#[path = "../../../compare/src/convert.rs"]
#[allow(dead_code)]
mod convert;
#[path = "../figures.rs"]
mod figures;
#[path = "../host.rs"]
#[allow(dead_code)]
mod host;

use figures::{in_turns, print_heading, print_load, print_times, rounds, Batch, Times};
use hello::Walk;
use host::{message, Ours, COUNTER, HOST, LINK, NEIGHBOR};
use std::hint::black_box;

const SIZES: [usize; 4] = [4, 16, 64, 255];
const CALLS: [&str; 15] = [
    "initialize",
    "tick",
    "adjust",
    "set",
    "read",
    "lookup",
    "second",
    "self-report",
    "self-report, all",
    "inspect",
    "act",
    "receive",
    "send",
    "open walk",
    "step",
];

#[derive(Clone, Copy)]
enum Program {
    Library,
    Tuned,
}

/// A call by the program: the library's method, or the function with the parts of the state.
macro_rules! by {
    ($program:ident, $state:ident, $call:ident, $($more:expr),*) => {
        match $program {
            Program::Library => $state.$call($($more),*),
            Program::Tuned => tuned::$call(
                $state.settings,
                $state.table,
                $state.number,
                $state.clock,
                $state.links,
                $state.walk,
                $state.copy,
                $state.entries,
                $($more),*
            ),
        }
    };
}

/// A host with NHOSTS live entries; `all`: every id lives here, not only its own.
fn start(nhosts: usize, all: bool) -> Ours {
    let mut ours = Ours::live(nhosts, HOST, NEIGHBOR, LINK as u8);
    if all {
        for id in 0..nhosts {
            ours.settings.marks.mark(id as u8);
            ours.run[id].here = 1;
        }
    }
    ours
}

/// A host in the middle of a walk: box 1 is done.
fn walking(nhosts: usize, packet: &[u8]) -> Ours {
    let mut ours = start(nhosts, false);
    ours.copy = vec![0; hello::LONGEST_MESSAGE];
    let mut state = ours.state();
    assert_eq!(state.open_walk(LINK, packet).answer, 0);
    assert_eq!(state.step(COUNTER).answer, 0);
    ours
}

/// Batches of a call by a program; each call must answer 0.
fn batches(program: Program, call: &'static str, nhosts: usize) -> Batch<'static> {
    let packet = message(nhosts);
    let mut buffer = vec![0; 32 + 4 * nhosts];
    let mut ours = match call {
        "step" => walking(nhosts, &packet),
        _ => start(nhosts, call == "self-report, all"),
    };
    if call == "open walk" {
        ours.copy = vec![0; hello::LONGEST_MESSAGE];
    }
    let mut seconds = 0;
    Box::new(move |count| {
        for _ in 0..count {
            let ours = black_box(&mut ours);
            match call {
                "second" => {
                    seconds += 1;
                    if seconds % 100 == 0 {
                        ours.run[..nhosts]
                            .iter_mut()
                            .for_each(|entry| entry.ttl = 120);
                    }
                }
                "open walk" => ours.walk = Walk::CLOSED,
                "step" => ours.walk.step = 2,
                _ => {}
            }
            let mut state = ours.state();
            let packet = black_box(&packet);
            let answer = match call {
                "initialize" => by!(program, state, initialize,),
                "tick" => by!(program, state, tick, black_box(0)),
                "adjust" => by!(program, state, adjust, black_box(0)),
                "set" => by!(program, state, set, black_box(1), black_box(0)),
                "read" => by!(program, state, read, black_box(COUNTER)).answer,
                "lookup" => by!(program, state, lookup, black_box(NEIGHBOR)).answer,
                "second" => by!(program, state, second,),
                "inspect" => by!(program, state, inspect, LINK, packet).answer,
                "act" => by!(program, state, act, LINK, black_box(COUNTER), packet),
                "receive" => by!(program, state, receive, LINK, black_box(COUNTER), packet),
                "send" => by!(program, state, send, LINK, black_box(COUNTER), &mut buffer).answer,
                "open walk" => by!(program, state, open_walk, LINK, packet).answer,
                "step" => by!(program, state, step, black_box(COUNTER)).answer,
                _ => by!(program, state, self_report, black_box(COUNTER)),
            };
            assert_eq!(answer, 0);
        }
    })
}

/// Both programs initialize a host alike. The comparison makes all other calls by both.
fn initialize_alike(nhosts: usize) {
    let [ours, others] = [Program::Library, Program::Tuned].map(|program| {
        let mut ours = start(nhosts, true);
        let mut state = ours.state();
        assert_eq!(by!(program, state, initialize,), 0);
        ours
    });
    assert!((ours.clock, ours.links, ours.walk) == (others.clock, others.links, others.walk));
    assert!(ours.run == others.run);
}

/// The nanoseconds that each entry more costs.
fn growth(at_64: Times, at_255: Times) -> f64 {
    (at_255.quickest - at_64.quickest) / (255.0 - 64.0)
}

/// Reads 6,144 octets from the first-level cache, sixteen words at a time.
fn read_octets(count: u32) {
    let words = vec![1u64; 6_144 / 8];
    for _ in 0..count {
        let mut all = [0; 16];
        for part in black_box(&words).as_chunks::<16>().0 {
            all.iter_mut()
                .zip(part)
                .for_each(|(sum, word)| *sum |= word);
        }
        black_box(all);
    }
}

fn main() {
    let rounds = rounds(161);
    print_load("before");
    print_heading(rounds, "call, NHOSTS", "tuned");
    SIZES.into_iter().for_each(initialize_alike);
    let mut growths = Vec::new();
    for call in CALLS {
        let times = SIZES.map(|nhosts| {
            let programs =
                [Program::Library, Program::Tuned].map(|program| batches(program, call, nhosts));
            let times = in_turns(rounds, programs);
            print_times(&format!("{call}, {nhosts}"), times);
            times
        });
        growths.push([0, 1].map(|program| growth(times[2][program], times[3][program])));
    }
    println!("\nnanoseconds for each entry more, from NHOSTS 64 to 255, by the quickest batches");
    println!("{:<36}  library     tuned", "call");
    for (call, [library, tuned]) in CALLS.iter().zip(growths) {
        println!("{call:<36}{library:>9.2} {tuned:>9.2}");
    }
    let [read, _] = in_turns(rounds, [Box::new(read_octets), Box::new(read_octets)]);
    let octets = 6_144.0 / read.quickest;
    println!(
        "\nThe processor reads {octets:.0} octets in a nanosecond from its first-level cache."
    );
    print_load("after");
}
