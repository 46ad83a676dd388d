//! What is timed: the same call by both programs, on the same inputs.

use crate::convert;
use crate::host::{both, message, Theirs, COUNTER, LINK, NEIGHBOR};
use hello::Answer;
use reference::host;
use std::hint::black_box;

/// Makes a call that many times.
pub type Batch = Box<dyn FnMut(u32)>;

/// A call of both programs.
pub struct Case {
    pub library: Batch,
    pub reference: Batch,
}

/// A batch of calls, each of which must answer 0, the answer of a call that is done.
fn batch(mut call: impl FnMut() -> u8 + 'static) -> Batch {
    Box::new(move |count| {
        for _ in 0..count {
            assert_eq!(call(), Answer::Done.number());
        }
    })
}

/// An inspection of the neighbor's message with the table.
pub fn inspect(nhosts: usize) -> Case {
    let (mut ours, mut theirs) = both(nhosts);
    let packet = message(nhosts);
    let same_packet = packet.clone();
    Case {
        library: batch(move || {
            let mut state = black_box(&mut ours).state();
            state.inspect(LINK, black_box(&packet)).answer
        }),
        reference: batch(move || {
            let Theirs {
                settings,
                table,
                clock,
                links,
                walk,
                run,
            } = black_box(&mut theirs);
            let packet = black_box(&same_packet);
            reference::answer(&host::inspect(
                settings, table, 0, clock, links, walk, run, LINK, packet,
            ))
        }),
    }
}

/// The action on that message; every entry is updated.
pub fn act(nhosts: usize) -> Case {
    let (mut ours, mut theirs) = both(nhosts);
    let packet = message(nhosts);
    let same_packet = packet.clone();
    let same_counter = convert::counter(COUNTER);
    Case {
        library: batch(move || {
            let mut state = black_box(&mut ours).state();
            let (counter, packet) = (black_box(COUNTER), black_box(&packet));
            state.act(LINK, counter, packet)
        }),
        reference: batch(move || {
            let Theirs {
                settings,
                table,
                clock,
                links,
                walk,
                run,
            } = black_box(&mut theirs);
            let (counter, packet) = (black_box(same_counter), black_box(&same_packet));
            reference::answer(&host::act(
                settings, table, 0, clock, links, walk, run, LINK, counter, packet,
            ))
        }),
    }
}

/// A message with the table, into a buffer that is just long enough and not cleared.
pub fn send(nhosts: usize) -> Case {
    let (mut ours, mut theirs) = both(nhosts);
    let mut buffer = vec![0; 32 + 4 * nhosts];
    let mut same_buffer = buffer.clone();
    let same_counter = convert::counter(COUNTER);
    Case {
        library: batch(move || {
            let mut state = black_box(&mut ours).state();
            let (counter, buffer) = (black_box(COUNTER), black_box(&mut buffer));
            state.send(LINK, counter, buffer).answer
        }),
        reference: batch(move || {
            let Theirs {
                settings,
                table,
                clock,
                links,
                walk,
                run,
            } = black_box(&mut theirs);
            let (counter, buffer) = (black_box(same_counter), black_box(&mut same_buffer));
            reference::answer(&host::send(
                settings, table, 0, clock, links, walk, run, LINK, counter, buffer,
            ))
        }),
    }
}

/// A tick of one clock unit.
pub fn tick(nhosts: usize) -> Case {
    let (mut ours, mut theirs) = both(nhosts);
    Case {
        library: batch(move || {
            let mut state = black_box(&mut ours).state();
            state.tick(black_box(COUNTER.count))
        }),
        reference: batch(move || {
            let Theirs {
                settings,
                table,
                clock,
                links,
                walk,
                run,
            } = black_box(&mut theirs);
            let count = black_box(COUNTER.count);
            reference::answer(&host::tick(
                settings, table, 0, clock, links, walk, run, count,
            ))
        }),
    }
}

/// A lookup of the neighbor's address.
pub fn lookup(nhosts: usize) -> Case {
    let (mut ours, mut theirs) = both(nhosts);
    let address = convert::address(NEIGHBOR);
    Case {
        library: batch(move || {
            let mut state = black_box(&mut ours).state();
            state.lookup(black_box(NEIGHBOR)).answer
        }),
        reference: batch(move || {
            let Theirs {
                settings,
                table,
                clock,
                links,
                walk,
                run,
            } = black_box(&mut theirs);
            reference::answer(&host::lookup(
                settings,
                table,
                0,
                clock,
                links,
                walk,
                run,
                black_box(address),
            ))
        }),
    }
}
