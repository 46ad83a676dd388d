//! Sizes and places of fields, as the C interface has them on a 64-bit machine; a difference is
//! an error of the build.

use crate::*;
use std::mem::{align_of, offset_of, size_of};

const _: () = {
    assert!(size_of::<usize>() == 8);

    assert!(size_of::<Address>() == 4 && align_of::<Address>() == 1);
    assert!(offset_of!(Address, first) == 0);
    assert!(offset_of!(Address, second) == 1);
    assert!(offset_of!(Address, third) == 2);
    assert!(offset_of!(Address, fourth) == 3);

    assert!(size_of::<LinkSetting>() == 5 && align_of::<LinkSetting>() == 1);
    assert!(offset_of!(LinkSetting, broadcast) == 0);
    assert!(offset_of!(LinkSetting, neighbor) == 1);

    assert!(size_of::<Layout>() == 16 && align_of::<Layout>() == 8);
    assert!(offset_of!(Layout, address_offset) == 0);
    assert!(offset_of!(Layout, nhosts) == 8);

    assert!(size_of::<Net>() == 3 && align_of::<Net>() == 1);
    assert!(offset_of!(Net, first) == 0);
    assert!(offset_of!(Net, second) == 1);
    assert!(offset_of!(Net, third) == 2);

    assert!(size_of::<Row>() == 4 && align_of::<Row>() == 1);
    assert!(offset_of!(Row, net) == 0);
    assert!(offset_of!(Row, id) == 3);

    assert!(size_of::<NetTable>() == 136 && align_of::<NetTable>() == 8);
    assert!(offset_of!(NetTable, count) == 0);
    assert!(offset_of!(NetTable, rows) == 8);

    assert!(size_of::<ClassTable>() == 144 && align_of::<ClassTable>() == 8);
    assert!(offset_of!(ClassTable, nhosts) == 0);
    assert!(offset_of!(ClassTable, net) == 8);

    assert!(size_of::<Marks>() == 32 && align_of::<Marks>() == 8);
    assert!(offset_of!(Marks, words) == 0);

    assert!(size_of::<Settings>() == 136 && align_of::<Settings>() == 8);
    assert!(offset_of!(Settings, address) == 0);
    assert!(offset_of!(Settings, layout) == 8);
    assert!(offset_of!(Settings, clock_host) == 24);
    assert!(offset_of!(Settings, hold_interval) == 26);
    assert!(offset_of!(Settings, clock_tick) == 32);
    assert!(offset_of!(Settings, time) == 40);
    assert!(offset_of!(Settings, date) == 48);
    assert!(offset_of!(Settings, link_count) == 56);
    assert!(offset_of!(Settings, links) == 64);
    assert!(offset_of!(Settings, marks) == 104);

    assert!(size_of::<Clock>() == 24 && align_of::<Clock>() == 8);
    assert!(offset_of!(Clock, clock) == 0);
    assert!(offset_of!(Clock, delta) == 8);
    assert!(offset_of!(Clock, hold) == 16);
    assert!(offset_of!(Clock, date) == 18);

    assert!(size_of::<Counter>() == 6 && align_of::<Counter>() == 2);
    assert!(offset_of!(Counter, count) == 0);
    assert!(offset_of!(Counter, overflow) == 2);
    assert!(offset_of!(Counter, again) == 4);

    assert!(size_of::<Link>() == 8 && align_of::<Link>() == 2);
    assert!(offset_of!(Link, neighbor) == 0);
    assert!(offset_of!(Link, keep_alive) == 4);
    assert!(offset_of!(Link, tsp) == 6);

    assert!(size_of::<Links>() == 64 && align_of::<Links>() == 2);
    assert!(offset_of!(Links, all) == 0);

    assert!(size_of::<Walk>() == 32 && align_of::<Walk>() == 8);
    assert!(offset_of!(Walk, opened) == 0);
    assert!(offset_of!(Walk, link) == 1);
    assert!(offset_of!(Walk, step) == 2);
    assert!(offset_of!(Walk, line) == 3);
    assert!(offset_of!(Walk, id) == 4);
    assert!(offset_of!(Walk, length) == 6);
    assert!(offset_of!(Walk, count) == 8);
    assert!(offset_of!(Walk, reading) == 16);
    assert!(offset_of!(Walk, delay) == 24);
    assert!(offset_of!(Walk, offset) == 26);

    assert!(size_of::<Entry>() == 24 && align_of::<Entry>() == 8);
    assert!(offset_of!(Entry, delay) == 0);
    assert!(offset_of!(Entry, offset) == 8);
    assert!(offset_of!(Entry, ttl) == 10);
    assert!(offset_of!(Entry, pid) == 12);
    assert!(offset_of!(Entry, here) == 13);
    assert!(offset_of!(Entry, time) == 16);

    assert!(size_of::<Sent>() == 16 && align_of::<Sent>() == 8);
    assert!(offset_of!(Sent, answer) == 0);
    assert!(offset_of!(Sent, length) == 8);

    assert!(size_of::<Route>() == 24 && align_of::<Route>() == 8);
    assert!(offset_of!(Route, answer) == 0);
    assert!(offset_of!(Route, id) == 8);
    assert!(offset_of!(Route, pid) == 16);

    assert!(size_of::<Time>() == 24 && align_of::<Time>() == 8);
    assert!(offset_of!(Time, answer) == 0);
    assert!(offset_of!(Time, time) == 8);
    assert!(offset_of!(Time, date) == 16);

    assert!(size_of::<Inspected>() == 24 && align_of::<Inspected>() == 8);
    assert!(offset_of!(Inspected, answer) == 0);
    assert!(offset_of!(Inspected, source) == 1);
    assert!(offset_of!(Inspected, time) == 8);
    assert!(offset_of!(Inspected, tsp) == 16);
    assert!(offset_of!(Inspected, nhosts) == 18);

    assert!(size_of::<Stepped>() == 16 && align_of::<Stepped>() == 8);
    assert!(offset_of!(Stepped, answer) == 0);
    assert!(offset_of!(Stepped, step) == 1);
    assert!(offset_of!(Stepped, line) == 2);
    assert!(offset_of!(Stepped, id) == 8);
};
