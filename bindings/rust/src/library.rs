//! The C interface of `libhello.a`. Only the plain calls use it.

use crate::{Address, ClassTable, Clock, Counter, Entry, Inspected, Links, Route, Sent, Settings};
use crate::{Stepped, Time, Walk};

extern "C" {
    pub fn hello_initialize(
        settings: *const Settings,
        table: *const ClassTable,
        number: usize,
        clock: *mut Clock,
        links: *mut Links,
        walk: *mut Walk,
        copy: *const u8,
        copy_length: usize,
        entries: *mut Entry,
        entries_length: usize,
    ) -> u8;

    pub fn hello_tick(
        settings: *const Settings,
        table: *const ClassTable,
        number: usize,
        clock: *mut Clock,
        links: *const Links,
        walk: *const Walk,
        copy: *const u8,
        copy_length: usize,
        entries: *const Entry,
        entries_length: usize,
        count: u16,
    ) -> u8;

    pub fn hello_adjust(
        settings: *const Settings,
        table: *const ClassTable,
        number: usize,
        clock: *mut Clock,
        links: *const Links,
        walk: *const Walk,
        copy: *const u8,
        copy_length: usize,
        entries: *const Entry,
        entries_length: usize,
        count: u16,
    ) -> u8;

    pub fn hello_set(
        settings: *const Settings,
        table: *const ClassTable,
        number: usize,
        clock: *mut Clock,
        links: *const Links,
        walk: *const Walk,
        copy: *const u8,
        copy_length: usize,
        entries: *const Entry,
        entries_length: usize,
        ms: i32,
        count: u16,
    ) -> u8;

    pub fn hello_read(
        settings: *const Settings,
        table: *const ClassTable,
        number: usize,
        clock: *mut Clock,
        links: *const Links,
        walk: *const Walk,
        copy: *const u8,
        copy_length: usize,
        entries: *const Entry,
        entries_length: usize,
        counter: Counter,
    ) -> Time;

    pub fn hello_second(
        settings: *const Settings,
        table: *const ClassTable,
        number: usize,
        clock: *mut Clock,
        links: *const Links,
        walk: *const Walk,
        copy: *const u8,
        copy_length: usize,
        entries: *mut Entry,
        entries_length: usize,
    ) -> u8;

    pub fn hello_self_report(
        settings: *const Settings,
        table: *const ClassTable,
        number: usize,
        clock: *mut Clock,
        links: *const Links,
        walk: *const Walk,
        copy: *const u8,
        copy_length: usize,
        entries: *mut Entry,
        entries_length: usize,
        counter: Counter,
    ) -> u8;

    pub fn hello_send(
        settings: *const Settings,
        table: *const ClassTable,
        number: usize,
        clock: *mut Clock,
        links: *mut Links,
        walk: *const Walk,
        copy: *const u8,
        copy_length: usize,
        entries: *const Entry,
        entries_length: usize,
        link: usize,
        counter: Counter,
        buffer: *mut u8,
        buffer_length: usize,
    ) -> Sent;

    pub fn hello_inspect(
        settings: *const Settings,
        table: *const ClassTable,
        number: usize,
        clock: *const Clock,
        links: *const Links,
        walk: *const Walk,
        copy: *const u8,
        copy_length: usize,
        entries: *const Entry,
        entries_length: usize,
        link: usize,
        packet: *const u8,
        packet_length: usize,
    ) -> Inspected;

    pub fn hello_act(
        settings: *const Settings,
        table: *const ClassTable,
        number: usize,
        clock: *mut Clock,
        links: *mut Links,
        walk: *const Walk,
        copy: *const u8,
        copy_length: usize,
        entries: *mut Entry,
        entries_length: usize,
        link: usize,
        counter: Counter,
        packet: *const u8,
        packet_length: usize,
    ) -> u8;

    pub fn hello_receive(
        settings: *const Settings,
        table: *const ClassTable,
        number: usize,
        clock: *mut Clock,
        links: *mut Links,
        walk: *const Walk,
        copy: *const u8,
        copy_length: usize,
        entries: *mut Entry,
        entries_length: usize,
        link: usize,
        counter: Counter,
        packet: *const u8,
        packet_length: usize,
    ) -> u8;

    pub fn hello_open_walk(
        settings: *const Settings,
        table: *const ClassTable,
        number: usize,
        clock: *const Clock,
        links: *const Links,
        walk: *mut Walk,
        copy: *mut u8,
        copy_length: usize,
        entries: *const Entry,
        entries_length: usize,
        link: usize,
        packet: *const u8,
        packet_length: usize,
    ) -> Stepped;

    pub fn hello_step(
        settings: *const Settings,
        table: *const ClassTable,
        number: usize,
        clock: *mut Clock,
        links: *mut Links,
        walk: *mut Walk,
        copy: *const u8,
        copy_length: usize,
        entries: *mut Entry,
        entries_length: usize,
        counter: Counter,
    ) -> Stepped;

    pub fn hello_lookup(
        settings: *const Settings,
        table: *const ClassTable,
        number: usize,
        clock: *const Clock,
        links: *const Links,
        walk: *const Walk,
        copy: *const u8,
        copy_length: usize,
        entries: *const Entry,
        entries_length: usize,
        address: Address,
    ) -> Route;

    pub fn hello_packet(packet: *const u8, packet_length: usize) -> u8;

    pub fn hello_checksum(octets: *const u8, length: usize) -> u16;

    pub fn hello_date(year: u16, month: u16, day: u16) -> u16;
}
