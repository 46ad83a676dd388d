//! The class bench: a bench file that is set up and run, event by event.
//!
//! A [`Bench`] keeps all parts of a bench, and has the calls as methods. A [`BenchState`] borrows them from
//! a program that keeps them in its own way, and returns the number of an [`Answer`]. [`bench_file`](crate::bench_file) writes
//! and reads the files.

use crate::answer::{given, result};
use crate::bench_file::{MOST_EVENTS, MOST_HOSTS, SLOTS};
use crate::{Answer, ClassTable, Clock, Entry, Links, Walk, LONGEST_MESSAGE, PLACES};

/// The octets of a slot: its label, and room for the longest packet.
pub const SLOT_LENGTH: usize = LABEL_LENGTH + LONGEST_MESSAGE;

/// The length of the packet in two octets, 0 if the slot was never filled, its cable, and the end
/// that it was sent from.
const LABEL_LENGTH: usize = 4;

/// A host of a bench.
#[repr(C)]
#[derive(Clone, Copy, Debug, PartialEq, Eq, Default)]
pub struct HostState {
    /// Its clock.
    pub clock: Clock,
    /// Its links.
    pub links: Links,
    /// Its walk, which is closed: no event opens one.
    pub walk: Walk,
}

/// How far a bench is.
#[repr(C)]
#[derive(Clone, Copy, Debug, PartialEq, Eq, Default)]
pub struct Progress {
    /// How many events are done; the next is that of this number.
    pub done: usize,
}

/// What a run returns.
#[repr(C)]
#[derive(Clone, Copy, Debug, PartialEq, Eq, Default)]
pub struct Ran {
    /// The answer number.
    pub answer: u8,
    /// How many events were carried out; 0 when refused.
    pub count: usize,
}

const _: () = {
    use std::mem::{align_of, offset_of, size_of};
    assert!(size_of::<HostState>() == 120 && align_of::<HostState>() == 8);
    assert!(offset_of!(HostState, clock) == 0);
    assert!(offset_of!(HostState, links) == 24);
    assert!(offset_of!(HostState, walk) == 88);

    assert!(size_of::<Progress>() == 8 && align_of::<Progress>() == 8);
    assert!(offset_of!(Progress, done) == 0);

    assert!(size_of::<Ran>() == 16 && align_of::<Ran>() == 8);
    assert!(offset_of!(Ran, answer) == 0);
    assert!(offset_of!(Ran, count) == 8);
};

extern "C" {
    fn hello_bench_set_up(
        file: *const u8,
        file_length: usize,
        table: *const ClassTable,
        hosts: *mut HostState,
        hosts_length: usize,
        copies: *const u8,
        copies_length: usize,
        entries: *mut Entry,
        entries_length: usize,
        slots: *mut u8,
        slots_length: usize,
        answers: *mut u8,
        answers_length: usize,
        progress: *mut Progress,
    ) -> u8;

    fn hello_bench_run(
        file: *const u8,
        file_length: usize,
        table: *const ClassTable,
        hosts: *mut HostState,
        hosts_length: usize,
        copies: *const u8,
        copies_length: usize,
        entries: *mut Entry,
        entries_length: usize,
        slots: *mut u8,
        slots_length: usize,
        answers: *mut u8,
        answers_length: usize,
        progress: *mut Progress,
        allowance: usize,
    ) -> Ran;
}

/// All that the calls of a bench borrow: a state for each host, 1,052 octets of copies and 255 entries for
/// each, 32 slots of [`SLOT_LENGTH`] octets, and a place for the answer of each event; all may be longer.
#[derive(Debug)]
pub struct BenchState<'a> {
    /// The octets of the file.
    pub file: &'a [u8],
    /// The table of the class.
    pub table: &'a ClassTable,
    /// The hosts.
    pub hosts: &'a mut [HostState],
    /// The copies of their walks' packets.
    pub copies: &'a [u8],
    /// Their entries.
    pub entries: &'a mut [Entry],
    /// The slots.
    pub slots: &'a mut [u8],
    /// The answers of the events.
    pub answers: &'a mut [u8],
    /// How many events are done.
    pub progress: &'a mut Progress,
}

impl BenchState<'_> {
    /// Initializes each host of the file; slots, answers and events done are zero then.
    pub fn set_up(&mut self) -> u8 {
        // SAFETY: references and slices are valid and aligned, and do not overlap since the state
        // borrows each of them alone; all their octets are initialized.
        unsafe {
            hello_bench_set_up(
                self.file.as_ptr(),
                self.file.len(),
                self.table,
                self.hosts.as_mut_ptr(),
                self.hosts.len(),
                self.copies.as_ptr(),
                self.copies.len(),
                self.entries.as_mut_ptr(),
                self.entries.len(),
                self.slots.as_mut_ptr(),
                self.slots.len(),
                self.answers.as_mut_ptr(),
                self.answers.len(),
                self.progress,
            )
        }
    }

    /// Carries out the next events of the file, as many as are allowed, and keeps their answers.
    pub fn run(&mut self, allowance: usize) -> Ran {
        // SAFETY: references and slices are valid and aligned, and do not overlap since the state
        // borrows each of them alone; all their octets are initialized.
        unsafe {
            hello_bench_run(
                self.file.as_ptr(),
                self.file.len(),
                self.table,
                self.hosts.as_mut_ptr(),
                self.hosts.len(),
                self.copies.as_ptr(),
                self.copies.len(),
                self.entries.as_mut_ptr(),
                self.entries.len(),
                self.slots.as_mut_ptr(),
                self.slots.len(),
                self.answers.as_mut_ptr(),
                self.answers.len(),
                self.progress,
                allowance,
            )
        }
    }
}

/// A class bench: a file, the net table of the class, and all that the two calls borrow, enough for
/// every file.
///
/// ```
/// use hello::bench_file::{Event, File};
/// use hello::{Address, Answer, Bench, ClassTable, Layout, Settings};
///
/// let layout = Layout { address_offset: 1, nhosts: 1 };
/// let file = File {
///     hosts: vec![Settings::new(Address::new(192, 0, 2, 1), layout)],
///     cables: vec![],
///     events: vec![Event::Tick(0, 0), Event::Set(0, -5, 0)],
/// };
/// let mut bench = Bench::new(file.octets()?, ClassTable::new(layout.nhosts));
/// bench.set_up()?;
/// assert_eq!(bench.run(1), Ok(1));
/// assert_eq!(bench.run(usize::MAX), Ok(1));
/// assert_eq!(bench.answers(), [Answer::Done, Answer::Done]);
/// # Ok::<(), Answer>(())
/// ```
#[derive(Clone, Debug)]
pub struct Bench {
    /// The net table of the class; the tutor's calls are its methods.
    pub net_table: ClassTable,
    file: Vec<u8>,
    hosts: Vec<HostState>,
    copies: Vec<u8>,
    entries: Vec<Entry>,
    slots: Vec<u8>,
    answers: Vec<u8>,
    progress: Progress,
}

/// A packet in a slot.
#[derive(Clone, Copy, Debug, PartialEq, Eq)]
pub struct Packet<'a> {
    /// The cable on which it was sent, from 0.
    pub cable: u8,
    /// The end of it that it was sent from, 0 or 1.
    pub end: u8,
    /// Its octets.
    pub octets: &'a [u8],
}

impl Bench {
    /// A bench with a file, still to be set up by [`Bench::set_up`], and with the class's net table.
    pub fn new(file: Vec<u8>, net_table: ClassTable) -> Bench {
        Bench {
            net_table,
            file,
            hosts: vec![HostState::default(); MOST_HOSTS],
            copies: vec![0; MOST_HOSTS * LONGEST_MESSAGE],
            entries: vec![Entry::default(); MOST_HOSTS * PLACES],
            slots: vec![0; SLOTS * SLOT_LENGTH],
            answers: vec![0; MOST_EVENTS],
            progress: Progress::default(),
        }
    }

    /// What the plain calls borrow of it.
    pub fn state(&mut self) -> BenchState<'_> {
        BenchState {
            file: &self.file,
            table: &self.net_table,
            hosts: &mut self.hosts,
            copies: &self.copies,
            entries: &mut self.entries,
            slots: &mut self.slots,
            answers: &mut self.answers,
            progress: &mut self.progress,
        }
    }

    /// Initializes each host of the file; no slot is filled and no event done then.
    pub fn set_up(&mut self) -> Result<(), Answer> {
        given(self.state().set_up()).ok()
    }

    /// Carries out the next events, as many as are allowed; how many there were. An event whose call
    /// is refused is one of them.
    pub fn run(&mut self, allowance: usize) -> Result<usize, Answer> {
        let ran = self.state().run(allowance);
        result(ran.answer, ran.count)
    }

    /// Goes on with another file, of which no event is done: hosts and slots stay as they are.
    pub fn go_on_with(&mut self, file: Vec<u8>) {
        self.file = file;
        self.progress.done = 0;
    }

    /// The octets of the file.
    pub fn file(&self) -> &[u8] {
        &self.file
    }

    /// How many events of the file are done.
    pub fn done(&self) -> usize {
        self.progress.done
    }

    /// The answers of those events, in their order.
    pub fn answers(&self) -> Vec<Answer> {
        let numbers = self.answers.iter().take(self.progress.done);
        numbers.map(|number| given(*number)).collect()
    }

    /// The hosts, the file's first; those after them are as they were made.
    pub fn hosts(&self) -> &[HostState] {
        &self.hosts
    }

    /// The host table of host `number`: an entry for each id.
    ///
    /// # Panics
    /// If the number is over 15.
    pub fn table(&self, number: usize) -> &[Entry] {
        assert!(
            number < MOST_HOSTS,
            "a bench has at most {MOST_HOSTS} hosts"
        );
        &self.entries[number * PLACES..][..self.net_table.nhosts.min(PLACES)]
    }

    /// The entries of all hosts: host k owns the 255 places from 255 k.
    pub fn entries(&self) -> &[Entry] {
        &self.entries
    }

    /// The packet in slot `number`; none if it was never filled.
    ///
    /// # Panics
    /// If the number is over 31.
    pub fn packet(&self, number: usize) -> Option<Packet<'_>> {
        let (label, room) =
            self.slots[number * SLOT_LENGTH..][..SLOT_LENGTH].split_at(LABEL_LENGTH);
        let length = usize::from(u16::from_be_bytes([label[0], label[1]]));
        (length > 0).then(|| Packet {
            cable: label[2],
            end: label[3],
            octets: &room[..length],
        })
    }
}
