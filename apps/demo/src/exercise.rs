//! A bench file that is run by the class bench, and what the program prints of it.

use crate::report::{date_and_time, day, meaning, print_answers, print_links};
use crate::report::{BY_LINK, DOWN, LEARNED};
use demo::plan::{Exercise, NetRow};
use hello::bench_file::{Event, File};
use hello::UNITS_PER_MS;
use hello::{Address, Answer, Bench, ClassTable, Clock, Counter, Entry, Net, Reading, Settings};
use std::collections::BTreeMap;
use std::io::{Result, Write};

const TTL: &str = "  TTL         how many seconds this host still believes it\n";

/// A bench that has run its file to the end.
pub struct Ended<'a> {
    exercise: &'a Exercise,
    file: File,
    bench: Bench,
}

/// Runs a file; or why it is refused.
pub fn run(exercise: &Exercise) -> std::result::Result<Ended<'_>, String> {
    let mut net_table = ClassTable::new(exercise.nhosts);
    for NetRow { net, id } in &exercise.rows {
        let [first, second, third] = *net;
        let added = net_table.add(Net::new(first, second, third), *id);
        added.map_err(|refusal| format!("--net: {refusal}"))?;
    }
    let mut bench = Bench::new(exercise.octets.clone(), net_table);
    let ran = bench.set_up().and_then(|()| bench.run(usize::MAX));
    match (ran, File::read(&exercise.octets)) {
        (Ok(_), Some(file)) => Ok(Ended {
            exercise,
            file,
            bench,
        }),
        (Err(refusal), _) => Err(refused(exercise, refusal)),
        (Ok(_), None) => unreachable!("a file that is set up can be read"),
    }
}

fn refused(exercise: &Exercise, refusal: Answer) -> String {
    let why = match refusal {
        Answer::Header => {
            "its header or length is wrong: a count over its most, a start that is not where the \
             section before it ends, or another length"
        }
        Answer::Absent => {
            "a record of it names something that is not there, or has settings out of their range"
        }
        _ => "the net table is bad",
    };
    format!(
        "{}: answered {} ({why}).\ntools/bench tells what stands in each octet of such a file.",
        exercise.path.display(),
        refusal.number()
    )
}

impl Ended<'_> {
    /// Writes what the file has, each event with its answer, and what the hosts have learned.
    pub fn report(&self, out: &mut impl Write) -> Result<()> {
        self.print_file(out)?;
        self.print_events(out)?;
        writeln!(out, "{LEARNED}{TTL}{BY_LINK}")?;
        for (number, settings) in self.file.hosts.iter().enumerate() {
            self.print_host(out, number, settings)?;
            writeln!(out)?;
        }
        let mut answers = BTreeMap::new();
        for answer in self.bench.answers() {
            *answers.entry(answer).or_insert(0) += 1;
        }
        writeln!(out, "{} by answer:", counted(self.bench.done(), "event"))?;
        print_answers(out, &answers)
    }

    /// Its hosts and cables, and the net table beside them.
    fn print_file(&self, out: &mut impl Write) -> Result<()> {
        let File {
            hosts,
            cables,
            events,
        } = &self.file;
        writeln!(
            out,
            "The bench file {}: {}, {}, {}.\n",
            self.exercise.path.display(),
            counted(hosts.len(), "host"),
            counted(cables.len(), "cable"),
            counted(events.len(), "event")
        )?;
        writeln!(out, "Hosts, with the times at which they start:")?;
        for (number, settings) in hosts.iter().enumerate() {
            let start = Reading {
                time: settings.time,
                date: settings.date,
            };
            let (address, start) = (settings.address, date_and_time(start));
            writeln!(out, "  {number:>2}  {address:<12}  {start}")?;
        }
        writeln!(out, "Cables, by their ends 0 and 1:")?;
        for (number, [from, to]) in cables.iter().enumerate() {
            writeln!(
                out,
                "  {number:>2}  {:<12} link {}  -  {:<12} link {}",
                hosts[usize::from(from.host)].address,
                from.link,
                hosts[usize::from(to.host)].address,
                to.link
            )?;
        }
        self.print_rows(out)?;
        writeln!(out)
    }

    /// The rows of the net table.
    fn print_rows(&self, out: &mut impl Write) -> Result<()> {
        let rows = self.bench.net_table.rows();
        if !rows.is_empty() {
            writeln!(out, "Net table, which all hosts use:")?;
        }
        for (index, row) in rows.iter().enumerate() {
            let Net {
                first,
                second,
                third,
            } = row.net;
            let net = format!("{first}.{second}.{third}");
            writeln!(out, "  row {:>2}  {net:<12} by id {}", index + 1, row.id)?;
        }
        Ok(())
    }

    fn print_events(&self, out: &mut impl Write) -> Result<()> {
        writeln!(out, "Events, each as a text has it, and its answer:")?;
        for (number, (event, answer)) in self
            .file
            .events
            .iter()
            .zip(self.bench.answers())
            .enumerate()
        {
            writeln!(
                out,
                "  {number:>4}  {:<48}  {:>2} ({})",
                words(event),
                answer.number(),
                meaning(answer)
            )?;
        }
        writeln!(out)
    }

    /// A host's clock, its links and its live entries.
    fn print_host(&self, out: &mut impl Write, number: usize, settings: &Settings) -> Result<()> {
        let state = &self.bench.hosts()[number];
        writeln!(out, "Host {number}: {}", settings.address)?;
        let Clock {
            clock,
            delta,
            hold,
            date,
        } = state.clock;
        writeln!(
            out,
            "  Clock: CLOCK {:.3} ms, DELTA {:+.3} ms, HOLD {hold} s, {}",
            in_ms(clock),
            in_ms(delta),
            day(date)
        )?;
        print_links(out, &state.links.all[..settings.link_count])?;
        writeln!(out, "  Host table, live entries")?;
        writeln!(
            out,
            "    id  address       link  DELAY (ms)  OFFSET (ms)  TTL (s)"
        )?;
        let table = self.bench.table(number);
        let mut down = 0;
        for (id, entry) in table.iter().enumerate() {
            if entry.delay < DOWN {
                print_entry(out, settings, id, entry)?;
            } else {
                down += 1;
            }
        }
        if down > 0 {
            writeln!(out, "    ({down} more: down, DELAY {DOWN})")?;
        }
        Ok(())
    }
}

/// So many of what has that name.
fn counted(count: usize, name: &str) -> String {
    match count {
        1 => format!("1 {name}"),
        _ => format!("{count} {name}s"),
    }
}

fn in_ms(units: i64) -> f64 {
    units as f64 / UNITS_PER_MS as f64
}

fn print_entry(out: &mut impl Write, settings: &Settings, id: usize, entry: &Entry) -> Result<()> {
    let lives = match (entry.here, settings.address == address(settings, id)) {
        (1, false) => "  lives here",
        _ => "",
    };
    writeln!(
        out,
        "    {id:>2}  {:<12}  {:>4}  {:>10}  {:>+11}  {:>7}{lives}",
        address(settings, id),
        entry.pid,
        entry.delay,
        entry.offset,
        entry.ttl
    )
}

/// The address of an id on the net of a host: its host octet is the third of class A and the fourth of
/// the others.
fn address(settings: &Settings, id: usize) -> Address {
    let octet = settings.layout.address_offset.wrapping_add(id as u8);
    let own = settings.address;
    match own.first {
        0..=127 => Address {
            third: octet,
            ..own
        },
        _ => Address {
            fourth: octet,
            ..own
        },
    }
}

/// An event in the words of a file's text.
fn words(event: &Event) -> String {
    match *event {
        Event::Tick(host, count) => format!("tick {host}{}", shown(Counter::of(count))),
        Event::Adjust(host, count) => format!("adjust {host}{}", shown(Counter::of(count))),
        Event::Set(host, ms, count) => format!("set {host} {ms}{}", shown(Counter::of(count))),
        Event::Second(host) => format!("second {host}"),
        Event::SelfReport(host, counter) => format!("self-report {host}{}", shown(counter)),
        Event::Send {
            cable,
            end,
            slot,
            counter,
        } => format!("send cable {cable} end {end} tray {slot}{}", shown(counter)),
        Event::Arrival { slot, counter } => format!("arrival tray {slot}{}", shown(counter)),
    }
}

/// What a counter shows.
fn shown(counter: Counter) -> String {
    match counter {
        Counter {
            count: 0,
            overflow: 0,
            ..
        } => String::new(),
        Counter {
            count, overflow: 0, ..
        } => format!(" count {count}"),
        Counter { count, again, .. } => format!(" count {count} again {again}"),
    }
}
