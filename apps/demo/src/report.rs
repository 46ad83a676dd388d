//! What the program prints.

use crate::conditions;
use crate::drive::Drive;
use crate::host::address;
use crate::laws;
use crate::room::Room;
use demo::plan::{Plan, Shape, MINUTE, SECOND};
use hello::{Address, Answer, Entry, Host, Link, Net, Reading};
use std::collections::BTreeMap;
use std::io::{Result, Write};
use std::path::Path;

/// A host with this DELAY in ms is down.
pub const DOWN: i64 = 30_000;

/// How to read what a host has learned, what stands beside it, and by which link.
pub const LEARNED: &str = "\
How to read the tables:
  KEEP-ALIVE  falls with each message sent on the link; 4 again with each one that arrives
  TSP         the neighbor's time in its last message, less this host's time at its arrival
  DELAY       how long a message takes there and back, as this host has learned it
  OFFSET      what the other host's clock is ahead of this host's, as this host has learned it
";

const IN_TRUTH: &str = "  true        what it is ahead in truth
  error       OFFSET less true
  bound       101/200 of DELAY: the most that the error may be, either way
";

pub const BY_LINK: &str =
    "  link        the link by which the other host is reached; 0 for this host itself, and for each
              that lives here
";

/// The room that is going to run, and whether the bound is promised in it.
pub fn plan(out: &mut impl Write, plan: &Plan) -> Result<()> {
    let shape = match plan.shape {
        Shape::Line => "a line",
        Shape::Ring => "a ring",
    };
    writeln!(
        out,
        "A room of {} hosts in {shape}, {}, losing {} of 100 messages (seed {}).\n",
        plan.clocks.len(),
        minutes(plan.minutes),
        plan.loss,
        plan.seed
    )?;
    writeln!(out, "Clocks, ahead of the room's:")?;
    for (number, clock) in plan.clocks.iter().enumerate() {
        let kind = clock_kind(plan, number);
        writeln!(out, "  {:<12} {clock:>+10} ms  {kind}", address(number))?;
    }
    if plan.further > 0 {
        writeln!(out, "Further hosts, and the host at which each lives:")?;
    }
    for id in plan.clocks.len()..plan.ids() {
        writeln!(out, "  {:<12} at {}", address(id), address(plan.home(id)))?;
    }
    writeln!(out, "Cables, with the time a message takes there and back:")?;
    for cable in &plan.cables {
        let [from, to] = cable.ends;
        let [there, back] = cable.delay;
        writeln!(
            out,
            "  {:<12} link {}  -  {:<12} link {}  {there:>6} and {back:>6} ms",
            address(from.host),
            from.link,
            address(to.host),
            to.link,
        )?;
    }
    print_net_table(out, plan)?;
    writeln!(out)?;
    promise(out, &conditions::broken(plan))
}

/// The rows of the class's net table.
fn print_net_table(out: &mut impl Write, plan: &Plan) -> Result<()> {
    if !plan.rows.is_empty() {
        writeln!(out, "Net table, which all hosts use:")?;
    }
    for (index, row) in plan.rows.iter().enumerate() {
        let [first, second, third] = row.net;
        writeln!(
            out,
            "  row {:>2}  {:<12} by {}",
            index + 1,
            format!("{first}.{second}.{third}"),
            address(row.id)
        )?;
    }
    Ok(())
}

/// Whether the bound is promised, or which conditions are not met.
fn promise(out: &mut impl Write, broken: &[String]) -> Result<()> {
    if broken.is_empty() {
        return writeln!(out, "All conditions of the bound (demand 3) are met: every error is promised to be within it.\n");
    }
    writeln!(
        out,
        "The bound is NOT promised in this room. Conditions of demand 3 that are not met:"
    )?;
    for condition in broken {
        writeln!(out, "  - {condition}")?;
    }
    writeln!(out)
}

/// How much of the room was saved.
pub fn saved(out: &mut impl Write, path: &Path, room: &Room, end: i64) -> Result<()> {
    writeln!(
        out,
        "Saved in {}, with {} events: the room's first {}.{:03} s. The tables are those of that moment.\n",
        path.display(),
        room.record.len(),
        end / SECOND,
        end % SECOND
    )
}

/// What the hosts have learned, and whether all errors are within the bound.
pub fn result(out: &mut impl Write, plan: &Plan, room: &mut Room) -> Result<()> {
    writeln!(out, "{LEARNED}{IN_TRUTH}{BY_LINK}")?;
    let mut live = 0;
    let mut beyond = 0;
    for number in 0..room.hosts.count() {
        let clock = date_and_time(room.read(number));
        let mut host = room.hosts.host(number);
        let rows = live_rows(plan, &host);
        live += rows.len();
        beyond += rows.iter().filter(|row| !row.within_bound()).count();
        writeln!(out, "Host {} (id {number})", address(number))?;
        writeln!(out, "  Clock: {clock}, {}", clock_kind(plan, number))?;
        print_host(out, &host, &rows)?;
        print_lookups(out, &mut host)?;
        writeln!(out)?;
    }
    print_tally(out, plan, room)?;
    match beyond {
        0 => writeln!(out, "{live} live entries: all errors are within the bound."),
        _ => writeln!(
            out,
            "{live} live entries: {beyond} of the errors are beyond the bound."
        ),
    }?;
    print_laws(out, plan, room)
}

/// Which conditions of total correctness the run met, and whether the tables are as it says.
fn print_laws(out: &mut impl Write, plan: &Plan, room: &mut Room) -> Result<()> {
    writeln!(
        out,
        "\nTotal correctness: every table lists exactly the hosts of the room, each with a DELAY of 100 ms\n\
         for each cable of a shortest way, a link along it, and an error of at most 50.5 ms a cable.\n\
         It is promised if:"
    )?;
    let conditions = laws::conditions(plan, &room.rounds);
    for condition in &conditions {
        let met = if condition.met { "met" } else { "NOT met" };
        writeln!(out, "  {met:<8} {}", condition.text)?;
    }
    let promised = conditions.iter().all(|condition| condition.met);
    let (right, all) = laws::right_entries(plan, room);
    match (promised, right == all) {
        (true, true) => writeln!(out, "It is promised, and the tables are so: {all} entries."),
        (true, false) => writeln!(
            out,
            "It is promised, but only {right} of {all} entries are so. This must not happen."
        ),
        (false, _) => writeln!(out, "It is not promised; {right} of {all} entries are so."),
    }
}

/// A live entry of a host table, beside the truth: the clock of the host at which the id's host lives,
/// less that of the table's host.
struct Row {
    id: usize,
    home: usize,
    entry: Entry,
    truth: i64,
}

impl Row {
    fn error(&self) -> i64 {
        i64::from(self.entry.offset) - self.truth
    }

    /// Whether the error is at most 101/200 of DELAY.
    fn within_bound(&self) -> bool {
        200 * self.error().abs() <= 101 * self.entry.delay
    }

    fn bound(&self) -> f64 {
        101.0 * self.entry.delay as f64 / 200.0
    }
}

/// The live entries of a host's table.
fn live_rows(plan: &Plan, host: &Host) -> Vec<Row> {
    host.table()
        .iter()
        .enumerate()
        .filter(|(_, entry)| entry.delay < DOWN)
        .map(|(id, entry)| Row {
            id,
            home: plan.home(id),
            entry: *entry,
            truth: plan.clocks[plan.home(id)] - plan.clocks[host.number()],
        })
        .collect()
}

/// A host's links.
pub fn print_links(out: &mut impl Write, links: &[Link]) -> Result<()> {
    writeln!(out, "  Links")?;
    writeln!(out, "    link  neighbor      KEEP-ALIVE  TSP (ms)")?;
    for (index, link) in links.iter().enumerate() {
        writeln!(
            out,
            "    {:>4}  {:<12}  {:>10}  {:>+8}",
            index + 1,
            link.neighbor,
            link.keep_alive,
            link.tsp
        )?;
    }
    Ok(())
}

/// A host's links and its live entries.
fn print_host(out: &mut impl Write, host: &Host, rows: &[Row]) -> Result<()> {
    print_links(out, &host.links.all[..host.settings.link_count])?;
    writeln!(out, "  Host table, live entries")?;
    writeln!(
        out,
        "    id  address       link  DELAY (ms)  OFFSET (ms)  true (ms)  error (ms)  bound (ms)"
    )?;
    for row in rows {
        print_row(out, row)?;
    }
    let down = host.table().len() - rows.len();
    if down > 0 {
        writeln!(out, "    ({down} more: down, DELAY {DOWN})")?;
    }
    Ok(())
}

/// Where a lookup of an address on the net of each row leads.
fn print_lookups(out: &mut impl Write, host: &mut Host) -> Result<()> {
    let nets: Vec<Net> = host.net_table.rows().iter().map(|row| row.net).collect();
    if !nets.is_empty() {
        writeln!(out, "  Lookups by the net table")?;
    }
    for net in nets {
        let looked_up = address_on(net);
        let returned = match host.lookup(looked_up) {
            Ok(found) => format!("by {}, link {}", address(found.id), found.pid),
            Err(refusal) => format!("answered {} ({})", refusal.number(), meaning(refusal)),
        };
        writeln!(out, "    {looked_up:<15}  {returned}")?;
    }
    Ok(())
}

/// An address on a net; net zero, which matches all, has one of the last net of class C.
fn address_on(net: Net) -> Address {
    match net {
        Net {
            first: 0,
            second: 0,
            third: 0,
        } => Address::new(223, 255, 255, 1),
        Net {
            first,
            second,
            third,
        } => Address::new(first, second, third, 1),
    }
}

fn print_row(out: &mut impl Write, row: &Row) -> Result<()> {
    let lives = match row.home {
        home if home == row.id => String::new(),
        home => format!("  lives at {}", address(home)),
    };
    writeln!(
        out,
        "    {:>2}  {:<12}  {:>4}  {:>10}  {:>+11}  {:>+9}  {:>+10}  {:>10.3}{lives}{}",
        row.id,
        address(row.id),
        row.entry.pid,
        row.entry.delay,
        row.entry.offset,
        row.truth,
        row.error(),
        row.bound(),
        if row.within_bound() {
            ""
        } else {
            "  beyond the bound"
        }
    )
}

fn print_tally(out: &mut impl Write, plan: &Plan, room: &Room) -> Result<()> {
    writeln!(
        out,
        "Messages: {} sent, {} lost, {} still on their way. Arrivals by answer:",
        room.tally.sent,
        room.tally.lost,
        room.on_the_way()
    )?;
    print_answers(out, &room.tally.answers)?;
    if plan.crystals > 0 {
        print_overflows(out, room)?;
    }
    writeln!(out)
}

/// How often which answer was given.
pub fn print_answers(out: &mut impl Write, answers: &BTreeMap<Answer, u64>) -> Result<()> {
    if answers.is_empty() {
        writeln!(out, "      none")?;
    }
    for (answer, count) in answers {
        writeln!(
            out,
            "  {count:>8}  answered {} ({})",
            answer.number(),
            meaning(*answer)
        )?;
    }
    Ok(())
}

/// How often the crystals' counters overflowed, and who made the ticks for that.
fn print_overflows(out: &mut impl Write, room: &Room) -> Result<()> {
    let (mut overflows, mut marked) = (0, 0);
    for drive in &room.drives {
        if let Drive::Crystal(crystal) = drive {
            overflows += crystal.ticked;
            marked += crystal.marked;
        }
    }
    writeln!(
        out,
        "Overflows of the crystals' counters: {overflows}; ticks for them that a reading with the mark made: {marked}."
    )
}

fn clock_kind(plan: &Plan, number: usize) -> &'static str {
    if number < plan.crystals {
        "crystal clock"
    } else {
        "line clock"
    }
}

/// What an answer to an arrival, a lookup or an event means.
pub fn meaning(answer: Answer) -> &'static str {
    match answer {
        Answer::Done => "done",
        Answer::DelayNotValid => {
            "delay not valid: no message of ours reached the neighbor lately, or HOLD runs"
        }
        Answer::IpForm => "the tray was never filled",
        Answer::OtherLayout => "the message has another NHOSTS or ADDRESS-OFFSET",
        Answer::LoopedLine => "the message is this host's own",
        Answer::NoHost => "no host for the address",
        Answer::HostDown => "that host is down",
        _ => "refused",
    }
}

fn minutes(count: i64) -> String {
    match count {
        1 => "1 minute".to_string(),
        _ => format!("{count} minutes"),
    }
}

/// A reading as a date and a time of day.
pub fn date_and_time(reading: Reading) -> String {
    let (ms, minutes) = (reading.time % MINUTE, reading.time / MINUTE);
    format!(
        "{:02}:{:02}:{:02}.{:03}, {}",
        minutes / 60,
        minutes % 60,
        ms / SECOND,
        ms % SECOND,
        day(reading.date)
    )
}

/// The day of a DATE word.
pub fn day(date: u16) -> String {
    const MONTHS: [&str; 12] = [
        "January",
        "February",
        "March",
        "April",
        "May",
        "June",
        "July",
        "August",
        "September",
        "October",
        "November",
        "December",
    ];
    let (year, day, month) = (1972 + (date & 31), date >> 5 & 31, date >> 10 & 15);
    format!("{day} {} {year}", MONTHS[usize::from(month) - 1])
}
