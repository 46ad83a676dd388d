//! The words of the command line, and the plan of a room, or the bench file, that they ask for.

use crate::plan::{Cable, End, Exercise, NetRow, Plan, Shape, DAY, START};
use std::fmt::Display;
use std::fs;
use std::ops::{Range, RangeInclusive};
use std::path::PathBuf;
use std::str::FromStr;

pub const HELP: &str = "\
Runs a room of HELLO hosts (RFC 891) on cables, and shows what each host has learned.

  ./run [--hosts N] [--virtual N] [--crystal N] [--shape line|ring] [--delay LIST]
        [--clocks LIST] [--net LIST] [--minutes N] [--loss PERCENT] [--seed N] [--save FILE] [--help]
  ./run --bench FILE [--net LIST]

Without arguments: four hosts in a line, all with line clocks, no net rows, ten minutes, no losses.

  --hosts N        how many hosts, 2 to 16 (default 4). Their addresses are 192.0.2.1 and on
  --virtual N      N further hosts, 0 to 64, live at these (default 0): the first at the first,
                   the next at the next, and so on in turn. Each has an id and an address of its
                   own, behind those of the hosts, and the clock and the links of the host it lives
                   at, which reports it with itself
  --crystal N      N hosts, from the first, have a crystal clock, whose counter of 1000 Hz
                   overflows each 65536 ms; the others have a line clock (default 0)
  --shape line     a cable from each host to the next (default)
  --shape ring     the same, and a cable from the last host to the first
  --delay LIST     how long a message takes on a cable, 0 to 60000 ms: one number for all cables,
                   or one for each, as 40,120,30. There/back differ in 40,120/60,30
  --clocks LIST    what each host's clock is ahead of the room's, in ms, one number for each host,
                   as 0,500,-1250,7000. The room starts at 08:00, and so each is from -28800000
                   to 57599999
  --net LIST       the rows of the net table that all hosts use, 32 at most, as 10:3,192.0.9:1,0:0:
                   a net, one octet of class A or three of class B or C, and the id of the host that
                   leads there, 0 for the first. Net 0 matches all and ends the search
  --minutes N      how long the room runs, 1 to 1440 (default 10)
  --loss PERCENT   how many of a hundred messages the cables lose, 0 to 100 (default 0)
  --seed N         which messages they lose: another number, another choice (default 1)
  --save FILE      writes the room as a bench file (docs/BENCH.md), as far as its 2048 events and 32
                   trays go, and shows what the hosts have learned by then. All hosts then have
                   crystal clocks, unless --crystal says otherwise: ticks of line clocks would fill
                   the file in seconds. The net table is not in it
  --bench FILE     runs a bench file instead of a room, and shows each event with its answer and what
                   the hosts have learned. The net table has the NHOSTS of the file's first host,
                   and the rows of --net; no other option goes with it
  -h, --help       this text

It needs cargo. HELLO_LIB names the folder of a ready libhello.a and libclass_bench.a; without it they
are proved and built in target/, by rt, in some minutes. CARGO_TARGET_DIR is kept if it is set. In a
checkout that cannot be written, HELLO_LIB is needed. Status: 0 done, 2 a wrong argument or bench file,
another number if something failed.

Every cable joins a point-to-point link of one host to one of another host. Each host sends on each
of its links every 5 s and reports itself in its own table every 10 s. A line clock ticks at each
step of the room. A crystal clock ticks for an overflow at the next whole second; a reading before
that is handed the mark, and makes the tick.

An OFFSET is promised to be off the true difference of two clocks by at most 101/200 of the DELAY
beside it, if clocks differ by at most 16384 ms, each message takes 0 to 16383 ms and no clock
reaches midnight. The clock of a further host is that of the one host at which it lives. Where the
arguments break a condition, the program says so, and runs.

After the tables the program says which conditions of total correctness the run met: messages of at
most 50 ms, rounds of at most 59 seconds, and more rounds than the network is wide. If it met all of
them, every DELAY is 100 ms for each cable of a shortest way, and every error at most 50.5 ms a cable.
";

/// What the command line asks for.
pub enum Request {
    Help,
    Run(Plan),
    Bench(Exercise),
}

/// How long a message takes on a cable, either way.
type Delay = [i64; 2];

/// The rows that a net table can have.
const ROWS: usize = 32;

/// Where a bench file has NHOSTS of its first host.
const NHOSTS: Range<usize> = 26..28;

/// The clocks and cables of the built-in example; a larger room goes on with the later ones.
const CLOCKS: [i64; 16] = [
    0, 500, -1250, 7000, -7900, 3210, -45, 1984, 8000, -6001, 77, -320, 5555, -2718, 3141, -8100,
];
const DELAYS: [Delay; 16] = [
    [40, 40],
    [120, 60],
    [30, 30],
    [250, 250],
    [10, 90],
    [70, 70],
    [500, 300],
    [20, 20],
    [150, 160],
    [60, 60],
    [1000, 1000],
    [80, 40],
    [30, 30],
    [200, 210],
    [50, 50],
    [90, 100],
];

/// The request of the words, or what is wrong with them.
pub fn parse(mut words: impl Iterator<Item = String>) -> Result<Request, String> {
    let mut hosts = 4;
    let mut further = 0;
    let mut crystals = None;
    let mut shape = Shape::Line;
    let mut delays = None;
    let mut clocks = None;
    let mut rows = Vec::new();
    let mut minutes = 10;
    let mut loss = 0;
    let mut seed = 1;
    let mut save = None;
    let mut bench = None;
    let mut of_a_room = None;
    while let Some(option) = words.next() {
        if option == "--help" || option == "-h" {
            return Ok(Request::Help);
        }
        if option != "--bench" && option != "--net" {
            of_a_room = Some(option.clone());
        }
        let mut value = || words.next().ok_or(format!("{option} lacks its value"));
        match option.as_str() {
            "--hosts" => hosts = number(&option, &value()?, 2..=16)?,
            "--virtual" => further = number(&option, &value()?, 0..=64)?,
            "--crystal" => crystals = Some(number(&option, &value()?, 0..=16)?),
            "--shape" => shape = shape_named(&value()?)?,
            "--delay" => delays = Some(list(&value()?, delay)?),
            "--clocks" => clocks = Some(list(&value()?, clock)?),
            "--net" => rows = list(&value()?, net_row)?,
            "--minutes" => minutes = number(&option, &value()?, 1..=1440)?,
            "--loss" => loss = number(&option, &value()?, 0..=100)?,
            "--seed" => seed = number(&option, &value()?, 0..=u64::MAX)?,
            "--save" => save = Some(value()?.into()),
            "--bench" => bench = Some(value()?.into()),
            _ => return Err(format!("there is no option {option}")),
        }
    }
    if let Some(path) = bench {
        return match of_a_room {
            Some(option) => Err(format!("{option} is for a room, and --bench runs a file")),
            None => exercise(path, rows).map(Request::Bench),
        };
    }
    let crystals = crystals.unwrap_or(if save.is_some() { hosts } else { 0 });
    Ok(Request::Run(Plan {
        clocks: clocks_of(hosts, clocks)?,
        crystals: crystals_of(hosts, crystals)?,
        further,
        shape,
        cables: cables_of(hosts, shape, delays)?,
        rows: rows_of(hosts + further, rows)?,
        minutes,
        loss,
        seed,
        save,
    }))
}

/// The bench file at a path, with these rows beside it.
fn exercise(path: PathBuf, rows: Vec<NetRow>) -> Result<Exercise, String> {
    let octets = fs::read(&path).map_err(|error| format!("{}: {error}", path.display()))?;
    let nhosts = match octets.get(NHOSTS) {
        Some([0, nhosts @ 1..=255]) => usize::from(*nhosts),
        _ => 1,
    };
    Ok(Exercise {
        path,
        octets,
        nhosts,
        rows: rows_of(nhosts, rows)?,
    })
}

/// The whole number that a word says, if it is in the range.
fn number<N>(what: &str, word: &str, range: RangeInclusive<N>) -> Result<N, String>
where
    N: FromStr + PartialOrd + Display,
{
    match word.parse() {
        Ok(n) if range.contains(&n) => Ok(n),
        _ => Err(format!(
            "{what} must be a whole number from {} to {}, and '{word}' is not",
            range.start(),
            range.end()
        )),
    }
}

fn shape_named(word: &str) -> Result<Shape, String> {
    match word {
        "line" => Ok(Shape::Line),
        "ring" => Ok(Shape::Ring),
        _ => Err(format!("--shape must be line or ring, and '{word}' is not")),
    }
}

/// The members of a list with commas.
fn list<T>(word: &str, member: impl Fn(&str) -> Result<T, String>) -> Result<Vec<T>, String> {
    word.split(',').map(member).collect()
}

fn clock(word: &str) -> Result<i64, String> {
    number("a clock of --clocks", word, -START..=DAY - 1 - START)
}

/// A cable's delay: one number, or two with a slash.
fn delay(word: &str) -> Result<Delay, String> {
    let one_way = |word| number("a delay of --delay", word, 0..=60_000);
    match word.split_once('/') {
        Some((there, back)) => Ok([one_way(there)?, one_way(back)?]),
        None => one_way(word).map(|both| [both, both]),
    }
}

fn clocks_of(hosts: usize, given: Option<Vec<i64>>) -> Result<Vec<i64>, String> {
    let clocks = given.unwrap_or_else(|| CLOCKS[..hosts].to_vec());
    if clocks.len() == hosts {
        Ok(clocks)
    } else {
        Err(format!(
            "--clocks has {} numbers, and there are {hosts} hosts",
            clocks.len()
        ))
    }
}

fn crystals_of(hosts: usize, crystals: usize) -> Result<usize, String> {
    if crystals <= hosts {
        Ok(crystals)
    } else {
        Err(format!(
            "--crystal asks for {crystals} hosts, and there are {hosts}"
        ))
    }
}

/// A row of --net: its net and its host's id.
fn net_row(word: &str) -> Result<NetRow, String> {
    let (net, id) = word.split_once(':').ok_or(format!(
        "a row of --net must be NET:ID, and '{word}' is not"
    ))?;
    Ok(NetRow {
        net: net_of(net)?,
        id: number("an id of --net", id, 0..=254)?,
    })
}

/// The octets of a net: one of class A, or 0, with zeros behind it, or three of class B or C.
fn net_of(word: &str) -> Result<[u8; 3], String> {
    let octets: Result<Vec<u8>, _> = word.split('.').map(str::parse).collect();
    match octets.as_deref() {
        Ok([first @ 0..=127]) => Ok([*first, 0, 0]),
        Ok([first @ 128..=223, second, third]) => Ok([*first, *second, *third]),
        _ => Err(format!(
            "a net of --net must be a number from 0 to 127, or three octets with dots, the first \
             from 128 to 223, and '{word}' is not"
        )),
    }
}

/// The rows, if they fit the table and each names an id that there is.
fn rows_of(ids: usize, rows: Vec<NetRow>) -> Result<Vec<NetRow>, String> {
    if rows.len() > ROWS {
        return Err(format!(
            "--net has {} rows, and at most {ROWS} fit",
            rows.len()
        ));
    }
    match rows.iter().find(|row| row.id >= ids) {
        Some(row) => Err(format!(
            "--net names id {}, and there are ids 0 to {}",
            row.id,
            ids - 1
        )),
        None => Ok(rows),
    }
}

/// The cables of the shape: each joins a host to the next.
fn cables_of(hosts: usize, shape: Shape, given: Option<Vec<Delay>>) -> Result<Vec<Cable>, String> {
    let count = match shape {
        Shape::Line => hosts - 1,
        Shape::Ring => hosts,
    };
    let delays = match given.as_deref() {
        None => DELAYS[..count].to_vec(),
        Some([all]) => vec![*all; count],
        Some(each) if each.len() == count => each.to_vec(),
        Some(each) => {
            return Err(format!(
                "--delay has {} members, and there are {count} cables",
                each.len()
            ))
        }
    };
    let mut links = vec![0; hosts];
    let mut next_link = |host: usize| {
        links[host] += 1;
        End {
            host,
            link: links[host],
        }
    };
    Ok((0..count)
        .map(|k| Cable {
            ends: [next_link(k), next_link((k + 1) % hosts)],
            delay: delays[k],
        })
        .collect())
}
