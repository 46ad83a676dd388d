//! The two programs that are compared, each with all it borrows.

use crate::call::{Call, Octets, Outcome, Trial, Value};
use crate::convert;
use hello::{nets, State};
use reference::walk::FIRST_STEP;
use reference::{answer, host, net, program, Place, Refusal};

/// What the library borrows: the table of the class, the clock, links and walk of each host with the
/// copy of its packet, and the run.
pub struct Library {
    pub table: hello::ClassTable,
    pub clocks: Vec<hello::Clock>,
    pub links: Vec<hello::Links>,
    pub walks: Vec<hello::Walk>,
    pub copies: Vec<Vec<u8>>,
    pub run: Vec<hello::Entry>,
}

impl Library {
    pub fn perform(&mut self, trial: &Trial) -> Outcome {
        let table = &mut self.table;
        match &trial.call {
            Call::NetAfresh { nhosts } => return Outcome::of(nets::afresh(table, *nhosts)),
            Call::NetAdd { net, id } => {
                let added = nets::add(table, *net, *id);
                return Outcome::new(added.answer, Value::Row(added.row));
            }
            Call::NetRemove { row } => return Outcome::of(nets::remove(table, *row)),
            Call::NetChange { row, id } => return Outcome::of(nets::change(table, *row, *id)),
            _ => {}
        }
        let mut state = State {
            settings: &trial.settings,
            table,
            number: trial.number,
            clock: &mut self.clocks[trial.host],
            links: &mut self.links[trial.host],
            walk: &mut self.walks[trial.host],
            copy: &mut self.copies[trial.host][..trial.copy_length],
            entries: &mut self.run[..trial.run_length],
        };
        match &trial.call {
            Call::Initialize => Outcome::of(state.initialize()),
            Call::Tick { count } => Outcome::of(state.tick(*count)),
            Call::Adjust { count } => Outcome::of(state.adjust(*count)),
            Call::Set { ms, count } => Outcome::of(state.set(*ms, *count)),
            Call::Read { counter } => {
                let read = state.read(*counter);
                let value = Value::Time {
                    time: read.time,
                    date: read.date,
                };
                Outcome::new(read.answer, value)
            }
            Call::Second => Outcome::of(state.second()),
            Call::SelfReport { counter } => Outcome::of(state.self_report(*counter)),
            Call::Send {
                link,
                counter,
                buffer,
            } => {
                let mut octets = buffer.0.clone();
                let sent = state.send(*link, *counter, &mut octets);
                Outcome {
                    answer: sent.answer,
                    value: Value::Length(sent.length),
                    buffer: Octets(octets),
                }
            }
            Call::Inspect { link, packet } => {
                let returned = state.inspect(*link, &packet.0);
                let value = Value::Inspected {
                    source: convert::address(returned.source),
                    time: returned.time,
                    tsp: returned.tsp,
                    nhosts: returned.nhosts,
                };
                Outcome::new(returned.answer, value)
            }
            Call::Act {
                link,
                counter,
                packet,
            } => Outcome::of(state.act(*link, *counter, &packet.0)),
            Call::Receive {
                link,
                counter,
                packet,
            } => Outcome::of(state.receive(*link, *counter, &packet.0)),
            Call::OpenWalk { link, packet } => {
                let packet = &packet.0;
                next(state.open_walk(*link, packet))
            }
            Call::Step { counter } => next(state.step(*counter)),
            Call::Lookup { address } => {
                let route = state.lookup(*address);
                let value = Value::Route {
                    host: route.id,
                    pid: route.pid,
                };
                Outcome::new(route.answer, value)
            }
            Call::NetAfresh { .. }
            | Call::NetAdd { .. }
            | Call::NetRemove { .. }
            | Call::NetChange { .. } => unreachable!("the tutor's calls are made above"),
            Call::Packet { octets } => Outcome::of(hello::packet(&octets.0)),
            Call::Checksum { octets } => {
                Outcome::new(0, Value::Checksum(hello::checksum(&octets.0)))
            }
        }
    }
}

/// The next place, with all that is returned of it.
pub fn next(stepped: hello::Stepped) -> Outcome {
    let id = u8::try_from(stepped.id).expect("an id is an octet");
    let next = match (stepped.step, stepped.line, id) {
        (0, 0, 0) => None,
        (step, line, id) => Some(convert::place(step, line, id)),
    };
    Outcome::new(stepped.answer, Value::Next(next))
}

/// What the reference borrows.
pub struct Reference {
    pub table: reference::NetTable,
    pub clocks: Vec<reference::Clock>,
    pub links: Vec<reference::Links>,
    pub walks: Vec<reference::Walk>,
    pub run: Vec<reference::Entry>,
}

impl Reference {
    pub fn perform(&mut self, trial: &Trial) -> Outcome {
        let settings = &convert::settings(&trial.settings);
        let table = &mut self.table;
        let number = trial.number;
        let clock = &mut self.clocks[trial.host];
        let links = &mut self.links[trial.host];
        let walk = &mut self.walks[trial.host];
        let run = &mut self.run[..trial.run_length];
        match &trial.call {
            Call::Initialize => done(host::set_afresh(
                settings, table, number, clock, links, walk, run,
            )),
            Call::Tick { count } => done(host::tick(
                settings, table, number, clock, links, walk, run, *count,
            )),
            Call::Adjust { count } => done(host::adjust(
                settings, table, number, clock, links, walk, run, *count,
            )),
            Call::Set { ms, count } => done(host::set(
                settings, table, number, clock, links, walk, run, *ms, *count,
            )),
            Call::Read { counter } => {
                let counter = convert::counter(*counter);
                let read = host::read(settings, table, number, clock, links, walk, run, counter);
                let (time, date) = read.map_or((0, 0), |reading| (reading.time, reading.date.0));
                Outcome::new(answer(&read), Value::Time { time, date })
            }
            Call::Second => done(host::second(
                settings, table, number, clock, links, walk, run,
            )),
            Call::SelfReport { counter } => {
                let counter = convert::counter(*counter);
                done(host::self_report(
                    settings, table, number, clock, links, walk, run, counter,
                ))
            }
            Call::Send {
                link,
                counter,
                buffer,
            } => {
                let mut octets = buffer.0.clone();
                let sent = host::send(
                    settings,
                    table,
                    number,
                    clock,
                    links,
                    walk,
                    run,
                    *link,
                    convert::counter(*counter),
                    &mut octets,
                );
                Outcome {
                    answer: answer(&sent),
                    value: Value::Length(sent.unwrap_or(0)),
                    buffer: Octets(octets),
                }
            }
            Call::Inspect { link, packet } => {
                let said = host::inspect(
                    settings, table, number, clock, links, walk, run, *link, &packet.0,
                );
                let returned = said.unwrap_or_default();
                let value = Value::Inspected {
                    source: returned.source,
                    time: returned.time.into(),
                    tsp: returned.tsp,
                    nhosts: returned.hosts,
                };
                Outcome::new(answer(&said), value)
            }
            Call::Act {
                link,
                counter,
                packet,
            } => {
                let counter = convert::counter(*counter);
                done(host::act(
                    settings, table, number, clock, links, walk, run, *link, counter, &packet.0,
                ))
            }
            Call::Receive {
                link,
                counter,
                packet,
            } => {
                let counter = convert::counter(*counter);
                done(host::arrival(
                    settings, table, number, clock, links, walk, run, *link, counter, &packet.0,
                ))
            }
            Call::OpenWalk { link, packet } => {
                let packet = &packet.0;
                let opened = host::open_walk(
                    settings, table, number, clock, links, walk, run, *link, packet,
                );
                let first = opened.map(|()| Place::at_step(FIRST_STEP));
                Outcome::new(answer(&opened), Value::Next(first.ok()))
            }
            Call::Step { counter } => {
                let counter = convert::counter(*counter);
                let stepped = host::step(settings, table, number, clock, links, walk, run, counter);
                Outcome::new(answer(&stepped), Value::Next(stepped.unwrap_or(None)))
            }
            Call::Lookup { address } => {
                let address = convert::address(*address);
                let route = host::lookup(settings, table, number, clock, links, walk, run, address);
                let (host, pid) = route.map_or((0, 0), |route| (route.host, route.pid));
                Outcome::new(answer(&route), Value::Route { host, pid })
            }
            Call::NetAfresh { nhosts } => done(net::set_afresh(table, *nhosts)),
            Call::NetAdd { net, id } => {
                let added = net::add(table, convert::net(*net), octet(*id));
                Outcome::new(answer(&added), Value::Row(added.unwrap_or(0)))
            }
            Call::NetRemove { row } => done(net::remove(table, *row)),
            Call::NetChange { row, id } => done(net::change(table, *row, octet(*id))),
            Call::Packet { octets } => Outcome::of(program::packet(&octets.0)),
            Call::Checksum { octets } => {
                let sum = reference::checksum::checksum(&octets.0);
                Outcome::new(0, Value::Checksum(sum))
            }
        }
    }
}

/// The id of a row, which is an octet to the reference. One over 255 is, as 255, never below NHOSTS.
fn octet(id: usize) -> u8 {
    id.min(255) as u8
}

fn done(outcome: Result<(), Refusal>) -> Outcome {
    Outcome::of(answer(&outcome))
}
