//! One net table for the class.

use super::random::{self, Random};
use super::walk::other_calls;
use super::*;
use crate::walk::{LINE_A, LINE_B};

const A: [u8; 3] = [10, 0, 0];
const B: [u8; 3] = [128, 7, 1];
const C: [u8; 3] = [192, 0, 3];
const ZERO: [u8; 3] = [0; 3];
/// An address on net C.
const ON_C: Address = Address([192, 0, 3, 9]);

fn row(net: [u8; 3], host: u8) -> NetRow {
    NetRow { net, host }
}

/// A table of four hosts with some rows.
fn table(rows: &[([u8; 3], u8)]) -> NetTable {
    let mut table = NetTable::without_rows(4);
    for (place, (net, host)) in rows.iter().enumerate() {
        assert_eq!(net::add(&mut table, *net, *host), Ok(place + 1));
    }
    table
}

fn full_table() -> NetTable {
    table(&[(A, 1); NET_ROWS])
}

/// What stands in a table; the slots behind have to be zero.
fn rows(table: &NetTable) -> Vec<([u8; 3], u8)> {
    let (standing, behind) = table.rows.split_at(table.count);
    assert!(behind.iter().all(|slot| *slot == row(ZERO, 0)));
    standing.iter().map(|row| (row.net, row.host)).collect()
}

/// The number of a tutor's call, which changes nothing where it is refused.
fn number<T>(table: &NetTable, call: impl Fn(&mut NetTable) -> Result<T, Refusal>) -> u8 {
    let mut borrowed = *table;
    let outcome = call(&mut borrowed);
    assert!(outcome.is_ok() || borrowed == *table);
    answer(&outcome)
}

// The tutor's calls.

#[test]
fn setting_afresh_leaves_no_rows() {
    let mut borrowed = full_table();
    assert_eq!(net::set_afresh(&mut borrowed, 255), Ok(()));
    assert_eq!((borrowed.nhosts, borrowed.count), (255, 0));
    assert_eq!(rows(&borrowed), []);
    let mut bad = full_table();
    bad.count = 33;
    bad.nhosts = 0;
    assert_eq!(net::set_afresh(&mut bad, 1), Ok(()));
    assert_eq!(bad, NetTable::without_rows(1));
}

#[test]
fn setting_afresh_refuses_a_bad_nhosts_with_1() {
    let mut bad = full_table();
    bad.count = 33;
    for borrowed in [full_table(), bad] {
        for nhosts in [0, 256, 300, usize::MAX] {
            assert_eq!(
                number(&borrowed, |borrowed| net::set_afresh(borrowed, nhosts)),
                1
            );
        }
    }
}

#[test]
fn additions_go_at_the_end() {
    let mut borrowed = NetTable::without_rows(4);
    assert_eq!(net::add(&mut borrowed, A, 3), Ok(1));
    assert_eq!(net::add(&mut borrowed, B, 0), Ok(2));
    assert_eq!(net::add(&mut borrowed, C, 1), Ok(3));
    assert_eq!(rows(&borrowed), [(A, 3), (B, 0), (C, 1)]);
    assert_eq!(borrowed.nhosts, 4);
    // Nets may be any: double ones, and several of net zero.
    assert_eq!(net::add(&mut borrowed, A, 2), Ok(4));
    assert_eq!(net::add(&mut borrowed, ZERO, 2), Ok(5));
    assert_eq!(net::add(&mut borrowed, ZERO, 1), Ok(6));
    assert_eq!(net::add(&mut borrowed, [224, 255, 255], 1), Ok(7));
    assert_eq!(borrowed.count, 7);
}

#[test]
fn full_means_32_rows_stand() {
    let mut borrowed = table(&[(A, 1); 31]);
    assert_eq!(net::add(&mut borrowed, B, 3), Ok(32));
    assert_eq!(borrowed.rows[31], row(B, 3));
    assert_eq!(number(&borrowed, |borrowed| net::add(borrowed, C, 1)), 21);
    // Full comes before a bad id.
    assert_eq!(number(&borrowed, |borrowed| net::add(borrowed, C, 4)), 21);
    assert_eq!(net::remove(&mut borrowed, 1), Ok(()));
    assert_eq!(number(&borrowed, |borrowed| net::add(borrowed, C, 4)), 1);
    assert_eq!(net::add(&mut borrowed, C, 1), Ok(32));
}

#[test]
fn an_added_id_is_below_nhosts() {
    let borrowed = table(&[(A, 1)]);
    assert_eq!(number(&borrowed, |borrowed| net::add(borrowed, C, 3)), 0);
    assert_eq!(number(&borrowed, |borrowed| net::add(borrowed, C, 4)), 1);
    assert_eq!(number(&borrowed, |borrowed| net::add(borrowed, C, 255)), 1);
    let most = NetTable::without_rows(255);
    assert_eq!(number(&most, |borrowed| net::add(borrowed, C, 254)), 0);
    assert_eq!(number(&most, |borrowed| net::add(borrowed, C, 255)), 1);
}

#[test]
fn rows_move_up_behind_a_removed_one() {
    let borrowed = table(&[(A, 0), (B, 1), (C, 2), (ZERO, 3)]);
    let without = |number: usize| {
        let mut borrowed = borrowed;
        assert_eq!(net::remove(&mut borrowed, number), Ok(()));
        rows(&borrowed)
    };
    assert_eq!(without(1), [(B, 1), (C, 2), (ZERO, 3)]);
    assert_eq!(without(2), [(A, 0), (C, 2), (ZERO, 3)]);
    assert_eq!(without(4), [(A, 0), (B, 1), (C, 2)]);
    let mut one = table(&[(A, 3)]);
    assert_eq!(net::remove(&mut one, 1), Ok(()));
    assert_eq!(one, NetTable::without_rows(4));
    let mut full = full_table();
    assert_eq!(net::remove(&mut full, 32), Ok(()));
    assert_eq!(rows(&full), [(A, 1); 31]);
}

#[test]
fn a_change_keeps_the_net() {
    let mut borrowed = table(&[(A, 0), (B, 1), (C, 2)]);
    assert_eq!(net::change(&mut borrowed, 2, 3), Ok(()));
    assert_eq!(rows(&borrowed), [(A, 0), (B, 3), (C, 2)]);
    assert_eq!(net::change(&mut borrowed, 2, 3), Ok(()));
    assert_eq!(net::change(&mut borrowed, 1, 2), Ok(()));
    assert_eq!(rows(&borrowed), [(A, 2), (B, 3), (C, 2)]);
}

#[test]
fn a_number_without_a_row_is_22() {
    let borrowed = table(&[(A, 0), (B, 1)]);
    for (row, answer) in [(0, 22), (1, 0), (2, 0), (3, 22), (usize::MAX, 22)] {
        assert_eq!(
            number(&borrowed, |borrowed| net::remove(borrowed, row)),
            answer
        );
        assert_eq!(
            number(&borrowed, |borrowed| net::change(borrowed, row, 3)),
            answer
        );
    }
    let none = NetTable::without_rows(4);
    assert_eq!(number(&none, |borrowed| net::remove(borrowed, 1)), 22);
    // 22 comes before 1, and a full table is no hindrance.
    assert_eq!(
        number(&borrowed, |borrowed| net::change(borrowed, 0, 4)),
        22
    );
    assert_eq!(
        number(&borrowed, |borrowed| net::change(borrowed, 3, 4)),
        22
    );
    assert_eq!(number(&borrowed, |borrowed| net::change(borrowed, 2, 4)), 1);
    let full = full_table();
    assert_eq!(number(&full, |borrowed| net::change(borrowed, 33, 4)), 22);
    assert_eq!(number(&full, |borrowed| net::change(borrowed, 32, 4)), 1);
    assert_eq!(number(&full, |borrowed| net::change(borrowed, 32, 3)), 0);
    assert_eq!(number(&full, |borrowed| net::remove(borrowed, 33)), 22);
}

/// Tables that 12 refuses; each differs from the full one in a number.
fn bad_tables() -> Vec<NetTable> {
    let changes: [fn(&mut NetTable); 9] = [
        |borrowed| borrowed.count = 33,
        |borrowed| borrowed.count = usize::MAX,
        |borrowed| borrowed.nhosts = 0,
        |borrowed| borrowed.nhosts = 256,
        |borrowed| borrowed.nhosts = usize::MAX,
        |borrowed| borrowed.nhosts = 1,
        |borrowed| borrowed.rows[0].host = 4,
        |borrowed| borrowed.rows[31].host = 255,
        // Behind a row of net zero, which ends every search.
        |borrowed| (borrowed.rows[0].net, borrowed.rows[5].host) = (ZERO, 4),
    ];
    changes
        .map(|change| {
            let mut borrowed = full_table();
            change(&mut borrowed);
            borrowed
        })
        .to_vec()
}

#[test]
fn a_bad_table_is_12_first_of_all() {
    for bad in bad_tables() {
        assert_eq!(number(&bad, |borrowed| net::add(borrowed, C, 1)), 12);
        assert_eq!(number(&bad, |borrowed| net::add(borrowed, C, 255)), 12);
        assert_eq!(number(&bad, |borrowed| net::remove(borrowed, 1)), 12);
        assert_eq!(number(&bad, |borrowed| net::remove(borrowed, 0)), 12);
        assert_eq!(number(&bad, |borrowed| net::change(borrowed, 1, 1)), 12);
        assert_eq!(number(&bad, |borrowed| net::change(borrowed, 0, 255)), 12);
        assert_eq!(number(&bad, |borrowed| net::set_afresh(borrowed, 4)), 0);
    }
}

#[test]
fn slots_behind_the_rows_are_not_looked_at_and_left_zero() {
    let mut borrowed = table(&[(A, 0), (B, 1)]);
    borrowed.rows[2..].fill(row(C, 255));
    let mut added = borrowed;
    assert_eq!(net::add(&mut added, ZERO, 3), Ok(3));
    assert_eq!(rows(&added), [(A, 0), (B, 1), (ZERO, 3)]);
    let mut removed = borrowed;
    assert_eq!(net::remove(&mut removed, 1), Ok(()));
    assert_eq!(rows(&removed), [(B, 1)]);
    let mut changed = borrowed;
    assert_eq!(net::change(&mut changed, 1, 2), Ok(()));
    assert_eq!(rows(&changed), [(A, 2), (B, 1)]);
    // A refused call leaves them too.
    assert_eq!(number(&borrowed, |borrowed| net::add(borrowed, C, 4)), 1);
    assert_eq!(number(&borrowed, |borrowed| net::remove(borrowed, 3)), 22);
}

/// The tutor's calls beside a plain list of rows.
#[test]
fn a_list_of_tutors_calls() {
    let mut random = Random(12);
    let mut borrowed = NetTable::without_rows(4);
    let (mut list, mut nhosts) = (Vec::new(), 4);
    let mut seen = [0; 28];
    for _ in 0..5_000 {
        let net = random.pick(&[A, B, C, ZERO]);
        let host = random.below(nhosts + 2) as u8;
        let at = random.below(35);
        let id_is_bad = usize::from(host) >= nhosts;
        let is_row = (1..=list.len()).contains(&at);
        let (done, expected) = match random.below(12) {
            0 if random.one_in(10) => {
                let afresh = random.pick(&[0, 1, 3, 4, 255, 256]);
                let fits = (1..=255).contains(&afresh);
                if fits {
                    (nhosts, list) = (afresh, Vec::new());
                }
                (net::set_afresh(&mut borrowed, afresh), u8::from(!fits))
            }
            1..=6 => {
                let full = list.len() == 32;
                let expected = if full { 21 } else { u8::from(id_is_bad) };
                if expected == 0 {
                    list.push((net, host));
                }
                let added = net::add(&mut borrowed, net, host);
                assert!(added.is_err() || added == Ok(list.len()));
                (added.map(|_| ()), expected)
            }
            7 | 8 => {
                if is_row {
                    list.remove(at - 1);
                }
                let expected = if is_row { 0 } else { 22 };
                (net::remove(&mut borrowed, at), expected)
            }
            _ => {
                let expected = if is_row { u8::from(id_is_bad) } else { 22 };
                if expected == 0 {
                    list[at - 1].1 = host;
                }
                (net::change(&mut borrowed, at, host), expected)
            }
        };
        assert_eq!(answer(&done), expected);
        assert_eq!((rows(&borrowed), borrowed.nhosts), (list.clone(), nhosts));
        seen[usize::from(expected)] += 1;
    }
    assert!([0, 1, 21, 22].iter().all(|number| seen[*number] > 50));
}

// The hosts.

#[test]
fn a_lookup_uses_the_table_it_is_lent() {
    let mut host = host_with_router();
    for id in 0..4 {
        host.run[id].delay = 100;
        host.run[id].pid = id as u8;
    }
    assert_eq!(host.lookup(ON_C), Err(Refusal::NoHost));
    let found = |host: &mut Host| host.lookup(ON_C).map(|route| route.host);
    host.net = table(&[(B, 0), (C, 2), (C, 3), (ZERO, 1)]);
    assert_eq!(found(&mut host), Ok(2));
    net::change(&mut host.net, 2, 0).unwrap();
    assert_eq!(found(&mut host), Ok(0));
    net::remove(&mut host.net, 2).unwrap();
    assert_eq!(found(&mut host), Ok(3));
    net::remove(&mut host.net, 2).unwrap();
    assert_eq!(found(&mut host), Ok(1));
    net::remove(&mut host.net, 2).unwrap();
    assert_eq!(found(&mut host), Err(Refusal::NoHost));
    // A row of net zero ends the search for any net behind it.
    host.net = table(&[(ZERO, 3), (C, 2)]);
    assert_eq!(found(&mut host), Ok(3));
}

#[test]
fn an_arrival_uses_the_table_it_is_lent() {
    let message = message_from(ON_C, heading(0, 0), &[]);
    let mut host = Host::fresh(program::SETTINGS);
    host.net = table(&[(C, 2)]);
    host.run[2] = entry(500, 60, 1);
    assert_eq!(host.arrival(1, &message), Ok(()));
    assert_eq!(host.run[2], entry(MAX_DELAY, 120, 1));
}

/// The answers of every call but setting afresh: the step's comes last.
fn answers(host: &mut Host) -> Vec<u8> {
    let packet = router_message(heading(0, 1), &[]);
    let before = host.clone();
    let mut answers = other_calls(host, &packet).to_vec();
    answers.push(answer(&host.step()));
    if answers.iter().all(|number| *number != 0) {
        assert_eq!(*host, before);
    }
    answers
}

#[test]
fn a_bad_table_is_12_in_every_call_of_a_host() {
    for bad in bad_tables() {
        let mut host = host_with_router();
        host.net = bad;
        assert_eq!(answers(&mut host), [12; 13]);
        assert_eq!(host.set_afresh(), Err(Refusal::Lent));
        host.settings.hold_interval = 0;
        assert_eq!(answers(&mut host), [12; 13]);
        assert_eq!(host.set_afresh(), Err(Refusal::Lent));
        host.settings.hold_interval = 1;
        host.net = full_table();
        host.open_walk(1, &router_message(heading(0, 1), &[]))
            .unwrap();
        host.net = bad;
        assert_eq!(answers(&mut host), [12; 13]);
    }
}

#[test]
fn slots_behind_the_rows_trouble_no_host() {
    let mut host = host_with_router();
    host.net.rows.fill(row(C, 255));
    assert_eq!(host.set_afresh(), Ok(()));
    assert_eq!(host.lookup(ON_C), Err(Refusal::NoHost));
}

#[test]
fn another_nhosts_than_the_tables_is_1() {
    for nhosts in [1, 3, 5, 255] {
        let mut host = host_with_router();
        host.net.nhosts = nhosts;
        assert_eq!(answers(&mut host), [1; 13]);
        let before = host.clone();
        assert_eq!(host.set_afresh(), Err(Refusal::Settings));
        assert_eq!(host, before);
        // 12 comes before it.
        host.clock.hold = 256;
        assert_eq!(answers(&mut host), [12; 13]);
    }
    let mut host = host_with_router();
    host.net.nhosts = 9;
    host.settings.nhosts = 9;
    assert_eq!(host.set_afresh(), Ok(()));
    assert!(host.read().is_ok());
}

// A walk.

/// A walk for a packet of the router of net C, before box 5.
fn before_box_5(net: NetTable) -> Host {
    let mut host = Host::fresh(program::SETTINGS);
    host.net = net;
    host.run[1] = entry(500, 60, 1);
    host.run[2] = entry(500, 60, 1);
    host.open_walk(1, &message_from(ON_C, heading(0, 0), &[]))
        .unwrap();
    while host.step() != Ok(Some(Place::at_step(5))) {}
    host
}

#[test]
fn a_walk_uses_the_table_of_box_5() {
    let mut host = before_box_5(table(&[(C, 1)]));
    net::change(&mut host.net, 1, 2).unwrap();
    assert_eq!(host.step(), Ok(Some(Place::at_line(LINE_A, 2))));
    // Behind box 5 the table is not asked.
    net::remove(&mut host.net, 1).unwrap();
    assert_eq!(host.step(), Ok(Some(Place::at_line(LINE_B, 2))));
    assert_eq!(host.step(), Ok(None));
    assert_eq!(host.run[1], entry(500, 60, 1));
    assert_eq!(host.run[2], entry(MAX_DELAY, 120, 1));

    let mut host = before_box_5(table(&[(C, 1)]));
    net::remove(&mut host.net, 1).unwrap();
    assert_eq!(host.step(), Err(Refusal::NoHost));
    let mut host = before_box_5(table(&[]));
    net::add(&mut host.net, ZERO, 1).unwrap();
    assert_eq!(host.step(), Ok(Some(Place::at_line(LINE_A, 1))));
}

#[test]
fn another_nhosts_in_mid_walk() {
    let mut host = before_box_5(table(&[(C, 1)]));
    let walk = host.walk;
    host.net.nhosts = 5;
    let packet = router_message(heading(0, 1), &[]);
    assert_eq!(other_calls(&mut host, &packet), [16; 12]);
    assert_eq!(host.step(), Err(Refusal::Settings));
    assert_eq!(host.set_afresh(), Err(Refusal::Settings));
    assert_eq!(host.walk, walk);
    // Put right, it goes on.
    let mut right = host.clone();
    right.net.nhosts = 4;
    assert_eq!(right.step(), Ok(Some(Place::at_line(LINE_A, 1))));
    // Setting afresh with the new NHOSTS frees the host.
    host.settings.nhosts = 5;
    assert_eq!(host.set_afresh(), Ok(()));
    assert!(host.read().is_ok());
}

/// The claim, whatever the tutor does between two boxes.
#[test]
fn a_walk_is_the_arrival_with_the_table_of_box_5() {
    let mut random = Random(13);
    let mut looked_up = 0;
    for _ in 0..2_000 {
        let mut host = random::host(&mut random);
        let link = 1 + random.below(host.settings.link_count);
        let packet = random::packet(&mut random, &host, link);
        let nhosts = host.settings.nhosts;
        let of_box_5 = random::net_table(&mut random, nhosts);
        let mut whole = host.clone();
        whole.net = of_box_5;
        let outcome = whole.arrival(link, &packet);
        if host.open_walk(link, &packet).is_err() {
            continue;
        }
        let end = loop {
            host.net = match host.walk.step {
                5 => of_box_5,
                _ => random::net_table(&mut random, nhosts),
            };
            match host.step() {
                Ok(Some(_)) => (),
                Ok(None) => break Ok(()),
                Err(refusal) => break Err(refusal),
            }
        };
        assert_eq!(end, outcome);
        assert_eq!((host.clock, host.links), (whole.clock, whole.links));
        assert_eq!(host.run, whole.run);
        let other_net = !host.links[link - 1]
            .neighbor
            .same_net(host.settings.address);
        looked_up += usize::from(other_net && packet.len() == 32 && end.is_ok());
    }
    assert!(looked_up > 50);
}
