//! Several hosts in one seat: the mark "lives here".

use super::random::{self, Random};
use super::walk::other_calls;
use super::*;
use crate::walk::{LINE_B, LINE_C};

/// What is reported for a host that lives here.
fn reported(reading: i64) -> Entry {
    Entry {
        updated: reading,
        ..living_here(entry(0, HOLD_DOWN, 0))
    }
}

/// The program's host with some ids marked, its own id 0 among them, and the
/// router as its neighbour.
fn host_with<const COUNT: usize>(ids: [u8; COUNT]) -> Host {
    let mut host = Host::fresh(Settings {
        marks: marks_of(ids),
        ..program::SETTINGS
    });
    host.links[0].neighbor = ROUTER;
    host
}

fn marks(host: &Host) -> Vec<u8> {
    host.run.iter().map(|entry| entry.here).collect()
}

// Self-report.

#[test]
fn every_marked_id_is_reported_and_no_other() {
    let mut host = host_with([0, 2]);
    host.set_reading(77);
    assert_eq!(host.self_report(), Ok(()));
    let table = [reported(77), Entry::FRESH, reported(77), Entry::FRESH];
    assert_eq!(host.run[..4], table);
    let mut host = host_with([0, 1, 2, 3]);
    assert_eq!(host.self_report(), Ok(()));
    assert_eq!(host.run[..4], [reported(0); 4]);
    assert!(host.run[4..].iter().all(|entry| *entry == Entry::FRESH));
}

#[test]
fn all_marked_ids_have_the_one_reading() {
    let mut host = host_with([0, 1, 3]);
    host.settings.clock_tick = Units::from_ms(1_000);
    host.set_reading(5_000);
    host.counter = Counter {
        count: 9,
        overflow: 1,
        again: 40,
    };
    assert_eq!(host.self_report(), Ok(()));
    assert_eq!(host.clock.clock, Units::from_ms(6_000));
    let table = [6_040, 6_040, 0, 6_040];
    assert_eq!([0, 1, 2, 3].map(|id| host.run[id].updated), table);
}

#[test]
fn an_id_passed_over_does_not_stop_the_others() {
    let mut host = host_with([0, 1, 2, 3]);
    let held_down = living_here(entry(MAX_DELAY, 5, 0));
    let live_elsewhere = living_here(entry(99, 60, 1));
    host.run[0] = held_down;
    host.run[1] = live_elsewhere;
    host.run[2] = living_here(entry(100, 60, 1));
    assert_eq!(host.self_report(), Ok(()));
    let table = [held_down, live_elsewhere, reported(0), reported(0)];
    assert_eq!(host.run[..4], table);
}

#[test]
fn a_marked_clock_host_sets_no_clock_by_a_self_report() {
    let mut host = host_with([0, 2]);
    host.settings.clock_host = 2;
    host.set_reading(77);
    let before = host.clock;
    host.self_report().unwrap();
    assert_eq!((host.clock, host.run[2]), (before, reported(77)));
    let hosts = [(0, 0), (0, 0), (0, 5_000), (0, 0)];
    host.run[2] = Entry::fresh(true);
    host.arrival(1, &router_message(heading(77, 77), &hosts))
        .unwrap();
    assert_eq!(host.clock.clock, Units::from_ms(5_077));
}

// The mark stays.

/// What line (c) stores of a host at the neighbour, at a reading of 10.
fn stored_at_10() -> Entry {
    Entry {
        updated: 10,
        ..entry(100, HOLD_DOWN, 1)
    }
}

#[test]
fn links_may_update_a_marked_entry() {
    let mut host = host_with([0, 2]);
    host.set_reading(10);
    host.run[2].delay = 200;
    host.run[2].pid = 1;
    let hosts = [(0, 0), (0, 0), (30_000, 0), (0, 0)];
    // Line (c) stores at ids 0, 1 and 3, line (b) takes id 2 down.
    assert_eq!(
        host.arrival(1, &router_message(heading(10, 10), &hosts)),
        Ok(())
    );
    let stored = stored_at_10();
    let down = entry(MAX_DELAY, 120, 1);
    let table = [living_here(stored), stored, living_here(down), stored];
    assert_eq!(host.run[..4], table);
    assert!(host.read().is_ok());
}

#[test]
fn a_second_keeps_the_marks() {
    let mut host = host_with([0, 2]);
    host.run[0] = living_here(entry(0, 1, 0));
    host.run[1] = entry(200, 1, 1);
    host.run[2] = living_here(entry(200, 9, 1));
    assert_eq!(host.second(), Ok(()));
    let down = entry(MAX_DELAY, 120, 0);
    assert_eq!(host.run[0], living_here(down));
    assert_eq!(host.run[1], Entry { pid: 1, ..down });
    assert_eq!(host.run[2], living_here(entry(200, 8, 1)));
    assert!(host.read().is_ok());
}

#[test]
fn lines_b_and_c_of_a_walk_keep_the_marks() {
    let mut host = host_with([0, 2]);
    host.set_reading(10);
    host.run[2].delay = 200;
    host.run[2].pid = 1;
    let hosts = [(0, 0), (0, 0), (30_000, 0), (0, 0)];
    host.open_walk(1, &router_message(heading(10, 10), &hosts))
        .unwrap();
    let mut lines = 0;
    loop {
        let at = (host.walk.line, host.walk.id);
        lines += usize::from([(LINE_C, 0), (LINE_C, 1), (LINE_B, 2)].contains(&at));
        let place = host.step().unwrap();
        assert_eq!(marks(&host)[..4], [1, 0, 1, 0]);
        if place.is_none() {
            break;
        }
    }
    assert_eq!(lines, 3);
    assert_eq!(host.run[0], living_here(stored_at_10()));
    assert_eq!(host.run[2], living_here(entry(MAX_DELAY, 120, 1)));
}

#[test]
fn setting_afresh_writes_the_marks_of_the_entries() {
    let mut host = host_with([0]);
    host.settings.marks = marks_of([0, 3]);
    host.number = 1;
    let used = Entry {
        here: 77,
        ..entry(1, 1, 1)
    };
    host.run = vec![used; 3 * PLACES];
    assert_eq!(host.set_afresh(), Ok(()));
    let afresh = [true, false, false, true].map(Entry::fresh);
    assert_eq!(host.run[PLACES..PLACES + 4], afresh);
    assert!(host.run[..PLACES].iter().all(|entry| *entry == used));
    assert!(host.run[PLACES + 4..].iter().all(|entry| *entry == used));
    assert!(host.read().is_ok());
}

#[test]
fn no_other_call_writes_a_mark() {
    let mut random = Random(11);
    for _ in 0..500 {
        let mut host = random::host(&mut random);
        for entry in &mut host.run[host.settings.nhosts..] {
            entry.here = random.next() as u8;
        }
        let before = marks(&host);
        let packet = random::packet(&mut random, &host, 1);
        other_calls(&mut host, &packet);
        while let Ok(Some(_)) = host.step() {}
        assert_eq!(marks(&host), before);
    }
}

// Refusals.

/// The answers of all calls but setting afresh and the step, then the step's.
fn answers(host: &mut Host) -> Vec<u8> {
    let packet = router_message(heading(0, 1), &[]);
    let before = host.clone();
    let mut answers = other_calls(host, &packet).to_vec();
    answers.push(answer(&host.step()));
    if answers.iter().all(|number| *number != 0) {
        assert_eq!(*host, before);
    }
    answers
}

#[test]
fn a_mark_that_is_not_the_settings_is_refused() {
    for (id, here) in [(0, 0), (0, 2), (0, 255), (1, 1), (2, 0), (3, 1), (3, 128)] {
        let mut host = host_with([0, 2]);
        host.run[id].here = here;
        assert_eq!(answers(&mut host), [12; 13], "{id} {here}");
        assert_eq!(host.set_afresh(), Ok(()));
        assert_eq!(marks(&host)[..4], [1, 0, 1, 0]);
    }
}

#[test]
fn marks_past_nhosts_are_not_looked_at() {
    let mut host = host_with([0, 2]);
    for entry in &mut host.run[4..] {
        entry.here = 77;
    }
    assert!(!answers(&mut host.clone()).contains(&12));
    // 255 entries at most are there to be tested.
    for (nhosts, number) in [(0, 1), (4, 0), (5, 12), (300, 12)] {
        host.settings.nhosts = nhosts;
        assert_eq!(answer(&host.tick()), number);
    }
}

#[test]
fn twelve_tests_marks_up_to_255_entries() {
    let mut settings = program::SETTINGS;
    settings.nhosts = 255;
    settings.marks = marks_of([0, 254]);
    let mut host = Host::fresh(settings);
    assert_eq!(host.run[254].here, 1);
    assert_eq!(host.self_report(), Ok(()));
    assert_eq!(host.run[254], reported(0));
    host.settings.nhosts = 300;
    assert_eq!(host.tick(), Err(Refusal::Settings));
    host.run[254].here = 0;
    assert_eq!(host.tick(), Err(Refusal::Lent));
    host.settings.nhosts = 254;
    assert_eq!(host.tick(), Err(Refusal::Settings));
}

#[test]
fn settings_are_refused_for_their_marks() {
    let afresh = |nhosts: usize, ids: &[usize]| {
        let mut host = Host::fresh(program::SETTINGS);
        host.settings.nhosts = nhosts;
        host.net.nhosts = nhosts;
        host.settings.marks = [false; MARKS];
        ids.iter().for_each(|id| host.settings.marks[*id] = true);
        let before = host.clone();
        let outcome = host.set_afresh();
        assert!(outcome.is_ok() || host == before);
        answer(&outcome)
    };
    assert_eq!(afresh(4, &[0]), 0);
    assert_eq!(afresh(4, &[0, 3]), 0);
    assert_eq!(afresh(4, &[]), 1);
    assert_eq!(afresh(4, &[1, 2, 3]), 1);
    assert_eq!(afresh(4, &[0, 4]), 1);
    assert_eq!(afresh(4, &[0, 254]), 1);
    assert_eq!(afresh(4, &[0, 255]), 1);
    assert_eq!(afresh(255, &[0, 254]), 0);
    assert_eq!(afresh(255, &[0, 255]), 1);
}

#[test]
fn twelve_comes_before_one() {
    // The own id's mark is missing in the settings alone.
    let mut host = host_with([0]);
    host.settings.marks = marks_of([]);
    assert_eq!(answers(&mut host), [12; 13]);
    host.run[0].here = 0;
    assert_eq!(answers(&mut host), [1; 13]);
    // A mark at NHOSTS is in no entry that 12 looks at.
    let mut host = host_with([0]);
    host.settings.marks = marks_of([0, 4]);
    assert_eq!(answers(&mut host), [1; 13]);
    host.run[4].here = 1;
    assert_eq!(answers(&mut host), [1; 13]);
    host.run[3].here = 1;
    assert_eq!(answers(&mut host), [12; 13]);
    assert_eq!(host.set_afresh(), Err(Refusal::Settings));
    host.number = 1;
    assert_eq!(host.set_afresh(), Err(Refusal::Lent));
}

#[test]
fn a_mark_is_refused_with_12_before_16() {
    let mut host = host_with([0, 2]);
    host.open_walk(1, &router_message(heading(0, 1), &[]))
        .unwrap();
    host.settings.marks[2] = false;
    assert_eq!(answers(&mut host), [12; 13]);
    host.settings.marks[2] = true;
    assert_eq!(answers(&mut host)[..12], [16; 12]);
}

#[test]
fn a_line_is_looped_by_local_address_alone() {
    let mut host = host_with([0, 1]);
    let from_the_marked = router_message(heading(0, 1), &[]);
    assert_eq!(host.arrival(1, &from_the_marked), Ok(()));
    let own = message_from(host.settings.address, heading(0, 1), &[]);
    assert_eq!(host.arrival(1, &own), Err(Refusal::LoopedLine));
}
