//! Looking at a packet before it acts.

use super::random::{self, Random};
use super::*;

fn refusal(outcome: Result<Inspected, Refusal>) -> u8 {
    answer(&outcome)
}

#[test]
fn an_inspection_tells_what_the_packet_says() {
    let mut host = Host::fresh(program::SETTINGS);
    host.clock.hold = 1;
    let mut message = router_message(heading(0xFFFF_FFFE, 0xFFFD), &[(1, 1); 4]);
    let returned = Inspected {
        source: ROUTER,
        time: 0xFFFF_FFFE,
        tsp: 0xFFFD,
        hosts: 4,
    };
    assert_eq!(host.inspect(1, &message), Ok(returned));
    message.pop();
    assert_eq!(host.inspect(1, &message), Err(Refusal::IpForm));
    assert_eq!(host.inspect(1, &message).unwrap_or_default().hosts, 0);
}

#[test]
fn an_inspection_is_refused_in_the_old_order() {
    let mut host = host_with_router();
    host.settings.link_count = 9;
    host.links[0].keep_alive = 5;
    assert_eq!(refusal(host.inspect(1, &[])), 12);
    host.links[0].keep_alive = 4;
    assert_eq!(refusal(host.inspect(9, &[])), 12);
    assert_eq!(refusal(host.inspect(0, &[])), 12);
    assert_eq!(refusal(host.inspect(1, &[])), 1);
    host.settings.link_count = 1;
    assert_eq!(refusal(host.inspect(2, &[])), 12);
    assert_eq!(refusal(host.inspect(1, &[])), 3);
    let other_layout = message_from(host.settings.address, heading(0, 0), &[(0, 0); 5]);
    assert_eq!(refusal(host.inspect(1, &other_layout)), 8);
    let looped = message_from(host.settings.address, heading(0, 0), &[]);
    assert_eq!(refusal(host.inspect(1, &looped)), 9);
    host.settings.links[0] = LinkKind::Broadcast(ROUTER);
    assert_eq!(refusal(host.inspect(1, &looped)), 0);
}

#[test]
fn the_action_adds_10_and_11() {
    let mut host = host_with_router();
    let not_valid = router_message(heading(0, 0), &[]);
    assert_eq!(refusal(host.inspect(1, &not_valid)), 0);
    assert_eq!(host.act(1, &not_valid), Err(Refusal::DelayNotValid));
    let nobody = message_from(Address([192, 0, 3, 9]), heading(0, 0), &[]);
    assert_eq!(refusal(host.inspect(1, &nobody)), 0);
    assert_eq!(host.act(1, &nobody), Err(Refusal::NoHost));
}

#[test]
fn calls_may_come_between() {
    let mut host = host_with_router();
    host.settings.marks = marks_of([0, 1]);
    host.run[1].here = 1;
    let message = router_message(heading(1_000, 1_000), &[]);
    assert!(host.inspect(1, &message).is_ok());
    host.set(1_200).unwrap();
    host.second().unwrap();
    assert_eq!(host.act(1, &message), Ok(()));
    assert_eq!((host.run[1].delay, host.run[1].updated), (200, 1_200));
    host.settings.address = ROUTER;
    assert_eq!(host.act(1, &message), Err(Refusal::LoopedLine));
}

#[test]
fn an_arrival_is_the_pair_and_the_action_alone() {
    let mut random = Random(1);
    let mut seen = [0; 28];
    for _ in 0..4_000 {
        let host = random::host(&mut random);
        let link = 1 + random.below(host.settings.link_count);
        let packet = random::packet(&mut random, &host, link);
        let (mut whole, mut pair, mut alone) = (host.clone(), host.clone(), host.clone());
        let outcome = whole.arrival(link, &packet);
        let inspected = pair.inspect(link, &packet);
        assert_eq!(pair, host);
        let acted = inspected.and_then(|_| pair.act(link, &packet));
        assert_eq!((acted, &pair), (outcome, &whole));
        assert_eq!((alone.act(link, &packet), &alone), (outcome, &whole));
        seen[usize::from(answer(&outcome))] += 1;
    }
    let seen_often = (0..28).filter(|number| seen[*number] > 3);
    assert_eq!(
        seen_often.collect::<Vec<_>>(),
        [0, 3, 4, 5, 6, 7, 8, 9, 10, 11]
    );
}
