//! The reasons at E2 to E7 of 'Known examples', for destination 0.

use reference::network::Network;
use reference::reason::Reason::{self, *};

use crate::{fresh, pass_all};

fn e2() -> Network {
    fresh(3, &[[0, 1], [1, 2], [0, 2]], &[&[1, 1, 3], &[0, 1, 3]])
}

fn e3() -> Network {
    let mut network = e2();
    let pairs = [(0, 0), (0, 2), (1, 0), (1, 1), (2, 1), (2, 2)];
    for _ in 0..2 {
        pairs.iter().for_each(|&(bridge, link)| network.send(bridge, link).unwrap());
        pairs.iter().for_each(|_| assert!(network.deliver(0).is_ok()));
    }
    network
}

fn e4() -> Network {
    let mut network = e3();
    network.set_end(0, 0, true).unwrap();
    network.set_end(1, 0, true).unwrap();
    network.update(1, 1).unwrap();
    network
}

fn e5() -> Network {
    let mut network = e4();
    network.update(2, 1).unwrap();
    network
}

fn e6() -> Network {
    let mut network = e5();
    pass_all(&mut network, &[(2, 1)]);
    network
}

fn e7() -> Network {
    let mut network = e6();
    pass_all(&mut network, &[(1, 1), (2, 1)]);
    network
}

/// The reasons of bridges 0 to 2.
#[track_caller]
fn reasons(network: Network, expected: [Reason; 3]) {
    assert_eq!([0, 1, 2].map(|bridge| network.reason(bridge, 0)), expected);
    assert_eq!([0, 1, 2].map(|bridge| network.why(bridge, 0)), expected.map(Ok));
}

#[test]
fn e2_fresh() {
    // Bridge 1 is at 1 over link 0. Bridge 2 is at 2 over link 1, as link 2 costs 3.
    reasons(e2(), [IsDestination, NothingHeld(0), NothingHeld(1)]);
}

#[test]
fn e3_two_rounds() {
    reasons(e3(), [IsDestination, Forwards(0), Forwards(1)]);
}

#[test]
fn e4_cut_and_update() {
    // Bridge 1 is at 4 over link 1, so the cut of link 0 is not its reason. It still holds view 0 from bridge 2, in which bridge 2
    // is not nearer and offers NONE. Its sent limit of 2 on link 1 bars it too, but comes later.
    reasons(e4(), [IsDestination, HeldTooGreat(1), Forwards(1)]);
}

#[test]
fn e5_second_update() {
    // Bridge 2 is at 3 over link 2 and holds 3 there, from view 0. Its sent limit on link 1 is now 4.
    reasons(e5(), [IsDestination, HeldTooGreat(1), Forwards(2)]);
}

#[test]
fn e6_sent_limit_still_too_low() {
    reasons(e6(), [IsDestination, SentTooLow(1), Forwards(2)]);
}

#[test]
fn e7_agreement() {
    reasons(e7(), [IsDestination, Forwards(1), Forwards(2)]);
}
