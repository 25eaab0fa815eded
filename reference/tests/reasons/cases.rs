//! Each condition on networks made for it, with later ones that would apply too, and its boundaries.

use reference::distances::NONE;
use reference::network::Network;
use reference::reason::Reason::*;
use reference::refusal::Refusal;

use crate::{fresh, pass_all};

/// Two bridges with one link, and views of these costs.
fn pair(views: &[&[u32]]) -> Network {
    fresh(2, &[[0, 1]], views)
}

/// Bridge 1 is joined to bridge 0 by link 1, and to bridge 2 by links 0 and 2. In view 0 it is at 1 and offers 2 to bridge 2. Then
/// bridges 0 and 1 go over to view 1, where bridge 1 is at the cost of link 1.
fn between(cost: u32) -> Network {
    let mut network = fresh(3, &[[1, 2], [0, 1], [1, 2]], &[&[1, 1, 1], &[1, cost, 1]]);
    network.update(0, 1).unwrap();
    network.update(1, 1).unwrap();
    network
}

/// The same, and bridge 1 holds view 1 from bridge 0.
fn between_held(cost: u32) -> Network {
    let mut network = between(cost);
    pass_all(&mut network, &[(0, 1)]);
    network
}

#[test]
fn numbers_and_links() {
    let reasons = [Forwards(31), IsDestination, NoPath, ChosenDown(0), NothingHeld(1), HeldTooGreat(2), SentTooLow(3)];
    let cases = [(0, Some(31)), (1, None), (2, None), (3, Some(0)), (4, Some(1)), (5, Some(2)), (6, Some(3))];
    assert_eq!(reasons.map(|reason| reason.case()), cases);
}

#[test]
fn bridges_that_the_network_lacks() {
    let network = pair(&[&[5]]);
    for (bridge, destination) in [(2, 0), (0, 2), (2, 2), (2, 255), (255, 0)] {
        assert_eq!(network.why(bridge, destination), Err(Refusal::NoSuch));
    }
    assert_eq!(network.why(1, 0), Ok(NothingHeld(0)));
    assert_eq!(network.why(1, 1), Ok(IsDestination));
}

#[test]
fn the_destination() {
    // Before all else: with no link, and with its end down.
    assert_eq!(fresh(2, &[], &[&[]]).reason(1, 1), IsDestination);
    let mut network = pair(&[&[5]]);
    network.set_end(1, 0, true).unwrap();
    assert_eq!(network.reason(1, 1), IsDestination);
}

#[test]
fn no_path() {
    assert_eq!(fresh(2, &[], &[&[]]).reason(0, 1), NoPath);
    // The bridge's own view counts, not the one it holds. Its end is down too, which comes later.
    let mut network = pair(&[&[5], &[0]]);
    pass_all(&mut network, &[(0, 0)]);
    network.update(1, 1).unwrap();
    network.set_end(1, 0, true).unwrap();
    assert_eq!(network.reason(1, 0), NoPath);
    assert_eq!(network.reason(0, 1), NothingHeld(0));
}

#[test]
fn the_chosen_link_down_at_this_end() {
    // Before the next: nothing is held either. The far end does not matter, and a parallel link does not help.
    let mut network = fresh(2, &[[0, 1], [1, 0]], &[&[5, 5]]);
    network.set_end(0, 0, true).unwrap();
    assert_eq!(network.reason(1, 0), NothingHeld(0));
    network.set_end(1, 0, true).unwrap();
    assert_eq!(network.reason(1, 0), ChosenDown(0));
    pass_all(&mut network, &[(0, 1)]);
    assert_eq!(network.reason(1, 0), ChosenDown(0));
    network.set_end(0, 0, false).unwrap();
    assert_eq!(network.reason(1, 0), ChosenDown(0));
}

#[test]
fn the_chosen_link_down_comes_before_its_limits() {
    // The end holds 5, above the distance 3; then sent limits of 2 on other links are below the distance 4.
    let mut network = pair(&[&[5], &[3]]);
    pass_all(&mut network, &[(0, 0)]);
    network.update(1, 1).unwrap();
    network.set_end(1, 0, true).unwrap();
    assert_eq!(network.reason(1, 0), ChosenDown(0));
    let mut network = between_held(4);
    network.set_end(1, 1, true).unwrap();
    assert_eq!(network.reason(1, 0), ChosenDown(1));
}

#[test]
fn nothing_held() {
    // Before the sent limits, of which 2 is below the distance 4.
    assert_eq!(between(4).reason(1, 0), NothingHeld(1));
    // A view that was only noted is not held, nor is what came over another link.
    let mut network = pair(&[&[5], &[5]]);
    network.update(0, 1).unwrap();
    pass_all(&mut network, &[(0, 0)]);
    assert_eq!(network.reason(1, 0), NothingHeld(0));
    network.update(1, 1).unwrap();
    assert_eq!(network.reason(1, 0), Forwards(0));
    let mut network = fresh(2, &[[0, 1], [0, 1]], &[&[7, 5]]);
    pass_all(&mut network, &[(0, 0)]);
    assert_eq!(network.reason(1, 0), NothingHeld(1));
}

#[test]
fn a_held_limit_above_the_distance() {
    // The limit of view 0 is 5. It is held still when bridge 1 goes over to view 1.
    for (cost, reason) in [(4, HeldTooGreat(0)), (5, Forwards(0)), (6, Forwards(0))] {
        let mut network = pair(&[&[5], &[cost]]);
        pass_all(&mut network, &[(0, 0)]);
        network.update(1, 1).unwrap();
        assert_eq!(network.reason(1, 0), reason);
    }
}

#[test]
fn a_held_view_that_offers_none() {
    // Link 0 is absent from view 0, so bridge 0 offers nothing over it there; but the view is held.
    let mut network = fresh(2, &[[0, 1], [0, 1]], &[&[0, 5], &[5, 5]]);
    let mut held = network.clone();
    pass_all(&mut held, &[(0, 0)]);
    for network in [&mut network, &mut held] {
        network.update(1, 1).unwrap();
    }
    assert_eq!(network.reason(1, 0), NothingHeld(0));
    assert_eq!(held.reason(1, 0), HeldTooGreat(0));
    // The held limit is NONE either way.
    for network in [network, held] {
        let end = network.chosen(1, 0).unwrap();
        assert_eq!(network.records[end.link][end.side].held_limit(&network.map, end, 0), NONE);
    }
}

#[test]
fn a_sent_limit_not_above_the_distance() {
    // The sent limits of links 0 and 2 are 2. An equal distance is barred too.
    for (cost, reason) in [(1, Forwards(1)), (2, SentTooLow(0)), (3, SentTooLow(0))] {
        assert_eq!(between_held(cost).reason(1, 0), reason);
    }
}

#[test]
fn the_lowest_link_up_at_this_end_is_blamed() {
    // Links 0 and 2 have sent limits of 2, below the distance 4; the chosen link 1 lies between and has none.
    let mut network = between_held(4);
    assert_eq!(network.reason(1, 0), SentTooLow(0));
    // The far end of link 0 does not matter.
    network.set_end(2, 0, true).unwrap();
    assert_eq!(network.reason(1, 0), SentTooLow(0));
    network.set_end(1, 0, true).unwrap();
    assert_eq!(network.reason(1, 0), SentTooLow(2));
    network.set_end(1, 2, true).unwrap();
    assert_eq!(network.reason(1, 0), Forwards(1));
    network.set_end(1, 0, false).unwrap();
    assert_eq!(network.reason(1, 0), SentTooLow(0));
}

#[test]
fn a_cleared_sent_limit_is_not_blamed() {
    // Bridge 2 agrees to view 1 over link 0 alone and reports the discard: 5 there, still 2 on link 2.
    let mut network = between_held(4);
    network.update(2, 1).unwrap();
    pass_all(&mut network, &[(1, 0), (2, 0)]);
    assert_eq!(network.reason(1, 0), SentTooLow(2));
    pass_all(&mut network, &[(1, 2), (2, 2)]);
    assert_eq!(network.reason(1, 0), Forwards(1));
}
