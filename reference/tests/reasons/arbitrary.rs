//! On random networks the reason agrees with the port, and names the conditions in their order.

use reference::distances::NONE;
use reference::network::Network;
use reference::reason::Reason;
use reference::records::Held;

use crate::fresh;
use crate::numbers::Numbers;

/// Few bridges and small costs, so that limits come out on either side of the distances.
fn some_map(numbers: &mut Numbers) -> Network {
    let bridges = 2 + numbers.byte(4);
    let mut links = Vec::new();
    for _ in 0..1 + numbers.next(8) {
        let a = numbers.byte(bridges.into());
        links.push([a, (a + 1 + numbers.byte(u64::from(bridges) - 1)) % bridges]);
    }
    let views: Vec<Vec<u32>> = (0..3).map(|_| links.iter().map(|_| numbers.next(5) as u32).collect()).collect();
    fresh(bridges, &links, &views.iter().map(|costs| &costs[..]).collect::<Vec<_>>())
}

/// A limit for each destination, mostly NONE.
fn some_limits(numbers: &mut Numbers, bridges: usize) -> Vec<u32> {
    (0..bridges).map(|_| if numbers.next(4) == 0 { numbers.next(10) as u32 } else { NONE }).collect()
}

/// Any views, records and cuts, whether or not a plan leads to them.
fn some_network(numbers: &mut Numbers) -> Network {
    let mut network = some_map(numbers);
    let bridges = network.map.bridge_count();
    for bridge in &mut network.bridges {
        bridge.view = numbers.next(3) as usize;
    }
    for records in network.records.iter_mut().flatten() {
        records.held = match numbers.next(4) {
            0 => Held::Nothing,
            1 => Held::Limits(some_limits(numbers, bridges)),
            _ => Held::View(numbers.next(3) as usize),
        };
        records.sent = some_limits(numbers, bridges);
    }
    for down in network.down.iter_mut().flatten() {
        *down = numbers.next(4) == 0;
    }
    network
}

/// The port is open exactly where the reason is that it forwards, and on that link.
fn agrees(network: &Network, bridge: usize, destination: usize) {
    let named = match network.reason(bridge, destination) {
        Reason::Forwards(link) => network.map.end_at(bridge, link),
        _ => None,
    };
    assert_eq!(network.port(bridge, destination), named);
    assert_eq!(network.why(bridge as u8, destination as u8), Ok(network.reason(bridge, destination)));
}

/// Meets the condition named, and alters nothing else; whether it could, as records and cuts do not bear on the first two.
fn repair(network: &mut Network, bridge: usize, destination: usize) -> bool {
    let distance = network.distance(bridge, destination);
    let reason = network.reason(bridge, destination);
    let (_, Some(link)) = reason.case() else { return false };
    let end = network.map.end_at(bridge, link).expect("a link of the bridge");
    let records = &mut network.records[end.link][end.side];
    match reason {
        Reason::ChosenDown(_) => network.down[end.link][end.side] = false,
        Reason::NothingHeld(_) => records.held = Held::Limits(vec![NONE; records.sent.len()]),
        Reason::HeldTooGreat(_) => records.held = Held::Limits(vec![distance; records.sent.len()]),
        Reason::SentTooLow(_) => records.sent[destination] = distance + 1,
        Reason::Forwards(_) | Reason::IsDestination | Reason::NoPath => return false,
    }
    true
}

#[test]
fn the_port_forwards_exactly_where_the_reason_says_so() {
    let mut numbers = Numbers(6_364_136_223_846_793_005);
    let mut counts = [0; 7];
    for _ in 0..5_000 {
        let network = some_network(&mut numbers);
        for bridge in 0..network.map.bridge_count() {
            for destination in 0..network.map.bridge_count() {
                agrees(&network, bridge, destination);
                counts[usize::from(network.reason(bridge, destination).case().0)] += 1;
            }
        }
    }
    assert!(counts.iter().all(|&count| count > 1_000), "{counts:?}");
}

#[test]
fn once_the_condition_named_is_met_a_later_one_is_named() {
    let mut numbers = Numbers(1_442_695_040_888_963_407);
    let mut repairs = 0;
    for _ in 0..2_000 {
        let mut network = some_network(&mut numbers);
        let [bridge, destination] = [0, 1].map(|_| numbers.next(network.map.bridge_count() as u64) as usize);
        let mut before = network.reason(bridge, destination).case();
        while repair(&mut network, bridge, destination) {
            agrees(&network, bridge, destination);
            let after = network.reason(bridge, destination).case();
            // A higher number; or the sent limit of a higher link; or the end.
            assert!(after > before || after.0 == 0, "{after:?} after {before:?}");
            before = after;
            repairs += 1;
        }
        assert!(before.0 <= 2, "{before:?} is left");
    }
    assert!(repairs > 1_000, "{repairs}");
}
