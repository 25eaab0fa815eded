//! Which condition holds a port shut (Change 2 of document 02). Plans do not print it, so networks are built call by call.

mod arbitrary;
mod cases;
mod known;
#[path = "../plans/numbers.rs"]
mod numbers;

use reference::map::Map;
use reference::network::Network;

/// A fresh network of these bridges, links and views.
fn fresh(bridges: u8, links: &[[u8; 2]], views: &[&[u32]]) -> Network {
    let mut map = Map::default();
    map.set_bridges(bridges).unwrap();
    for &ends in links {
        map.add_link(ends).unwrap();
    }
    for costs in views {
        let value: Vec<u8> = costs.iter().flat_map(|cost| cost.to_be_bytes()).collect();
        map.add_view(&value).unwrap();
    }
    Network::fresh(map)
}

/// Each of these (bridge, link) pairs passes a message. No other is in flight.
fn pass_all(network: &mut Network, pairs: &[(u8, u8)]) {
    for &(bridge, link) in pairs {
        network.send(bridge, link).unwrap();
        network.deliver(0).unwrap();
    }
}
