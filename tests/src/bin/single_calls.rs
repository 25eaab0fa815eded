//! Times single exported calls on a network of 16 bridges, 32 links and two views, each call on the network as the last one left it, and
//! prints the median of several runs for each kind of call.

use bench_tests::guard::Buffer;
use bench_tests::model::Call;
use bench_tests::network_call::{Lent, ANSWER, BENCH, COSTS, ENDS, LIMITS, MESSAGES, ROWS};
use std::time::Instant;

const CALLS: usize = 2_000;
const RUNS: usize = 15;

/// A grid of four by four that closes on itself; the second view lacks a link.
fn network() -> Lent {
    let mut bench = vec![0; BENCH];
    bench[..3].copy_from_slice(&[16, 32, 2]);
    let pairs = (0..16).flat_map(|b| [[b, b / 4 * 4 + (b + 1) % 4], [b, (b + 4) % 16]]);
    pairs.flatten().enumerate().for_each(|(end, bridge)| bench[ENDS + end] = bridge);
    let cost = |view, link| if view == 1 && link == 1 { 0 } else { 100 + link * link % 37 };
    let mut costs = vec![0; COSTS];
    (0..2).for_each(|view| (0..32).for_each(|link| costs[32 * view + link] = cost(view, link as u32)));
    let zeros = |length| Buffer::of(&vec![0; length]);
    Lent {
        bench: Buffer::of(&bench),
        costs: Buffer::of(&costs),
        sent: zeros(LIMITS),
        held: zeros(LIMITS),
        messages: zeros(MESSAGES),
        out: zeros(ANSWER.max(ROWS)),
    }
}

fn nanoseconds(calls: impl Fn(usize) -> Vec<Call>) -> f64 {
    let mut times = Vec::new();
    for _ in 0..RUNS {
        let mut lent = network();
        assert_eq!(lent.fresh(), 0);
        let start = Instant::now();
        let mut made = 0;
        for call in (0..CALLS).flat_map(&calls) {
            assert_eq!(lent.call(call), 0, "{call:?}");
            made += 1;
        }
        times.push(start.elapsed().as_secs_f64() * 1e9 / made as f64);
    }
    times.sort_by(f64::total_cmp);
    times[RUNS / 2]
}

fn main() {
    let kinds: [(&str, fn(usize) -> Vec<Call>); 5] = [
        ("port", |k| vec![Call::Port(k % 16, k / 16 % 16)]),
        ("report", |k| vec![Call::Report(k % 16)]),
        ("path", |k| vec![Call::Path(k % 16, k / 16 % 16)]),
        ("update", |k| vec![Call::Update(k % 16, (k / 16 + 1) % 2)]),
        ("send and deliver", |k| vec![Call::Send(k % 16, 2 * (k % 16)), Call::Deliver(0)]),
    ];
    for (name, calls) in kinds {
        println!("{name:<20}{:>10.0} ns a call", nanoseconds(calls));
    }
}
