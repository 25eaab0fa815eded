//! The plan file's reader as compiled: the costs of a view and their refusals, how far a plan can have come, the lengths of events.

use bench_tests::count::Met;
use bench_tests::plan_bytes::field;
use bench_tests::random::Random;
use bench_tests::reading_call::{read_costs, read_field, Progress};
use std::collections::HashSet;

const MAX_COST: u32 = 16_777_215;
const HEADER: usize = 3;
const ROW: usize = 32;
const CASES: u64 = 20_000;

// ---- the costs of a view

/// What the call answers and leaves, by its checks from the top down.
fn costs_expected(rest: &[u8], links: usize, row: &[u32]) -> (u8, Vec<u32>) {
    let refused = |number| (number, row.to_vec());
    if links > 32 || row.len() < ROW {
        return refused(17);
    }
    let Some(bytes) = rest.get(HEADER..HEADER + 4 * links) else { return refused(1) };
    let costs: Vec<u32> = bytes.chunks(4).map(|cost| u32::from_be_bytes([cost[0], cost[1], cost[2], cost[3]])).collect();
    if costs.iter().any(|&cost| cost > MAX_COST) {
        return refused(9);
    }
    (0, [&costs[..], &row[links..]].concat())
}

/// A view's header and these costs.
fn view_field(costs: &[u32]) -> Vec<u8> {
    field(3, &costs.iter().flat_map(|cost| cost.to_be_bytes()).collect::<Vec<u8>>())
}

/// Links, a row and bytes that mostly fit each other. What the bytes say in the header is no matter of this call.
fn costs_case(random: &mut Random) -> (Vec<u8>, usize, Vec<u32>) {
    let most = random.below(33);
    let links = random.pick(&[most, most, most, 0, 1, 32, 33, usize::MAX]);
    let length = random.pick(&[32, 32, 32, 33, 64, 31, 0]);
    let dear = random.one_in(3);
    let mut costs: Vec<u32> = (0..links.min(40)).map(|_| random.pick(&[0, 1, 258, 0x0102_0304 & MAX_COST, MAX_COST])).collect();
    if let (true, Some(cost)) = (dear, costs.len().checked_sub(1).map(|last| random.below(last + 1))) {
        costs[cost] = random.pick(&[MAX_COST + 1, u32::MAX]);
    }
    let mut rest = view_field(&costs);
    match random.below(4) {
        0 => rest.truncate(rest.len() - 1 - random.below(rest.len().min(5))),
        1 => rest.extend([0xff; 4]),
        _ => {}
    }
    let row = random.numbers(length);
    (rest, links, row)
}

#[test]
fn costs_by_the_table() {
    let mut met = Met::default();
    for seed in 210_000_000..210_000_000 + CASES {
        let (rest, links, row) = costs_case(&mut Random::new(seed));
        let expected = costs_expected(&rest, links, &row);
        assert_eq!(read_costs(&rest, links, &row), expected, "seed {seed}: {links} links, {} bytes", rest.len());
        met.note(format!("number {}", expected.0));
    }
    met.only("costs", &["number 0", "number 1", "number 9", "number 17"], 500);
}

/// Each refusal where it begins, before the later ones; the row is as it was.
#[test]
fn costs_refused_in_order() {
    let row = [7; ROW];
    let refused = |number: u8, rest: &[u8], links: usize, row: &[u32]| {
        assert_eq!(read_costs(rest, links, row), (number, row.to_vec()), "{links} links, {} bytes", rest.len());
    };
    let dear = view_field(&[1, MAX_COST + 1]);
    refused(17, &[], 33, &row);
    refused(17, &dear, usize::MAX, &row);
    refused(17, &[], 2, &row[1..]);
    refused(17, &dear, 2, &[]);
    for length in 0..HEADER + 8 {
        refused(1, &dear[..length], 2, &row);
    }
    refused(1, &view_field(&[u32::MAX; 31]), 32, &row);
    refused(1, &[3, 0], 0, &row);
    refused(9, &dear, 2, &row);
    refused(9, &view_field(&[u32::MAX; 32]), 32, &row);
    refused(9, &view_field(&[[0; 31].as_slice(), &[MAX_COST + 1]].concat()), 32, &row);
}

/// Nothing is refused: the first numbers of the row are the costs, and the others are as they were.
#[test]
fn costs_stored() {
    let row: Vec<u32> = (100..140).collect();
    let stored = |rest: &[u8], links: usize, costs: &[u32]| {
        assert_eq!(read_costs(rest, links, &row), (0, [costs, &row[links..]].concat()));
    };
    stored(&view_field(&[]), 0, &[]);
    stored(&view_field(&[0, MAX_COST, 0x0001_0203]), 3, &[0, MAX_COST, 66_051]);
    stored(&view_field(&[MAX_COST; 32]), 32, &[MAX_COST; 32]);
    // a cost past the links is not read
    stored(&view_field(&[5, MAX_COST + 1]), 1, &[5]);
}

// ---- how far a plan can have come

/// The progresses that plans lead to: from the first one on, every field that is read leads to the next.
fn led_to() -> HashSet<Progress> {
    let first = Progress { stage: 0, bridges: 0, links: 0, views: 0 };
    let (mut found, mut ahead) = (HashSet::from([first]), vec![first]);
    while let Some(p) = ahead.pop() {
        let counts = (0..=u8::MAX).map(|count| (field(1, &[count]), Progress { stage: 1, bridges: count.into(), ..p }));
        let others = [
            (field(2, &[0, 1]), Progress { stage: 1, links: p.links + 1, ..p }),
            (view_field(&vec![1; p.links]), Progress { stage: 2, views: p.views + 1, ..p }),
            (field(11, &[0]), Progress { stage: 3, ..p }),
        ];
        for (rest, next) in counts.take(if p.stage == 0 { 256 } else { 1 }).chain(others) {
            let (reply, out) = read_field(&rest, p, &[7]);
            assert_ne!(reply, 17, "{p:?}");
            assert_eq!(out, [if reply == 0 { rest.len() as u32 } else { 7 }], "{p:?}");
            if reply == 0 && found.insert(next) {
                ahead.push(next);
            }
        }
    }
    found
}

/// Any field and none, and bytes that are refused.
fn rests(links: usize) -> [Vec<u8>; 7] {
    [vec![], vec![1], field(0, &[]), field(1, &[2]), field(2, &[0, 1]), view_field(&vec![0; links.min(40)]), field(11, &[0])]
}

/// A progress is refused with 17, whatever the bytes are, exactly where no plan leads to it.
#[test]
fn progress_that_no_plan_leads_to() {
    let led_to = led_to();
    assert_eq!(led_to.len(), 1 + 15 * 33 * (1 + 2 * 32));
    let mut met = Met::default();
    let counts = [0, 1, 2, 3, 15, 16, 17, 18, 31, 32, 33, 256, usize::MAX];
    for stage in [0, 1, 2, 3, 4, 256, usize::MAX] {
        for (bridges, links) in counts.iter().flat_map(|&bridges| counts.map(|links| (bridges, links))) {
            for p in counts.map(|views| Progress { stage, bridges, links, views }) {
                let refused = !led_to.contains(&p);
                for rest in rests(links) {
                    let (reply, out) = read_field(&rest, p, &[7]);
                    assert_eq!(reply == 17, refused, "{p:?}, {rest:?}");
                    assert!(reply == 0 || out == [7], "{p:?}, {rest:?}");
                }
                met.note(format!("stage {}, {}", stage.min(4), if refused { "refused" } else { "led to" }));
            }
        }
    }
    let refused = (0..5).map(|stage| format!("stage {stage}, refused"));
    met.only("progress", &refused.chain((0..4).map(|stage| format!("stage {stage}, led to"))).collect::<Vec<_>>(), 1);
}

/// An event has the length that its tag asks for. Any other is refused, and so is a value that is cut short.
#[test]
fn lengths_of_events() {
    let p = Progress { stage: 2, bridges: 2, links: 1, views: 1 };
    for (tag, length) in [(4, 2), (5, 2), (6, 1), (7, 1), (8, 1), (9, 2), (10, 2), (11, 1), (12, 2)] {
        for said in 0..5 {
            let expected = if said == length { (0, vec![(HEADER + said) as u32]) } else { (3, vec![7]) };
            assert_eq!(read_field(&field(tag, &vec![0; said]), p, &[7]), expected, "tag {tag}, length {said}");
        }
        for there in 1..HEADER + length {
            assert_eq!(read_field(&field(tag, &vec![0; length])[..there], p, &[7]), (1, vec![7]), "tag {tag}, {there} bytes");
        }
    }
}

/// No room for the bytes that the field takes is refused first; a plan's end takes none.
#[test]
fn room_for_a_field_and_the_end() {
    let p = Progress { stage: 2, bridges: 2, links: 0, views: 1 };
    assert_eq!(read_field(&[0], p, &[]), (17, vec![]));
    assert_eq!(read_field(&[], p, &[7, 8]), (0, vec![0, 8]));
    assert_eq!(read_field(&field(12, &[0, 1]), p, &[7, 8]), (0, vec![5, 8]));
    assert_eq!(read_field(&[], Progress { stage: 1, views: 0, ..p }, &[7]), (4, vec![7]));
}
