//! The distance call as compiled, against document 01 and against reference/.

use bench_tests::call::{FILLED, TABLE};
use bench_tests::count::Met;
use bench_tests::random::Random;
use bench_tests::view::{compare, random_arguments, Arguments, Outcome, MAX_COST, NONE};

const VIEWS: u64 = 5_000;

fn expect(label: &str, arguments: &Arguments, expected: &Outcome) {
    if let Err(difference) = compare(expected, &arguments.call()) {
        panic!("{label}: {difference}\n{arguments:?}");
    }
}

fn expect_filled(label: &str, arguments: &Arguments) {
    expect(label, arguments, &arguments.filled());
}

fn expect_refused(label: &str, arguments: &Arguments) {
    expect(label, arguments, &arguments.refused());
}

/// The triangle of document 01 with links 0 (0-1), 1 (1-2), 2 (0-2).
fn triangle(costs: [u32; 3]) -> Arguments {
    Arguments::of(3, &[(0, 1, costs[0]), (1, 2, costs[1]), (0, 2, costs[2])])
}

/// A call that is accepted, from which each refused one differs in one point.
fn accepted(change: impl FnOnce(&mut Arguments)) -> Arguments {
    let mut arguments = triangle([1, 1, 3]);
    expect_filled("the base of the refusals", &arguments);
    change(&mut arguments);
    arguments
}

// ---- random views

const BY_OTHERS: &str = "a path by way of another bridge";

/// What a view has that random views are to meet often.
fn features(a: &Arguments, filled: &Outcome) -> [(&'static str, bool); 10] {
    let pairs = a.pairs();
    let same = |p: &[usize; 2], q: &[usize; 2]| p == q || *p == [q[1], q[0]];
    let joined = |i, j| pairs.iter().any(|p| same(p, &[i, j]));
    let costs = &a.costs[..a.links];
    let cells = || (0..a.bridges).flat_map(|i| (0..a.bridges).map(move |j| (i, j)));
    let at = |i: usize, j: usize| filled.table[16 * i + j];
    let spare = [a.ends.len() - 2 * a.links, a.costs.len() - a.links, a.table.len() - TABLE];
    [
        ("an unreachable bridge", cells().any(|(i, j)| at(i, j) == NONE)),
        (BY_OTHERS, cells().any(|(i, j)| i != j && at(i, j) != NONE && !joined(i, j))),
        ("parallel links", (1..a.links).any(|l| pairs[..l].iter().any(|p| same(p, &pairs[l])))),
        ("an absent link", costs.contains(&0)),
        ("the least cost", costs.contains(&1)),
        ("the greatest cost", costs.contains(&MAX_COST)),
        ("no link", a.links == 0),
        ("32 links", a.links == 32),
        ("longer buffers", spare.iter().all(|&n| n > 0)),
        ("exact buffers", spare.iter().all(|&n| n == 0)),
    ]
}

fn random_views(bridges: usize) {
    let mut met = Met::default();
    for view in 0..VIEWS {
        let seed = bridges as u64 * 1_000_000 + view;
        let arguments = random_arguments(&mut Random::new(seed), bridges);
        let filled = arguments.filled();
        for (name, present) in features(&arguments, &filled) {
            met.note_times(name, present.into());
        }
        expect(&format!("seed {seed}"), &arguments, &filled);
    }
    if bridges == 2 {
        assert_eq!(met.0.remove(BY_OTHERS), Some(0), "two bridges have no other between them");
    }
    let names: Vec<&String> = met.0.keys().collect();
    met.at_least(&format!("{bridges} bridges"), &names, 100);
}

#[test]
fn random_views_of_2_bridges() {
    random_views(2);
}

#[test]
fn random_views_of_3_bridges() {
    random_views(3);
}

#[test]
fn random_views_of_8_bridges() {
    random_views(8);
}

#[test]
fn random_views_of_16_bridges() {
    random_views(16);
}

// ---- known answers

#[test]
fn known_example_e1() {
    for (costs, column) in [([1, 1, 3], [0, 1, 2]), ([0, 1, 3], [0, 4, 3])] {
        let found = triangle(costs).call();
        assert_eq!(found.reply, FILLED);
        assert_eq!([0, 16, 32].map(|p| found.table[p]), column, "view {costs:?}");
        assert_eq!(found.table[..3], column, "view {costs:?}");
    }
}

#[test]
fn greatest_distance() {
    let links: Vec<(u8, u8, u32)> = (0..15).map(|b| (b, b + 1, MAX_COST)).collect();
    let chain = Arguments::of(16, &links);
    let found = chain.call();
    assert_eq!(found.table[15], 251_658_225);
    assert_eq!(found.table[16 * 15], 251_658_225);
    expect_filled("a chain of 16 bridges", &chain);
}

#[test]
fn accepted_extremes() {
    let dearest = Arguments::of(2, &[(1, 0, MAX_COST)]);
    assert_eq!(dearest.call().table[1], MAX_COST);
    expect_filled("the greatest cost", &dearest);

    let none = Arguments::of(16, &[]);
    assert!(none.ends.is_empty() && none.costs.is_empty());
    assert_eq!(none.call().table[..3], [0, NONE, NONE]);
    expect_filled("no link", &none);

    let absent = Arguments::of(2, &[(0, 1, 0)]);
    assert_eq!(absent.call().table[1], NONE);
    expect_filled("an absent link", &absent);

    let parallel: Vec<(u8, u8, u32)> = (0..32).map(|l| (l % 2, 1 - l % 2, 100 - u32::from(l))).collect();
    let parallel = Arguments::of(2, &parallel);
    assert_eq!(parallel.call().table[1], 69);
    expect_filled("32 parallel links", &parallel);
}

#[test]
fn what_lies_past_the_need_is_not_read() {
    let mut longer = triangle([1, 1, 3]);
    longer.ends.extend([255, 255, 7]);
    longer.costs.extend([u32::MAX, MAX_COST + 1]);
    longer.table.extend([5, NONE, 0]);
    expect_filled("longer buffers", &longer);
}

// ---- refusals

#[test]
fn refused_bridge_counts() {
    for bridges in [0, 1, 17, 18, 255, 256 + 3, (1 << 32) + 3, usize::MAX] {
        expect_refused(&format!("{bridges} bridges"), &accepted(|a| a.bridges = bridges));
        let mut alone = Arguments::of(bridges, &[]);
        expect_refused(&format!("{bridges} bridges and no link"), &alone);
        alone.bridges = 16;
        expect_filled("16 bridges and no link", &alone);
    }
}

#[test]
fn refused_link_counts() {
    let links: Vec<(u8, u8, u32)> = (0..34).map(|l| (l % 3, (l + 1) % 3, 5)).collect();
    let mut arguments = Arguments::of(3, &links);
    for links in [33, 34, 256 + 3, (1 << 32) + 3, 1 << 63, (1 << 63) + 1, usize::MAX] {
        arguments.links = links;
        expect_refused(&format!("{links} links"), &arguments);
    }
    arguments.links = 32;
    expect_filled("32 links", &arguments);
}

#[test]
fn refused_ends() {
    for place in 0..6 {
        for end in [3, 16, 255] {
            expect_refused(&format!("end {place} is {end}"), &accepted(|a| a.ends[place] = end));
        }
    }
    for link in 0..3 {
        let same = accepted(|a| a.ends[2 * link] = a.ends[2 * link + 1]);
        expect_refused(&format!("link {link} has equal ends"), &same);
        let absent = accepted(|a| {
            a.ends[2 * link] = 9;
            a.costs[link] = 0;
        });
        expect_refused(&format!("absent link {link} has an end that is no bridge"), &absent);
    }
}

#[test]
fn refused_costs() {
    for link in 0..3 {
        for cost in [16_777_216, 16_777_217, 1 << 31, u32::MAX] {
            expect_refused(&format!("link {link} costs {cost}"), &accepted(|a| a.costs[link] = cost));
        }
        expect_filled("the greatest cost", &accepted(|a| a.costs[link] = 16_777_215));
    }
}

#[test]
fn refused_short_buffers() {
    for length in [0, 1, 4, 5] {
        expect_refused(&format!("{length} ends"), &accepted(|a| a.ends.truncate(length)));
    }
    for length in [0, 1, 2] {
        expect_refused(&format!("{length} costs"), &accepted(|a| a.costs.truncate(length)));
    }
    for length in [0, 1, 9, 35, 255] {
        expect_refused(&format!("a table of {length}"), &accepted(|a| a.table.truncate(length)));
    }
}

#[test]
fn random_damage_is_refused() {
    for view in 0..VIEWS {
        let seed = 90_000_000 + view;
        let mut random = Random::new(seed);
        let bridges = 2 + random.below(15);
        let mut arguments = random_arguments(&mut random, bridges);
        expect_filled(&format!("seed {seed}, before the damage"), &arguments);
        let mut damaged = false;
        while !damaged {
            let kind = random.below(8);
            damaged = arguments.damage(&mut random, kind);
        }
        expect_refused(&format!("seed {seed}, damaged"), &arguments);
    }
}

// ---- the tests themselves

/// The comparison sees every single changed number and a changed reply.
#[test]
fn the_comparison_notices_damage() {
    let mut arguments = triangle([1, 1, 3]);
    arguments.table.extend([1, 2, 3]);
    let expected = arguments.filled();
    assert_eq!(compare(&expected, &arguments.call()), Ok(()));
    for place in 0..expected.table.len() {
        let mut damaged = expected.clone();
        damaged.table[place] ^= 1;
        assert!(compare(&expected, &damaged).is_err(), "place {place}");
    }
    let mut short = expected.clone();
    short.table.pop();
    assert!(compare(&expected, &short).is_err());
    assert!(compare(&expected, &Outcome { reply: 17, ..expected.clone() }).is_err());
    assert!(compare(&expected, &arguments.refused()).is_err());
}
