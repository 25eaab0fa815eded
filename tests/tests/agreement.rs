//! The calls of layer 2 as compiled, against document 01 and against reference/.

use bench_tests::bridge_update::{BridgeUpdate, Reply};
use bench_tests::call::{REFUSED, VERDICT};
use bench_tests::case::{compare, Call, Case, Outcome};
use bench_tests::count::Met;
use bench_tests::entry::too_great;
use bench_tests::flaw::{Flaw, OF_CHOICES, OF_VERDICTS};
use bench_tests::random::Random;
use bench_tests::random_case::{damage, random_case};
use bench_tests::records_numbers::{Field, MESSAGE_FIELDS, RECORD_FIELDS};
use bench_tests::verdict::{VERDICTS, VERDICT_FEATURES};
use bench_tests::view::NONE;

const CASES: u64 = 20_000;
const CALLS: [Call; 7] = [Call::Offer, Call::Start, Call::Update, Call::Carry, Call::Deliver, Call::Port, Call::Verdict];

fn seed_of(which: Call, case: u64) -> u64 {
    (which as u64 + 1) * 1_000_000_000 + case
}

/// Runs one case both ways, and counts what happened.
fn try_case(label: &str, which: Call, case: &Case, met: &mut Met) {
    let expected = case.expected(which, None);
    if let Err(difference) = compare(&expected.outcome, &case.run(which)) {
        panic!("{which:?}, {label}: {difference}\n{case:?}");
    }
    expected.events.into_iter().for_each(|event| met.note(event));
    if which == Call::Verdict {
        agrees_with_port(label, case);
    }
}

/// The port is open exactly where the verdict is that it forwards, and on that link. The two are refused alike, but that a verdict needs
/// room for two numbers.
fn agrees_with_port(label: &str, case: &Case) {
    let [port, verdict] = [Call::Port, Call::Verdict].map(|which| case.run(which));
    let is_short = case.out.len() < VERDICT;
    assert_eq!(verdict.reply == REFUSED, port.reply == REFUSED || is_short, "{label}\n{case:?}");
    if verdict.reply == 0 {
        let open = if verdict.out[0] == 0 { verdict.out[1] } else { NONE };
        assert_eq!(port.out[0], open, "{label}: the port beside the verdict {:?}\n{case:?}", &verdict.out[..VERDICT]);
    }
}

fn random_cases(which: Call, events: &[&str]) {
    met_in_random_cases(which).only(&format!("{which:?}"), events, 200);
}

fn met_in_random_cases(which: Call) -> Met {
    let mut met = Met::default();
    for case in 0..CASES {
        let seed = seed_of(which, case);
        try_case(&format!("seed {seed}"), which, &random_case(&mut Random::new(seed), which), &mut met);
    }
    met
}

#[test]
fn random_offers() {
    let events = [
        "absent link",
        "no path",
        "as far as the far bridge",
        "farther than the far bridge",
        "offer to a bridge without a path",
        "offer to a farther bridge",
        "sum beyond NONE",
    ];
    random_cases(Call::Offer, &events);
}

#[test]
fn random_starts() {
    random_cases(Call::Start, &["some offer", "no offer", "over a record", "over numbers that are no record"]);
}

#[test]
fn random_updates() {
    let events = [
        "nothing received",
        "adopted",
        "another view received",
        "limit lowered",
        "limits kept",
        "held row changed",
        "held row kept",
    ];
    random_cases(Call::Update, &events);
}

#[test]
fn random_sends() {
    random_cases(Call::Carry, &["carried"]);
}

#[test]
fn random_deliveries() {
    let events = [
        "number below",
        "number equal",
        "number above",
        "stale",
        "stale with a report",
        "agreed",
        "agreed and cleared",
        "noted",
        "noted and cleared",
        "clearing raised a limit",
        "held row changed",
        "true distances",
        "other distances",
        "number 0",
        "number 65535",
        "flag above 1",
    ];
    random_cases(Call::Deliver, &events);
}

#[test]
fn random_ports() {
    let events = [
        "open, of one link",
        "open, of several links",
        "open beside an own end that is down",
        "open with every own end up",
        "open, the far end down",
        "open, a low limit where only the far end is up",
        "open by true distances",
        "open by other distances",
        "closed by destination alone",
        "closed by no path alone",
        "closed by no link alone",
        "closed by own end down alone",
        "closed by own end down alone, the far end up",
        "closed by nothing held alone",
        "closed by held too great alone",
        "closed by sent too low on the chosen link alone",
        "closed by sent too low on another link alone",
        "closed by sent too low on another link alone, no far end up",
        "closed by several",
    ];
    random_cases(Call::Port, &events);
}

/// No link reaches the distance, which is not that of the costs.
const NO_LINK: &str = "verdict no link";

/// Of distances that are not those of the costs. The destination may then have any distance.
const BY_OTHER_DISTANCES: [&str; 13] = [
    "verdict forwards, by other distances",
    "verdict destination, by other distances",
    "verdict no path, by other distances",
    "verdict own end down, by other distances",
    "verdict nothing held, by other distances",
    "verdict held too great, by other distances",
    "verdict sent too low, by other distances",
    "verdict no link, by other distances",
    "verdict destination, no path too",
    "verdict destination, own end down too",
    "verdict destination, nothing held too",
    "verdict destination, held too great too",
    "verdict destination, sent too low too",
];

#[test]
fn random_verdicts() {
    let met = met_in_random_cases(Call::Verdict);
    let frequent = [&VERDICTS[..], &VERDICT_FEATURES, &[NO_LINK]].concat();
    met.only("verdicts", &[&frequent[..], &BY_OTHER_DISTANCES].concat(), 100);
    met.at_least("verdicts", &frequent, 250);
    met.at_least("verdicts", &[&VERDICTS[..], &[NO_LINK]].concat(), 1_000);
}

// ---- updates of a bridge

/// What happened: the one cause of a refusal with 17, or the case of any other update.
fn bridge_event(case: &BridgeUpdate, reply: u8) -> &'static str {
    match case.causes()[..] {
        [] => {}
        [cause] => return cause,
        _ => return "refused for several causes",
    }
    match (reply, case.stays(), case.number) {
        (0, true, 65_535) => "stays with the last number",
        (0, true, _) => "stays",
        (0, false, 65_534) => "moves to the last number",
        (0, false, _) => "moves",
        (10, _, 65_535) => "no such view, with the last number",
        (10, _, _) => "no such view",
        (16, false, 65_535) => "no number left",
        _ => "another",
    }
}

const BRIDGE_EVENTS: [&str; 11] = [
    "out short",
    "view count",
    "no such present view",
    "refused for several causes",
    "stays with the last number",
    "stays",
    "moves to the last number",
    "moves",
    "no such view, with the last number",
    "no such view",
    "no number left",
];

fn random_bridge_update(case: u64) -> BridgeUpdate {
    BridgeUpdate::random(&mut Random::new(9_000_000_000 + case))
}

#[test]
fn random_bridge_updates() {
    let mut met = Met::default();
    for case in (0..CASES).map(random_bridge_update) {
        let (reply, out) = case.expected();
        assert_eq!(case.run(), (reply, out), "{case:?}");
        met.note(bridge_event(&case, reply));
    }
    met.only("updates of a bridge", &BRIDGE_EVENTS, 200);
}

/// Every bound of every argument beside every other.
#[test]
fn bounds_of_bridge_updates() {
    let views = [0, 1, 2, 31, 32, 33, 255, 256, 1 << 32, usize::MAX];
    let bytes = [0, 1, 2, 30, 31, 32, 33, 254, 255];
    let numbers = [0, 1, 2, 65_533, 65_534, 65_535];
    let mut met = Met::default();
    for views in views {
        for (present, view) in bytes.iter().flat_map(|&p| bytes.map(|v| (p, v))) {
            for (number, length) in numbers.iter().flat_map(|&n| [0, 1, 2, 3].map(|l| (n, l))) {
                let case = BridgeUpdate { views, present, number, view, out: vec![7; length] };
                let (reply, out) = case.expected();
                assert_eq!(case.run(), (reply, out), "{case:?}");
                met.note(bridge_event(&case, reply));
            }
        }
    }
    met.only("bounds", &BRIDGE_EVENTS, 10);
}

/// Each wrong rule, where it applies to the case and the reply, answers something else than the call in many random cases.
#[test]
fn wrong_bridge_updates_are_noticed() {
    type Applies = fn(&BridgeUpdate, u8) -> bool;
    type Wrong = fn(&BridgeUpdate) -> Reply;
    let rules: [(&str, Applies, Wrong); 5] = [
        ("the number stays", |c, r| r == 0 && !c.stays(), |c| c.answers([1, c.number.into()])),
        ("a rise for the present view", |c, r| r == 0 && c.stays(), |c| c.answers([1, u32::from(c.number) + 1])),
        ("16 for the present view", |c, r| r == 0 && c.stays() && c.number == 65_535, |c| c.refuses(16)),
        ("back to 0", |_, r| r == 16, |c| c.answers([1, 0])),
        ("16 before 10", |c, r| r == 10 && c.number == 65_535, |c| c.refuses(16)),
    ];
    for (name, applies, wrong) in rules {
        let differs = |c: &BridgeUpdate| applies(c, c.expected().0) && wrong(c) != c.run();
        let noticed = (0..CASES).map(random_bridge_update).filter(differs).count();
        println!("{name}: {noticed}");
        assert!(noticed >= 100, "{name}: noticed in only {noticed} of {CASES} cases");
    }
}

// ---- refusals

const OF_A_VIEW: [&str; 8] = [
    "bridge count",
    "link count",
    "ends short",
    "costs short",
    "table short",
    "end that is no bridge",
    "link with equal ends",
    "cost too large",
];

/// The numbers that may be too great for their field.
fn too_great_causes(which: Call) -> Vec<String> {
    let of = |whose: &str, fields: [Field; 3]| fields.map(|(field, _)| too_great(field, whose)).to_vec();
    match which {
        Call::Offer | Call::Start => Vec::new(),
        Call::Update | Call::Carry => of("the record", RECORD_FIELDS),
        Call::Deliver => [of("the record", RECORD_FIELDS), of("the message", MESSAGE_FIELDS)].concat(),
        Call::Port | Call::Verdict => [of("a record", RECORD_FIELDS), of("a record past the links", RECORD_FIELDS)].concat(),
    }
}

fn causes(which: Call) -> Vec<String> {
    let limits = ["sent limits short", "held limits short"];
    let record = ["view count", "no such view", "record short", "received view of the record"];
    let own: &[&[&str]] = match which {
        Call::Offer => &[&OF_A_VIEW, &["no such end", "no such destination", "out short"]],
        Call::Start => &[&OF_A_VIEW, &["no such end", "record short"], &limits],
        Call::Update => &[&OF_A_VIEW, &["no such end"], &limits, &record],
        Call::Carry => &[&record, &["out short"]],
        Call::Deliver => {
            &[&OF_A_VIEW, &["no such end"], &limits, &record, &["message short", "view of the message", "out short"]]
        }
        Call::Port | Call::Verdict => &[
            &OF_A_VIEW,
            &limits,
            &["view count", "no such bridge", "no such destination"],
            &["flags short", "records short", "out short", "received view of a record"],
        ],
    };
    own.concat().into_iter().map(String::from).chain(too_great_causes(which)).collect()
}

/// Each reason for a refusal is met often, and alone: so each by itself suffices.
#[test]
fn random_damage_is_refused() {
    for which in CALLS {
        let mut met = Met::default();
        for case in 0..CASES {
            let seed = seed_of(which, 500_000_000 + case);
            let mut random = Random::new(seed);
            let mut case = random_case(&mut random, which);
            assert!(case.causes(which).is_empty(), "{which:?}, seed {seed}: refused before the damage");
            damage(&mut random, &mut case, which);
            try_case(&format!("seed {seed}, damaged"), which, &case, &mut met);
        }
        let alone: Vec<String> = causes(which).iter().map(|c| format!("refused by this alone: {c}")).collect();
        met.0.retain(|event, _| !event.starts_with("refused among others"));
        met.only(&format!("{which:?}"), &alone, 200);
    }
}

// ---- the tests themselves

/// The comparison sees every single changed number of every buffer, and a changed reply.
#[test]
fn the_comparison_notices_damage() {
    for which in CALLS {
        let case = random_case(&mut Random::new(seed_of(which, 0)), which);
        let expected = case.run(which);
        assert_eq!(compare(&case.expected(which, None).outcome, &expected), Ok(()));
        let notices = |change: &dyn Fn(&mut Outcome)| {
            let mut damaged = expected.clone();
            change(&mut damaged);
            assert!(compare(&expected, &damaged).is_err());
        };
        notices(&|o| o.reply = REFUSED);
        let buffers: [fn(&mut Outcome) -> &mut Vec<u32>; 4] =
            [|o| &mut o.fields, |o| &mut o.sent, |o| &mut o.held, |o| &mut o.out];
        for buffer in buffers {
            let length = buffer(&mut expected.clone()).len();
            for place in 0..length {
                notices(&|o| buffer(o)[place] ^= 1);
            }
            notices(&|o| buffer(o).truncate(length - 1));
        }
    }
}

/// Each error, put around the reference's calls, makes many of the random cases differ.
#[test]
fn wrong_rules_are_noticed() {
    let flaws = [
        (Flaw::EqualIsStale, Call::Deliver),
        (Flaw::ClearsUnasked, Call::Deliver),
        (Flaw::NeverClears, Call::Deliver),
        (Flaw::NotedIsHeld, Call::Deliver),
        (Flaw::NotedDiscards, Call::Deliver),
        (Flaw::AgreedKeepsDiscarded, Call::Deliver),
        (Flaw::HoldsOwnOffers, Call::Deliver),
        (Flaw::HoldsOwnOffers, Call::Update),
        (Flaw::OffersWhenLevel, Call::Offer),
        (Flaw::OffersWhenLevel, Call::Start),
        (Flaw::UpdateForgetsOldViews, Call::Update),
        (Flaw::UpdateNeverAdopts, Call::Update),
        (Flaw::SentOnChosenOnly, Call::Port),
        (Flaw::SentOfDownEnds, Call::Port),
        (Flaw::SentByFarEnds, Call::Port),
        (Flaw::OwnEndIgnored, Call::Port),
        (Flaw::FarEndShuts, Call::Port),
        (Flaw::SentMayBeEqual, Call::Port),
        (Flaw::HeldMustBeBelow, Call::Port),
        (Flaw::HoldingIgnored, Call::Port),
        (Flaw::HighestLink, Call::Port),
        (Flaw::HoldingIgnored, Call::Verdict),
        (Flaw::PathBeforeDestination, Call::Verdict),
    ];
    let of_verdicts = OF_VERDICTS.into_iter().chain(OF_CHOICES).map(|flaw| (flaw, Call::Verdict));
    for (flaw, which) in flaws.into_iter().chain(of_verdicts) {
        let differs = |case: &u64| {
            let case = random_case(&mut Random::new(seed_of(which, *case)), which);
            compare(&case.expected(which, Some(flaw)).outcome, &case.run(which)).is_err()
        };
        let noticed = (0..CASES / 4).filter(differs).count();
        println!("{flaw:?}, {which:?}: {noticed}");
        assert!(noticed >= 30, "{flaw:?}, {which:?}: noticed in {noticed} of {} cases, and at least 30 are asked for", CASES / 4);
    }
}
