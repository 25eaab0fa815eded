//! Any bytes give an answer: one last line `end E` or `refused R at O`. Random plans that are accepted whole, with cuts of single
//! ends, have paths that follow from their reports.

use crate::builder::Plan;
use crate::numbers::Numbers;

/// Bridges, links and views.
struct Setup {
    bridges: u8,
    links: Vec<[u8; 2]>,
    views: u8,
    plan: Plan,
}

fn some_setup(numbers: &mut Numbers, least_links: u64, least_cost: u64) -> Setup {
    let bridges = 2 + numbers.byte(15);
    let views = 1 + numbers.byte(4);
    let mut links = Vec::new();
    for _ in 0..least_links + numbers.next(12) {
        let a = numbers.byte(bridges.into());
        links.push([a, (a + 1 + numbers.byte(u64::from(bridges) - 1)) % bridges]);
    }
    let mut plan = links.iter().fold(Plan::new().bridges(bridges), |plan, &[a, b]| plan.link(a, b));
    for _ in 0..views {
        let costs: Vec<u32> = links.iter().map(|_| (least_cost + numbers.next(6)) as u32).collect();
        plan = plan.view(&costs);
    }
    Setup { bridges, links, views, plan }
}

/// A bridge and a link: mostly an end that there is.
fn some_end(numbers: &mut Numbers, bridges: u64, links: &[[u8; 2]]) -> [u8; 2] {
    if links.is_empty() || numbers.next(8) == 0 {
        return [numbers.byte(bridges), numbers.byte(links.len() as u64 + 1)];
    }
    let link = numbers.next(links.len() as u64) as usize;
    [links[link][numbers.next(2) as usize], link as u8]
}

/// A plan whose fields are mostly good.
fn some_plan(numbers: &mut Numbers) -> Plan {
    let Setup { bridges, links, views, mut plan } = some_setup(numbers, 0, 0);
    let [bridges, views] = [bridges, views].map(u64::from);
    for _ in 0..numbers.next(60) {
        plan = match numbers.next(6) {
            0 => plan.update(numbers.byte(bridges), numbers.byte(views)),
            1 => plan.field(6 + numbers.byte(3), &[numbers.byte(2)]),
            2 => plan.report(numbers.byte(bridges)),
            3 => plan.path(numbers.byte(bridges), numbers.byte(bridges)),
            4 => plan.field(9 + numbers.byte(2), &some_end(numbers, bridges, &links)),
            _ => {
                let [bridge, link] = some_end(numbers, bridges, &links);
                plan.send(bridge, link)
            }
        };
    }
    plan
}

fn answers(plan: &Plan) {
    let printed = plan.printed();
    assert!(printed.ends_with('\n'));
    let last = printed.lines().last().unwrap();
    assert!(last.starts_with("end ") || last.starts_with("refused "), "{last}");
    assert_eq!(printed.lines().filter(|line| line.starts_with("end") || line.starts_with("refused")).count(), 1);
}

#[test]
fn random_bytes_are_answered() {
    let mut numbers = Numbers(88_172_645_463_325_252);
    for _ in 0..2_000 {
        let bytes: Vec<u8> = (0..numbers.next(60)).map(|_| numbers.byte(14)).collect();
        answers(&Plan::new().bytes(&bytes));
        let bytes: Vec<u8> = (0..numbers.next(60)).map(|_| numbers.byte(256)).collect();
        answers(&Plan::new().bytes(&bytes));
    }
}

#[test]
fn mutated_plans_are_answered() {
    let mut numbers = Numbers(1_181_783_497_276_652_981);
    for _ in 0..2_000 {
        let mut plan = some_plan(&mut numbers);
        answers(&plan);
        for _ in 0..numbers.next(4) {
            let place = numbers.next(plan.len() as u64) as usize;
            plan.0[place] = numbers.byte(256);
        }
        plan.0.truncate(1 + numbers.next(plan.len() as u64 * 2) as usize);
        answers(&plan);
    }
}

/// Events that are all accepted, with what they leave of the ends and of the messages in flight.
struct Accepted {
    plan: Plan,
    events: usize,
    /// Whether side 0 and side 1 of each link is down.
    down: Vec<[bool; 2]>,
    /// The link and the receiving side of each message in flight.
    flight: Vec<(usize, usize)>,
}

impl Accepted {
    fn add(&mut self, step: impl FnOnce(Plan) -> Plan) {
        self.plan = step(std::mem::take(&mut self.plan));
        self.events += 1;
    }

    /// Every end that is up sends, and each message whose receiver's end is up is delivered; the others are lost.
    fn round(&mut self, links: &[[u8; 2]]) {
        for (link, ends) in links.iter().enumerate() {
            for side in [0, 1] {
                if !self.down[link][side] && self.flight.len() < 64 {
                    self.add(|plan| plan.send(ends[side], link as u8));
                    self.flight.push((link, 1 - side));
                }
            }
        }
        for (link, side) in std::mem::take(&mut self.flight) {
            let tag = if self.down[link][side] { 8 } else { 6 };
            self.add(|plan| plan.field(tag, &[0]));
        }
    }
}

/// Updates, rounds, and cuts and restores of single ends. Some messages are left in flight for a while.
fn some_accepted(numbers: &mut Numbers, setup: &Setup) -> Accepted {
    let mut all = Accepted { plan: setup.plan.clone(), events: 0, down: vec![[false; 2]; setup.links.len()], flight: Vec::new() };
    for _ in 0..2 + numbers.next(20) {
        let link = numbers.next(setup.links.len() as u64) as usize;
        let side = numbers.next(2) as usize;
        let bridge = setup.links[link][side];
        match numbers.next(5) {
            0 => {
                let [bridge, view] = [setup.bridges, setup.views].map(|count| numbers.byte(count.into()));
                all.add(|plan| plan.update(bridge, view));
            }
            1 => all.round(&setup.links),
            2 if !all.down[link][side] && all.flight.len() < 64 => {
                all.add(|plan| plan.send(bridge, link as u8));
                all.flight.push((link, 1 - side));
            }
            _ => {
                let tag = if all.down[link][side] { 10 } else { 9 };
                all.add(|plan| plan.field(tag, &[bridge, link as u8]));
                all.down[link][side] = !all.down[link][side];
            }
        }
    }
    all
}

/// The port of each bridge, out of the lines of one report.
fn ports<'a>(lines: &mut impl Iterator<Item = &'a str>, destination: u8, bridges: u8) -> Vec<Option<usize>> {
    assert_eq!(lines.next(), Some(&*format!("dest {destination}")));
    (0..bridges).map(|_| lines.next().unwrap().rsplit(' ').next().unwrap().parse().ok()).collect()
}

#[test]
fn paths_follow_the_reported_ports_over_links_with_both_ends_up() {
    let mut numbers = Numbers(3_935_559_000_370_003_845);
    let [mut crossed, mut died] = [0, 0];
    for _ in 0..500 {
        let setup = some_setup(&mut numbers, 1, 1);
        let mut all = some_accepted(&mut numbers, &setup);
        for destination in 0..setup.bridges {
            all.add(|plan| plan.report(destination));
            for start in 0..setup.bridges {
                all.add(|plan| plan.path(start, destination));
            }
        }
        let printed = all.plan.printed();
        let lines = &mut printed.lines();
        for destination in 0..setup.bridges {
            let ports = ports(lines, destination, setup.bridges);
            // The bridge beyond each port, and whether a frame gets there.
            let beyond = |bridge: u8| {
                let link = ports[usize::from(bridge)]?;
                let side = setup.links[link].iter().position(|&end| end == bridge).expect("a port of the bridge itself");
                assert!(!all.down[link][side], "a port is open whose own end is down");
                Some((setup.links[link][1 - side], !all.down[link][1 - side]))
            };
            for start in 0..setup.bridges {
                let [mut last, mut hops] = [start, 0];
                while let Some((next, true)) = beyond(last) {
                    last = next;
                    hops += 1;
                    assert!(hops < setup.bridges, "a ring");
                }
                let expected = if last == destination {
                    format!("path {start} {destination} delivered {hops}")
                } else {
                    format!("path {start} {destination} stops {last} {hops}")
                };
                assert_eq!(lines.next(), Some(&*expected));
                crossed += usize::from(hops);
                died += usize::from(beyond(last).is_some());
            }
        }
        assert_eq!(lines.collect::<Vec<_>>(), [format!("end {}", all.events)]);
    }
    assert!(crossed > 1_000 && died > 1_000, "{crossed} links crossed, {died} frames died");
}
