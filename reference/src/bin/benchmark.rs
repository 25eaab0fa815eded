//! Times the two programs named on the command line on plans of 16 bridges, 32 links, 1, 4 or 32 views, then events up to 61,440
//! bytes. Prints for each plan the medians of several runs of either, start of the program included, and their ratio. The outputs
//! are compared too.

use std::io::Write;
use std::process::{Command, Stdio};
use std::time::{Duration, Instant};

const LONGEST: usize = 61_440;
const RUNS: usize = 21;
const VIEWS: [u8; 3] = [1, 4, 32];

fn add(plan: &mut Vec<u8>, tag: u8, value: &[u8]) {
    plan.push(tag);
    plan.extend((value.len() as u16).to_be_bytes());
    plan.extend(value);
}

/// A grid of four by four that closes on itself; each view but the first lacks a link.
fn network(views: u8) -> (Vec<u8>, Vec<[u8; 2]>) {
    let mut plan = Vec::new();
    add(&mut plan, 1, &[16]);
    let right_and_down = |b: u8| [[b, b / 4 * 4 + (b + 1) % 4], [b, (b + 4) % 16]];
    let links: Vec<[u8; 2]> = (0..16).flat_map(right_and_down).collect();
    for ends in &links {
        add(&mut plan, 2, ends);
    }
    for view in 0..views.into() {
        let cost = |l: u32| if view > 0 && l == view { 0 } else { 100 + l * l % 37 };
        let costs: Vec<u8> = (0..32).flat_map(|l| cost(l).to_be_bytes()).collect();
        add(&mut plan, 3, &costs);
    }
    (plan, links)
}

/// The network, this many rounds, then these events again and again, as long as a whole turn fits.
fn filled(views: u8, rounds: usize, turn: impl Fn(&mut Vec<u8>, u8, &[[u8; 2]])) -> Vec<u8> {
    let (mut plan, links) = network(views);
    (0..rounds).for_each(|_| round(&mut plan, &links));
    for i in 0.. {
        let mut longer = plan.clone();
        turn(&mut longer, i as u8, &links);
        if longer.len() > LONGEST {
            break;
        }
        plan = longer;
    }
    plan
}

fn round(plan: &mut Vec<u8>, links: &[[u8; 2]]) {
    for (l, ends) in links.iter().enumerate() {
        ends.iter().for_each(|&end| add(plan, 5, &[end, l as u8]));
    }
    links.iter().for_each(|_| [0, 0].iter().for_each(|&place| add(plan, 6, &[place])));
}

/// Every port is shut in a fresh network, and after two rounds every bridge forwards.
fn plans(views: u8) -> Vec<(&'static str, Vec<u8>)> {
    let reports = |rounds| filled(views, rounds, |plan, i, _| add(plan, 11, &[i % 16]));
    let paths = |rounds| filled(views, rounds, |plan, i, _| add(plan, 12, &[i % 16, i / 16 % 16]));
    vec![
        ("the network alone", network(views).0),
        ("reports, ports shut", reports(0)),
        ("reports, ports open", reports(2)),
        ("paths, ports shut", paths(0)),
        ("paths, ports open", paths(2)),
        ("updates", filled(views, 0, |plan, i, _| add(plan, 4, &[i % 16, (i / 16 + i % 3) % views]))),
        // every bridge goes round all of the views
        ("updates to every view", filled(views, 0, |plan, i, _| (0..16).for_each(|b| add(plan, 4, &[b, (i % 32 + b) % views])))),
        ("sends and deliveries", filled(views, 0, |plan, _, links| round(plan, links))),
        (
            "all of these",
            filled(views, 0, |plan, i, links| {
                (0..16).for_each(|b| add(plan, 4, &[b, i % views]));
                round(plan, links);
                (0..16).for_each(|d| add(plan, 11, &[d]));
                (0..16).for_each(|d| add(plan, 12, &[15 - d, d]));
            }),
        ),
    ]
}

fn run(program: &str, plan: &[u8]) -> (Duration, Vec<u8>) {
    let start = Instant::now();
    let mut child = Command::new(program).stdin(Stdio::piped()).stdout(Stdio::piped()).spawn().expect("the program starts");
    child.stdin.take().expect("piped").write_all(plan).expect("the program reads");
    let output = child.wait_with_output().expect("the program ends");
    assert!(output.status.success(), "{program}: {}", output.status);
    (start.elapsed(), output.stdout)
}

fn median(mut times: Vec<Duration>) -> f64 {
    times.sort_unstable();
    times[times.len() / 2].as_secs_f64() * 1e3
}

fn compare(programs: &[String], name: &str, plan: &[u8]) {
    let mut times = [Vec::new(), Vec::new()];
    for _ in 0..RUNS {
        let [first, second] = [0, 1].map(|p| run(&programs[p], plan));
        assert!(first.1 == second.1, "{name}: the outputs differ");
        times[0].push(first.0);
        times[1].push(second.0);
    }
    let [first, second] = times.map(median);
    println!("{name:<32}{:>8}{first:>12.2}{second:>12.2}{:>8.2}", plan.len(), first / second);
}

fn main() {
    let programs: Vec<String> = std::env::args().skip(1).collect();
    assert_eq!(programs.len(), 2, "usage: benchmark PROGRAM PROGRAM");
    println!("{:<32}{:>8}{:>12}{:>12}{:>8}", "plan", "bytes", "first, ms", "second, ms", "ratio");
    compare(&programs, "an empty plan", &[]);
    for views in VIEWS {
        let unit = if views == 1 { "view" } else { "views" };
        for (name, plan) in plans(views) {
            compare(&programs, &format!("{name}, {views} {unit}"), &plan);
        }
    }
}
