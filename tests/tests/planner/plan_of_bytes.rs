//! Random plans of bytes as the planner's text, with lines put in that watch pairs.

use crate::make::{filled, Maker};
use crate::plan_call::{text_of, written};
use crate::plan_meaning::{Deed, Line, Plan, Setup};
use bench_tests::plan_bytes::first_event;
use bench_tests::random::Random;

/// No such bridge, view or link: that has no text.
const NO_SUCH: u8 = 10;

/// The network of the plan, by the names that the planner gives.
fn setup_of(maker: &Maker) -> Setup {
    let names = |letter: char, count: usize| (0..count).map(|k| format!("{letter}{k}")).collect();
    let cost = |cost: &[u8]| u32::from_be_bytes([cost[0], cost[1], cost[2], cost[3]]);
    let views = maker.fields.iter().skip(1 + maker.ends.len()).take(maker.views);
    Setup {
        bridges: names('B', maker.bridges),
        links: names('L', maker.ends.len()),
        ends: maker.ends.clone(),
        views: names('V', maker.views),
        costs: views.map(|view| view[3..].chunks(4).map(cost).collect()).collect(),
    }
}

/// A line that watches all pairs or one.
fn watch(random: &mut Random, setup: &Setup) -> (String, Vec<[usize; 2]>) {
    let pairs = setup.pairs();
    if random.one_in(2) {
        return ("watch all".to_string(), pairs);
    }
    let [from, to] = random.pick(&pairs);
    (format!("watch B{from} B{to}"), vec![[from, to]])
}

/// The fields up to the first event that is refused, and its number. One that has no text is left out.
fn up_to_refusal(setup: &Setup, fields: &mut Vec<Vec<u8>>) -> Option<u8> {
    let first = 1 + setup.links.len() + setup.views.len();
    let mut model = setup.fresh();
    for k in first..fields.len() {
        let (call, _) = first_event(&fields[k]).expect("an event");
        if let Err(refusal) = model.call(call) {
            let number = refusal.number();
            fields.truncate(if number == NO_SUCH { k } else { k + 1 });
            return Some(number).filter(|&number| number != NO_SUCH);
        }
    }
    None
}

/// A random plan of bytes, up to its first refused event, as the planner's text.
pub fn plan_of_bytes(random: &mut Random) -> Plan {
    let maker = filled(random);
    let (setup, mut fields) = (setup_of(&maker), maker.fields);
    let refused = up_to_refusal(&setup, &mut fields);
    let text = written(&["text", "-"], &fields.concat());
    let text: Vec<&str> = text_of(&text).lines().collect();
    assert_eq!(text.len(), fields.len(), "a line for each field");
    let first = 1 + setup.links.len() + setup.views.len();
    let rarity = random.pick(&[5, 30]);
    let mut plan = Plan { text: text[..first].iter().map(|line| line.to_string()).collect(), ..Plan::default() };
    for (line, field) in text[first..].iter().zip(&fields[first..]) {
        if random.one_in(rarity) {
            let (line, pairs) = watch(random, &setup);
            plan.text.push(line);
            plan.lines.push(Line { number: plan.text.len(), deed: Deed::Watch(pairs) });
        }
        plan.text.push(line.to_string());
        let (call, _) = first_event(field).expect("an event");
        plan.lines.push(Line { number: plan.text.len(), deed: Deed::Events(vec![call]) });
    }
    if let Some(number) = refused {
        plan.lines.pop();
        plan.refused = Some((plan.text.len(), number));
    }
    plan.setup = setup;
    plan
}
