//! What is to lead on from a shut port, by `why`: its lines put behind the question, and what comes of them.

use crate::plan_call::written;
use crate::plan_meaning::{Deed, Line, Plan};
use crate::plan_rehearsal::{network_after, verdict};
use crate::plan_text::random_plan;
use crate::plan_told::{verdict_of, Verdict};
use crate::text_json::Json;
use bench_tests::random::Random;
use reference::network::{Network, MOST_IN_FLIGHT};

/// Verdicts below this one have nothing that leads on from them.
const FIRST_ADVISED: usize = 3;

/// A random plan that asks at its end about ports with each of the verdicts 3 to 6, more often with the rarer ones 4 and 6, beside what it
/// asks on the way.
pub fn asking_plan(random: &mut Random) -> Plan {
    let mut plan = random_plan(random);
    if plan.refused.is_some() {
        return plan;
    }
    let network = network_of(&plan, &plan.bytes());
    for number in FIRST_ADVISED..=6 {
        let is_so = |&[bridge, to]: &[usize; 2]| usize::from(network.reason(bridge, to).case().0) == number;
        let mut pairs: Vec<[usize; 2]> = plan.setup.pairs().into_iter().filter(is_so).collect();
        for _ in 0..pairs.len().min(if number % 2 == 0 { 4 } else { 2 }) {
            let [bridge, to] = pairs.swap_remove(random.below(pairs.len()));
            plan.text.push(format!("why {} {}", plan.setup.bridges[bridge], plan.setup.bridges[to]));
            plan.lines.push(Line { number: plan.text.len(), deed: Deed::Why(bridge, to) });
        }
    }
    plan
}

/// The network that the bytes of a plan leave, by the reference.
fn network_of(plan: &Plan, bytes: &[u8]) -> Network {
    let events = bytes.strip_prefix(&plan.setup.bytes()[..]).expect("the same network");
    network_after(&plan.setup, events)
}

/// A question of a plan, and the planner's answer.
pub struct Question<'a> {
    plan: &'a Plan,
    line: usize,
    bridge: usize,
    to: usize,
    answer: &'a Json,
}

/// The questions of a plan that were come to. There are as many answers.
pub fn questions<'a>(plan: &'a Plan, json: &'a Json) -> Vec<Question<'a>> {
    let answers: Vec<&Json> = json.at("told").list().iter().filter(|told| told.at("kind").text() == "why").collect();
    let asked = |line: &Line| match line.deed {
        Deed::Why(bridge, to) => Some((line.number, bridge, to)),
        _ => None,
    };
    let asked: Vec<(usize, usize, usize)> = plan.lines.iter().filter_map(asked).collect();
    assert_eq!(asked.len(), answers.len(), "{}", plan.text());
    let question = |((line, bridge, to), answer)| Question { plan, line, bridge, to, answer };
    asked.into_iter().zip(answers).map(question).collect()
}

impl Question<'_> {
    pub fn verdict(&self) -> Verdict {
        verdict_of(self.answer.at("verdict"))
    }

    /// The text up to the question.
    fn text(&self) -> String {
        self.plan.text[..self.line].join("\n") + "\n"
    }

    /// The network as a text leaves it, by its bytes and the reference.
    fn network(&self, text: &str) -> Network {
        network_of(self.plan, &written(&["bytes", "-"], text.as_bytes()))
    }

    /// The place of the link that a verdict names.
    fn place(&self, verdict: &Verdict) -> Option<usize> {
        self.plan.setup.links.iter().position(|link| Some(link) == verdict.1.as_ref())
    }

    /// It forwards, a later condition is named, or of sent limits that of a higher link.
    fn leads_on(&self, then: &Verdict) -> bool {
        let before = self.verdict();
        then.0 == 0 || then.0 > before.0 || (before.0 == 6 && then.0 == 6 && self.place(then) > self.place(&before))
    }

    /// Why nothing leads on: the far end of the link that is named is down, or as many messages are in flight as may be.
    fn barred(&self) -> Option<&'static str> {
        let network = self.network(&self.text());
        let link = self.place(&self.verdict()).expect("a link is named");
        let end = network.map.end_at(self.bridge, link).expect("a link of the bridge");
        let is_full = network.flight.len() == MOST_IN_FLIGHT;
        (!network.is_up(end.far())).then_some("the far end is down").or(is_full.then_some("the flight is full"))
    }

    /// What was met, or what is wrong: of each way that is to lead on, or of there being none.
    pub fn follow(&self, run: fn(&str) -> Json) -> Vec<Result<String, String>> {
        let number = self.verdict().0;
        let openings = self.answer.at("openings").list();
        if !(FIRST_ADVISED..=6).contains(&number) {
            let is_right = openings.is_empty();
            return vec![if is_right { Ok(format!("{number}: nothing to lead on from")) } else { self.wrong("an opening") }];
        }
        if openings.is_empty() {
            return vec![self.barred().map_or(self.wrong("nothing leads on"), |bar| Ok(format!("{number}: {bar}")))];
        }
        openings.iter().map(|opening| self.follow_one(opening, run)).collect()
    }

    fn follow_one(&self, opening: &Json, run: fn(&str) -> Json) -> Result<String, String> {
        let lines: String = opening.at("lines").list().iter().map(|line| format!("{}\n", line.text())).collect();
        let then = verdict_of(opening.at("then"));
        let found = self.after(&lines, run)?;
        if found != then {
            return self.wrong(&format!("{then:?} is to follow, and {found:?} does, after\n{lines}"));
        }
        if lines.is_empty() || !self.leads_on(&then) {
            return self.wrong(&format!("{then:?} is to follow, after\n{lines}"));
        }
        Ok(format!("{}: then {}", self.verdict().0, then.0))
    }

    /// The verdict with these lines behind the question: by the planner, asked again, and the same by the reference.
    fn after(&self, lines: &str, run: fn(&str) -> Json) -> Result<Verdict, String> {
        let [bridge, to] = [self.bridge, self.to].map(|bridge| &self.plan.setup.bridges[bridge]);
        let text = format!("{}{lines}why {bridge} {to}\n", self.text());
        let json = run(&text);
        if let Some(error) = json.at("errors").list().first() {
            return self.wrong(&format!("{error:?}, after\n{lines}"));
        }
        let found = json.at("told").list().last().map(|told| verdict_of(told.at("verdict"))).expect("an answer");
        assert_eq!(found, verdict(&self.plan.setup, &self.network(&text), self.bridge, self.to), "{text}");
        Ok(found)
    }

    fn wrong<T>(&self, what: &str) -> Result<T, String> {
        Err(format!("{:?}: {what}\nat the last line of\n{}", self.verdict(), self.text()))
    }
}
