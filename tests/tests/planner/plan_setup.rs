//! The first lines of a random plan of text: bridges, links and views. And how any line is laid out.

use crate::plan_meaning::{Plan, Setup};
use crate::plan_names::Names;
use bench_tests::random::Random;

const MAX_COST: usize = 16_777_215;

pub fn words(list: &[&str]) -> Vec<String> {
    list.iter().map(|word| word.to_string()).collect()
}

/// Numbers below `n`, each once, in any order.
pub fn shuffled(random: &mut Random, n: usize) -> Vec<usize> {
    let mut numbers: Vec<usize> = (0..n).collect();
    (1..n).for_each(|k| numbers.swap(k, random.below(k + 1)));
    numbers
}

// ---- lines

/// One more line of these words, now and then with more spaces or a comment, or after a line that says nothing. Its number, from 1.
pub fn put(random: &mut Random, text: &mut Vec<String>, words: &[String]) -> usize {
    if random.one_in(6) {
        text.push(random.pick(&["", "   ", "#", "# nothing", "  # update all to = \"x", "##, äß"]).to_string());
    }
    let mut line = spaces(random, 0);
    for (k, word) in words.iter().enumerate() {
        if k > 0 {
            line += &spaces(random, 1);
        }
        line += word;
    }
    if random.one_in(6) {
        line += random.pick(&["  ", " # a comment", "# round 2 \"", "   #"]);
    }
    text.push(line);
    text.len()
}

/// So many spaces, and now and then more.
fn spaces(random: &mut Random, least: usize) -> String {
    let more = if random.one_in(8) { random.below(5) } else { 0 };
    " ".repeat(least + more)
}

// ---- the network

/// A plan that has no line but those of its network.
pub fn set_up(random: &mut Random) -> Plan {
    let mut names = Names::default();
    let mut plan = Plan::default();
    let bridges = if random.one_in(6) { 2 + random.below(15) } else { 2 + random.below(5) };
    plan.setup.bridges = (0..bridges).map(|_| names.next(random)).collect();
    let named = [words(&["bridges"]), plan.setup.bridges.clone()].concat();
    put(random, &mut plan.text, &named);
    put_links(random, &mut names, &mut plan);
    let views = if random.one_in(12) { 1 + random.below(32) } else { 1 + random.below(5) };
    for _ in 0..views {
        put_view(random, &mut names, &mut plan);
    }
    plan
}

/// The first links join all bridges, where there are enough of them.
fn put_links(random: &mut Random, names: &mut Names, plan: &mut Plan) {
    let bridges = plan.setup.bridges.len();
    let links = match random.below(12) {
        0 => random.below(3),
        1 => 32,
        _ => (bridges - 1 + random.below(bridges + 1)).min(32),
    };
    for l in 0..links {
        let is_tree = l + 1 < bridges;
        let a = if is_tree { l + 1 } else { random.below(bridges) };
        let b = if is_tree { random.below(l + 1) } else { (a + 1 + random.below(bridges - 1)) % bridges };
        let ends = if random.one_in(2) { [a, b] } else { [b, a] };
        let name = names.next(random);
        let [first, second] = ends.map(|bridge| plan.setup.bridges[bridge].clone());
        put(random, &mut plan.text, &words(&["link", &name, &first, &second]));
        plan.setup.links.push(name);
        plan.setup.ends.push(ends);
    }
}

fn cost(random: &mut Random) -> u32 {
    let cost = match random.below(12) {
        0 => random.pick(&[1, 255, 256, 65_536, MAX_COST - 1, MAX_COST]),
        _ => 1 + random.below(6),
    };
    cost as u32
}

/// A view by all its costs, or like one that is there already.
fn put_view(random: &mut Random, names: &mut Names, plan: &mut Plan) {
    let name = names.next(random);
    let is_first = plan.setup.views.is_empty();
    let (kind, said, costs) = match derived(random, &plan.setup) {
        Some(derived) if !is_first && !random.one_in(4) => derived,
        _ => by_costs(random, &plan.setup),
    };
    put(random, &mut plan.text, &[words(&["view", &name]), said].concat());
    plan.setup.views.push(name);
    plan.setup.costs.push(costs);
    plan.kinds.push(kind);
}

type View = (&'static str, Vec<String>, Vec<u32>);

fn priced(setup: &Setup, link: usize, cost: u32) -> String {
    format!("{}={cost}", setup.links[link])
}

/// Most links with a cost, in any order; the others are absent.
fn by_costs(random: &mut Random, setup: &Setup) -> View {
    let mut costs = vec![0; setup.links.len()];
    let mut said = Vec::new();
    for link in shuffled(random, costs.len()) {
        if !random.one_in(8) {
            costs[link] = cost(random);
            said.push(priced(setup, link, costs[link]));
        }
    }
    ("view by costs", said, costs)
}

/// Like another view, up to three times `with` or `without`, no link twice. Nothing where there is no such view, or nothing to change.
fn derived(random: &mut Random, setup: &Setup) -> Option<View> {
    let other = random.below(setup.views.len().max(1));
    let mut costs = setup.costs.get(other)?.clone();
    let mut said = words(&["=", &setup.views[other]]);
    let mut links = shuffled(random, costs.len());
    let mut met = [false; 2];
    for _ in 0..1 + random.below(3) {
        let is_with = random.one_in(2);
        let (fit, rest): (Vec<usize>, Vec<usize>) = links.iter().partition(|&&link| is_with || costs[link] != 0);
        let changed = &fit[..fit.len().min(1 + random.below(3))];
        if changed.is_empty() {
            continue;
        }
        said.push(if is_with { "with" } else { "without" }.to_string());
        for &link in changed {
            costs[link] = if is_with { cost(random) } else { 0 };
            said.push(if is_with { priced(setup, link, costs[link]) } else { setup.links[link].clone() });
        }
        links = [&fit[changed.len()..], &rest].concat();
        met[usize::from(is_with)] = true;
    }
    let kind = match met {
        [false, false] => return None,
        [true, false] => "view without",
        [false, true] => "view with",
        [true, true] => "view with and without",
    };
    Some((kind, said, costs))
}
