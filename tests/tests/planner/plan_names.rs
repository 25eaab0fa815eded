//! Random names of bridges, links and views.

use bench_tests::random::Random;
use std::collections::BTreeSet;

const LETTERS: &str = "abcxyzABCXYZäéñøŁßΩяし日";
const DIGITS: &str = "0123456789";
/// All that a keyboard has but `# = " ,`, and some that it has not.
const SIGNS: &str = "!$%&'()*+-./:;<>?@[\\]^_`{|}~§°€→…👍";
/// Words of the notation that a name may be.
const WORDS: [&str; 18] = [
    "bridges",
    "link",
    "view",
    "update",
    "send",
    "deliver",
    "repeat",
    "lose",
    "round",
    "cut",
    "restore",
    "report",
    "path",
    "stops",
    "delivered",
    "port",
    "no",
    "outage",
];
/// Words that it may not be.
const KEPT: [&str; 7] = ["all", "to", "over", "with", "without", "none", "-"];

/// Names, each with one meaning.
#[derive(Default)]
pub struct Names(BTreeSet<String>);

impl Names {
    /// One that was not given out yet.
    pub fn next(&mut self, random: &mut Random) -> String {
        loop {
            let name = if random.one_in(12) { random.pick(&WORDS).to_string() } else { any(random) };
            let is_number = name.chars().all(|sign| DIGITS.contains(sign));
            if !is_number && !KEPT.contains(&&name[..]) && self.0.insert(name.clone()) {
                return name;
            }
        }
    }
}

fn any(random: &mut Random) -> String {
    let length = 1 + random.below(8);
    (0..length).map(|_| sign(random)).collect()
}

fn sign(random: &mut Random) -> char {
    let from = random.pick(&[LETTERS, LETTERS, DIGITS, SIGNS]);
    let signs: Vec<char> = from.chars().collect();
    random.pick(&signs)
}
