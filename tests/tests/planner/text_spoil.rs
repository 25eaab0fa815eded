//! Plans spoilt at random, and texts that are none.

use bench_tests::random::Random;

/// Three bridges in a row and lines of every kind, in few words, so that a change at random hits what matters.
pub const SMALL: &str = r#"bridges A B C
link ab A B
link bc B C
view v ab=1 bc=2
view w = v without ab
view x = w with ab=3 bc=7
send A over ab
repeat 0
deliver 0
send B over bc
lose B over bc
round 2
watch A C
watch all
label "on"
update A C to x
cut B bc
expect path A C stops B
why A C
restore B bc
update B to x
send all
deliver all
expect path A C delivered
expect port A C ab
report all
path all
expect no outage # it had one
"#;

/// Words of the notation and others that a slip may bring in.
const WORDS: &[&str] = &[
    "all",
    "to",
    "over",
    "with",
    "without",
    "none",
    "-",
    "=",
    "\"",
    "#",
    ",",
    "0",
    "1",
    "2",
    "63",
    "64",
    "00",
    "16777216",
    "round",
    "cut",
    "view",
    "link",
    "bridges",
    "expect",
    "no",
    "outage",
    "path",
    "port",
    "stops",
    "delivered",
    "label",
    "\"x\"",
    "é",
    "\u{202e}",
    "\r",
    "=5",
    "ab=3",
];

/// A character at random of those that stand in plans, and some that do not.
pub fn printable(random: &mut Random) -> char {
    match random.below(8) {
        0 => ' ',
        1 => '\n',
        2 => random.pick(&['=', '"', '#', ',', '-', '0', '9', 'é', '北', '🏥']),
        _ => (33 + random.below(94)) as u8 as char,
    }
}

/// The lines of the plan, some of them deleted, doubled, or exchanged for one another.
pub fn lines_spoilt(plan: &str, random: &mut Random) -> String {
    let mut lines: Vec<&str> = plan.lines().collect();
    for _ in 0..1 + random.below(2) {
        let (i, j) = (random.below(lines.len()), random.below(lines.len()));
        match random.below(4) {
            0 => drop(lines.remove(i)),
            1 => lines.insert(j, lines[i]),
            2 => lines.insert(i, lines[i]),
            _ => lines.swap(i, j),
        }
    }
    lines.join("\n") + "\n"
}

/// The names of the plan's bridges, of its links and of its views.
fn names(plan: &str) -> [Vec<&str>; 3] {
    let words = |first: &str, count: usize| -> Vec<&str> {
        let lines = plan.lines().map(|line| line.split_whitespace()).filter(|words| words.clone().next() == Some(first));
        lines.flat_map(|words| words.skip(1).take(count)).collect()
    };
    [words("bridges", 16), words("link", 1), words("view", 1)]
}

/// Another name of the same kind, as a planner confuses them; any word of the plan in place of one that is no name.
fn confused<'a>(word: &str, plan: &'a str, random: &mut Random) -> &'a str {
    let all = plan.split_whitespace().collect();
    let kind = names(plan).into_iter().find(|kind| kind.contains(&word));
    random.pick(&kind.unwrap_or(all))
}

/// Words of one or two lines deleted, exchanged, confused, or replaced by others of the plan or by those of WORDS.
pub fn words_spoilt(plan: &str, random: &mut Random) -> String {
    let all: Vec<&str> = plan.split_whitespace().collect();
    let mut lines: Vec<String> = plan.lines().map(str::to_string).collect();
    for _ in 0..1 + random.below(2) {
        let line = random.below(lines.len());
        let mut words: Vec<&str> = lines[line].split_whitespace().collect();
        if words.is_empty() {
            continue;
        }
        let (i, j) = (random.below(words.len()), random.below(words.len()));
        match random.below(9) {
            0 => drop(words.remove(i)),
            1 => words.swap(i, j),
            2 => words.insert(i, random.pick(&all)),
            3 => words[i] = random.pick(WORDS),
            4 => words[i] = random.pick(&all),
            _ => words[i] = confused(words[i], plan, random),
        }
        lines[line] = words.join(" ");
    }
    lines.join("\n") + "\n"
}

/// One to three bytes replaced, some of them by a flip of one bit.
pub fn bytes_spoilt(plan: &[u8], random: &mut Random) -> Vec<u8> {
    let mut plan = plan.to_vec();
    for _ in 0..random.pick(&[1, 1, 1, 2, 3]) {
        let i = random.below(plan.len());
        plan[i] = match random.below(3) {
            0 => random.number() as u8,
            1 => random.pick(b" \n\r\t\"#=,-0189AaBbvw"),
            _ => plan[i] ^ 1 << random.below(8),
        };
    }
    plan
}
