//! Random arguments of the calls of layer 2: accepted ones, and ones damaged at one point.

use crate::call::{FLAGS, LIMITS, MESSAGE, RECORD, RECORDS, TABLE};
use crate::case::{Call, Case};
use crate::random::Random;
use crate::records_numbers::{agreement_number, MESSAGE_FIELDS, NO_VIEW, RECORD_FIELDS};
use crate::view::{random_arguments, Arguments, LARGE, MAX_COST, NONE};

fn random_flag(random: &mut Random, set: bool) -> u32 {
    if !set {
        0
    } else if random.one_in(4) {
        1 + random.below(NONE as usize) as u32
    } else {
        1
    }
}

/// An agreement number, often one that is met elsewhere in the case.
fn random_number(random: &mut Random, met: u16) -> u16 {
    let any = random.number() as u16;
    random.pick(&[0, 1, 2, met, met, met.saturating_sub(1), met.saturating_add(1), 65_534, 65_535, any])
}

/// A view with true distances, or once in `others` times with a table of arbitrary numbers, and which of the two.
fn random_lent(random: &mut Random, others: usize) -> (Arguments, bool) {
    let bridges = if random.one_in(3) { 2 + random.below(3) } else { 2 + random.below(15) };
    let mut lent = random_arguments(random, bridges);
    let true_distances = !random.one_in(others);
    if !true_distances {
        for cost in &mut lent.costs[..lent.links] {
            *cost = random.pick(&[0, 1, 1, 2, 3, 5, MAX_COST]);
        }
        let high = random.one_in(3);
        for cell in &mut lent.table[..TABLE] {
            let small = random.below(6) as u32;
            *cell = if high || random.one_in(4) { NONE - random.pick(&[0, 0, small]) } else { small };
        }
    } else {
        lent.table = lent.filled().table;
    }
    (lent, true_distances)
}

/// A limit for a bridge at this distance: above it, but once in `rarely` times at or below it.
fn random_sent(random: &mut Random, rarely: usize, distance: u32, cost: u32) -> u32 {
    let more = random.below(20) as u32;
    if random.one_in(rarely) {
        random.pick(&[distance, distance, distance.saturating_sub(1), distance.saturating_sub(more), 0])
    } else {
        let offer = distance.saturating_add(cost.max(1));
        let above = distance.saturating_add(1);
        random.pick(&[above, above, offer, offer.saturating_add(1), (offer - 1).max(above), offer.saturating_add(more), NONE])
    }
}

/// The other way round: at or below it, but once in `rarely` times above it.
fn random_held(random: &mut Random, rarely: usize, distance: u32) -> u32 {
    let more = random.below(20) as u32;
    if random.one_in(rarely) {
        random.pick(&[distance.saturating_add(1), distance.saturating_add(1 + more), NONE])
    } else {
        random.pick(&[distance, distance, distance.saturating_sub(1), distance.saturating_sub(more), 0])
    }
}

/// The record of an end as four numbers. It holds a view, but once in `rarely` times.
fn random_record(random: &mut Random, rarely: usize, views: usize, view: u8, number: u16) -> [u32; RECORD] {
    let any = random.below(views) as u32;
    let received = random_number(random, number);
    let seen = random.pick(&[NO_VIEW, u32::from(view), any]);
    let discarded = random_number(random, received);
    let holding = !random.one_in(rarely);
    [received.into(), seen, discarded.into(), random_flag(random, holding)]
}

/// Any numbers that fit the fields of a record.
pub fn any_record(random: &mut Random) -> [u32; RECORD] {
    let [received, view, discarded] = RECORD_FIELDS.map(|(_, values)| random.below(values as usize) as u32);
    [received, view, discarded, random.number()]
}

/// Which ends of a link are down: neither, but once in `rarely` times one of them, or now and then both.
pub(crate) fn random_down(random: &mut Random, rarely: usize) -> [bool; 2] {
    let first = random.one_in(2);
    match random.below(4) {
        _ if !random.one_in(rarely) => [false; 2],
        0 => [true; 2],
        _ => [first, !first],
    }
}

/// The flags of the ends: none is down, or some, or many.
fn random_flags(random: &mut Random) -> Vec<u8> {
    let rarely = random.pick(&[2, 6, 12, 1_000]);
    let down: Vec<[bool; 2]> = (0..FLAGS / 2).map(|_| random_down(random, rarely)).collect();
    down.concat().into_iter().map(|down| if down { 1 + random.below(255) as u8 } else { 0 }).collect()
}

/// A bridge and a destination: any, or such that some link of the bridge leads on. In an arbitrary table they may be the same.
fn random_bridges(random: &mut Random, lent: &Arguments) -> (usize, usize) {
    let any = |random: &mut Random| (random.below(lent.bridges), random.below(lent.bridges));
    if lent.links == 0 || random.one_in(3) {
        return any(random);
    }
    for _ in 0..20 {
        let end = random.below(2 * lent.links);
        let (near, far) = (usize::from(lent.ends[end]), usize::from(lent.ends[end ^ 1]));
        let dest = if random.one_in(3) { near } else { random.below(lent.bridges) };
        let cost = lent.costs[end / 2];
        if cost != 0 && lent.table[16 * far + dest].checked_add(cost) == Some(lent.table[16 * near + dest]) {
            return (near, dest);
        }
    }
    any(random)
}

impl Case {
    /// The limits of every end near the distances, and any numbers elsewhere. Low sent limits are frequent where an end is down.
    fn random_limits(&mut self, random: &mut Random, rarely: usize) {
        for end in 0..2 * self.lent.links {
            let bridge = usize::from(self.lent.ends[end]);
            let low = match (self.down[end], self.down[end ^ 1]) {
                (0, 0) => rarely,
                (0, _) => rarely.min(4),
                _ => 2,
            };
            for dest in 0..self.lent.bridges {
                let distance = self.lent.table[16 * bridge + dest];
                self.sent[16 * end + dest] = random_sent(random, low, distance, self.lent.costs[end / 2]);
                self.held[16 * end + dest] = random_held(random, rarely, distance);
            }
        }
        for buffer in [&mut self.sent, &mut self.held, &mut self.out] {
            *buffer = longer(random, buffer);
        }
    }

    fn random_records(&mut self, random: &mut Random, rarely: usize) {
        for (end, record) in self.records.chunks_exact_mut(RECORD).enumerate() {
            let counted = end < 2 * self.lent.links;
            let known = |random: &mut Random| random_record(random, rarely, self.views, self.view, self.number);
            record.copy_from_slice(&if counted { known(random) } else { any_record(random) });
        }
        self.records = longer(random, &self.records);
        self.down.extend(spare(random).into_iter().map(|x| x as u8));
    }

    /// At each end of the bridge every condition of the forwarding choice fails often, so that several fail at once.
    fn mix_conditions(&mut self, random: &mut Random) {
        let distance = self.lent.table[16 * self.bridge + self.dest];
        for end in (0..2 * self.lent.links).filter(|&end| usize::from(self.lent.ends[end]) == self.bridge) {
            self.down[end] = random.pick(&[0, 0, 1]);
            self.records[RECORD * end + 3] = random.pick(&[0, 1, 1]);
            self.sent[16 * end + self.dest] = random_sent(random, 2, distance, self.lent.costs[end / 2]);
            self.held[16 * end + self.dest] = random_held(random, 2, distance);
        }
    }
}

/// A message to an end that has received this number, at a bridge on this view with this number.
fn random_message(random: &mut Random, views: usize, view: u8, number: u16, highest: u16) -> [u32; MESSAGE] {
    let taken = random_number(random, highest);
    let discarded = if random.one_in(2) { number } else { random_number(random, number) };
    let other = random.below(views) as u32;
    let carried = random.pick(&[u32::from(view), other]);
    [carried, taken.into(), discarded.into()]
}

/// More numbers than are needed, or none.
fn spare(random: &mut Random) -> Vec<u32> {
    let more = if random.one_in(2) { 0 } else { 1 + random.below(9) };
    random.numbers(more)
}

fn longer(random: &mut Random, numbers: &[u32]) -> Vec<u32> {
    [numbers, &spare(random)].concat()
}

/// An accepted call. What lies past the need is random.
pub fn random_case(random: &mut Random, which: Call) -> Case {
    let others = if which == Call::Verdict { 2 } else { 3 };
    let (mut lent, mut true_distances) = random_lent(random, others);
    while lent.links == 0 && which != Call::Carry && !which.is_choice() {
        (lent, true_distances) = random_lent(random, others);
    }
    let views = if random.one_in(2) { 1 + random.below(3) } else { 1 + random.below(32) };
    let view = random.below(views) as u8;
    let number = random_number(random, 7);
    let rarely = random.pick(&[3, 15, 60]);
    let fields = random_record(random, 2, views, view, number);
    let message = random_message(random, views, view, number, agreement_number(fields[0]));
    let (bridge, dest) = random_bridges(random, &lent);
    let mut case = Case {
        end: random.below(2 * lent.links.max(1)),
        bridge,
        dest,
        fields: longer(random, &fields),
        message: longer(random, &message),
        sent: random.numbers(LIMITS),
        held: random.numbers(LIMITS),
        out: random.numbers(if which.answer_length() == 0 { MESSAGE } else { which.answer_length() }),
        down: random_flags(random),
        records: vec![0; RECORDS],
        views,
        view,
        number,
        lent,
        true_distances,
    };
    case.random_limits(random, rarely);
    case.random_records(random, rarely);
    if which == Call::Verdict && random.one_in(2) {
        case.mix_conditions(random);
    }
    if which == Call::Start && random.one_in(2) {
        // not read, so they need not fit
        case.fields = random.numbers(RECORD);
    }
    case
}

/// Damages one point of an accepted call, one that the call reads.
pub fn damage(random: &mut Random, case: &mut Case, which: Call) {
    loop {
        let done = match random.below(30) {
            kind @ 0..=7 => which != Call::Carry && case.lent.damage(random, kind),
            kind @ 8..=21 => case.damage(random, which, kind),
            _ => case.damage_width(random, which),
        };
        if done {
            return;
        }
    }
}

impl Case {
    /// Damages what stands beside the view. False where the call has nothing of the kind chosen.
    fn damage(&mut self, random: &mut Random, which: Call, kind: usize) -> bool {
        let Arguments { links, bridges, .. } = self.lent;
        let end = random.below(2 * links.max(1));
        let large = random.pick(&LARGE);
        let unknown = self.views as u32 + random.below(255 - self.views) as u32;
        let other = random.pick(&[unknown, NO_VIEW]);
        let of_choice = which.is_choice();
        let on_end = which != Call::Carry && !of_choice;
        let with_limits = !matches!(which, Call::Offer | Call::Carry);
        let with_record = which != Call::Offer && !of_choice;
        let with_views = !matches!(which, Call::Offer | Call::Start);
        match kind {
            8 if on_end => self.end = 2 * links + large,
            9 if with_limits => self.sent.truncate(random.below(LIMITS)),
            10 if with_limits => self.held.truncate(random.below(LIMITS)),
            11 if which == Call::Offer || of_choice => self.dest = bridges + large,
            12 if of_choice => self.bridge = bridges + large,
            13 if with_record => self.fields.truncate(random.below(RECORD)),
            14 if which == Call::Deliver => self.message.truncate(random.below(MESSAGE)),
            15 if which.answer_length() > 0 => self.out.truncate(random.below(which.answer_length())),
            16 if with_views => self.views = if random.one_in(4) { 0 } else { 33 + large },
            17 if with_views && with_record => self.view = (self.views + random.below(256 - self.views)) as u8,
            18 if with_views && with_record => self.fields[1] = unknown,
            19 if which == Call::Deliver => self.message[0] = other,
            20 if of_choice => self.down.truncate(random.below(FLAGS)),
            21 if of_choice && random.one_in(2) => self.records.truncate(random.below(RECORDS)),
            21 if of_choice && links > 0 => self.records[RECORD * end + 1] = unknown,
            _ => return false,
        }
        true
    }

    /// Makes one number too great for its field. False where the call reads neither record nor message.
    fn damage_width(&mut self, random: &mut Random, which: Call) -> bool {
        let field = random.below(3);
        let (number, (_, values)) = match which {
            Call::Offer | Call::Start => return false,
            Call::Deliver if random.one_in(2) => (&mut self.message[field], MESSAGE_FIELDS[field]),
            Call::Update | Call::Carry | Call::Deliver => (&mut self.fields[field], RECORD_FIELDS[field]),
            Call::Port | Call::Verdict => {
                (&mut self.records[RECORD * random.below(RECORDS / RECORD) + field], RECORD_FIELDS[field])
            }
        };
        *number = random.beyond(*number, values);
        true
    }
}
