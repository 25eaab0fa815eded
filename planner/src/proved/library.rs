//! The calls of the proved library, each behind a safe function, and the network that a caller keeps for it. Everything that is decided
//! is decided there.

use crate::proved::field::Event;

/// An unreachable bridge, an absent limit, no link.
pub const NONE: u32 = u32::MAX;

const BENCH: usize = 420;
const TABLE: usize = 1024;
const MESSAGES: usize = 320;

/// The most bridges, and numbers of a message in flight.
const ROW: usize = 16;
const MESSAGE: usize = 5;

/// The most messages in flight.
pub const MOST_IN_FLIGHT: usize = MESSAGES / MESSAGE;

/// Where each part of a bench begins, behind the counts of bridges, links, views and messages in flight.
const ENDS: usize = 4;
const VIEWS: usize = 68;
const NUMBERS: usize = 84;
const DOWN: usize = 356;
const COSTS_OF_A_VIEW: usize = 32;

/// Room for the answers of as many paths as there are pairs of bridges.
const ANSWERS: usize = 3 * ROW * ROW;

// A slice passes as a pointer and then a length. Nothing checks these declarations against crates/exports_network/src.
#[rustfmt::skip]
extern "C" {
    fn bench_net_fresh(bench: *mut u32, _: usize, costs: *const u32, _: usize, sent: *mut u32, _: usize, held: *mut u32, _: usize) -> u8;
    fn bench_net_run(bench: *mut u32, _: usize, costs: *const u32, _: usize, sent: *mut u32, _: usize, held: *mut u32, _: usize,
                     messages: *mut u32, _: usize, rest: *const u8, _: usize, answers: *mut u32, _: usize, out: *mut u32, _: usize) -> u8;
    fn bench_net_verdict(bench: *const u32, _: usize, costs: *const u32, _: usize, sent: *const u32, _: usize, held: *const u32, _: usize,
                         bridge: usize, dest: usize, out: *mut u32, _: usize) -> u8;
    fn bench_tell_field(rest: *const u8, _: usize, stage: usize, bridges: usize, links: usize, views: usize, out: *mut u32, _: usize) -> u8;
    fn bench_read_costs(rest: *const u8, _: usize, links: usize, row: *mut u32, _: usize) -> u8;
}

// SAFETY, of each call below: each pointer comes with the length of its slice, and what may be written is borrowed for this call alone.

// ---- the plan file's reader

/// How far a plan has come. Stage 0: nothing read; 1: the bridge count; 2: a view; 3: an event.
#[derive(Clone, Copy)]
pub struct Progress {
    pub stage: usize,
    pub bridges: usize,
    pub links: usize,
    pub views: usize,
}

/// A field: its tag, its first two numbers (0 where it has none), and the bytes that it takes.
pub struct Read {
    pub tag: u32,
    pub first: u8,
    pub second: u8,
    pub used: usize,
}

/// The field at the head of these bytes; nothing at the plan's proper end. An error is document 01's number.
pub fn read_field(rest: &[u8], p: Progress) -> Result<Option<Read>, u8> {
    let mut out = [0; 4];
    let (at, length) = (rest.as_ptr(), rest.len());
    let reply = unsafe { bench_tell_field(at, length, p.stage, p.bridges, p.links, p.views, out.as_mut_ptr(), out.len()) };
    accepted(reply)?;
    let [tag, first, second, used] = out;
    if used == 0 {
        return Ok(None);
    }
    // A field's numbers are bytes; other numbers are no field's.
    let byte = |number: u32| u8::try_from(number).map_err(|_| 17);
    Ok(Some(Read { tag, first: byte(first)?, second: byte(second)?, used: used as usize }))
}

/// The costs of a view at the head of these bytes, one for each link.
pub fn read_costs(rest: &[u8], links: usize) -> Result<[u32; COSTS_OF_A_VIEW], u8> {
    let mut row = [0; COSTS_OF_A_VIEW];
    let reply = unsafe { bench_read_costs(rest.as_ptr(), rest.len(), links, row.as_mut_ptr(), row.len()) };
    accepted(reply).map(|()| row)
}

fn accepted(reply: u8) -> Result<(), u8> {
    if reply == 0 {
        Ok(())
    } else {
        Err(reply)
    }
}

// ---- a network

/// Where a frame comes to.
#[derive(Clone, Copy, Debug, PartialEq)]
pub struct PathEnd {
    pub delivered: bool,
    /// The bridge where it stops, if it is not delivered.
    pub last: usize,
    pub hops: u32,
}

/// What the library says of a port: 0 that it forwards, or the number of the condition that holds it shut; and the link concerned.
#[derive(Clone, Copy, Debug, PartialEq)]
pub struct Verdict {
    pub number: u32,
    pub link: Option<usize>,
}

/// A message in flight.
#[derive(Clone, Copy, Debug, PartialEq)]
pub struct Message {
    pub link: usize,
    /// The end that sent it: 0 that of the link's first bridge, 1 that of its second.
    pub side: usize,
}

/// What a caller keeps of a network, and lends to every call.
#[derive(Clone)]
pub struct Network {
    bench: [u32; BENCH],
    costs: [u32; TABLE],
    sent: [u32; TABLE],
    held: [u32; TABLE],
    messages: [u32; MESSAGES],
}

fn some(link: u32) -> Option<usize> {
    Some(link as usize).filter(|_| link != NONE)
}

impl Network {
    /// The fresh network of so many bridges, these links and these views' costs. An error is document 01's number.
    pub fn fresh(bridges: usize, links: &[[usize; 2]], views: &[Vec<u32>]) -> Result<Network, u8> {
        let (mut bench, mut costs) = ([0; BENCH], [0; TABLE]);
        bench[..3].copy_from_slice(&[bridges as u32, links.len() as u32, views.len() as u32]);
        for (place, &end) in bench[ENDS..VIEWS].iter_mut().zip(links.iter().flatten()) {
            *place = end as u32;
        }
        for (row, view) in costs.chunks_exact_mut(COSTS_OF_A_VIEW).zip(views) {
            row[..view.len()].copy_from_slice(view);
        }
        let mut n = Network { bench, costs, sent: [0; TABLE], held: [0; TABLE], messages: [0; MESSAGES] };
        let (b, c, s, h) = (n.bench.as_mut_ptr(), n.costs.as_ptr(), n.sent.as_mut_ptr(), n.held.as_mut_ptr());
        accepted(unsafe { bench_net_fresh(b, BENCH, c, TABLE, s, TABLE, h, TABLE) }).map(|()| n)
    }

    /// Carries out the events in these bytes: the numbers that they answer with. An error is document 01's number; 17 also where the
    /// bytes are not events alone.
    pub fn carry_out(&mut self, events: &[u8]) -> Result<Vec<u32>, u8> {
        let (mut answers, mut counts) = ([0; ANSWERS], [0; 3]);
        let (b, c, s, h) = (self.bench.as_mut_ptr(), self.costs.as_ptr(), self.sent.as_mut_ptr(), self.held.as_mut_ptr());
        let (m, r) = (self.messages.as_mut_ptr(), events.as_ptr());
        let (a, o) = (answers.as_mut_ptr(), counts.as_mut_ptr());
        #[rustfmt::skip]
        let reply = unsafe {
            bench_net_run(b, BENCH, c, TABLE, s, TABLE, h, TABLE, m, MESSAGES, r, events.len(), a, ANSWERS, o, 3)
        };
        let [_, used, answered] = counts.map(|count: u32| count as usize);
        accepted(reply)?;
        if used != events.len() {
            return Err(17);
        }
        Ok(answers[..answered].to_vec())
    }

    /// Why a port is shut, or that it forwards.
    pub fn verdict(&self, bridge: usize, dest: usize) -> Result<Verdict, u8> {
        let mut out = [0; 2];
        let (b, c, s, h) = (self.bench.as_ptr(), self.costs.as_ptr(), self.sent.as_ptr(), self.held.as_ptr());
        let o = out.as_mut_ptr();
        let reply = unsafe { bench_net_verdict(b, BENCH, c, TABLE, s, TABLE, h, TABLE, bridge, dest, o, 2) };
        accepted(reply).map(|()| Verdict { number: out[0], link: some(out[1]) })
    }

    /// Where a frame goes, asked on a copy: the question changes nothing.
    pub fn path(&self, start: usize, dest: usize) -> Result<PathEnd, u8> {
        let question = Event::Path { start: start as u8, dest: dest as u8 };
        self.clone().carry_out(&question.bytes()).map(|numbers| path_end(&numbers))
    }

    // ---- what stands in the caller's numbers

    pub fn view(&self, bridge: usize) -> usize {
        self.bench[VIEWS + bridge] as usize
    }

    pub fn agreement_number(&self, bridge: usize) -> u32 {
        self.bench[NUMBERS + bridge]
    }

    pub fn is_down(&self, end: usize) -> bool {
        self.bench[DOWN + end] != 0
    }

    pub fn sent_limit(&self, end: usize, dest: usize) -> u32 {
        self.sent[ROW * end + dest]
    }

    pub fn held_limit(&self, end: usize, dest: usize) -> u32 {
        self.held[ROW * end + dest]
    }

    /// The messages in flight, oldest first.
    pub fn messages(&self) -> Vec<Message> {
        let flight = self.messages.chunks_exact(MESSAGE).take(self.bench[3] as usize);
        flight.map(|x| Message { link: x[0] as usize, side: x[1] as usize }).collect()
    }

    /// The same network with no sent limit, so that none holds a port shut.
    pub fn without_sent_limits(&self) -> Network {
        Network { sent: [NONE; TABLE], ..self.clone() }
    }
}

/// The path that three numbers of an answer tell.
pub fn path_end(numbers: &[u32]) -> PathEnd {
    PathEnd { delivered: numbers[0] == 0, last: numbers[1] as usize, hops: numbers[2] }
}

/// A line of a report: the distance and the link on which the bridge forwards, where there is one.
pub fn report_line(numbers: &[u32]) -> (Option<u32>, Option<usize>) {
    (Some(numbers[0]).filter(|&distance| distance != NONE), some(numbers[1]))
}
