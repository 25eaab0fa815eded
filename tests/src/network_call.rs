//! The exported calls of layer 3, each behind a safe function over the buffers that are lent to it. They have no `requires`, so any
//! argument is allowed.

use crate::guard::Buffer;
use crate::model::Call;

/// The lengths that the calls need.
pub const BENCH: usize = 420;
pub const COSTS: usize = 1024;
pub const LIMITS: usize = 1024;
pub const MESSAGES: usize = 320;
pub const ANSWER: usize = 3;
pub const ROWS: usize = 32;

/// Where each part of a bench begins. Before them stand the counts of bridges, links, views and messages in flight. The last part has a
/// flag for each end: any number but 0 says that it is down.
pub const ENDS: usize = 4;
pub const VIEW: usize = 68;
pub const NUMBER: usize = 84;
pub const RECORDS: usize = 100;
pub const DOWN: usize = 356;

// A slice passes as a pointer and then a length. Nothing checks these declarations against crates/exports_network/src/network.rt.
extern "C" {
    fn bench_net_fresh(
        bench: *mut u32,
        bench_len: usize,
        costs: *const u32,
        costs_len: usize,
        sent: *mut u32,
        sent_len: usize,
        held: *mut u32,
        held_len: usize,
    ) -> u8;
    fn bench_net_update(
        bench: *mut u32,
        bench_len: usize,
        costs: *const u32,
        costs_len: usize,
        sent: *mut u32,
        sent_len: usize,
        held: *mut u32,
        held_len: usize,
        bridge: usize,
        view: usize,
    ) -> u8;
    fn bench_net_cut(bench: *mut u32, bench_len: usize, bridge: usize, link: usize) -> u8;
    fn bench_net_restore(bench: *mut u32, bench_len: usize, bridge: usize, link: usize) -> u8;
    fn bench_net_send(
        bench: *mut u32,
        bench_len: usize,
        messages: *mut u32,
        messages_len: usize,
        bridge: usize,
        link: usize,
    ) -> u8;
    fn bench_net_lose(bench: *mut u32, bench_len: usize, messages: *mut u32, messages_len: usize, place: usize) -> u8;
    fn bench_net_report(
        bench: *const u32,
        bench_len: usize,
        costs: *const u32,
        costs_len: usize,
        sent: *const u32,
        sent_len: usize,
        held: *const u32,
        held_len: usize,
        dest: usize,
        rows: *mut u32,
        rows_len: usize,
    ) -> u8;
}

/// Declares questions about a bridge and a destination, which have the same parameters.
macro_rules! questions {
    ($($name:ident),*) => {
        extern "C" {
            $(fn $name(
                bench: *const u32,
                bench_len: usize,
                costs: *const u32,
                costs_len: usize,
                sent: *const u32,
                sent_len: usize,
                held: *const u32,
                held_len: usize,
                bridge: usize,
                dest: usize,
                out: *mut u32,
                out_len: usize,
            ) -> u8;)*
        }
    };
}
questions!(bench_net_port, bench_net_verdict, bench_net_path);

/// Which of them.
#[derive(Clone, Copy)]
enum Question {
    Port,
    Verdict,
    Path,
}

/// Declares calls with the parameters of deliver, which are those of repeat too, over numbers and over structs. What is only read passes as
/// what may be written.
macro_rules! deliveries {
    ($($name:ident),*) => {
        extern "C" {
            $(fn $name(
                bench: *mut u32,
                bench_len: usize,
                costs: *const u32,
                costs_len: usize,
                sent: *mut u32,
                sent_len: usize,
                held: *mut u32,
                held_len: usize,
                messages: *mut u32,
                messages_len: usize,
                place: usize,
                out: *mut u32,
                out_len: usize,
            ) -> u8;)*
        }
    };
}
deliveries!(bench_net_deliver, bench_net_repeat, bench_slice_deliver, bench_slice_repeat);

/// Which of them.
#[derive(Clone, Copy)]
pub(crate) enum Delivery {
    Deliver,
    Repeat,
    SliceDeliver,
    SliceRepeat,
}

/// All that is lent to the calls. `out` takes answers, ports, verdicts, paths and report rows.
#[derive(Clone, Debug)]
pub struct Lent {
    pub bench: Buffer,
    pub costs: Buffer,
    pub sent: Buffer,
    pub held: Buffer,
    pub messages: Buffer,
    pub out: Buffer,
}

impl Lent {
    pub fn buffers(&self) -> [(&'static str, &Buffer); 6] {
        [
            ("bench", &self.bench),
            ("costs", &self.costs),
            ("sent", &self.sent),
            ("held", &self.held),
            ("messages", &self.messages),
            ("out", &self.out),
        ]
    }

    /// A buffer by its place in `buffers`.
    pub fn buffer_mut(&mut self, which: usize) -> &mut Buffer {
        let Lent { bench, costs, sent, held, messages, out } = self;
        [bench, costs, sent, held, messages, out][which]
    }

    /// The same with one buffer, by its place in `buffers`, of another length: cut off, or with zeros at the end.
    pub fn resized(&self, which: usize, length: usize) -> Lent {
        let mut numbers = self.buffers()[which].1.numbers().to_vec();
        numbers.resize(length, 0);
        let mut lent = self.clone();
        *lent.buffer_mut(which) = Buffer::of(&numbers);
        lent
    }

    /// How many bridges, links, views and messages in flight.
    pub fn counts(&self) -> [usize; 4] {
        [0, 1, 2, 3].map(|k| self.bench.numbers()[k] as usize)
    }

    /// The bridges that each link joins.
    pub fn pairs(&self) -> Vec<[usize; 2]> {
        let [_, links, ..] = self.counts();
        let pairs = self.bench.numbers()[ENDS..VIEW].chunks_exact(2).take(links);
        pairs.map(|pair| [pair[0], pair[1]].map(|bridge| bridge as usize)).collect()
    }

    // SAFETY, of each call below: each pointer comes with the length of its buffer, and no two buffers share memory.

    pub fn fresh(&mut self) -> u8 {
        let (b, c) = (self.bench.numbers_mut(), self.costs.numbers());
        let (s, h) = (self.sent.numbers_mut(), self.held.numbers_mut());
        unsafe { bench_net_fresh(b.as_mut_ptr(), b.len(), c.as_ptr(), c.len(), s.as_mut_ptr(), s.len(), h.as_mut_ptr(), h.len()) }
    }

    pub fn call(&mut self, call: Call) -> u8 {
        match call {
            Call::Update(bridge, view) => self.update(bridge, view),
            Call::Cut(bridge, link) => self.cut(bridge, link),
            Call::Restore(bridge, link) => self.restore(bridge, link),
            Call::Send(bridge, link) => self.send(bridge, link),
            Call::Deliver(place) => self.delivery(Delivery::Deliver, place),
            Call::Repeat(place) => self.delivery(Delivery::Repeat, place),
            Call::Lose(place) => self.lose(place),
            Call::Port(bridge, dest) => self.question(Question::Port, bridge, dest),
            Call::Verdict(bridge, dest) => self.question(Question::Verdict, bridge, dest),
            Call::Report(dest) => self.report(dest),
            Call::Path(start, dest) => self.question(Question::Path, start, dest),
        }
    }

    fn cut(&mut self, bridge: usize, link: usize) -> u8 {
        let b = self.bench.numbers_mut();
        unsafe { bench_net_cut(b.as_mut_ptr(), b.len(), bridge, link) }
    }

    fn restore(&mut self, bridge: usize, link: usize) -> u8 {
        let b = self.bench.numbers_mut();
        unsafe { bench_net_restore(b.as_mut_ptr(), b.len(), bridge, link) }
    }

    fn send(&mut self, bridge: usize, link: usize) -> u8 {
        let (b, m) = (self.bench.numbers_mut(), self.messages.numbers_mut());
        unsafe { bench_net_send(b.as_mut_ptr(), b.len(), m.as_mut_ptr(), m.len(), bridge, link) }
    }

    fn lose(&mut self, place: usize) -> u8 {
        let (b, m) = (self.bench.numbers_mut(), self.messages.numbers_mut());
        unsafe { bench_net_lose(b.as_mut_ptr(), b.len(), m.as_mut_ptr(), m.len(), place) }
    }

    fn update(&mut self, bridge: usize, view: usize) -> u8 {
        let (b, c) = (self.bench.numbers_mut(), self.costs.numbers());
        let (s, h) = (self.sent.numbers_mut(), self.held.numbers_mut());
        unsafe {
            bench_net_update(
                b.as_mut_ptr(),
                b.len(),
                c.as_ptr(),
                c.len(),
                s.as_mut_ptr(),
                s.len(),
                h.as_mut_ptr(),
                h.len(),
                bridge,
                view,
            )
        }
    }

    pub(crate) fn delivery(&mut self, which: Delivery, place: usize) -> u8 {
        let exported = match which {
            Delivery::Deliver => bench_net_deliver,
            Delivery::Repeat => bench_net_repeat,
            Delivery::SliceDeliver => bench_slice_deliver,
            Delivery::SliceRepeat => bench_slice_repeat,
        };
        let (b, c) = (self.bench.numbers_mut(), self.costs.numbers());
        let (s, h, m, o) =
            (self.sent.numbers_mut(), self.held.numbers_mut(), self.messages.numbers_mut(), self.out.numbers_mut());
        unsafe {
            exported(
                b.as_mut_ptr(),
                b.len(),
                c.as_ptr(),
                c.len(),
                s.as_mut_ptr(),
                s.len(),
                h.as_mut_ptr(),
                h.len(),
                m.as_mut_ptr(),
                m.len(),
                place,
                o.as_mut_ptr(),
                o.len(),
            )
        }
    }

    fn question(&mut self, which: Question, bridge: usize, dest: usize) -> u8 {
        let exported = match which {
            Question::Port => bench_net_port,
            Question::Verdict => bench_net_verdict,
            Question::Path => bench_net_path,
        };
        let (b, c) = (self.bench.numbers(), self.costs.numbers());
        let (s, h, o) = (self.sent.numbers(), self.held.numbers(), self.out.numbers_mut());
        unsafe {
            exported(
                b.as_ptr(),
                b.len(),
                c.as_ptr(),
                c.len(),
                s.as_ptr(),
                s.len(),
                h.as_ptr(),
                h.len(),
                bridge,
                dest,
                o.as_mut_ptr(),
                o.len(),
            )
        }
    }

    fn report(&mut self, dest: usize) -> u8 {
        let (b, c) = (self.bench.numbers(), self.costs.numbers());
        let (s, h, o) = (self.sent.numbers(), self.held.numbers(), self.out.numbers_mut());
        unsafe {
            bench_net_report(
                b.as_ptr(),
                b.len(),
                c.as_ptr(),
                c.len(),
                s.as_ptr(),
                s.len(),
                h.as_ptr(),
                h.len(),
                dest,
                o.as_mut_ptr(),
                o.len(),
            )
        }
    }
}
