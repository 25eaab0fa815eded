//! The exported list of calls behind a safe function over the buffers that are lent to it. It has no `requires`, so any argument is
//! allowed.

use crate::guard::Buffer;
use crate::network_call::Lent;

// A slice passes as a pointer and then a length. Nothing checks this declaration against crates/exports_network/src/lists.rt.
extern "C" {
    fn bench_net_run(
        bench: *mut u32,
        bench_len: usize,
        costs: *const u32,
        costs_len: usize,
        sent: *mut u32,
        sent_len: usize,
        held: *mut u32,
        held_len: usize,
        messages: *mut u32,
        messages_len: usize,
        rest: *const u8,
        rest_len: usize,
        answers: *mut u32,
        answers_len: usize,
        out: *mut u32,
        out_len: usize,
    ) -> u8;
}

/// The most events that are made at once, and how many numbers the counts take.
pub const MOST_EVENTS: usize = 2_048;
pub const COUNTS: usize = 3;

/// All that is lent to a list of calls: a network, whose `out` takes the counts, the bytes that are left of a plan, and room for answers.
#[derive(Clone, Debug)]
pub struct List {
    pub lent: Lent,
    pub rest: Buffer<u8>,
    pub answers: Buffer,
}

impl List {
    /// The events that were made, the bytes that they take, and the numbers that they answered with.
    pub fn counts(&self) -> [usize; COUNTS] {
        [0, 1, 2].map(|k| self.lent.out.numbers()[k] as usize)
    }

    pub fn run(&mut self) -> u8 {
        let List { lent, rest, answers } = self;
        let (b, c) = (lent.bench.numbers_mut(), lent.costs.numbers());
        let (s, h, m) = (lent.sent.numbers_mut(), lent.held.numbers_mut(), lent.messages.numbers_mut());
        let (r, a, o) = (rest.numbers(), answers.numbers_mut(), lent.out.numbers_mut());
        // SAFETY: each pointer comes with the length of its buffer, and no two buffers share memory.
        unsafe {
            bench_net_run(
                b.as_mut_ptr(),
                b.len(),
                c.as_ptr(),
                c.len(),
                s.as_mut_ptr(),
                s.len(),
                h.as_mut_ptr(),
                h.len(),
                m.as_mut_ptr(),
                m.len(),
                r.as_ptr(),
                r.len(),
                a.as_mut_ptr(),
                a.len(),
                o.as_mut_ptr(),
                o.len(),
            )
        }
    }
}
