//! The exported calls on messages as a slice of structs, each behind a safe function over the buffers that are lent to it. They have no
//! `requires`, so any argument is allowed.

use crate::model::Call;
use crate::network_call::{Delivery, Lent};

// A slice passes as a pointer and then a length. Nothing checks these declarations against crates/exports_network/src/slices.rt.
extern "C" {
    fn bench_slice_send(
        bench: *mut u32,
        bench_len: usize,
        messages: *mut u32,
        messages_len: usize,
        bridge: usize,
        link: usize,
    ) -> u8;
    fn bench_slice_lose(bench: *mut u32, bench_len: usize, messages: *mut u32, messages_len: usize, place: usize) -> u8;
}

impl Lent {
    /// The call over structs; a call that has no such form is made over numbers.
    pub fn slice_call(&mut self, call: Call) -> u8 {
        match call {
            Call::Send(bridge, link) => self.slice_send(bridge, link),
            Call::Lose(place) => self.slice_lose(place),
            Call::Deliver(place) => self.delivery(Delivery::SliceDeliver, place),
            Call::Repeat(place) => self.delivery(Delivery::SliceRepeat, place),
            _ => self.call(call),
        }
    }

    // SAFETY, of each call below: each pointer comes with the length of its buffer, and no two buffers share memory.

    fn slice_send(&mut self, bridge: usize, link: usize) -> u8 {
        let (b, m) = (self.bench.numbers_mut(), self.messages.numbers_mut());
        unsafe { bench_slice_send(b.as_mut_ptr(), b.len(), m.as_mut_ptr(), m.len(), bridge, link) }
    }

    fn slice_lose(&mut self, place: usize) -> u8 {
        let (b, m) = (self.bench.numbers_mut(), self.messages.numbers_mut());
        unsafe { bench_slice_lose(b.as_mut_ptr(), b.len(), m.as_mut_ptr(), m.len(), place) }
    }
}
