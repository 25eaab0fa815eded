//! The exported calls of the plan file's reader, each behind a safe function. They have no `requires`, so any argument is allowed.

use crate::guard::Buffer;

// A slice passes as a pointer and then a length. Nothing checks these declarations against crates/exports_network/src/reading.rt.
extern "C" {
    fn bench_read_field(
        rest: *const u8,
        rest_len: usize,
        stage: usize,
        bridges: usize,
        links: usize,
        views: usize,
        out: *mut u32,
        out_len: usize,
    ) -> u8;
    fn bench_tell_field(
        rest: *const u8,
        rest_len: usize,
        stage: usize,
        bridges: usize,
        links: usize,
        views: usize,
        out: *mut u32,
        out_len: usize,
    ) -> u8;
    fn bench_read_costs(rest: *const u8, rest_len: usize, links: usize, row: *mut u32, row_len: usize) -> u8;
}

/// How far a plan has come.
#[derive(Clone, Copy, Debug, PartialEq, Eq, Hash)]
pub struct Progress {
    pub stage: usize,
    pub bridges: usize,
    pub links: usize,
    pub views: usize,
}

type FieldCall = unsafe extern "C" fn(*const u8, usize, usize, usize, usize, usize, *mut u32, usize) -> u8;

// SAFETY, of every call: each pointer comes with the length of its buffer, and no two buffers share memory.

/// The reply of one of the two calls that read a field, and the numbers lent to it. Past the bytes that are left stand others.
fn field_by(call: FieldCall, rest: &[u8], progress: Progress, out: &[u32]) -> (u8, Vec<u32>) {
    let (rest, mut out) = (Buffer::of(rest), Buffer::of(out));
    let Progress { stage, bridges, links, views } = progress;
    let (r, o) = (rest.numbers(), out.numbers_mut());
    let reply = unsafe { call(r.as_ptr(), r.len(), stage, bridges, links, views, o.as_mut_ptr(), o.len()) };
    (reply, out.back())
}

/// The reply, and the numbers lent for the bytes that the field takes.
pub fn read_field(rest: &[u8], progress: Progress, out: &[u32]) -> (u8, Vec<u32>) {
    field_by(bench_read_field, rest, progress, out)
}

/// The reply, and the numbers lent for the field: its tag, its two numbers and the bytes that it takes.
pub fn tell_field(rest: &[u8], progress: Progress, out: &[u32]) -> (u8, Vec<u32>) {
    field_by(bench_tell_field, rest, progress, out)
}

/// The reply, and the row.
pub fn read_costs(rest: &[u8], links: usize, row: &[u32]) -> (u8, Vec<u32>) {
    let (rest, mut row) = (Buffer::of(rest), Buffer::of(row));
    let (r, o) = (rest.numbers(), row.numbers_mut());
    let reply = unsafe { bench_read_costs(r.as_ptr(), r.len(), links, o.as_mut_ptr(), o.len()) };
    (reply, row.back())
}
