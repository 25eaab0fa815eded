//! The exported functions of crates/exports_bridge, each behind a safe function. They have no `requires`, so any argument is allowed.

/// Document 01's number for a refusal at the entry of a call, and ours for none.
pub const REFUSED: u8 = 17;
pub const FILLED: u8 = 0;

/// The length of a table: 16 rows of 16 numbers.
pub const TABLE: usize = 256;

// A slice passes as a pointer and then a length. Nothing checks these declarations against crates/exports_bridge/src/lib.rt.
extern "C" {
    fn bench_distances(
        bridges: usize,
        links: usize,
        ends: *const u8,
        ends_len: usize,
        costs: *const u32,
        costs_len: usize,
        table: *mut u32,
        table_len: usize,
    ) -> u8;
}

pub fn distances(bridges: usize, links: usize, ends: &[u8], costs: &[u32], table: &mut [u32]) -> u8 {
    // SAFETY: each pointer comes with the length of its slice, and `table` is borrowed for this call alone.
    unsafe {
        bench_distances(bridges, links, ends.as_ptr(), ends.len(), costs.as_ptr(), costs.len(), table.as_mut_ptr(), table.len())
    }
}

/// The lengths that the calls of layer 2 need: a limit table, a record, a message or an answer, a bridge's update, a verdict, the flags,
/// the records.
pub const LIMITS: usize = 1024;
pub const RECORD: usize = 4;
pub const MESSAGE: usize = 3;
pub const UPDATE: usize = 2;
pub const VERDICT: usize = 2;
pub const FLAGS: usize = 64;
pub const RECORDS: usize = 256;

// A slice passes as a pointer and then a length. Nothing checks these declarations against crates/exports_bridge/src/records.rt.
extern "C" {
    fn bench_offer(
        bridges: usize,
        links: usize,
        ends: *const u8,
        ends_len: usize,
        costs: *const u32,
        costs_len: usize,
        table: *const u32,
        table_len: usize,
        end: usize,
        dest: usize,
        out: *mut u32,
        out_len: usize,
    ) -> u8;
    fn bench_start_end(
        bridges: usize,
        links: usize,
        ends: *const u8,
        ends_len: usize,
        costs: *const u32,
        costs_len: usize,
        table: *const u32,
        table_len: usize,
        end: usize,
        fields: *mut u32,
        fields_len: usize,
        sent: *mut u32,
        sent_len: usize,
        held: *mut u32,
        held_len: usize,
    ) -> u8;
    fn bench_update_bridge(views: usize, present: u8, number: u16, view: u8, out: *mut u32, out_len: usize) -> u8;
    fn bench_update_end(
        bridges: usize,
        links: usize,
        ends: *const u8,
        ends_len: usize,
        costs: *const u32,
        costs_len: usize,
        table: *const u32,
        table_len: usize,
        views: usize,
        view: u8,
        end: usize,
        fields: *mut u32,
        fields_len: usize,
        sent: *mut u32,
        sent_len: usize,
        held: *mut u32,
        held_len: usize,
    ) -> u8;
    fn bench_carry(
        views: usize,
        view: u8,
        number: u16,
        fields: *const u32,
        fields_len: usize,
        out: *mut u32,
        out_len: usize,
    ) -> u8;
    fn bench_deliver_end(
        bridges: usize,
        links: usize,
        ends: *const u8,
        ends_len: usize,
        costs: *const u32,
        costs_len: usize,
        table: *const u32,
        table_len: usize,
        views: usize,
        view: u8,
        number: u16,
        end: usize,
        fields: *mut u32,
        fields_len: usize,
        message: *const u32,
        message_len: usize,
        sent: *mut u32,
        sent_len: usize,
        held: *mut u32,
        held_len: usize,
        out: *mut u32,
        out_len: usize,
    ) -> u8;
}

/// Declares calls on the forwarding choice, which have the same parameters.
macro_rules! choices {
    ($($name:ident),*) => {
        extern "C" {
            $(fn $name(
                bridges: usize,
                links: usize,
                ends: *const u8,
                ends_len: usize,
                costs: *const u32,
                costs_len: usize,
                table: *const u32,
                table_len: usize,
                views: usize,
                down: *const u8,
                down_len: usize,
                records: *const u32,
                records_len: usize,
                sent: *const u32,
                sent_len: usize,
                held: *const u32,
                held_len: usize,
                bridge: usize,
                dest: usize,
                out: *mut u32,
                out_len: usize,
            ) -> u8;)*
        }
    };
}
choices!(bench_port, bench_verdict);

/// A view as it is lent to the calls of layer 2.
#[derive(Clone, Copy)]
pub struct Lent<'a> {
    pub bridges: usize,
    pub links: usize,
    pub ends: &'a [u8],
    pub costs: &'a [u32],
    pub table: &'a [u32],
}

/// What the calls on an end may write: its record, and the two limit tables.
pub struct EndBuffers<'a> {
    pub fields: &'a mut [u32],
    pub sent: &'a mut [u32],
    pub held: &'a mut [u32],
}

// SAFETY, of each call below: each pointer comes with the length of its slice, and what is lent as `&mut` is borrowed for this call
// alone.

pub fn offer(v: Lent, end: usize, dest: usize, out: &mut [u32]) -> u8 {
    unsafe {
        bench_offer(
            v.bridges,
            v.links,
            v.ends.as_ptr(),
            v.ends.len(),
            v.costs.as_ptr(),
            v.costs.len(),
            v.table.as_ptr(),
            v.table.len(),
            end,
            dest,
            out.as_mut_ptr(),
            out.len(),
        )
    }
}

pub fn start_end(v: Lent, end: usize, b: EndBuffers) -> u8 {
    unsafe {
        bench_start_end(
            v.bridges,
            v.links,
            v.ends.as_ptr(),
            v.ends.len(),
            v.costs.as_ptr(),
            v.costs.len(),
            v.table.as_ptr(),
            v.table.len(),
            end,
            b.fields.as_mut_ptr(),
            b.fields.len(),
            b.sent.as_mut_ptr(),
            b.sent.len(),
            b.held.as_mut_ptr(),
            b.held.len(),
        )
    }
}

pub fn update_bridge(views: usize, present: u8, number: u16, view: u8, out: &mut [u32]) -> u8 {
    unsafe { bench_update_bridge(views, present, number, view, out.as_mut_ptr(), out.len()) }
}

pub fn update_end(v: Lent, views: usize, view: u8, end: usize, b: EndBuffers) -> u8 {
    unsafe {
        bench_update_end(
            v.bridges,
            v.links,
            v.ends.as_ptr(),
            v.ends.len(),
            v.costs.as_ptr(),
            v.costs.len(),
            v.table.as_ptr(),
            v.table.len(),
            views,
            view,
            end,
            b.fields.as_mut_ptr(),
            b.fields.len(),
            b.sent.as_mut_ptr(),
            b.sent.len(),
            b.held.as_mut_ptr(),
            b.held.len(),
        )
    }
}

pub fn carry(views: usize, view: u8, number: u16, fields: &[u32], out: &mut [u32]) -> u8 {
    unsafe { bench_carry(views, view, number, fields.as_ptr(), fields.len(), out.as_mut_ptr(), out.len()) }
}

/// The receiver of a message: how many views there are, its view, its agreement number, its end.
#[derive(Clone, Copy)]
pub struct Receiver {
    pub views: usize,
    pub view: u8,
    pub number: u16,
    pub end: usize,
}

pub fn deliver_end(v: Lent, r: Receiver, message: &[u32], b: EndBuffers, out: &mut [u32]) -> u8 {
    unsafe {
        bench_deliver_end(
            v.bridges,
            v.links,
            v.ends.as_ptr(),
            v.ends.len(),
            v.costs.as_ptr(),
            v.costs.len(),
            v.table.as_ptr(),
            v.table.len(),
            r.views,
            r.view,
            r.number,
            r.end,
            b.fields.as_mut_ptr(),
            b.fields.len(),
            message.as_ptr(),
            message.len(),
            b.sent.as_mut_ptr(),
            b.sent.len(),
            b.held.as_mut_ptr(),
            b.held.len(),
            out.as_mut_ptr(),
            out.len(),
        )
    }
}

/// What the forwarding choice reads besides the view.
#[derive(Clone, Copy)]
pub struct Known<'a> {
    pub views: usize,
    /// A flag for each end: any number but 0 says that it is down.
    pub down: &'a [u8],
    pub records: &'a [u32],
    pub sent: &'a [u32],
    pub held: &'a [u32],
}

/// Which of the calls on the forwarding choice.
enum Choice {
    Port,
    Verdict,
}

pub fn port(v: Lent, k: Known, bridge: usize, dest: usize, out: &mut [u32]) -> u8 {
    choice(Choice::Port, v, k, bridge, dest, out)
}

pub fn verdict(v: Lent, k: Known, bridge: usize, dest: usize, out: &mut [u32]) -> u8 {
    choice(Choice::Verdict, v, k, bridge, dest, out)
}

fn choice(which: Choice, v: Lent, k: Known, bridge: usize, dest: usize, out: &mut [u32]) -> u8 {
    let exported = match which {
        Choice::Port => bench_port,
        Choice::Verdict => bench_verdict,
    };
    unsafe {
        exported(
            v.bridges,
            v.links,
            v.ends.as_ptr(),
            v.ends.len(),
            v.costs.as_ptr(),
            v.costs.len(),
            v.table.as_ptr(),
            v.table.len(),
            k.views,
            k.down.as_ptr(),
            k.down.len(),
            k.records.as_ptr(),
            k.records.len(),
            k.sent.as_ptr(),
            k.sent.len(),
            k.held.as_ptr(),
            k.held.len(),
            bridge,
            dest,
            out.as_mut_ptr(),
            out.len(),
        )
    }
}
