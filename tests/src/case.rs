//! Arguments of the calls of layer 2, the compiled calls on them, and the comparison of outcomes.

use crate::call::{self, EndBuffers, Known, Lent, Receiver};
use crate::guard::{Buffer, Guard};
use crate::view::Arguments;
use std::fmt::Debug;

#[derive(Clone, Copy, Debug, PartialEq)]
pub enum Call {
    Offer,
    Start,
    Update,
    Carry,
    Deliver,
    Port,
    Verdict,
}

impl Call {
    /// Is it about the forwarding choice. Both such calls read the same.
    pub fn is_choice(self) -> bool {
        matches!(self, Call::Port | Call::Verdict)
    }
}

/// What any of the calls is handed. Each reads its own part.
#[derive(Clone, Debug)]
pub struct Case {
    pub lent: Arguments,
    pub views: usize,
    pub view: u8,
    pub number: u16,
    pub end: usize,
    pub bridge: usize,
    pub dest: usize,
    pub fields: Vec<u32>,
    pub message: Vec<u32>,
    pub sent: Vec<u32>,
    pub held: Vec<u32>,
    pub out: Vec<u32>,
    pub down: Vec<u8>,
    pub records: Vec<u32>,
    /// Whether the lent table holds the view's distances. No call is told.
    pub true_distances: bool,
}

/// The reply and every buffer that a call may write.
#[derive(Clone, Debug, PartialEq)]
pub struct Outcome {
    pub reply: u8,
    pub fields: Vec<u32>,
    pub sent: Vec<u32>,
    pub held: Vec<u32>,
    pub out: Vec<u32>,
}

impl Outcome {
    fn buffers(&self) -> [(&'static str, &[u32]); 4] {
        [("fields", &self.fields), ("sent", &self.sent), ("held", &self.held), ("out", &self.out)]
    }
}

/// Says where an outcome differs from the expected one.
pub fn compare(expected: &Outcome, found: &Outcome) -> Result<(), String> {
    if found.reply != expected.reply {
        return Err(format!("reply {} in place of {}", found.reply, expected.reply));
    }
    for ((name, e), (_, f)) in expected.buffers().into_iter().zip(found.buffers()) {
        if e.len() != f.len() {
            return Err(format!("{name}: {} numbers in place of {}", f.len(), e.len()));
        }
        if let Some(p) = (0..e.len()).find(|&p| e[p] != f[p]) {
            return Err(format!("{name}, place {p}: {} in place of {}", f[p], e[p]));
        }
    }
    Ok(())
}

fn unchanged<T: Guard + Debug>(lent: &Buffer<T>, before: &[T]) {
    assert_eq!(lent.back(), before, "a write to a buffer that is lent to be read");
}

impl Case {
    /// Makes the compiled call, on copies of the buffers.
    pub fn run(&self, which: Call) -> Outcome {
        let [costs, table] = [&self.lent.costs, &self.lent.table].map(|b| Buffer::of(b));
        let [ends, down] = [&self.lent.ends, &self.down].map(|b| Buffer::of(b));
        let [message, records] = [&self.message, &self.records].map(|b| Buffer::of(b));
        let [mut fields, mut sent, mut held, mut out] = [&self.fields, &self.sent, &self.held, &self.out].map(|b| Buffer::of(b));
        let Arguments { bridges, links, .. } = self.lent;
        let v = Lent { bridges, links, ends: ends.numbers(), costs: costs.numbers(), table: table.numbers() };
        let b = EndBuffers { fields: fields.numbers_mut(), sent: sent.numbers_mut(), held: held.numbers_mut() };
        let receiver = Receiver { views: self.views, view: self.view, number: self.number, end: self.end };
        let out_numbers = out.numbers_mut();
        let reply = match which {
            Call::Offer => call::offer(v, self.end, self.dest, out_numbers),
            Call::Start => call::start_end(v, self.end, b),
            Call::Update => call::update_end(v, self.views, self.view, self.end, b),
            Call::Carry => call::carry(self.views, self.view, self.number, b.fields, out_numbers),
            Call::Deliver => call::deliver_end(v, receiver, message.numbers(), b, out_numbers),
            Call::Port | Call::Verdict => {
                let known =
                    Known { views: self.views, down: down.numbers(), records: records.numbers(), sent: b.sent, held: b.held };
                let ask = if which == Call::Port { call::port } else { call::verdict };
                ask(v, known, self.bridge, self.dest, out_numbers)
            }
        };
        unchanged(&ends, &self.lent.ends);
        unchanged(&costs, &self.lent.costs);
        unchanged(&table, &self.lent.table);
        unchanged(&message, &self.message);
        unchanged(&down, &self.down);
        unchanged(&records, &self.records);
        Outcome { reply, fields: fields.back(), sent: sent.back(), held: held.back(), out: out.back() }
    }
}
