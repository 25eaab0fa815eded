//! Counts of what happened in random cases: a test that misses something tests less than it says.

use std::collections::BTreeMap;

/// How often what was met.
#[derive(Clone, Debug, Default)]
pub struct Met(pub BTreeMap<String, usize>);

impl Met {
    pub fn note(&mut self, event: impl Into<String>) {
        self.note_times(event, 1);
    }

    pub fn note_times(&mut self, event: impl Into<String>, times: usize) {
        *self.0.entry(event.into()).or_default() += times;
    }

    pub fn add(&mut self, more: &Met) {
        for (event, &times) in &more.0 {
            self.note_times(event.as_str(), times);
        }
    }

    pub fn times(&self, event: &str) -> usize {
        self.0.get(event).copied().unwrap_or(0)
    }

    /// Panics unless each of these was met so often.
    pub fn at_least<E: AsRef<str>>(&self, label: &str, events: &[E], least: usize) {
        for event in events.iter().map(AsRef::as_ref) {
            let times = self.times(event);
            assert!(times >= least, "{label}: {times} times, and at least {least} are asked for: {event}\n{self:?}");
        }
    }

    /// And panics if another was met.
    pub fn only<E: AsRef<str>>(&self, label: &str, events: &[E], least: usize) {
        println!("{label}: {:?}", self.0);
        self.at_least(label, events, least);
        for event in self.0.keys() {
            assert!(events.iter().any(|listed| listed.as_ref() == event), "{label}: not listed: {event}");
        }
    }
}
