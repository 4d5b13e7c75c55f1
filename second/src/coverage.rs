//! Counts of what happened in a great run, so that one can see that it happened at all.

use std::collections::BTreeMap;
use std::fmt;

#[derive(Clone, Debug, Default, PartialEq, Eq)]
pub struct Coverage {
    counts: BTreeMap<&'static str, u64>,
}

impl Coverage {
    pub fn add(&mut self, what: &'static str, count: u64) {
        if count > 0 {
            *self.counts.entry(what).or_default() += count;
        }
    }

    pub fn note(&mut self, what: &'static str) {
        self.add(what, 1);
    }

    pub fn note_if(&mut self, what: &'static str, happened: bool) {
        self.add(what, u64::from(happened));
    }

    pub fn join(&mut self, other: &Coverage) {
        for (what, count) in &other.counts {
            self.add(what, *count);
        }
    }

    /// Everything that happened at all.
    pub fn seen(&self) -> impl Iterator<Item = &'static str> + '_ {
        self.counts.keys().copied()
    }

    pub fn get(&self, what: &str) -> u64 {
        self.counts.get(what).copied().unwrap_or(0)
    }
}

impl fmt::Display for Coverage {
    fn fmt(&self, out: &mut fmt::Formatter<'_>) -> fmt::Result {
        for (what, count) in &self.counts {
            writeln!(out, "{count:>10}  {what}")?;
        }
        Ok(())
    }
}
