//! Counts of what was compared, and the differences.

use std::collections::BTreeMap;
use std::fmt::Debug;

pub struct Report {
    counts: BTreeMap<&'static str, u64>,
    pub differences: u64,
    pub shown: u64,
    /// What is being compared, for the message.
    pub context: String,
}

impl Report {
    pub fn new(shown: u64) -> Report {
        Report { counts: BTreeMap::new(), differences: 0, shown, context: String::new() }
    }

    pub fn count(&mut self, kind: &'static str) {
        self.add(kind, 1);
    }

    pub fn add(&mut self, kind: &'static str, more: u64) {
        *self.counts.entry(kind).or_insert(0) += more;
    }

    pub fn counted(&self, kind: &str) -> u64 {
        self.counts.get(kind).copied().unwrap_or(0)
    }

    /// Counts a comparison, and tells whether the two are the same.
    pub fn same<T: PartialEq + Debug>(&mut self, kind: &'static str, expected: &T, got: &T, input: impl FnOnce() -> String) -> bool {
        self.count(kind);
        if expected == got {
            return true;
        }
        self.differences += 1;
        if self.differences <= self.shown {
            println!("DIFFERENCE in {kind}, {}", self.context);
            println!("  input     {}", input());
            println!("  expected  {expected:?}");
            println!("  got       {got:?}");
        }
        false
    }

    pub fn print(&self) {
        for (kind, count) in &self.counts {
            println!("{count:>10}  {kind}");
        }
    }
}

pub fn hexadecimal(bytes: &[u8]) -> String {
    bytes.iter().map(|byte| format!("{byte:02X}")).collect()
}
