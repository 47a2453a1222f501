//! What generated calls met, counted.

use std::collections::BTreeMap;

/// How often each corner was met.
#[derive(Debug, Default)]
pub struct Met(BTreeMap<String, u32>);

impl Met {
    pub fn count(&mut self, what: impl Into<String>) {
        *self.0.entry(what.into()).or_default() += 1;
    }

    /// Adds what was met along another record.
    pub fn add(&mut self, other: Met) {
        for (what, count) in other.0 {
            *self.0.entry(what).or_default() += count;
        }
    }

    /// Checks that each corner was met so often or more.
    pub fn expect(&self, expected: &[(&str, u32)]) {
        for &(what, fewest) in expected {
            let count = self.0.get(what).copied().unwrap_or(0);
            assert!(count >= fewest, "{what}: {count}; {self:#?}");
        }
    }
}
