//! Counts of what a run met, printed so that a reader sees that every outcome occurred.

use std::collections::BTreeMap;

#[derive(Default)]
pub struct Counts(BTreeMap<String, u64>);

impl Counts {
    pub fn add(&mut self, name: impl Into<String>) {
        self.add_many(name, 1);
    }

    pub fn add_many(&mut self, name: impl Into<String>, times: u64) {
        *self.0.entry(name.into()).or_default() += times;
    }

    pub fn of(&self, name: &str) -> u64 {
        self.0.get(name).copied().unwrap_or(0)
    }

    /// The names that were met fewer than `least` times, of those asked for.
    pub fn rarer<'a>(&self, names: &[&'a str], least: u64) -> Vec<&'a str> {
        names.iter().copied().filter(|name| self.of(name) < least).collect()
    }

    pub fn print(&self) {
        for (name, times) in &self.0 {
            println!("  {times:>9}  {name}");
        }
    }
}
