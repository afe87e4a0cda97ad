//! What a run saw: how often each outcome came, and where the weigher and the reference differ.

use std::fmt::Display;

/// Differences that are printed.
const PRINTED: u64 = 20;

#[derive(Default)]
pub struct Mismatches(u64);

impl Mismatches {
    pub fn report(&mut self, difference: impl Display) {
        self.0 += 1;
        if self.0 <= PRINTED {
            println!("{difference}");
        }
    }

    /// Prints how many there were; false where there was one.
    pub fn print(&self) -> bool {
        println!("{} mismatches", self.0);
        self.0 == 0
    }
}

pub struct Tally {
    name: &'static str,
    counts: Vec<(String, u64)>,
}

impl Tally {
    /// The outcomes have a bar between them.
    pub fn new(name: &'static str, outcomes: &str) -> Self {
        let outcomes = outcomes.split('|');
        Tally {
            name,
            counts: outcomes.map(|outcome| (outcome.to_string(), 0)).collect(),
        }
    }

    pub fn count(&mut self, outcome: &str) {
        let mut counts = self.counts.iter_mut();
        let (_, count) = counts
            .find(|(name, _)| name == outcome)
            .expect("one of the outcomes");
        *count += 1;
    }

    /// Prints the counts; false where an outcome never came.
    pub fn print(&self) -> bool {
        let total: u64 = self.counts.iter().map(|(_, count)| count).sum();
        println!("{}: {total}", self.name);
        for (outcome, count) in &self.counts {
            let remark = if *count == 0 { ", never reached" } else { "" };
            println!("    {outcome}: {count}{remark}");
        }
        self.counts.iter().all(|(_, count)| 0 < *count)
    }
}

/// Prints a count; false where it is under its floor.
pub fn print_count(name: &str, count: u64, floor: u64) -> bool {
    if count < floor {
        println!("  {name}: {count}, under its floor of {floor}");
    } else {
        println!("  {name}: {count}");
    }
    count >= floor
}
