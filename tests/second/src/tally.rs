//! How often each situation was met, and how often it must be.

use std::collections::BTreeMap;

struct Row {
    met: u64,
    floor: u64,
}

/// Every situation that must be met stands in the table from the start.
pub struct Tally {
    rows: BTreeMap<String, Row>,
}

impl Tally {
    pub fn new(floors: impl IntoIterator<Item = (String, u64)>) -> Tally {
        Tally { rows: floors.into_iter().map(|(name, floor)| (name, Row { met: 0, floor })).collect() }
    }

    pub fn count(&mut self, name: &str) {
        match self.rows.get_mut(name) {
            Some(row) => row.met += 1,
            None => _ = self.rows.insert(name.into(), Row { met: 1, floor: 0 }),
        }
    }

    pub fn count_if(&mut self, reached: bool, name: &str) {
        if reached {
            self.count(name);
        }
    }

    /// The situations that were met too seldom.
    pub fn missing(&self) -> Vec<String> {
        let below = self.rows.iter().filter(|(_, row)| row.met < row.floor);
        below.map(|(name, row)| format!("{name}: {} of {}", row.met, row.floor)).collect()
    }

    /// The table, and at its end what is missing; whether all floors are met.
    pub fn print(&self) -> bool {
        for (name, row) in &self.rows {
            println!("{:9}  {name}", row.met);
        }
        let missing = self.missing();
        println!("{} situations, {} met too seldom", self.rows.len(), missing.len());
        missing.iter().for_each(|text| println!("too seldom: {text}"));
        missing.is_empty()
    }
}
