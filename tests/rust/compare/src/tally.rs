//! How often things occurred, by their names.

use std::collections::BTreeMap;
use std::fmt;

#[derive(Default)]
pub struct Tally(BTreeMap<String, usize>);

impl Tally {
    pub fn count(&mut self, name: &str) {
        match self.0.get_mut(name) {
            Some(times) => *times += 1,
            None => drop(self.0.insert(name.to_string(), 1)),
        }
    }

    /// Fails where one of these never occurred.
    pub fn require(&self, due: &[&str]) -> Result<(), String> {
        match due.iter().find(|&&name| !self.0.contains_key(name)) {
            Some(missing) => Err(format!("never occurred: {missing}; {self}")),
            None => Ok(()),
        }
    }
}

impl fmt::Display for Tally {
    fn fmt(&self, out: &mut fmt::Formatter) -> fmt::Result {
        let counts: Vec<String> = self.0.iter().map(|(name, times)| format!("{times} {name}")).collect();
        write!(out, "{}", counts.join(", "))
    }
}
