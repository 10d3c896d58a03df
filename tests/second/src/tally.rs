//! A count of what listings print: refused texts, events, faults and refused
//! turns, each in how many listings and on how many lines.

use std::fmt;

pub struct Tally {
    listings: usize,
    entries: Vec<Entry>,
}

struct Entry {
    label: String,
    listings: usize,
    lines: usize,
}

impl Tally {
    /// A tally of nothing yet, with every label that can occur.
    pub fn new() -> Tally {
        let mut labels = vec![
            String::from("input too long"),
            String::from("bad schedule"),
            String::from("whole listing"),
        ];
        labels.extend((1..=10).map(|number| format!("refused {number}")));
        labels.extend((1..=10).map(|number| format!("event {number}")));
        labels.extend((1..=4).map(|number| format!("fault {number}")));
        labels.extend((13..=16).map(|number| format!("turn refused {number}")));
        let entries = labels.into_iter().map(|label| Entry {
            label,
            listings: 0,
            lines: 0,
        });
        Tally {
            listings: 0,
            entries: entries.collect(),
        }
    }

    /// Counts one listing.
    pub fn count(&mut self, listing: &str) {
        self.listings += 1;
        let labels: Vec<String> = listing.lines().flat_map(labels_of).collect();
        for entry in &mut self.entries {
            let lines = labels.iter().filter(|label| **label == entry.label).count();
            entry.lines += lines;
            entry.listings += usize::from(lines > 0);
        }
    }

    /// The labels that did not occur.
    pub fn missing(&self) -> Vec<&str> {
        let missing = self.entries.iter().filter(|entry| entry.lines == 0);
        missing.map(|entry| entry.label.as_str()).collect()
    }
}

impl fmt::Display for Tally {
    fn fmt(&self, out: &mut fmt::Formatter) -> fmt::Result {
        writeln!(out, "{:<16} {:>9} {:>9}", "", "listings", "lines")?;
        writeln!(out, "{:<16} {:>9}", "all", self.listings)?;
        for entry in &self.entries {
            let (label, listings, lines) = (&entry.label, entry.listings, entry.lines);
            writeln!(out, "{label:<16} {listings:>9} {lines:>9}")?;
        }
        match self.missing().as_slice() {
            [] => writeln!(out, "none is missing"),
            missing => writeln!(out, "missing: {}", missing.join(", ")),
        }
    }
}

/// What one line of a listing counts for.
fn labels_of(line: &str) -> Vec<String> {
    let words: Vec<&str> = line.split(' ').collect();
    match words.as_slice() {
        ["input", ..] | ["bad", ..] => vec![String::from(line)],
        ["refused", number, _] => vec![format!("refused {number}")],
        ["stamp", ..] => vec![String::from("whole listing")],
        ["task", ..] | ["chan", ..] => Vec::new(),
        [_, _, "10", _, fault, _] => vec![String::from("event 10"), format!("fault {fault}")],
        [_, _, event @ ("13" | "14" | "15" | "16"), ..] => vec![format!("turn refused {event}")],
        [_, _, event, ..] => vec![format!("event {event}")],
        _ => Vec::new(),
    }
}
