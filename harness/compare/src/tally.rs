//! Counts of what agreed: inputs, lines, and whatever has a label.

use std::fmt;

/// The label of lines that have no other.
pub const OTHER: &str = "other lines";

/// Counts over lines that both programs gave alike.
#[derive(Clone, Debug)]
pub struct Tally {
    word: &'static str,
    /// Drills or plans.
    pub inputs: u64,
    /// Lines of any sort.
    pub lines: u64,
    rows: Vec<(&'static str, u64)>,
}

impl Tally {
    /// Nothing counted yet, of what is called by this word and has these labels.
    pub fn new(word: &'static str, labels: &[&'static str]) -> Tally {
        let labels = labels.iter().copied().chain([OTHER]);
        Tally {
            word,
            inputs: 0,
            lines: 0,
            rows: labels.map(|label| (label, 0)).collect(),
        }
    }

    /// Counts what has a label; one that is not listed is counted as another line.
    pub fn count(&mut self, label: &str) {
        let listed = self.rows.iter().position(|(name, _)| *name == label);
        let place = listed.unwrap_or(self.rows.len() - 1);
        self.rows[place].1 += 1;
    }

    /// Adds the counts of more inputs, which have the same labels.
    pub fn add(&mut self, more: &Tally) {
        self.inputs += more.inputs;
        self.lines += more.lines;
        for (mine, theirs) in self.rows.iter_mut().zip(&more.rows) {
            mine.1 += theirs.1;
        }
    }

    /// How often a label was counted.
    pub fn of(&self, label: &str) -> u64 {
        let row = self.rows.iter().find(|(name, _)| *name == label);
        row.map_or(0, |(_, count)| *count)
    }
}

impl fmt::Display for Tally {
    fn fmt(&self, f: &mut fmt::Formatter<'_>) -> fmt::Result {
        write!(f, "{}s {}, lines {}", self.word, self.inputs, self.lines)?;
        let width = self.rows.iter().map(|(label, _)| label.len()).max();
        let width = width.unwrap_or(0);
        for (label, count) in &self.rows {
            write!(f, "\n  {label:<width$} {count}")?;
        }
        Ok(())
    }
}

#[cfg(test)]
mod tests {
    use super::*;

    #[test]
    fn what_is_not_listed_is_counted_as_another_line() {
        let mut tally = Tally::new("drill", &["a", "long label"]);
        for label in ["a", "what", "a", "long label", ""] {
            tally.count(label);
        }
        let mut sum = Tally::new("drill", &["a", "long label"]);
        (tally.inputs, tally.lines) = (1, 5);
        sum.add(&tally);
        sum.add(&tally);
        let shown = "drills 2, lines 10\n  a           4\n  long label  2\n  other lines 4";
        assert_eq!(sum.to_string(), shown);
    }
}
