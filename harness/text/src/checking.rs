//! What a text expects, held against what was printed.

use std::fmt;

use crate::expected::Expected;
use crate::names::Names;
use crate::reading::Text;
use crate::said::fields;
use crate::told::{Staged, Told};
use crate::writing::words;

/// A line that is not the expected one.
#[derive(Clone, Debug, PartialEq, Eq)]
pub struct Mismatch {
    /// The text's line, from 1; none behind the last.
    pub line: Option<usize>,
    /// The record, in words.
    pub record: String,
    /// What the text expects.
    pub expected: String,
    /// What was printed.
    pub printed: String,
}

/// What stands for a line that is not there.
const NOTHING: &str = "(nothing)";

/// The differences between a text and what was printed, in the order of the text.
pub fn mismatches(text: &Text, staged: &Staged) -> Vec<Mismatch> {
    let mut mismatches = Vec::new();
    for (place, line) in text.lines.iter().enumerate() {
        if let Some(expected) = &line.expected {
            let told = staged.line(place);
            mismatches.extend(first(line.number, expected, told, &text.names));
        }
    }
    mismatches.extend(staged.play.beyond.iter().map(|printed| Mismatch {
        line: None,
        record: "no record".to_string(),
        expected: NOTHING.to_string(),
        printed: printed.clone(),
    }));
    mismatches
}

/// Lines that were printed and that no '=>' speaks of; a line of the text that stands for several may speak of the last alone.
pub fn unchecked(text: &Text, staged: &Staged) -> usize {
    let lines = text.lines.iter().enumerate().map(|(place, line)| {
        let printed = staged.printed(place).len();
        match &line.expected {
            None => printed,
            Some(Expected::Each(..)) => 0,
            Some(_) => printed.saturating_sub(1),
        }
    });
    lines.sum()
}

/// The first difference in one line of the text.
fn first(line: usize, expected: &Expected, told: &[Told], names: &Names) -> Option<Mismatch> {
    let shown: Vec<&Told> = told.iter().filter(|told| told.line.is_some()).collect();
    let mismatch = |record: &str, expected: String, printed: &str| Mismatch {
        line: Some(line),
        record: record.to_string(),
        expected,
        printed: printed.to_string(),
    };
    for (place, told) in shown.iter().enumerate() {
        let printed = told.line.as_deref().unwrap_or(NOTHING);
        if let Some(wanted) = expected.line(place, shown.len()) {
            if wanted != printed {
                return Some(mismatch(&words(&told.record, names), wanted, printed));
            }
        }
    }
    let record = match told.last() {
        Some(told) => words(&told.record, names),
        None => "no record begins here".to_string(),
    };
    let count = u64::try_from(shown.len()).unwrap_or(u64::MAX);
    match expected.count() {
        Some(wanted) if wanted != count => {
            let printed = shown.last().and_then(|told| told.line.as_deref());
            Some(mismatch(
                &record,
                expected.to_string(),
                printed.unwrap_or(NOTHING),
            ))
        }
        None if shown.is_empty() => Some(mismatch(&record, expected.to_string(), NOTHING)),
        _ => None,
    }
}

impl Mismatch {
    /// The fields that differ, by name.
    fn fields(&self) -> String {
        let (wanted, printed): (Vec<_>, Vec<_>) = (
            self.expected.split(' ').collect(),
            self.printed.split(' ').collect(),
        );
        if wanted.len() != printed.len() {
            return String::new();
        }
        let names = fields(wanted.len()).iter().zip(wanted.iter().zip(&printed));
        let differing = names.filter(|(_, (wanted, printed))| wanted != printed);
        differing
            .map(|(name, _)| *name)
            .collect::<Vec<_>>()
            .join(", ")
    }
}

/// What was expected and what was printed, side by side.
pub struct Table<'d>(pub &'d [Mismatch]);

impl fmt::Display for Table<'_> {
    fn fmt(&self, f: &mut fmt::Formatter<'_>) -> fmt::Result {
        let wide = |column: fn(&Mismatch) -> &str, head: &str| {
            let cells = self
                .0
                .iter()
                .map(|mismatch| column(mismatch).chars().count());
            cells.max().unwrap_or(0).max(head.len())
        };
        let expected = wide(|mismatch| &mismatch.expected, "expected");
        let printed = wide(|mismatch| &mismatch.printed, "printed");
        write!(
            f,
            "line   {:expected$}   {:printed$}   record",
            "expected", "printed"
        )?;
        for mismatch in self.0 {
            let Mismatch {
                line,
                record,
                expected: one,
                printed: other,
            } = mismatch;
            let line = line.map_or("end".to_string(), |line| line.to_string());
            write!(
                f,
                "\n{line:>4}   {one:expected$}   {other:printed$}   {record}"
            )?;
            match &mismatch.fields()[..] {
                "" => {}
                fields => write!(f, " (differs in {fields})")?,
            }
        }
        Ok(())
    }
}

#[cfg(test)]
mod tests {
    use super::*;

    const PRINTED: &str = "1 0 0 0 0 0 0\n2 0 0 0 0 0 0\n3 0 0 0 0 0 1\n4 way 0 3 3 2\n";

    fn check(source: &str) -> (Vec<Mismatch>, usize) {
        let text = Text::read(source.as_bytes()).unwrap();
        let staged = Staged::of(&text, PRINTED);
        (mismatches(&text, &staged), unchecked(&text, &staged))
    }

    #[test]
    fn what_is_expected_is_found() {
        let whole = "settings short\ntick 2 => 1..2 0 0 0 0 0 0\ntick => 3 0 0 0 0 0 1\nway 00-00-00-00-00-00 => 4 way 0 3 3 2\n";
        assert_eq!(check(whole), (vec![], 0));
        assert_eq!(
            check("settings short\ntick 3 => 3 0 0 0 0 0 1\nway 00-00-00-00-00-00\n"),
            (vec![], 3)
        );
    }

    #[test]
    fn every_sort_of_difference_is_told() {
        let cases = [
            ("tick 3 => 3 0 0 0 0 0 0", "3 0 0 0 0 0 0", "3 0 0 0 0 0 1"),
            (
                "tick 3 => 1..3 0 0 0 0 0 0",
                "3 0 0 0 0 0 0",
                "3 0 0 0 0 0 1",
            ),
            (
                "tick 3 => 1..2 0 0 0 0 0 0",
                "3 0 0 0 0 0 0",
                "3 0 0 0 0 0 1",
            ),
            (
                "tick 2 => 1..1 0 0 0 0 0 0",
                "1..1 0 0 0 0 0 0",
                "2 0 0 0 0 0 0",
            ),
            (
                "tick 2 => 1..3 0 0 0 0 0 0",
                "1..3 0 0 0 0 0 0",
                "2 0 0 0 0 0 0",
            ),
            (
                "tick 2 => 2..3 0 0 0 0 0 0",
                "2 0 0 0 0 0 0",
                "1 0 0 0 0 0 0",
            ),
            (
                "tick 3\nway 00-00-00-00-00-00\ntick => 5 0 0 0 0 0 0",
                "5 0 0 0 0 0 0",
                NOTHING,
            ),
        ];
        for (lines, expected, printed) in cases {
            let (found, _) = check(&format!("settings short\n{lines}\n"));
            assert_eq!(found[0].expected, expected, "{lines}");
            assert_eq!(found[0].printed, printed, "{lines}");
        }
        let (found, _) = check("settings short\ntick 2\n");
        assert_eq!(found.len(), 2, "lines beyond the drill");
    }

    #[test]
    fn fields_that_differ_are_named() {
        let cases = [
            ("1 0 0 0 0 0 0", "number"),
            ("2 3 0 0 0 0 0", "result"),
            ("2 0 4 0 0 0 0", "west"),
            ("2 0 0 4 0 0 0", "east"),
            ("2 0 0 0 1 0 0", "sequence"),
            ("2 0 0 0 0 63 0", "stations"),
            ("2 0 0 0 0 0 1", "reports"),
            ("2 22 3 0 1 0 1", "result, west, sequence, reports"),
        ];
        for (expected, fields) in cases {
            let (found, _) = check(&format!(
                "settings short\ntick 2 => {expected}\ntick\nway 00-00-00-00-00-00\n"
            ));
            let shown = Table(&found).to_string();
            assert!(
                shown.ends_with(&format!("   tick (differs in {fields})")),
                "{shown}"
            );
        }
        let cases = [
            ("4 way 1 3 3 2", "reply"),
            ("4 way 0 4 3 2", "hops"),
            ("4 way 0 3 2 2", "worst"),
            ("4 way 0 3 3 1", "span"),
            ("4 way 2 0 0 0", "reply, hops, worst, span"),
        ];
        for (expected, fields) in cases {
            let (found, _) = check(&format!(
                "settings short\ntick 3\nway 00-00-00-00-00-00 => {expected}\n"
            ));
            let shown = Table(&found).to_string();
            assert!(
                shown.ends_with(&format!("(differs in {fields})")),
                "{shown}"
            );
        }
    }

    #[test]
    fn a_program_that_prints_the_reply_alone_differs() {
        let text = Text::read(b"settings short\nway 00-00-00-00-00-00 => 1 way 3 0 0 0\n").unwrap();
        let found = mismatches(&text, &Staged::of(&text, "1 way 3\n"));
        let shown = Table(&found).to_string();
        assert!(
            shown.ends_with("   1 way 3 0 0 0   1 way 3   way 00-00-00-00-00-00"),
            "{shown}"
        );
    }
}
