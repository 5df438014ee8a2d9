//! Marks in comments: what was worked out by hand, apart from any model.

use crate::reading::{Line, Text};
use crate::said::Said;

/// Behind a record, anywhere in its comment: its whole line was worked out by hand.
const BY_HAND: &str = "by hand";
/// At the beginning of a comment on a line of its own: so were the results and replies of all lines.
const RESULTS: &str = "results by hand";
/// So was the number of all reports sent, which stands behind it.
const REPORTS: &str = "reports by hand:";

/// What is worked out by hand, though something else was printed.
#[derive(Clone, Debug, PartialEq, Eq)]
pub struct Kept {
    /// The text's line, from 1.
    pub line: usize,
    /// What stands there.
    pub stands: String,
    /// What was printed.
    pub printed: String,
}

/// Whether a line's expected line was worked out by hand.
pub fn is_by_hand(line: &Line) -> bool {
    line.run.is_some() && comment(line).contains(BY_HAND)
}

/// Whether all results and replies of a text were worked out by hand.
pub fn results_by_hand(text: &Text) -> bool {
    let alone = text.lines.iter().filter(|line| line.run.is_none());
    alone
        .map(comment)
        .any(|comment| comment.starts_with(RESULTS))
}

/// Where a text has a number of reports that was worked out by hand, and another number was printed.
pub fn reports_kept(text: &Text, printed: &str) -> Vec<Kept> {
    let reports = reports(printed).to_string();
    let alone = text.lines.iter().filter(|line| line.run.is_none());
    let kept = alone.filter_map(|line| {
        let comment = comment(line);
        let stands = comment.strip_prefix(REPORTS)?.trim();
        let stands = stands.split_whitespace().next().unwrap_or("");
        (stands != reports).then(|| Kept {
            line: line.number,
            stands: format!("{stands} reports"),
            printed: format!("{reports} reports"),
        })
    });
    kept.collect()
}

/// A line's comment in small letters, without what begins it.
fn comment(line: &Line) -> String {
    let comment = line.comment.as_deref().unwrap_or("");
    comment.trim_start_matches('#').trim().to_lowercase()
}

/// The reports written in all lines.
fn reports(printed: &str) -> u64 {
    let full = printed.lines().filter_map(|line| match Said::of(line)? {
        Said::Line(_, answer) => answer.full().map(|full| u64::from(full.reports)),
        Said::Settings(_) => None,
    });
    full.sum()
}

#[cfg(test)]
mod tests {
    use super::*;

    fn text(source: &str) -> Text {
        Text::read(source.as_bytes()).unwrap()
    }

    #[test]
    fn marks_are_found_in_any_spelling() {
        for comment in ["# by hand", "#by hand", "## By hand", "# see 01; by hand"] {
            let text = text(&format!("tick {comment}\n{comment}\n"));
            assert!(is_by_hand(&text.lines[0]), "{comment}");
            assert!(!is_by_hand(&text.lines[1]), "behind no record");
        }
        assert!(results_by_hand(&text(
            "tick\n## Results by hand, all of them\n"
        )));
        assert!(!results_by_hand(&text(
            "tick # results by hand\n# no results by hand\n"
        )));
        let printed = "1 0 0 0 0 0 1\n2 0 0 0 0 0 1\n3 way 1 2 3 1\nsettings 4\n";
        assert!(reports_kept(&text("# reports by hand: 2 (both)\n"), printed).is_empty());
        assert_eq!(
            reports_kept(&text("tick\n#Reports by hand: 3\n"), printed)[0].line,
            2
        );
        assert!(reports_kept(&text("tick # reports by hand: 3\n"), printed).is_empty());
    }
}
