//! Writes lines into a text: every line printed stands behind its record then. What is marked as worked out by hand stays.

use crate::expected::Expected;
use crate::marks::{is_by_hand, reports_kept, results_by_hand, Kept};
use crate::names::Names;
use crate::reading::{Line, Text};
use crate::record::Record;
use crate::told::{Staged, Told};
use crate::writing::{ticks, words};

/// Words longer than this do not push '=>' to the right.
const WIDEST: usize = 64;

/// A text with its lines.
pub struct Accepted {
    /// The text.
    pub source: String,
    /// What is marked as worked out by hand and is not what was printed.
    pub kept: Vec<Kept>,
}

/// One line of the new text.
struct Row {
    indent: String,
    words: String,
    expected: Option<Expected>,
    comment: Option<String>,
}

/// Lays the printed lines into the text.
pub fn accept(text: &Text, printed: &str) -> Accepted {
    let staged = Staged::of(text, printed);
    let results = results_by_hand(text);
    let mut kept = reports_kept(text, printed);
    let mut rows = Vec::new();
    for (place, line) in text.lines.iter().enumerate() {
        let told = staged.line(place);
        let stays = stays_whole(line, staged.is_tiled(place));
        let new = if stays {
            vec![alone(line, whole(line, told))]
        } else {
            rows_of(line, told)
        };
        let marked = results || is_by_hand(line);
        let unsayable = (stays && marked).then(|| unsayable(line, told)).flatten();
        match unsayable.or_else(|| by_hand(line, &new, results)) {
            None => rows.extend(new),
            Some(one) => {
                kept.push(one);
                rows.push(alone(line, line.expected.clone()));
            }
        }
    }
    Accepted {
        source: written(&rows),
        kept,
    }
}

/// The rows as a text, with '=>' in one column.
fn written(rows: &[Row]) -> String {
    let wide = rows.iter().filter(|row| row.expected.is_some());
    let widths = wide.map(|row| row.words.chars().count());
    let width = widths.filter(|&width| width <= WIDEST).max().unwrap_or(0);
    rows.iter().map(|row| row.text(width)).collect()
}

impl Row {
    fn text(&self, width: usize) -> String {
        let mut text = self.words.clone();
        if let Some(expected) = &self.expected {
            text = format!("{text:width$}  => {expected}");
        }
        if let Some(comment) = &self.comment {
            let gap = if text.is_empty() { "" } else { "  " };
            text = format!("{text}{gap}{comment}");
        }
        let indent = if text.is_empty() { "" } else { &self.indent };
        format!("{indent}{text}\n")
    }
}

/// The line as it is, with what is expected of it.
fn alone(line: &Line, expected: Option<Expected>) -> Row {
    Row {
        indent: line.indent.clone(),
        words: line.words.clone(),
        expected,
        comment: line.comment.clone(),
    }
}

/// What is worked out by hand is not parted, nor a run of which only the last line is expected, nor bytes that are not whole records.
fn stays_whole(line: &Line, is_tiled: bool) -> bool {
    let last_alone = matches!(line.expected, Some(Expected::Last(..)));
    is_by_hand(line) || last_alone || !is_tiled
}

fn is_alike(told: &[Told]) -> bool {
    told.windows(2).all(|pair| rest(&pair[0]) == rest(&pair[1]))
}

/// What is to be expected of a line that is not parted: the last line if that was expected, else all if they are alike.
fn whole(line: &Line, told: &[Told]) -> Option<Expected> {
    let all: Vec<&Told> = told.iter().collect();
    match &line.expected {
        Some(Expected::Last(..)) => {
            expected(&[told.iter().rev().find(|told| told.line.is_some())?])
        }
        _ if is_alike(told) => expected(&all),
        _ => expected(&[told.last()?]),
    }
}

/// Lines that were expected to be alike, are not, and have to stay in one line of the text.
fn unsayable(line: &Line, told: &[Told]) -> Option<Kept> {
    let Some(old @ Expected::Each(..)) = &line.expected else {
        return None;
    };
    if is_alike(told) {
        return None;
    }
    let other = told
        .iter()
        .find(|told| rest(told).as_deref() != Some(old.rest()));
    let printed = other.and_then(|told| told.line.clone());
    Some(Kept {
        line: line.number,
        stands: old.to_string(),
        printed: printed.unwrap_or("nothing".to_string()),
    })
}

/// The rows of a line: one, or as many as a run needs so that all of its lines are told.
fn rows_of(line: &Line, told: &[Told]) -> Vec<Row> {
    let every = line.run.as_ref().and_then(|run| run.alive);
    let alike = told.chunk_by(|one, next| rest(one) == rest(next));
    let groups = alike.flat_map(|group| match every {
        Some(every) => parts(group, every),
        None => group
            .chunk_by(|one, next| is_tick(one) && is_tick(next))
            .collect(),
    });
    let groups: Vec<&[Told]> = groups.collect();
    if let [] | [_] = &groups[..] {
        let group: Vec<&Told> = told.iter().collect();
        return vec![alone(line, expected(&group))];
    }
    let rows = groups.iter().enumerate().map(|(place, group)| Row {
        indent: line.indent.clone(),
        words: group_words(group, every),
        expected: expected(&group.iter().collect::<Vec<_>>()),
        comment: line.comment.clone().filter(|_| place == 0),
    });
    rows.collect()
}

fn is_tick(told: &Told) -> bool {
    told.record == Record::Tick
}

/// What is behind the number of a record's line.
fn rest(told: &Told) -> Option<String> {
    let line = Expected::of(told.line.as_deref()?)?;
    Some(line.rest().to_string())
}

/// Ticks among which keepalives come, parted so that each part can be said in one line.
fn parts(mut group: &[Told], every: u64) -> Vec<&[Told]> {
    let mut parts = Vec::new();
    while !group.is_empty() {
        let ticks = group.iter().take_while(|told| is_tick(told)).count();
        let length = match (ticks, alive(group, every)) {
            (0, 0) => 1,
            (0, alive) => alive,
            (ticks, _) => ticks,
        };
        let (part, behind) = group.split_at(length);
        parts.push(part);
        group = behind;
    }
    parts
}

/// How many records from the first on are `tick N keepalive every`; 0 if they do not begin so.
fn alive(group: &[Told], every: u64) -> usize {
    let mut length = 0;
    loop {
        let [west, east, behind @ ..] = &group[length..] else {
            return length;
        };
        let pair = west.record == Record::Keepalive(0) && east.record == Record::Keepalive(1);
        let ticks = behind.iter().take_while(|told| is_tick(told)).count();
        if !pair || ticks == 0 {
            return length;
        }
        length += 2 + ticks;
        if u64::try_from(ticks) != Ok(every) {
            return length;
        }
    }
}

fn group_words(group: &[Told], every: Option<u64>) -> String {
    let count = group.iter().filter(|told| is_tick(told)).count();
    match (group, every) {
        // No name may be used above the line that gives it, so none is used.
        ([one], _) => words(&one.record, &Names::default()),
        ([first, ..], Some(every)) if !is_tick(first) => {
            format!("{} keepalive {every}", ticks(count))
        }
        _ => ticks(count),
    }
}

/// What is to be expected of records whose lines are alike.
fn expected(group: &[&Told]) -> Option<Expected> {
    let line = |told: Option<&&Told>| Expected::of(told?.line.as_deref()?);
    let (first, last) = (line(group.first())?, line(group.last())?);
    Some(match (first, last) {
        (Expected::Last(from, rest), Expected::Last(to, _)) if from < to => {
            Expected::Each(from, to, rest)
        }
        (first, _) => first,
    })
}

/// What was worked out by hand in a line, if the new rows do not say it.
fn by_hand(line: &Line, rows: &[Row], results: bool) -> Option<Kept> {
    let old = line.expected.as_ref();
    // Behind a run with one expected line, that is the last.
    let rows = match old {
        Some(Expected::Each(..)) => rows,
        _ => &rows[rows.len().saturating_sub(1)..],
    };
    let mut new = rows.iter().map(|row| row.expected.as_ref());
    let whole = is_by_hand(line);
    let differs = |new: &Option<&Expected>| match (old, new) {
        (None, None) => false,
        (None, Some(_)) | (Some(_), None) => whole || results,
        (Some(old), Some(new)) => {
            let other = is_settings(old) != is_settings(new);
            whole && (other || old.rest() != new.rest())
                || results && (other || result(old) != result(new))
        }
    };
    let printed = new.find(differs)?;
    let said = |line: Option<&Expected>| line.map_or("nothing".to_string(), Expected::to_string);
    Some(Kept {
        line: line.number,
        stands: said(old),
        printed: said(printed),
    })
}

fn is_settings(expected: &Expected) -> bool {
    matches!(expected, Expected::Settings(_))
}

/// The result of a line, or the reply with the word before it.
fn result(expected: &Expected) -> Vec<&str> {
    let fields = expected.rest().split(' ');
    let count = if expected.rest().starts_with("way") {
        2
    } else {
        1
    };
    fields.take(count).collect()
}

#[cfg(test)]
mod tests {
    use super::*;

    /// The text with these lines, and how many lines worked out by hand are others. It is the same drill, and once more changes nothing.
    fn accepted(source: &str, printed: &str) -> (String, usize) {
        let text = Text::read(source.as_bytes()).unwrap();
        let new = accept(&text, printed);
        let again = Text::read(new.source.as_bytes()).unwrap();
        assert_eq!(again.bytes(), text.bytes(), "{}", new.source);
        let twice = accept(&again, printed);
        assert_eq!(twice.source, new.source);
        assert_eq!(twice.kept.len(), new.kept.len());
        (new.source, new.kept.len())
    }

    #[test]
    fn a_run_is_parted_where_its_lines_change() {
        let printed = "1 0 0 0 0 0 0\n2 0 0 0 0 0 0\n3 0 0 0 0 0 1\n";
        let source = "# why\nsettings short\ntick 3 # three\n";
        let wanted = "# why\nsettings short\ntick 2  => 1..2 0 0 0 0 0 0  # three\ntick    => 3 0 0 0 0 0 1\n";
        assert_eq!(accepted(source, printed), (wanted.to_string(), 0));
    }

    #[test]
    fn ticks_with_keepalives_stay_as_long_as_they_can() {
        let lines = |last: u64, rest: &dyn Fn(u64) -> &'static str| {
            let lines = (1..=last).map(|number| format!("{number} {}\n", rest(number)));
            lines.collect::<String>()
        };
        let source = "settings short\ntick 5 keepalive 2\n";
        let same = lines(11, &|_| "0 0 0 0 0 0");
        let wanted = "settings short\ntick 5 keepalive 2  => 1..11 0 0 0 0 0 0\n";
        assert_eq!(accepted(source, &same).0, wanted);
        // Records: W E tick tick W E tick tick W E tick; the seventh writes a report.
        let other = lines(11, &|number| {
            if number == 7 {
                "0 0 0 0 0 1"
            } else {
                "0 0 0 0 0 0"
            }
        });
        let wanted = "\
settings short
tick 2 keepalive 2  => 1..4 0 0 0 0 0 0
keepalive west      => 5 0 0 0 0 0 0
keepalive east      => 6 0 0 0 0 0 0
tick                => 7 0 0 0 0 0 1
tick                => 8 0 0 0 0 0 0
tick 1 keepalive 2  => 9..11 0 0 0 0 0 0
";
        assert_eq!(accepted(source, &other).0, wanted);
    }

    #[test]
    fn what_was_worked_out_by_hand_stays() {
        let source = "settings short\ntick => 1 0 4 0 0 0 1 # by hand\n";
        let (text, kept) = accepted(source, "1 0 0 0 0 0 0\n");
        assert!(text.contains("=> 1 0 4 0 0 0 1") && kept == 1);
        let source = "# results by hand\nsettings short\ntick => 1 0 4 0 0 0 1\n";
        let (text, kept) = accepted(source, "1 0 0 0 0 0 0\n");
        assert!(text.contains("=> 1 0 0 0 0 0 0") && kept == 0);
        let (text, kept) = accepted(source, "1 3 0 0 0 0 0\n");
        assert!(text.contains("=> 1 0 4 0 0 0 1") && kept == 1);
        let source = "# reports by hand: 1\nsettings short\ntick\n";
        assert_eq!(accepted(source, "1 0 0 0 0 0 1\n").1, 0);
        assert_eq!(accepted(source, "1 0 0 0 0 0 0\n").1, 1);
    }

    #[test]
    fn a_mark_without_a_line_gets_none() {
        let source = "settings short\ntick # by hand\n";
        let (text, kept) = accepted(source, "1 0 0 0 0 0 0\n");
        assert_eq!((&text[..], kept), ("settings short\ntick  # by hand\n", 1));
    }

    #[test]
    fn a_run_worked_out_by_hand_is_not_parted() {
        let parts = "1 0 0 0 0 0 0\n2 0 4 0 0 0 1\n";
        let source = "settings short\ntick 2 => 1..2 0 0 0 0 0 0 # by hand\n";
        let (text, kept) = accepted(source, parts);
        assert!(
            text.contains("tick 2  => 1..2 0 0 0 0 0 0  # by hand") && kept == 1,
            "{text}"
        );
        let source = "settings short\ntick 2 => 2 0 4 0 0 0 1 # by hand\n";
        let (text, kept) = accepted(source, parts);
        assert!(
            text.contains("tick 2  => 2 0 4 0 0 0 1  # by hand") && kept == 0,
            "{text}"
        );
        let source = "# results by hand\nsettings short\ntick 2 => 1..2 3 0 0 0 0 0\n";
        let (text, kept) = accepted(source, parts);
        assert!(
            text.contains("tick 2  => 1..2 3 0 0 0 0 0\n") && kept == 1,
            "{text}"
        );
    }

    #[test]
    fn a_run_of_which_the_last_line_is_expected_is_not_parted() {
        let printed = "1 0 0 0 0 0 0\n2 0 4 0 0 0 1\n3 0 4 0 0 0 0\n";
        let source = "settings short\ntick 3 => 3 0 0 0 0 0 0\n";
        let wanted = "settings short\ntick 3  => 3 0 4 0 0 0 0\n";
        assert_eq!(accepted(source, printed), (wanted.to_string(), 0));
    }

    #[test]
    fn a_middle_line_that_differs_is_told() {
        let printed = "1 0 0 0 0 0 0\n2 0 0 0 0 0 1\n3 0 0 0 0 0 0\n";
        let source = "settings short\ntick 3  => 1..3 0 0 0 0 0 0  # by hand\n";
        assert_eq!(accepted(source, printed), (source.to_string(), 1));
        let source =
            "# results by hand\nsettings short\nbytes 02 00 63 00 02  => 1..2 2\nbytes 00\n";
        assert_eq!(
            accepted(source, "1 3 0 0 0 0 0\n2 2\n"),
            (source.to_string(), 1)
        );
    }

    #[test]
    fn results_by_hand_are_those_of_every_line() {
        let head = "# results by hand\nsettings short\n";
        let kept = |lines: &str, printed: &str| accepted(&format!("{head}{lines}"), printed).1;
        let way = "way 00-00-00-00-00-00 => 1 way 0 2 3 1\n";
        assert_eq!(kept(way, "1 way 0 2 3 1\n"), 0);
        assert_eq!(kept(way, "1 way 2 0 0 0\n"), 1);
        assert_eq!(kept("tick => 1 0 0 0 0 0 0\n", ""), 1, "nothing is printed");
        assert_eq!(kept("tick\n", "1 0 0 0 0 0 0\n"), 1, "no line by hand");
        assert_eq!(
            kept(
                "tick 2 => 1..2 0 0 0 0 0 0\n",
                "1 3 0 0 0 0 0\n2 0 0 0 0 0 1\n"
            ),
            1
        );
        assert_eq!(
            kept(
                "tick 2 => 1..2 0 0 0 0 0 0\n",
                "1 0 0 0 0 0 0\n2 0 0 0 0 0 1\n"
            ),
            0
        );
        let source = "settings => settings 2 # by hand\n";
        assert_eq!(accepted(source, "settings 2\n").1, 0);
        let source = "settings short\nbytes 00 00 => settings 2 # by hand\n";
        assert_eq!(accepted(source, "1 2\n").1, 1);
    }

    #[test]
    fn where_the_trouble_is_stays_only_if_its_line_is_by_hand() {
        let source = "# results by hand\nsettings short\nway 00-00-00-00-00-00  => 1 way 0 0 0 0";
        let (text, kept) = accepted(&format!("{source}\n"), "1 way 0 3 3 2\n");
        assert!(
            text.ends_with("  => 1 way 0 3 3 2\n") && kept == 0,
            "{text}"
        );
        let marked = format!("{source}  # by hand\n");
        assert_eq!(accepted(&marked, "1 way 0 3 3 2\n"), (marked, 1));
    }

    #[test]
    fn what_is_no_tick_is_said_one_by_one() {
        let source = "settings short\nbytes 03 00 03 00 00 03 00 03 00 00\n";
        let (text, _) = accepted(source, "1 0 0 0 0 0 0\n2 0 0 0 0 0 0\n");
        assert!(
            text.ends_with("keepalive west  => 1 0 0 0 0 0 0\nkeepalive west  => 2 0 0 0 0 0 0\n"),
            "{text}"
        );
    }

    #[test]
    fn ticks_that_share_a_record_are_one_line() {
        let source =
            "settings short\nticks 30\nbytes 04 00 07 00 E8 03 02 00 01 00 04 00 07 00 01 00\n";
        let printed = "1 0 4 4 1 0 3\n2 0 4 4 1 0 20\n3 0 4 4 1 0 0\n4 0 4 4 1 0 0\n";
        let wanted = "settings short\nticks 30    => 1 0 4 4 1 0 3\nticks 1000  => 2 0 4 4 1 0 20\ntick        => 3 0 4 4 1 0 0\nticks 1     => 4 0 4 4 1 0 0\n";
        assert_eq!(accepted(source, printed), (wanted.to_string(), 0));
        let other = "# reports by hand: 22\nsettings short\nticks 30 => 1 0 4 4 1 0 2 # by hand\nticks 1000\ntick\nticks 1\n";
        let (text, kept) = accepted(other, printed);
        assert!(
            text.contains("=> 1 0 4 4 1 0 2  # by hand") && kept == 2,
            "{text}"
        );
    }

    #[test]
    fn blanks_at_the_beginning_stay() {
        let source = "# a\n  # b\nsettings short\n\ttick  => 1 0 0 0 0 0 0\n\n";
        assert_eq!(accepted(source, "1 0 0 0 0 0 0\n").0, source);
    }

    #[test]
    fn a_line_that_is_no_longer_printed_is_told() {
        let source =
            "settings short\nbytes 00 00\ntick => 2 0 0 0 0 0 0 # by hand\ntick => 3 0 0 0 0 0 0\n";
        let (text, kept) = accepted(source, "1 2\n");
        assert!(
            text.ends_with("=> 2 0 0 0 0 0 0  # by hand\ntick\n") && kept == 1,
            "{text}"
        );
    }

    #[test]
    fn bytes_that_stand_across_lines_stay_as_they_are() {
        let source = "settings short\nbytes 02 00 01 00 02 00\nbytes 01 00 02 00 01 00\n";
        let printed = "1 0 0 0 0 0 0\n2 0 0 0 0 0 1\n3 0 0 0 0 0 0\n";
        let wanted = "settings short\nbytes 02 00 01 00 02 00  => 2 0 0 0 0 0 1\nbytes 01 00 02 00 01 00  => 3 0 0 0 0 0 0\n";
        assert_eq!(accepted(source, printed).0, wanted);
        let source =
            "settings short\nbytes 02 00 01 00 02 00\nbytes 01 00 04 00 02 00\nbytes 00 00\n";
        let wanted = "settings short\nbytes 02 00 01 00 02 00  => 1..2 0 0 0 0 0 0\nbytes 01 00 04 00 02 00  => 3 0 0 0 0 0 0\nbytes 00 00\n";
        assert_eq!(
            accepted(source, "1 0 0 0 0 0 0\n2 0 0 0 0 0 0\n3 0 0 0 0 0 0\n").0,
            wanted
        );
        let source = "settings short\nbytes 02 00 01 00 03 00 01 00 00\n";
        let wanted = "settings short\ntick                  => 1 0 0 0 0 0 0\nbytes 03 00 01 00 00  => 2 4 0 0 0 0 0\n";
        assert_eq!(accepted(source, "1 0 0 0 0 0 0\n2 4 0 0 0 0 0\n").0, wanted);
    }

    #[test]
    fn no_name_is_used_above_the_line_that_gives_it() {
        let source =
            "settings short\nbytes 08002800020000000002 02000100\nname B 02-00-00-00-00-02\n";
        let (text, _) = accepted(source, "1 way 3 0 0 0\n2 0 0 0 0 0 0\n");
        assert!(
            text.contains("way 02-00-00-00-00-02  => 1 way 3 0 0 0\n"),
            "{text}"
        );
    }

    #[test]
    fn a_record_put_in_between_only_moves_the_numbers() {
        let source = "settings short\ntick\ntick => 1 0 4 0 0 0 1 # by hand\n";
        let (text, kept) = accepted(source, "1 0 0 0 0 0 0\n2 0 4 0 0 0 1\n");
        assert!(text.contains("=> 2 0 4 0 0 0 1") && kept == 0, "{text}");
    }
}
