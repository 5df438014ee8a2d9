//! The records of a drill beside the lines that the program printed for them.

use std::ops::Range;

use crate::pieces::pieces;
use crate::reading::Text;
use crate::record::Record;

/// A record and its line.
#[derive(Clone, Debug, PartialEq, Eq)]
pub struct Told {
    /// Bytes of the drill before the record.
    pub start: usize,
    /// The record.
    pub record: Record,
    /// The line printed for it, without its end.
    pub line: Option<String>,
}

/// A whole drill with what was printed.
#[derive(Clone, Debug, Default)]
pub struct Play {
    /// Each record that was there to be read, settings first.
    pub told: Vec<Told>,
    /// Lines that no record accounts for.
    pub beyond: Vec<String>,
}

/// Lays the lines beside the records: `settings N` beside the first, any other beside those behind it.
pub fn play(bytes: &[u8], printed: &str) -> Play {
    let mut lines = lines(printed).into_iter().peekable();
    let refused = lines
        .peek()
        .is_some_and(|line| line.starts_with("settings "));
    let mut play = Play::default();
    let mut start = 0;
    for (place, piece) in pieces(bytes).into_iter().enumerate() {
        let has_line = refused == (place == 0);
        let line = if has_line { lines.next() } else { None };
        play.told.push(Told {
            start,
            record: Record::of(piece),
            line,
        });
        start += piece.len();
    }
    play.beyond = lines.collect();
    play
}

/// What was printed, line by line; a last line without its end is another line.
fn lines(printed: &str) -> Vec<String> {
    let pieces = printed
        .split_inclusive('\n')
        .map(|line| match line.strip_suffix('\n') {
            Some(line) => line.to_string(),
            None => format!("{line} (no line feed)"),
        });
    pieces.collect()
}

/// A text with what was printed: for each of its lines, the records that begin in it.
pub struct Staged {
    /// The drill as a whole.
    pub play: Play,
    /// Places in `play.told`, one range for each line of the text.
    of_line: Vec<Range<usize>>,
    /// Whether the records that begin in a line are its bytes, all of them and no others.
    tiled: Vec<bool>,
}

impl Staged {
    /// Lays the lines beside the text. An empty drill's only line goes to the first line that has a record, or to none.
    pub fn of(text: &Text, printed: &str) -> Staged {
        let (bytes, places) = text.places();
        let mut play = play(&bytes, printed);
        if bytes.is_empty() && !play.beyond.is_empty() {
            play.told.push(Told {
                start: 0,
                record: Record::Bytes(Vec::new()),
                line: Some(play.beyond.remove(0)),
            });
        }
        let mut of_line = Vec::new();
        let mut tiled = Vec::new();
        let mut next = 0;
        for (line, place) in text.lines.iter().zip(places) {
            let first = next;
            let begins_here =
                |told: &Told| told.start < place.end || place.is_empty() && bytes.is_empty();
            while line.run.is_some() && play.told.get(next).is_some_and(begins_here) {
                next += 1;
            }
            let told = &play.told[first..next];
            let length: usize = told.iter().map(|told| told.record.bytes().len()).sum();
            let start = told.first().map_or(place.start, |told| told.start);
            tiled.push(start == place.start && length == place.len());
            of_line.push(first..next);
        }
        Staged {
            play,
            of_line,
            tiled,
        }
    }

    /// Whether the records that begin in a line of the text are its bytes, all of them and no others.
    pub fn is_tiled(&self, place: usize) -> bool {
        self.tiled.get(place).copied().unwrap_or(false)
    }

    /// The records of a line of the text.
    pub fn line(&self, place: usize) -> &[Told] {
        match self.of_line.get(place) {
            Some(range) => &self.play.told[range.clone()],
            None => &[],
        }
    }

    /// The lines printed for a line of the text.
    pub fn printed(&self, place: usize) -> Vec<&str> {
        let told = self.line(place).iter();
        told.filter_map(|told| told.line.as_deref()).collect()
    }
}

#[cfg(test)]
mod tests {
    use super::*;

    fn staged(source: &str, printed: &str) -> Vec<Vec<String>> {
        let text = Text::read(source.as_bytes()).unwrap();
        let staged = Staged::of(&text, printed);
        let lines = 0..text.lines.len();
        lines
            .map(|place| {
                staged
                    .printed(place)
                    .iter()
                    .map(|line| line.to_string())
                    .collect()
            })
            .collect()
    }

    #[test]
    fn each_line_gets_what_begins_in_it() {
        let printed = "1 0 0 0 0 0 0\n2 0 0 0 0 0 0\n3 way 3 0 0 0\n";
        let lines = staged(
            "# one\nsettings short\ntick 2\nway 02-00-00-00-00-02\n",
            printed,
        );
        let counts: Vec<usize> = lines.iter().map(Vec::len).collect();
        assert_eq!(counts, [0, 0, 2, 1]);
    }

    #[test]
    fn refused_settings_and_an_empty_drill_have_their_line() {
        assert_eq!(
            staged("tick\ntick\n", "settings 3\n"),
            [vec!["settings 3".to_string()], vec![]]
        );
        assert_eq!(
            staged("# none\nbytes\n", "settings 2\n"),
            [vec![], vec!["settings 2".to_string()]]
        );
    }

    #[test]
    fn nothing_is_read_behind_a_bad_length() {
        let lines = staged("settings short\nbytes 00 00\ntick\n", "1 2\n");
        assert_eq!(lines, [vec![], vec!["1 2".to_string()], vec![]]);
    }

    #[test]
    fn a_carriage_return_or_a_missing_line_feed_is_another_line() {
        assert_eq!(lines("1 2\r\n2 4"), ["1 2\r", "2 4 (no line feed)"]);
        assert_eq!(lines("1 2\n\n"), ["1 2", ""]);
        assert!(lines("").is_empty());
    }

    #[test]
    fn lines_that_no_record_accounts_for_are_kept() {
        let play = play(&[2, 0, 1, 0], "settings 3\n1 0 0 0 0 0 0\n");
        assert_eq!(play.beyond, ["1 0 0 0 0 0 0"]);
    }
}
