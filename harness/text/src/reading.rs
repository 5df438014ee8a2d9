//! The text of a drill: one record a line, names, comments, and the lines that are expected.

use std::ops::Range;

use crate::expected::Expected;
use crate::grammar::content;
use crate::names::Names;
use crate::record::Record;
use crate::records::Bytes;
use crate::run::Run;
use crate::slip::{Mistake, Slip};
use crate::words::Words;

/// The most bytes of a drill.
pub(crate) const MOST_BYTES: usize = 1 << 26;
/// What could stand in place of more.
pub(crate) const TOO_LONG: &str = "less: a drill has at most 64 MiB";

/// A text that has been read.
#[derive(Clone, Debug, Default)]
pub struct Text {
    /// Its lines, all of them.
    pub lines: Vec<Line>,
    /// The names that it gives.
    pub names: Names,
}

/// One line of a text.
#[derive(Clone, Debug, Default)]
pub struct Line {
    /// Its number, from 1.
    pub number: usize,
    /// The blanks that it begins with.
    pub indent: String,
    /// Its words as they are written, without '=>' and comment.
    pub words: String,
    /// The records that they stand for.
    pub run: Option<Run>,
    /// What stands behind '=>'.
    pub expected: Option<Expected>,
    /// What stands behind '#', with it.
    pub comment: Option<String>,
}

impl Text {
    /// Reads a text; all of its mistakes are told.
    pub fn read(source: &[u8]) -> Result<Text, Vec<Mistake>> {
        let source = source.strip_prefix("\u{feff}".as_bytes()).unwrap_or(source);
        let mut text = Text::default();
        let mut mistakes = Vec::new();
        let mut left = MOST_BYTES;
        for (place, bytes) in lines(source).enumerate() {
            let number = place + 1;
            match line_of(bytes, &mut text.names, &mut left) {
                Ok(line) => text.lines.push(Line { number, ..line }),
                Err(slip) => mistakes.push(Mistake {
                    line: number,
                    source: String::from_utf8_lossy(bytes).into_owned(),
                    slip,
                }),
            }
        }
        if mistakes.is_empty() {
            Ok(text)
        } else {
            Err(mistakes)
        }
    }

    /// The bytes of the drill.
    pub fn bytes(&self) -> Bytes {
        self.places().0
    }

    /// The records that its lines stand for, one after another.
    pub fn records(&self) -> impl Iterator<Item = Record> + '_ {
        let runs = self.lines.iter().filter_map(|line| line.run.as_ref());
        runs.flat_map(Run::records)
    }

    /// The lines that it expects, as the program prints them.
    pub fn expected(&self) -> String {
        let expected = self.lines.iter().filter_map(|line| line.expected.as_ref());
        expected.map(Expected::printed).collect()
    }

    /// The bytes of the drill, and where among them those of each line stand.
    pub fn places(&self) -> (Bytes, Vec<Range<usize>>) {
        let mut bytes = Vec::new();
        let mut places = Vec::new();
        for line in &self.lines {
            let start = bytes.len();
            if let Some(run) = &line.run {
                bytes.extend(run.records().flat_map(|record| record.bytes()));
            }
            places.push(start..bytes.len());
        }
        (bytes, places)
    }
}

/// Lines without their ends; a carriage return before the line feed goes too.
fn lines(source: &[u8]) -> impl Iterator<Item = &[u8]> {
    let whole = source.strip_suffix(b"\n").unwrap_or(source);
    let lines = whole.split(|&byte| byte == b'\n');
    lines.map(|line| line.strip_suffix(b"\r").unwrap_or(line))
}

/// Reads one line. Names that it gives are added; its bytes are taken from those left.
fn line_of(bytes: &[u8], names: &mut Names, left: &mut usize) -> Result<Line, Slip> {
    let source = letters(bytes)?;
    let (said, comment) = match source.find('#') {
        Some(at) => (&source[..at], Some(source[at..].trim_end().to_string())),
        None => (source, None),
    };
    let arrow = said.as_bytes().windows(2).position(|pair| pair == b"=>");
    let words = &said[..arrow.unwrap_or(said.len())];
    let run = run_of(words, names, left)?;
    let expected = match arrow {
        None => None,
        Some(at) if run.is_none() => {
            return Err(Slip {
                at,
                stands: "=>".to_string(),
                could: "a record before it; what is expected belongs to a record".to_string(),
            })
        }
        Some(at) => Some(Expected::read(&mut Words::of(&said[at + 2..], at + 2))?),
    };
    let blanks = source.len() - source.trim_start().len();
    Ok(Line {
        number: 0,
        indent: source[..blanks].to_string(),
        words: words.trim().to_string(),
        run,
        expected,
        comment,
    })
}

/// A line as letters. Others than those of a text are told, also in a comment, so that no text has them.
fn letters(bytes: &[u8]) -> Result<&str, Slip> {
    let slip = |at: usize, stands: String, could: &str| Slip {
        at,
        stands,
        could: could.to_string(),
    };
    let line = std::str::from_utf8(bytes).map_err(|error| {
        let at = error.valid_up_to();
        let byte = bytes
            .get(at)
            .map_or(String::new(), |byte| format!("byte {byte:02X}"));
        slip(
            at,
            byte,
            "a letter in UTF-8 (a text in UTF-16 has to be saved as UTF-8)",
        )
    })?;
    let is_odd = |letter: char| letter.is_control() && letter != '\t';
    match line.find(is_odd) {
        None => Ok(line),
        Some(at) => {
            let odd = line[at..]
                .chars()
                .take(1)
                .map(|letter| letter.escape_default().to_string());
            Err(slip(at, odd.collect(), "a letter that can be shown"))
        }
    }
}

/// What the words of a line stand for. A drill has an end: what the line adds is taken from what is left.
fn run_of(words: &str, names: &mut Names, left: &mut usize) -> Result<Option<Run>, Slip> {
    let mut words = Words::of(words, 0);
    let run = content(&mut words, names)?;
    words.end()?;
    let bytes = run.as_ref().map_or(0, Run::length);
    match left.checked_sub(bytes) {
        Some(rest) => *left = rest,
        None => return Err(words.slip_back(TOO_LONG)),
    }
    Ok(run)
}
