//! A mistake in a text: where it is, what stands there and what could stand there.

use std::fmt;

/// A mistake in one line.
#[derive(Clone, Debug, PartialEq, Eq)]
pub struct Slip {
    /// Bytes of the line before it.
    pub at: usize,
    /// What stands there; nothing at the end of the line.
    pub stands: String,
    /// What could stand there.
    pub could: String,
}

/// A mistake with its line.
#[derive(Clone, Debug, PartialEq, Eq)]
pub struct Mistake {
    /// The line's number, from 1.
    pub line: usize,
    /// The line.
    pub source: String,
    /// What is wrong in it.
    pub slip: Slip,
}

/// The most letters of a line that are shown on each side of a mistake.
const SHOWN: usize = 60;

impl fmt::Display for Mistake {
    fn fmt(&self, f: &mut fmt::Formatter<'_>) -> fmt::Result {
        let Slip { at, stands, could } = &self.slip;
        let what = match &stands[..] {
            "" => "the line ends".to_string(),
            word => format!("'{}' stands", shown(word, SHOWN)),
        };
        writeln!(
            f,
            "line {}: {what} where this could stand: {could}",
            self.line
        )?;
        let before = tail(self.source.get(..*at).unwrap_or(""));
        let from = shown(self.source.get(*at..).unwrap_or(""), SHOWN);
        writeln!(f, "    {before}{from}")?;
        let width = shown(stands, SHOWN).chars().count().clamp(1, SHOWN);
        write!(
            f,
            "    {}{}",
            " ".repeat(before.chars().count()),
            "^".repeat(width)
        )
    }
}

/// The first letters of a text; those that cannot be shown are written as their numbers.
fn shown(text: &str, most: usize) -> String {
    let letters = text.chars().take(most).map(|letter| match letter {
        '\t' => " ".to_string(),
        letter if is_unseen(letter) => letter.escape_default().to_string(),
        letter => letter.to_string(),
    });
    letters.collect()
}

/// Letters that look like a blank or like nothing.
fn is_unseen(letter: char) -> bool {
    let blank = letter.is_whitespace() && letter != ' ';
    let nothing = matches!(
        letter,
        '\u{ad}' | '\u{200b}'..='\u{200f}' | '\u{2060}' | '\u{feff}'
    );
    letter.is_control() || blank || nothing
}

/// The last letters of a text.
fn tail(text: &str) -> String {
    let skipped = text.chars().count().saturating_sub(SHOWN);
    let letters: String = text.chars().skip(skipped).collect();
    shown(&letters, SHOWN)
}
