//! The line that a text expects, behind '=>'.

use std::fmt;

use crate::hex::decimal;
use crate::said::Said;
use crate::slip::Slip;
use crate::words::Words;

/// What must be printed for the words before it.
#[derive(Clone, Debug, PartialEq, Eq)]
pub enum Expected {
    /// `settings N`.
    Settings(String),
    /// The last line, or the only one: its number and the rest of it.
    Last(u64, String),
    /// Every line, from a number to a number, and the rest that they share: `7..9 0 0 0 0 1 0`.
    Each(u64, u64, String),
}

impl Expected {
    /// The expected line that these words are.
    pub fn read(words: &mut Words) -> Result<Expected, Slip> {
        if words.take_if("settings") {
            let refusal = words.byte()?;
            end(words)?;
            return Ok(Expected::Settings(refusal.to_string()));
        }
        let could =
            || "the number of a line, the numbers of several such as 7..9, or settings".into();
        let (first, last) = words.value(numbers, could)?;
        let rest = rest(words)?;
        end(words)?;
        Ok(match first {
            Some(first) => Expected::Each(first, last, rest),
            None => Expected::Last(last, rest),
        })
    }

    /// A line that was printed, to be expected.
    pub fn of(line: &str) -> Option<Expected> {
        Said::of(line)?;
        Expected::read(&mut Words::of(line, 0)).ok()
    }

    /// The line that is expected at a place of so many lines; none where it does not matter.
    pub fn line(&self, place: usize, lines: usize) -> Option<String> {
        let place = u64::try_from(place).unwrap_or(u64::MAX);
        match self {
            Expected::Each(first, _, rest) => {
                Some(format!("{} {rest}", first.saturating_add(place)))
            }
            Expected::Last(..) | Expected::Settings(_) => {
                let is_last = u64::try_from(lines).is_ok_and(|lines| place + 1 == lines);
                is_last.then(|| self.to_string())
            }
        }
    }

    /// All the lines that it names, as they are printed.
    pub fn printed(&self) -> String {
        match self {
            Expected::Each(first, last, rest) => {
                let lines = (*first..=*last).map(|number| format!("{number} {rest}\n"));
                lines.collect()
            }
            one => format!("{one}\n"),
        }
    }

    /// How many lines must be printed, if that is said.
    pub fn count(&self) -> Option<u64> {
        match self {
            Expected::Each(first, last, _) => Some(last - first + 1),
            _ => None,
        }
    }

    /// What is behind the number.
    pub fn rest(&self) -> &str {
        match self {
            Expected::Settings(rest) | Expected::Last(_, rest) | Expected::Each(_, _, rest) => rest,
        }
    }
}

impl fmt::Display for Expected {
    fn fmt(&self, f: &mut fmt::Formatter<'_>) -> fmt::Result {
        match self {
            Expected::Settings(refusal) => write!(f, "settings {refusal}"),
            Expected::Last(number, rest) => write!(f, "{number} {rest}"),
            Expected::Each(first, last, rest) => write!(f, "{first}..{last} {rest}"),
        }
    }
}

/// Nothing may stand behind the last field, a second '=>' least of all.
fn end(words: &Words) -> Result<(), Slip> {
    match words.peek() {
        None => Ok(()),
        Some(_) => Err(words.slip("'#' or the end of the line")),
    }
}

/// One number from 1 on, or two with dots between.
fn numbers(word: &str) -> Option<(Option<u64>, u64)> {
    let Some((first, last)) = word.split_once("..") else {
        return Some((None, decimal(word).filter(|&number| number > 0)?));
    };
    let (first, last): (u64, u64) = (decimal(first)?, decimal(last)?);
    (1 <= first && first <= last).then_some((Some(first), last))
}

/// The fields behind the number: a reply with three numbers, a refusal, or six numbers.
fn rest(words: &mut Words) -> Result<String, Slip> {
    if words.take_if("way") {
        let reply = words.byte()?;
        let (hops, worst) = (field(words, "hops")?, field(words, "worst request")?);
        let span = field(words, "first span with it")?;
        return Ok(format!("way {reply} {hops} {worst} {span}"));
    }
    let could = || "a result, a refusal (2 or 4), or way".to_string();
    let result: u8 = words.value(decimal, could)?;
    if words.peek().is_none() && [2, 4].contains(&result) {
        return Ok(result.to_string());
    }
    let (west, east) = (field(words, "west request")?, field(words, "east request")?);
    let sequence = field(words, "own sequence")?;
    let (stations, reports) = (field(words, "stations")?, field(words, "reports written")?);
    Ok(format!(
        "{result} {west} {east} {sequence} {stations} {reports}"
    ))
}

/// A field by its name.
fn field(words: &mut Words, name: &str) -> Result<u16, Slip> {
    words.value(decimal, || {
        format!("the number of the line's field '{name}'")
    })
}
