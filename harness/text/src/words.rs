//! The words of a line, taken one after another.

use crate::codes;
use crate::hex;
use crate::slip::Slip;

/// What may stand behind the last word of a record.
pub const END: &str = "'=>', '#' or the end of the line";
/// Most lines have no more words.
const USUAL: usize = 12;

/// Words still to be taken.
#[derive(Clone, Debug)]
pub struct Words<'t> {
    /// Each with the bytes before it in the line.
    words: Vec<(usize, &'t str)>,
    next: usize,
    /// Where the last word ends.
    end: usize,
}

impl<'t> Words<'t> {
    /// The words of a part of a line that begins behind so many bytes of it.
    pub fn of(part: &'t str, begins: usize) -> Words<'t> {
        let mut words = Vec::with_capacity(USUAL);
        let mut end = begins;
        for word in part.split([' ', '\t']) {
            if !word.is_empty() {
                words.push((end, word));
            }
            end += word.len() + 1;
        }
        let last = words.last().map(|(at, word)| at + word.len());
        Words {
            words,
            next: 0,
            end: last.unwrap_or(begins),
        }
    }

    /// The next word, which stays.
    pub fn peek(&self) -> Option<&'t str> {
        self.words.get(self.next).map(|&(_, word)| word)
    }

    /// Takes the next word if it is this one, in small or large letters.
    pub fn take_if(&mut self, wanted: &str) -> bool {
        let is = self
            .peek()
            .is_some_and(|word| word.eq_ignore_ascii_case(wanted));
        self.next += usize::from(is);
        is
    }

    /// A mistake at the next word.
    pub fn slip(&self, could: impl Into<String>) -> Slip {
        self.slip_at(self.next, could)
    }

    /// A mistake at the word that was taken last.
    pub fn slip_back(&self, could: impl Into<String>) -> Slip {
        self.slip_at(self.next.saturating_sub(1), could)
    }

    fn slip_at(&self, place: usize, could: impl Into<String>) -> Slip {
        let (at, stands) = self.words.get(place).copied().unwrap_or((self.end, ""));
        Slip {
            at,
            stands: stands.to_string(),
            could: could.into(),
        }
    }

    /// Takes what `read` makes of the next word, which must be something.
    pub fn value<V>(
        &mut self,
        read: impl FnOnce(&str) -> Option<V>,
        could: impl FnOnce() -> String,
    ) -> Result<V, Slip> {
        let value = self
            .peek()
            .and_then(read)
            .ok_or_else(|| self.slip(could()))?;
        self.next += 1;
        Ok(value)
    }

    /// Takes this word, which must stand here.
    pub fn word(&mut self, wanted: &str) -> Result<(), Slip> {
        if self.take_if(wanted) {
            return Ok(());
        }
        Err(self.slip(wanted))
    }

    /// Takes a number within bounds.
    pub fn number(&mut self, least: u64, most: u64) -> Result<u64, Slip> {
        let read = |word: &str| hex::decimal(word).filter(|number| (least..=most).contains(number));
        self.value(read, || format!("a number from {least} to {most}"))
    }

    /// Takes a number of one byte.
    pub fn byte(&mut self) -> Result<u8, Slip> {
        let number = self.number(0, u64::from(u8::MAX))?;
        Ok(u8::try_from(number).unwrap_or(u8::MAX))
    }

    /// Takes a number of two bytes.
    pub fn two_bytes(&mut self) -> Result<u16, Slip> {
        let number = self.number(0, u64::from(u16::MAX))?;
        Ok(u16::try_from(number).unwrap_or(u16::MAX))
    }

    /// Takes one of a list's words, or a number of one byte.
    pub fn code(&mut self, list: &[&str]) -> Result<u8, Slip> {
        self.value(|word| code(list, word), || code_words(list))
    }

    /// Takes one of these words, in small or large letters.
    pub fn one_of<'l>(&mut self, list: &[&'l str]) -> Result<&'l str, Slip> {
        let read = |word: &str| list.iter().find(|name| name.eq_ignore_ascii_case(word));
        self.value(|word| read(word).copied(), || list.join(", "))
    }

    /// Nothing may stand behind the last word.
    pub fn end(&self) -> Result<(), Slip> {
        match self.peek() {
            None => Ok(()),
            Some(_) => Err(self.slip(END)),
        }
    }
}

/// The number of one of a list's words, or a number of one byte.
pub fn code(list: &[&str], word: &str) -> Option<u8> {
    codes::number(list, word).or_else(|| hex::decimal(word))
}

/// A list's words, to be shown.
pub fn code_words(list: &[&str]) -> String {
    format!("{}, or a number from 0 to 255", list.join(", "))
}
