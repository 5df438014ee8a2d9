//! A drill from a file: a text, or bytes.

use std::fs;
use std::io::{self, Read};
use std::path::Path;

use crate::names::Names;
use crate::program::cannot;
use crate::reading::Text;
use crate::records::Bytes;
use crate::slip::Mistake;

/// Mistakes of one text that are told.
const MOST_MISTAKES: usize = 20;

/// A drill as it was found.
pub enum Source {
    /// A text.
    Text(Text),
    /// Bytes.
    Bytes(Bytes),
}

/// The text of the worked drill.
pub const WORKED: &[u8] = include_bytes!("../../../drills/worked.drill");

/// Among the first four bytes of a record stand the high bytes of a length up to 1,033 and of its kind; no text has a byte below 9. A text in UTF-16
/// has, and is told so.
pub fn is_bytes(file: &[u8]) -> bool {
    let utf_16 = file.starts_with(&[0xFF, 0xFE]) || file.starts_with(&[0xFE, 0xFF]);
    file.len() < 2 || !utf_16 && file.iter().take(4).any(|&byte| byte < 9)
}

impl Source {
    /// The drill in a file, or what is wrong with it; '-' is standard input.
    pub fn read(name: &str) -> Result<Source, String> {
        let name_of = if name == "-" { "standard input" } else { name };
        Source::of(name_of, content(name)?)
    }

    /// The drill that a file's content is, or the mistakes in it.
    pub fn of(name: &str, file: Bytes) -> Result<Source, String> {
        if is_bytes(&file) {
            return Ok(Source::Bytes(file));
        }
        let read = Text::read(&file).map(Source::Text);
        read.map_err(|mistakes| listed(name, &mistakes))
    }

    /// The bytes of the drill.
    pub fn bytes(&self) -> Bytes {
        match self {
            Source::Text(text) => text.bytes(),
            Source::Bytes(bytes) => bytes.clone(),
        }
    }

    /// The names that it gives.
    pub fn names(&self) -> Names {
        match self {
            Source::Text(text) => text.names.clone(),
            Source::Bytes(_) => Names::default(),
        }
    }
}

fn listed(name: &str, mistakes: &[Mistake]) -> String {
    let shown = mistakes.iter().take(MOST_MISTAKES);
    let mut lines: Vec<String> = shown.map(|mistake| format!("{name}, {mistake}")).collect();
    if mistakes.len() > MOST_MISTAKES {
        lines.push(format!("{name}: {} mistakes in all", mistakes.len()));
    }
    lines.join("\n")
}

fn content(name: &str) -> Result<Bytes, String> {
    if name != "-" {
        let path = Path::new(name);
        return fs::read(path).map_err(|error| cannot("read", path, &error));
    }
    let mut bytes = Vec::new();
    let read = io::stdin().read_to_end(&mut bytes);
    read.map_err(|error| format!("cannot read standard input: {error}"))?;
    Ok(bytes)
}

#[cfg(test)]
mod tests {
    use super::*;

    #[test]
    fn bytes_and_texts_are_told_apart() {
        let bytes: [&[u8]; 8] = [
            &[],
            b"a",
            &[0x11, 0, 0x20, 0],
            &[0xFF, 0xFF, 0x20, 0],
            &[0x0A, 4, 0x20, 0],
            &[0xFF, 0xFF, 1, 0x28],
            &[9, 9, 9, 8],
            &[2, 0],
        ];
        assert!(bytes.iter().all(|file| is_bytes(file)));
        let texts = ["# a", "\t\n\r\n# b", "tick\n", "\u{feff}tick", "\n\n", "ab"];
        assert!(texts.iter().all(|text| !is_bytes(text.as_bytes())));
        let utf_16: [&[u8]; 2] = [&[0xFF, 0xFE, b'#', 0], &[0xFE, 0xFF, 0, b'#']];
        assert!(utf_16.iter().all(|text| !is_bytes(text)));
        assert!(!is_bytes(WORKED));
    }
}
