//! The first line in which two outputs differ.

/// A line that is not the same; none where an output has ended.
#[derive(Clone, Debug, PartialEq, Eq)]
pub struct Difference {
    /// Counted from 1.
    pub line: usize,
    /// What the model says.
    pub model: Option<String>,
    /// What the other program says.
    pub other: Option<String>,
}

impl Difference {
    /// Compares two outputs, byte for byte.
    pub fn between(model: &[u8], other: &[u8]) -> Option<Difference> {
        if model == other {
            return None;
        }
        let mut lines = (pieces(model), pieces(other));
        for line in 1.. {
            let (mine, theirs) = (lines.0.next(), lines.1.next());
            if mine != theirs {
                return Some(Difference {
                    line,
                    model: mine.map(text),
                    other: theirs.map(text),
                });
            }
            if mine.is_none() {
                break;
            }
        }
        None
    }

    /// Both lines, to be shown; the word is that of what the other program was run on.
    pub fn shown(&self, word: &str) -> String {
        let text = |line: &Option<String>| match line {
            Some(line) => line.clone(),
            None => "(no line)".to_string(),
        };
        format!(
            "  model: {}\n  {:<6} {}",
            text(&self.model),
            format!("{word}:"),
            text(&self.other)
        )
    }
}

/// Lines with their line feeds, so that a missing one at the end shows.
fn pieces(said: &[u8]) -> impl Iterator<Item = &[u8]> {
    said.split_inclusive(|&byte| byte == b'\n')
}

fn text(line: &[u8]) -> String {
    let whole = line.strip_suffix(b"\n");
    let text = String::from_utf8_lossy(whole.unwrap_or(line)).into_owned();
    match whole {
        Some(_) => text,
        None => text + " (no line feed)",
    }
}

#[cfg(test)]
mod tests {
    use super::*;

    fn line(model: &str, other: &str) -> Option<usize> {
        Difference::between(model.as_bytes(), other.as_bytes()).map(|d| d.line)
    }

    #[test]
    fn the_first_line_is_found() {
        assert_eq!(line("a\nb\n", "a\nb\n"), None);
        assert_eq!(line("a\nb\n", "a\nc\n"), Some(2));
        assert_eq!(line("a\n", "a\nc\n"), Some(2));
        assert_eq!(line("a\nb", "a\nb\n"), Some(2));
        assert_eq!(line("", "a"), Some(1));
    }
}
