//! After a change of the rules: the model's lines are written into texts, and the diff is then read.

use std::fs;
use std::path::Path;

use model::drill::say;
use model::faults::RIGHT;
use text::accepting::accept;
use text::marks::Kept;
use text::program::cannot;
use text::reading::Text;
use text::source::Source;

use crate::voice::tell;

/// Writes the model's lines into these texts; false if a line that is marked as worked out by hand is another one.
pub fn accept_all(files: &[String]) -> Result<bool, String> {
    // All are read before one is written.
    let texts: Result<Vec<Text>, String> = files.iter().map(|name| text_of(name)).collect();
    let mut agreed = true;
    for (name, text) in files.iter().zip(texts?) {
        agreed &= accept_one(name, &text)?;
    }
    Ok(agreed)
}

fn text_of(name: &str) -> Result<Text, String> {
    match Source::read(name)? {
        Source::Text(text) => Ok(text),
        Source::Bytes(_) => Err(format!("{name} is no text")),
    }
}

fn accept_one(name: &str, text: &Text) -> Result<bool, String> {
    let said = say::<RIGHT>(&text.bytes());
    let accepted = accept(text, &String::from_utf8_lossy(&said));
    let again = Text::read(accepted.source.as_bytes());
    if !again.is_ok_and(|again| again.bytes() == text.bytes()) {
        return Err(format!("{name} would be another drill; not written"));
    }
    for kept in &accepted.kept {
        let Kept {
            line,
            stands,
            printed,
        } = kept;
        tell(format!(
            "{name}, line {line}: by hand '{stands}', the model says '{printed}'; left as it is"
        ));
    }
    let path = Path::new(name);
    let before = fs::read(path).map_err(|error| cannot("read", path, &error))?;
    let after = as_before(&before, accepted.source);
    if before != after.as_bytes() {
        fs::write(path, &after).map_err(|error| cannot("write", path, &error))?;
        tell(format!("{name}: written"));
    }
    Ok(accepted.kept.is_empty())
}

/// Lines end as they did, and the mark that some editors put before a text stays.
fn as_before(before: &[u8], source: String) -> String {
    let source = if before.windows(2).any(|pair| pair == b"\r\n") {
        source.replace('\n', "\r\n")
    } else {
        source
    };
    match before.starts_with("\u{feff}".as_bytes()) {
        true => format!("\u{feff}{source}"),
        false => source,
    }
}
