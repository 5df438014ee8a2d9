//! The words for the numbers in a record's fields. A number without a word is written as a number.

/// The spans, by number.
pub const SPANS: &[&str] = &["west", "east"];
/// What a link record may tell.
pub const STATUSES: &[&str] = &["good", "degraded", "failed"];
/// The requests, by their codes.
pub const REQUESTS: &[&str] = &["idle", "wtr", "ms", "sd", "sf", "fs"];
/// The same where an operator asks: 0 is none.
pub const ASKED: &[&str] = &["none", "wtr", "ms", "sd", "sf", "fs"];
/// What a question is answered.
pub const REPLIES: &[&str] = &["west", "east", "no way", "not in the table"];

/// The number that a word stands for.
pub fn number(list: &[&str], word: &str) -> Option<u8> {
    let place = list
        .iter()
        .position(|name| name.eq_ignore_ascii_case(word))?;
    u8::try_from(place).ok()
}

/// The word for a number, or the number.
pub fn word(list: &[&str], number: u8) -> String {
    match list.get(usize::from(number)) {
        Some(name) => (*name).to_string(),
        None => number.to_string(),
    }
}

/// The code of a request as it is printed: IDLE, WTR, MS, SD, SF, FS.
pub fn request(number: u8) -> String {
    word(REQUESTS, number).to_ascii_uppercase()
}
