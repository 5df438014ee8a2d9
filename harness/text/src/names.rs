//! Names that a text gives to addresses.

use crate::hex;

/// Names and their addresses, in the order in which they were given.
#[derive(Clone, Debug, Default)]
pub struct Names(Vec<(String, u64)>);

impl Names {
    /// Adds a name that is not there yet.
    pub fn give(&mut self, name: &str, address: u64) {
        self.0.push((name.to_string(), address));
    }

    /// The address of a name.
    pub fn address(&self, name: &str) -> Option<u64> {
        let found = self.0.iter().find(|(known, _)| known == name);
        found.map(|&(_, address)| address)
    }

    /// The first name of an address, or its six bytes.
    pub fn of(&self, address: u64) -> String {
        match self.0.iter().find(|&&(_, known)| known == address) {
            Some((name, _)) => name.clone(),
            None => hex::dashed(address),
        }
    }

    /// All names, to be shown.
    pub fn all(&self) -> impl Iterator<Item = &str> {
        self.0.iter().map(|(name, _)| name.as_str())
    }
}

/// Whether a word can be a name: a letter, then letters, digits, '-', '_' and '.'; and it is no address.
pub fn is_name(word: &str) -> bool {
    let letters = word.starts_with(|first: char| first.is_ascii_alphabetic())
        && word
            .bytes()
            .all(|byte| byte.is_ascii_alphanumeric() || b"-_.".contains(&byte));
    letters && hex::undashed(word).is_none()
}
