//! The entries of an attribute block that have words: weights and reserved bandwidths, mandatory, as the writer gives them.

use crate::records::Bytes;

/// An entry with a word for it.
#[derive(Clone, Copy, Debug, PartialEq, Eq)]
pub enum Entry {
    /// Type 1.
    Weights(u8, u8),
    /// Type 2.
    Reserved(u16, u16),
}

impl Entry {
    /// Its bytes, highest byte first.
    pub fn bytes(self) -> Bytes {
        match self {
            Entry::Weights(zero, one) => vec![0x80, 1, 0, 2, zero, one],
            Entry::Reserved(zero, one) => {
                let mut bytes = vec![0x80, 2, 0, 4];
                bytes.extend(zero.to_be_bytes());
                bytes.extend(one.to_be_bytes());
                bytes
            }
        }
    }
}

/// The entries of a block, if each of them has a word.
pub fn entries(mut block: &[u8]) -> Option<Vec<Entry>> {
    let mut entries = Vec::new();
    while !block.is_empty() {
        let (entry, rest) = match block {
            [0x80, 1, 0, 2, zero, one, rest @ ..] => (Entry::Weights(*zero, *one), rest),
            [0x80, 2, 0, 4, a, b, c, d, rest @ ..] => {
                let (zero, one) = (u16::from_be_bytes([*a, *b]), u16::from_be_bytes([*c, *d]));
                (Entry::Reserved(zero, one), rest)
            }
            _ => return None,
        };
        entries.push(entry);
        block = rest;
    }
    Some(entries)
}

#[cfg(test)]
mod tests {
    use super::*;

    #[test]
    fn entries_are_read_back_and_others_are_bytes() {
        let some = [
            Entry::Weights(3, 5),
            Entry::Reserved(1000, 65535),
            Entry::Weights(0, 255),
        ];
        let block: Bytes = some.iter().flat_map(|entry| entry.bytes()).collect();
        assert_eq!(entries(&block).as_deref(), Some(&some[..]));
        assert_eq!(entries(&block[1..]), None);
        assert_eq!(entries(&[0, 1, 0, 2, 3, 5]), None);
        assert_eq!(entries(&[]), Some(vec![]));
    }
}
