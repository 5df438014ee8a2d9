//! The bytes of a drill, parted as the program reads them: record after record, up to a cut one or a length that ends the drill.

use crate::record::Record;
use crate::records::{Bytes, LONGEST};

/// The records of a drill, settings first. The last piece may be cut, or begin with a length that ends the drill; the rest of the bytes is in it.
pub fn pieces(bytes: &[u8]) -> Vec<&[u8]> {
    let mut pieces = Vec::new();
    let mut rest = bytes;
    while !rest.is_empty() {
        let (piece, behind) = rest.split_at(first(rest));
        pieces.push(piece);
        rest = behind;
    }
    pieces
}

/// How many bytes the first record has; all of them, if it is the last that is read.
fn first(bytes: &[u8]) -> usize {
    match length(bytes) {
        Some(length) if length <= bytes.len() - 2 => 2 + length,
        _ => bytes.len(),
    }
}

/// The length that a record begins with, if the program takes it.
pub fn length(bytes: &[u8]) -> Option<usize> {
    let [low, high, ..] = bytes else {
        return None;
    };
    let length = usize::from(u16::from_le_bytes([*low, *high]));
    (2..=LONGEST).contains(&length).then_some(length)
}

/// The records of a drill, in words where there are any.
pub fn records(bytes: &[u8]) -> Vec<Record> {
    pieces(bytes).into_iter().map(Record::of).collect()
}

/// The bytes of these records.
pub fn joined<'r>(records: impl IntoIterator<Item = &'r Record>) -> Bytes {
    records.into_iter().flat_map(Record::bytes).collect()
}

#[cfg(test)]
mod tests {
    use super::*;

    #[test]
    fn a_bad_length_takes_all_that_follows() {
        let tick: &[u8] = &[2, 0, 1, 0];
        let whole = [tick, tick].concat();
        assert_eq!(pieces(&whole), [tick, tick]);
        for end in [&[0, 0, 1, 0][..], &[1, 0], &[0x0A, 4], &[9, 0, 1], &[7]] {
            let bytes = [tick, end].concat();
            assert_eq!(pieces(&bytes), [tick, end]);
        }
        assert!(pieces(&[]).is_empty());
    }
}
