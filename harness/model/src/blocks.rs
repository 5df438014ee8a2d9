//! Attribute blocks: the reader, which tests the whole block first, and the writer.
//! A station whose block has an unknown mandatory entry is behind and shows no values.

use crate::faults::{wrong, Fault};

/// Result number of the writer for arguments out of range.
const OUT_OF_RANGE: u8 = 4;
/// Result number of the writer for too small a buffer.
const TOO_SMALL: u8 = 1;

/// Weights and reserved bandwidths, ringlet 0 first.
#[derive(Clone, Copy, Debug, PartialEq, Eq)]
pub struct Values {
    /// 1 to 255 each.
    pub weights: [u8; 2],
    /// 0 if nothing is reserved.
    pub bandwidths: [u16; 2],
}

impl Values {
    /// What absent entries mean.
    pub const ABSENT: Values = Values {
        weights: [1, 1],
        bandwidths: [0, 0],
    };
}

/// What a station's last block left.
#[derive(Clone, Copy, Debug, PartialEq, Eq)]
pub enum Attributes {
    /// The block was taken.
    Known(Values),
    /// The block was set aside; the first mandatory unknown type.
    Behind(u16),
}

/// What reading a block gives.
#[derive(Clone, Copy, Debug, PartialEq, Eq)]
pub enum Reading {
    /// Result 8.
    Malformed,
    /// Result 24 or 0.
    Whole(Attributes),
}

/// One entry of a block.
struct Entry<'a> {
    mandatory: bool,
    kind: u16,
    value: &'a [u8],
}

/// Takes the first entry off a block that is not empty; none if it does not fit.
fn entry<const F: u8>(block: &[u8]) -> Option<(Entry<'_>, &[u8])> {
    let (head, rest) = block.split_first_chunk::<4>()?;
    let first = u16::from_be_bytes([head[0], head[1]]);
    let second = u16::from_be_bytes([head[2], head[3]]);
    let length = if wrong::<F>(Fault::ReservedBitsRead) {
        second
    } else {
        second & 0x03FF
    };
    let (value, rest) = rest.split_at_checked(usize::from(length))?;
    let entry = Entry {
        mandatory: first & 0x8000 != 0,
        kind: first & 0x03FF,
        value,
    };
    Some((entry, rest))
}

/// What the entries read so far gave.
struct Progress {
    weights: Option<[u8; 2]>,
    bandwidths: Option<[u16; 2]>,
    unknown: Option<u16>,
    bits: [bool; 2],
}

impl Progress {
    /// Takes one entry; none if it makes the block malformed.
    fn take<const F: u8>(&mut self, level: u8, entry: &Entry) -> Option<()> {
        match entry.kind {
            1 | 2 if wrong::<F>(Fault::OptionalUntested) && !entry.mandatory => {}
            1 => {
                let twice = self.weights.is_some();
                self.once::<F>(0, twice, entry)?;
                self.weights = Some(weights(entry.value)?);
            }
            2 if level >= 2 || wrong::<F>(Fault::LevelIgnored) => {
                let twice = self.bandwidths.is_some();
                self.once::<F>(1, twice, entry)?;
                self.bandwidths = Some(bandwidths::<F>(entry.value)?);
            }
            0 if wrong::<F>(Fault::TypeZeroSkipped) => {}
            kind if entry.mandatory => {
                self.unknown.get_or_insert(kind);
            }
            _ => {}
        }
        Some(())
    }

    /// A known type may come once, whatever its mandatory bits.
    fn once<const F: u8>(&mut self, known: usize, twice: bool, entry: &Entry) -> Option<()> {
        let alike = self.bits[known] == entry.mandatory;
        if twice && (alike || !wrong::<F>(Fault::TwiceByMandatoryBit)) {
            return None;
        }
        self.bits[known] = entry.mandatory;
        Some(())
    }

    fn attributes(self) -> Attributes {
        match self.unknown {
            Some(kind) => Attributes::Behind(kind),
            None => Attributes::Known(Values {
                weights: self.weights.unwrap_or(Values::ABSENT.weights),
                bandwidths: self.bandwidths.unwrap_or(Values::ABSENT.bandwidths),
            }),
        }
    }
}

fn weights(value: &[u8]) -> Option<[u8; 2]> {
    let weights = <[u8; 2]>::try_from(value).ok()?;
    (!weights.contains(&0)).then_some(weights)
}

fn bandwidths<const F: u8>(value: &[u8]) -> Option<[u16; 2]> {
    let &[a, b, c, d] = value else {
        return None;
    };
    if wrong::<F>(Fault::ReservedLowFirst) {
        return Some([u16::from_le_bytes([a, b]), u16::from_le_bytes([c, d])]);
    }
    Some([u16::from_be_bytes([a, b]), u16::from_be_bytes([c, d])])
}

/// Reads a block at a level.
pub fn read<const F: u8>(level: u8, block: &[u8]) -> Reading {
    let mut progress = Progress {
        weights: None,
        bandwidths: None,
        unknown: None,
        bits: [false; 2],
    };
    let mut rest = block;
    while !rest.is_empty() {
        if wrong::<F>(Fault::MandatoryStops) && progress.unknown.is_some() {
            break;
        }
        let Some((entry, after)) = entry::<F>(rest) else {
            return Reading::Malformed;
        };
        if progress.take::<F>(level, &entry).is_none() {
            return Reading::Malformed;
        }
        rest = after;
    }
    Reading::Whole(progress.attributes())
}

/// Writes a block: result number and length. A refusal writes nothing and gives length 0.
pub fn write_block(level: u32, values: Values, out: &mut [u8]) -> (u8, usize) {
    let Values {
        weights: [w0, w1],
        bandwidths: [b0, b1],
    } = values;
    let reserved = b0 > 0 || b1 > 0;
    if !(1..=2).contains(&level) || w0 == 0 || w1 == 0 || (level == 1 && reserved) {
        return (OUT_OF_RANGE, 0);
    }
    let ([b0h, b0l], [b1h, b1l]) = (b0.to_be_bytes(), b1.to_be_bytes());
    let whole = [0x80, 1, 0, 2, w0, w1, 0x80, 2, 0, 4, b0h, b0l, b1h, b1l];
    let block = if level == 1 { &whole[..6] } else { &whole[..] };
    let Some(room) = out.get_mut(..block.len()) else {
        return (TOO_SMALL, 0);
    };
    room.copy_from_slice(block);
    (0, block.len())
}

#[cfg(test)]
mod tests {
    use super::*;
    use crate::faults::RIGHT;

    fn at(level: u8, block: &[u8]) -> Reading {
        read::<RIGHT>(level, block)
    }

    fn known(weights: [u8; 2], bandwidths: [u16; 2]) -> Reading {
        Reading::Whole(Attributes::Known(Values {
            weights,
            bandwidths,
        }))
    }

    fn behind(kind: u16) -> Reading {
        Reading::Whole(Attributes::Behind(kind))
    }

    #[test]
    fn p7_to_p10() {
        assert_eq!(at(2, &[0x80, 1, 0, 2, 3, 5]), known([3, 5], [0, 0]));
        assert_eq!(at(2, &[]), known([1, 1], [0, 0]));
        let block = [0x80, 2, 0, 4, 3, 0xE8, 0, 0];
        assert_eq!(at(1, &block), behind(2));
        assert_eq!(at(2, &block), known([1, 1], [1_000, 0]));
        assert_eq!(at(1, &[0, 2, 0, 4, 3, 0xE8, 0, 0]), known([1, 1], [0, 0]));
    }

    #[test]
    fn every_way_to_be_malformed() {
        let bad: [&[u8]; 9] = [
            &[0x80],
            &[0x80, 1, 0],
            &[0x80, 1, 0, 2, 1],
            &[0x80, 1, 0, 3, 1, 1, 1],
            &[0x80, 1, 0, 2, 0, 1],
            &[0x80, 1, 0, 2, 1, 0],
            &[0x80, 1, 0, 2, 1, 1, 0, 1, 0, 2, 1, 1],
            &[0x80, 9, 0, 0, 0x80, 1, 0, 2, 1, 0],
            &[0, 9, 3, 0xFF, 0],
        ];
        for block in bad {
            assert_eq!(at(1, block), Reading::Malformed, "{block:?}");
            assert_eq!(at(2, block), Reading::Malformed, "{block:?}");
        }
        assert_eq!(at(2, &[0x80, 2, 0, 3, 0, 0, 0]), Reading::Malformed);
        assert_eq!(at(1, &[0x80, 2, 0, 3, 0, 0, 0]), behind(2));
    }

    #[test]
    fn first_unknown_mandatory_type_is_kept() {
        assert_eq!(at(2, &[0x80, 0, 0, 0]), behind(0));
        let block = [0, 7, 0, 0, 0x83, 0xFF, 0, 0, 0x80, 5, 0, 0, 0x80, 5, 0, 0];
        assert_eq!(at(2, &block), behind(1_023));
    }

    #[test]
    fn reserved_bits_are_ignored() {
        assert_eq!(at(1, &[0xFC, 1, 0xFC, 2, 9, 8]), known([9, 8], [0, 0]));
        assert_eq!(at(1, &[0x7C, 1, 0, 2, 9, 8]), known([9, 8], [0, 0]));
    }

    fn values(weights: [u8; 2], bandwidths: [u16; 2]) -> Values {
        Values {
            weights,
            bandwidths,
        }
    }

    #[test]
    fn writer_and_reader_agree() {
        let mut out = [0xEE; 16];
        let given = values([7, 255], [1, 0xFFFE]);
        assert_eq!(write_block(2, given, &mut out), (0, 14));
        assert_eq!(at(2, &out[..14]), known([7, 255], [1, 0xFFFE]));
        assert_eq!(at(1, &out[..14]), behind(2));
        assert_eq!(out[14..], [0xEE; 2]);
        let mut six = [0; 6];
        assert_eq!(write_block(1, values([1, 1], [0, 0]), &mut six), (0, 6));
        assert_eq!(six, [0x80, 1, 0, 2, 1, 1]);
    }

    #[test]
    fn writer_refuses_4_before_1_and_writes_nothing() {
        let mut out = [0xEE; 13];
        let good = values([1, 1], [0, 0]);
        for level in [0, 3, u32::MAX] {
            assert_eq!(write_block(level, good, &mut out), (4, 0));
        }
        assert_eq!(write_block(2, values([0, 1], [0, 0]), &mut []), (4, 0));
        assert_eq!(write_block(2, values([1, 0], [0, 0]), &mut []), (4, 0));
        assert_eq!(write_block(1, values([1, 1], [0, 1]), &mut []), (4, 0));
        assert_eq!(write_block(2, good, &mut out), (1, 0));
        assert_eq!(write_block(1, good, &mut out[..5]), (1, 0));
        assert_eq!(out, [0xEE; 13]);
    }
}
