//! Attribute blocks, good and damaged in every way that the rules name.

use text::records::LONGEST_BLOCK;

use crate::chance::Chance;

/// Types no level knows, those beside the known ones, and known ones with a high bit added.
const UNKNOWN: [u16; 14] = [0, 0, 3, 4, 5, 128, 129, 256, 257, 258, 512, 513, 514, 1_023];

/// One block. Most are whole; the rest have one damage or are made of anything.
pub fn block(chance: &mut Chance) -> Vec<u8> {
    let mut block = match chance.below(20) {
        0 => anything(chance),
        1 => Vec::new(),
        2 => filled(chance),
        _ => entries(chance),
    };
    if chance.percent(25) {
        damage(chance, &mut block);
    }
    block.truncate(LONGEST_BLOCK);
    block
}

/// A block that reserves this much on each ringlet, with other entries that may be optional and unknown.
pub fn reserving(chance: &mut Chance, bandwidths: [u16; 2]) -> Vec<u8> {
    let [[a, b], [c, d]] = bandwidths.map(u16::to_be_bytes);
    let mut list = vec![reserved(chance, [a, b, c, d])];
    if chance.percent(30) {
        list.push(weights(chance));
    }
    if chance.percent(15) {
        list.push(unknown(chance, false));
    }
    chance.shuffle(&mut list);
    list.concat()
}

/// A block that no level knows all of, so that it is set aside. What it reserves does not count.
pub fn set_aside(chance: &mut Chance) -> Vec<u8> {
    let mut list = vec![unknown(chance, true)];
    if chance.percent(40) {
        list.push(bandwidths(chance));
    }
    if chance.percent(20) {
        list.push(unknown(chance, true));
    }
    chance.shuffle(&mut list);
    list.concat()
}

/// Known types at most once, among unknown ones, in any order.
fn entries(chance: &mut Chance) -> Vec<u8> {
    let mut list = Vec::new();
    if chance.percent(60) {
        list.push(weights(chance));
    }
    if chance.percent(50) {
        list.push(bandwidths(chance));
    }
    let mandatory = chance.percent(35);
    for _ in 0..chance.pick(&[0, 0, 1, 1, 2, 4]) {
        let bit = mandatory && chance.percent(60);
        list.push(unknown(chance, bit));
    }
    chance.shuffle(&mut list);
    list.concat()
}

/// An entry with these heads; reserved bits are set now and then.
fn entry(chance: &mut Chance, mandatory: bool, kind: u16, length: usize, value: &[u8]) -> Vec<u8> {
    let reserved = if chance.percent(20) {
        (chance.byte() & 0x7C, chance.byte() & 0xFC)
    } else {
        (0, 0)
    };
    let first = kind | (u16::from(mandatory) << 15) | (u16::from(reserved.0) << 8);
    let second = (length as u16 & 0x03FF) | (u16::from(reserved.1) << 8);
    let mut bytes = first.to_be_bytes().to_vec();
    bytes.extend(second.to_be_bytes());
    bytes.extend(value);
    bytes
}

fn weight(chance: &mut Chance) -> u8 {
    let any = chance.byte().max(1);
    chance.pick(&[1, 2, 255, any, any])
}

fn weights(chance: &mut Chance) -> Vec<u8> {
    let value = [weight(chance), weight(chance)];
    let bit = chance.percent(70);
    entry(chance, bit, 1, 2, &value)
}

fn bandwidths(chance: &mut Chance) -> Vec<u8> {
    let value = [chance.byte(), chance.byte(), chance.byte(), chance.byte()];
    reserved(chance, value)
}

fn reserved(chance: &mut Chance, value: [u8; 4]) -> Vec<u8> {
    let bit = chance.percent(60);
    entry(chance, bit, 2, 4, &value)
}

fn unknown(chance: &mut Chance, mandatory: bool) -> Vec<u8> {
    let kind = match chance.below(4) {
        0 => 3 + chance.below(1_021) as u16,
        _ => chance.pick(&UNKNOWN),
    };
    let length = match chance.below(10) {
        0 => chance.range(30, 400),
        1 => 255 + chance.below(3),
        _ => chance.below(7),
    };
    let value: Vec<u8> = (0..length).map(|_| chance.byte()).collect();
    entry(chance, mandatory, kind, length, &value)
}

/// A block filled up to the longest, or one byte beside it, by an unknown entry.
fn filled(chance: &mut Chance) -> Vec<u8> {
    let mut block = entries(chance);
    block.truncate(LONGEST_BLOCK);
    let room = LONGEST_BLOCK - block.len();
    if room >= 4 {
        let length = room - 4;
        let claimed = length + chance.pick(&[0, 0, 1]);
        let bit = chance.percent(30);
        let value = vec![0; length];
        let last = entry(chance, bit, 9, claimed, &value);
        block.extend(last);
    }
    block
}

fn anything(chance: &mut Chance) -> Vec<u8> {
    let length = chance.pick(&[1, 2, 3, 4, 8, 40]);
    (0..length)
        .map(|_| match chance.below(3) {
            0 => chance.byte(),
            1 => 0,
            _ => chance.pick(&[1, 2, 4, 0x80]),
        })
        .collect()
}

/// One of the faults that make a block malformed, before or behind what is there.
fn damage(chance: &mut Chance, block: &mut Vec<u8>) {
    let bit = chance.percent(50);
    let piece = match chance.below(9) {
        0 => entry(chance, bit, 1, 2, &[0, 5]),
        1 => entry(chance, bit, 1, 2, &[5, 0]),
        2 => wrong_length(chance, 1, 2),
        3 => wrong_length(chance, 2, 4),
        4 => [weights(chance), weights(chance)].concat(),
        5 => [bandwidths(chance), bandwidths(chance)].concat(),
        6 => {
            let more = chance.range(1, 3);
            vec![0; more]
        }
        7 => {
            let claimed = chance.pick(&[1, 2, 5, 1_023]);
            entry(chance, bit, 6, claimed, &[])
        }
        _ => {
            let left = block.len().saturating_sub(chance.range(1, 5));
            block.truncate(left);
            return;
        }
    };
    if chance.percent(60) {
        block.extend(piece);
    } else {
        block.splice(..0, piece);
    }
}

fn wrong_length(chance: &mut Chance, kind: u16, right: usize) -> Vec<u8> {
    let lengths = [0, 1, 2, 3, 4, 5, 6, 258];
    let length = chance.pick(&lengths);
    let length = if length == right { right + 1 } else { length };
    let bit = chance.percent(50);
    entry(chance, bit, kind, length, &vec![1; length])
}

#[cfg(test)]
mod tests {
    use super::*;
    use model::blocks::{read, Attributes, Reading};
    use model::faults::RIGHT;

    #[test]
    fn what_is_reserved_is_read_and_what_is_set_aside_is_not() {
        let mut chance = Chance::new(6);
        for _ in 0..2_000 {
            let reserve = reserving(&mut chance, [0x1234, 65_535]);
            let read_back = match read::<RIGHT>(2, &reserve) {
                Reading::Whole(Attributes::Known(values)) => values.bandwidths,
                other => panic!("{other:?}"),
            };
            assert_eq!(read_back, [0x1234, 65_535]);
            let aside = read::<RIGHT>(2, &set_aside(&mut chance));
            assert!(matches!(aside, Reading::Whole(Attributes::Behind(_))));
        }
    }

    #[test]
    fn all_three_readings_come_often_at_both_levels() {
        let mut chance = Chance::new(5);
        for level in [1, 2] {
            let mut seen = [0; 3];
            for _ in 0..3_000 {
                let block = block(&mut chance);
                assert!(block.len() <= LONGEST_BLOCK);
                let which = match read::<RIGHT>(level, &block) {
                    Reading::Malformed => 0,
                    Reading::Whole(Attributes::Known(_)) => 1,
                    Reading::Whole(Attributes::Behind(_)) => 2,
                };
                seen[which] += 1;
            }
            assert!(seen.iter().all(|&count| count > 300), "{seen:?}");
        }
    }
}
