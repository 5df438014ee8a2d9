//! Bytes of every sort through every call. Debug builds also check each sum and each place.

use model::faults::{Fault, RIGHT};
use model::{drill, planner, write_block, Node, Values};

/// Splitmix64: enough chance for a test.
struct Chance(u64);

impl Chance {
    fn next(&mut self) -> u64 {
        self.0 = self.0.wrapping_add(0x9E37_79B9_7F4A_7C15);
        let z = (self.0 ^ (self.0 >> 30)).wrapping_mul(0xBF58_476D_1CE4_E5B9);
        let z = (z ^ (z >> 27)).wrapping_mul(0x94D0_49BB_1331_11EB);
        z ^ (z >> 31)
    }

    fn below(&mut self, limit: u64) -> u64 {
        self.next() % limit
    }

    fn byte(&mut self) -> u8 {
        // Small numbers are fields in range; the rest are not.
        let byte = self.next() as u8;
        if self.below(4) == 0 {
            byte
        } else {
            byte % 8
        }
    }

    fn record(&mut self) -> Vec<u8> {
        let lengths = [0, 1, 2, 4, 12, 7, 11, 15];
        let length = lengths[self.below(8) as usize];
        let mut record = vec![2 + length, 0, self.byte(), 0];
        record.extend((0..length).map(|_| self.byte()));
        if record[2] == 5 && length == 12 {
            record[6] |= 0xC0;
        }
        record
    }
}

#[test]
fn random_records() {
    let mut chance = Chance(1);
    let (_, mut node) = Node::start(&[8, 0, 33, 0, 2, 2, 2, 2, 2, 2]);
    for _ in 0..200_000 {
        let mut record = chance.record();
        if chance.below(16) == 0 {
            let at = chance.next() as usize % record.len();
            record[at] = chance.byte();
        }
        let room = [6, 7, 7, 7, 20, 70, 7_000, 7_000][chance.below(8) as usize];
        node.record(&record, &mut vec![0; room]);
        assert!(node.station_count() <= 126);
        let address = chance.next() >> chance.below(64);
        node.steer(address);
        node.runs();
        node.attributes(address);
        let own = [chance.next() as u16, chance.byte().into()];
        node.free_bandwidth(chance.next() as u32 >> chance.below(32), own);
    }
}

#[test]
fn random_bytes_as_a_drill() {
    let mut chance = Chance(2);
    for _ in 0..2_000 {
        let mut input = vec![8, 0, 33, 0, 2, 2, 2, 2, 2, 2];
        input.extend((0..200).map(|_| chance.byte()));
        let start = chance.next() as usize % input.len();
        drill::say::<RIGHT>(&input);
        drill::say::<RIGHT>(&input[start..]);
        for fault in Fault::all() {
            fault.drill()(&input);
        }
    }
}

#[test]
fn random_records_as_a_plan() {
    let mut chance = Chance(4);
    for _ in 0..500 {
        let mut input = vec![8, 0, 33, 0, 2, 2, 2, 2, 2, 2];
        for _ in 0..60 {
            input.extend(chance.record());
            input.extend([10, 0, 41, 0]);
            input.extend((0..8).map(|_| chance.byte()));
        }
        let start = chance.next() as usize % input.len();
        planner::say::<RIGHT>(&input[start..]);
        for fault in Fault::all() {
            fault.planner()(&input);
        }
    }
}

#[test]
fn random_blocks_to_write() {
    let mut chance = Chance(3);
    for _ in 0..10_000 {
        let values = Values {
            weights: [chance.byte(), chance.byte()],
            bandwidths: [chance.next() as u16, chance.byte().into()],
        };
        let level = u32::from(chance.byte());
        let mut out = vec![0; usize::from(chance.byte() % 20)];
        write_block(level, values, &mut out);
    }
}
