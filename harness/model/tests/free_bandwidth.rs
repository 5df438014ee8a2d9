//! Free bandwidth, with every number worked out by hand.

use model::{Free, Node};

/// The settings of the worked drill: level 2, keepalive 50, forget 1,000 ms; the own address ends in 1.
const SETTINGS: [u8; 19] = [
    0x11, 0, 0x20, 0, 2, 2, 0, 0, 0, 0, 1, 0, 0, 0, 0x32, 0x0A, 2, 0x0A, 0,
];
/// Addresses by their last byte.
const B: u8 = 2;
const C: u8 = 3;
const D: u8 = 4;
/// What B, C and D reserve: 700 on ringlet 0 and 70 on ringlet 1.
const RESERVED: [(u8, [u16; 2]); 3] = [(B, [100, 10]), (C, [200, 20]), (D, [400, 40])];
/// A block with a mandatory entry of type 9, which no level knows.
const UNKNOWN: [u8; 4] = [0x80, 9, 0, 0];

fn started(level: u8) -> Node {
    let mut record = SETTINGS;
    record[4] = level;
    let (result, node) = Node::start(&record);
    assert_eq!(result, 0);
    node
}

fn address(last: u8) -> u64 {
    0x0200_0000_0000 + u64::from(last)
}

fn give(node: &mut Node, record: &[u8]) -> u8 {
    node.record(record, &mut [0; 7]).0
}

/// Hears a station at a hop of a ringlet.
fn hear(node: &mut Node, last: u8, ringlet: u8, hop: u8) {
    let ttl = hop.wrapping_neg();
    let head = [14, 0, 5, 0, ringlet, ringlet, ttl];
    let rest = [2, 0, 0, 0, 0, last, 0, 0, 0];
    assert_eq!(give(node, &[&head[..], &rest].concat()), 0);
}

/// Hears a block over the west span.
fn block(node: &mut Node, last: u8, block: &[u8]) -> u8 {
    let length = u8::try_from(9 + block.len()).unwrap();
    let head = [length, 0, 6, 0, 0, 2, 0, 0, 0, 0, last];
    give(node, &[&head, block].concat())
}

fn reserve(node: &mut Node, last: u8, bandwidths: [u16; 2]) {
    let [zero, one] = bandwidths.map(u16::to_be_bytes);
    let head = [0x80, 2, 0, 4];
    assert_eq!(block(node, last, &[&head[..], &zero, &one].concat()), 0);
}

fn reserve_all(node: &mut Node) {
    for (last, bandwidths) in RESERVED {
        reserve(node, last, bandwidths);
    }
}

fn free(zero: i64, one: i64, defect: bool) -> Free {
    Free {
        result: 0,
        address: 0,
        ringlets: [zero, one],
        defect,
    }
}

fn refused(result: u8, address: u64) -> Free {
    Free {
        result,
        address,
        ringlets: [0, 0],
        defect: false,
    }
}

/// B and C to the west, D to the east.
fn open_ring() -> Node {
    let mut node = started(2);
    for (last, ringlet, hop) in [(B, 0, 1), (C, 0, 2), (D, 1, 1)] {
        hear(&mut node, last, ringlet, hop);
    }
    reserve_all(&mut node);
    node
}

#[test]
fn own_reservations_alone() {
    let node = started(2);
    assert_eq!(node.free_bandwidth(0, [0, 0]), free(0, 0, false));
    assert_eq!(
        node.free_bandwidth(1_000, [300, 1_000]),
        free(700, 0, false)
    );
    assert_eq!(
        node.free_bandwidth(1_000, [1_000, 1_001]),
        free(0, -1, true)
    );
    assert_eq!(
        node.free_bandwidth(0, [65_535, 0]),
        free(-65_535, 0, true),
        "each own reservation is its own ringlet's"
    );
}

#[test]
fn an_open_ring_counts_each_station_on_both_ringlets() {
    let node = open_ring();
    // 5,000 - 1,000 - 700 and 5,000 - 2,000 - 70.
    let given = node.free_bandwidth(5_000, [1_000, 2_000]);
    assert_eq!(given, free(3_300, 2_930, false));
}

#[test]
fn a_closed_ring_counts_each_station_once() {
    let mut node = open_ring();
    hear(&mut node, C, 1, 2);
    // One of three is heard on both ringlets; then all are.
    let given = node.free_bandwidth(5_000, [1_000, 2_000]);
    assert_eq!(given, free(3_300, 2_930, false));
    hear(&mut node, B, 1, 3);
    hear(&mut node, D, 0, 3);
    assert_eq!(
        node.hops().iter().filter(|(_, hops)| hops[0] > 0).count(),
        3
    );
    let given = node.free_bandwidth(5_000, [1_000, 2_000]);
    assert_eq!(given, free(3_300, 2_930, false));
}

#[test]
fn a_station_behind_a_gap_counts() {
    let mut node = started(2);
    for (last, ringlet, hop) in [(B, 0, 5), (C, 1, 63), (D, 0, 1)] {
        hear(&mut node, last, ringlet, hop);
    }
    reserve_all(&mut node);
    let reply = node.steer(address(B)).reply;
    assert_eq!(reply, 2, "nobody is heard at hops 2 to 4");
    assert_eq!(node.free_bandwidth(1_000, [0, 0]), free(300, 930, false));
}

#[test]
fn exactly_0_is_no_defect_and_one_less_is() {
    let node = open_ring();
    assert_eq!(
        node.free_bandwidth(1_700, [1_000, 0]),
        free(0, 1_630, false)
    );
    assert_eq!(
        node.free_bandwidth(1_700, [1_000, 1_630]),
        free(0, 0, false)
    );
    assert_eq!(
        node.free_bandwidth(1_699, [1_000, 0]),
        free(-1, 1_629, true)
    );
    assert_eq!(
        node.free_bandwidth(1_701, [1_000, 0]),
        free(1, 1_631, false)
    );
}

#[test]
fn below_zero_on_either_ringlet_is_the_defect() {
    let node = open_ring();
    assert_eq!(node.free_bandwidth(500, [0, 0]), free(-200, 430, true));
    assert_eq!(node.free_bandwidth(1_000, [0, 931]), free(300, -1, true));
    assert_eq!(node.free_bandwidth(700, [0, 631]), free(0, -1, true));
    assert_eq!(node.free_bandwidth(0, [0, 0]), free(-700, -70, true));
}

#[test]
fn the_lowest_numbers_there_are() {
    let mut node = started(2);
    for hop in 1..=63 {
        hear(&mut node, hop + 1, 0, hop);
        reserve(&mut node, hop + 1, [65_535, 65_535]);
    }
    // 63 stations and the own one: 64 times 65,535 is 4,194,240.
    let given = node.free_bandwidth(0, [65_535, 65_535]);
    assert_eq!(given, free(-4_194_240, -4_194_240, true));
    for hop in 1..=63 {
        hear(&mut node, hop + 64, 1, hop);
        reserve(&mut node, hop + 64, [65_535, 65_535]);
    }
    // 126 stations and the own one: 127 times 65,535 is 8,322,945.
    assert_eq!(node.station_count(), 126);
    let given = node.free_bandwidth(0, [65_535, 65_535]);
    assert_eq!(given, free(-8_322_945, -8_322_945, true));
    let given = node.free_bandwidth(65_535, [65_535, 0]);
    assert_eq!(given, free(-8_257_410, -8_191_875, true));
}

#[test]
fn every_one_of_126_places_counts_and_may_be_behind() {
    let mut node = started(2);
    for hop in 1..=63 {
        hear(&mut node, hop + 1, 0, hop);
        hear(&mut node, hop + 64, 1, hop);
    }
    for last in 2..=127 {
        reserve(&mut node, last, [u16::from(last), 1_000 + u16::from(last)]);
    }
    // 2 + 3 + .. + 127 is 8,127; and 126 times 1,000 more.
    let given = node.free_bandwidth(65_535, [0, 0]);
    assert_eq!(given, free(57_408, -68_592, true));
    for last in 2..=127 {
        assert_eq!(block(&mut node, last, &UNKNOWN), 24);
        let given = node.free_bandwidth(65_535, [0, 0]);
        assert_eq!(given, refused(31, address(last)), "{last}");
        reserve(&mut node, last, [0, 0]);
        let left = i64::from((last + 1..=127).map(u32::from).sum::<u32>());
        let given = node.free_bandwidth(65_535, [0, 0]);
        assert_eq!(given.ringlets[0], 65_535 - left, "{last}");
    }
    assert_eq!(node.free_bandwidth(0, [0, 0]), free(0, 0, false));
}

#[test]
fn rates_end_at_65_535() {
    let node = open_ring();
    assert_eq!(
        node.free_bandwidth(65_535, [0, 0]),
        free(64_835, 65_465, false)
    );
    for rate in [65_536, 65_537, 131_071, 1 << 24, u32::MAX] {
        assert_eq!(node.free_bandwidth(rate, [0, 0]), refused(4, 0), "{rate}");
    }
}

#[test]
fn a_station_that_is_behind_is_31() {
    let mut node = open_ring();
    assert_eq!(block(&mut node, C, &UNKNOWN), 24);
    let given = refused(31, address(C));
    assert_eq!(node.free_bandwidth(5_000, [0, 0]), given);
    assert_eq!(node.free_bandwidth(0, [1, 1]), given, "no defect is told");
    assert_eq!(node.free_bandwidth(65_536, [0, 0]), refused(4, 0));
}

#[test]
fn of_two_that_are_behind_the_lowest_is_told() {
    let mut node = open_ring();
    for last in [D, B] {
        assert_eq!(block(&mut node, last, &UNKNOWN), 24);
    }
    assert_eq!(node.free_bandwidth(0, [0, 0]), refused(31, address(B)));
    reserve(&mut node, B, [100, 10]);
    assert_eq!(node.free_bandwidth(0, [0, 0]), refused(31, address(D)));
    // D, which is heard on ringlet 1 alone, leaves with the east span.
    assert_eq!(give(&mut node, &[4, 0, 2, 0, 1, 2]), 0);
    assert_eq!(node.free_bandwidth(0, [0, 0]), free(-300, -30, true));
}

#[test]
fn behind_with_type_0_is_behind() {
    let mut node = open_ring();
    assert_eq!(block(&mut node, D, &[0x80, 0, 0, 0]), 24);
    assert_eq!(node.free_bandwidth(0, [0, 0]), refused(31, address(D)));
}

#[test]
fn level_1_is_32_after_4_and_before_31() {
    let mut node = started(1);
    assert_eq!(node.free_bandwidth(1_000, [0, 0]), refused(32, 0));
    hear(&mut node, B, 0, 1);
    assert_eq!(block(&mut node, B, &[0x80, 2, 0, 4, 0, 100, 0, 10]), 24);
    assert_eq!(node.free_bandwidth(1_000, [0, 0]), refused(32, 0));
    assert_eq!(node.free_bandwidth(65_535, [0, 0]), refused(32, 0));
    assert_eq!(node.free_bandwidth(65_536, [0, 0]), refused(4, 0));
}

#[test]
fn absent_reservations_are_0() {
    let mut node = started(2);
    hear(&mut node, B, 0, 1);
    assert_eq!(
        node.free_bandwidth(1_000, [0, 0]),
        free(1_000, 1_000, false)
    );
    // An optional entry counts like a mandatory one; a block without it takes it back.
    assert_eq!(block(&mut node, B, &[0, 2, 0, 4, 0, 100, 0, 10]), 0);
    assert_eq!(node.free_bandwidth(1_000, [0, 0]), free(900, 990, false));
    assert_eq!(block(&mut node, B, &[0x80, 1, 0, 2, 3, 5]), 0);
    assert_eq!(
        node.free_bandwidth(1_000, [0, 0]),
        free(1_000, 1_000, false)
    );
}

#[test]
fn a_station_set_aside_and_then_taken_again() {
    let mut node = open_ring();
    assert_eq!(block(&mut node, B, &UNKNOWN), 24);
    // Malformed: nothing changes, and B stays behind.
    assert_eq!(block(&mut node, B, &[0x80]), 8);
    assert_eq!(node.free_bandwidth(0, [0, 0]), refused(31, address(B)));
    reserve(&mut node, B, [0, 5]);
    assert_eq!(node.free_bandwidth(1_000, [0, 0]), free(400, 935, false));
}

#[test]
fn who_has_left_does_not_count_and_comes_back_without_reservations() {
    let mut node = open_ring();
    // A stranger displaces C, which has no other hop.
    hear(&mut node, 9, 0, 2);
    assert_eq!(node.free_bandwidth(1_000, [0, 0]), free(500, 950, false));
    hear(&mut node, C, 1, 7);
    assert_eq!(node.free_bandwidth(1_000, [0, 0]), free(500, 950, false));
    // All but D fall silent for the forget time of 1,000 ms; keepalives come.
    for tick in 0..1_000 {
        if tick == 500 {
            hear(&mut node, D, 1, 1);
        }
        for span in 0..2 {
            give(&mut node, &[3, 0, 3, 0, span]);
        }
        give(&mut node, &[2, 0, 1, 0]);
    }
    assert_eq!(node.station_count(), 1);
    assert_eq!(node.free_bandwidth(1_000, [0, 0]), free(600, 960, false));
    hear(&mut node, B, 0, 1);
    assert_eq!(node.free_bandwidth(1_000, [0, 0]), free(600, 960, false));
}
