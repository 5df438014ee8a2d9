//! Each number a call can return, and that a refusal leaves state and output alone.

use model::{Node, Shown, Way};

const SETTINGS: [u8; 19] = [
    0x11, 0, 0x20, 0, 2, 2, 0, 0, 0, 0, 1, 0, 0, 0, 0x32, 0x0A, 2, 0x0A, 0,
];
const REPORT: [u8; 16] = [14, 0, 5, 0, 0, 0, 255, 2, 0, 0, 0, 0, 2, 7, 0, 0];
const ATTRIBUTES: [u8; 11] = [9, 0, 6, 0, 0, 2, 0, 0, 0, 0, 2];

fn started() -> Node {
    let (result, node) = Node::start(&SETTINGS);
    assert_eq!(result, 0);
    node
}

fn with_station() -> Node {
    let mut node = started();
    assert_eq!(node.record(&REPORT, &mut [0; 7]), (0, 0));
    node
}

fn changed<const N: usize>(record: [u8; N], changes: &[(usize, u8)]) -> [u8; N] {
    let mut record = record;
    for &(at, byte) in changes {
        record[at] = byte;
    }
    record
}

/// Gives a record that must be refused and looks whether anything moved.
fn refused(node: &mut Node, record: &[u8]) -> u8 {
    let before = format!("{node:?}");
    let mut out = [0xEE; 7];
    let (result, reports) = node.record(record, &mut out);
    assert_eq!(reports, 0);
    assert_eq!(out, [0xEE; 7]);
    assert_eq!(before, format!("{node:?}"), "state after {record:?}");
    result
}

#[test]
fn number_1_comes_first() {
    let mut node = started();
    let before = format!("{node:?}");
    for record in [&[][..], &[2, 0, 1, 0], &[1, 2, 3]] {
        let mut out = [0xEE; 6];
        assert_eq!(node.record(record, &mut out), (1, 0));
        assert_eq!(out, [0xEE; 6]);
    }
    assert_eq!(before, format!("{node:?}"));
}

#[test]
fn number_2() {
    let mut node = started();
    for record in [&[][..], &[2], &[1, 0, 1], &[3, 0, 1, 0], &[2, 0, 1, 0, 9]] {
        assert_eq!(refused(&mut node, record), 2);
    }
    let mut long = vec![0; 1_036];
    long[..4].copy_from_slice(&[0x0A, 0x04, 6, 0]);
    assert_eq!(refused(&mut node, &long), 2);
    assert_eq!(refused(&mut node, &vec![2; 70_000]), 2);
}

#[test]
fn number_3_before_the_body_length() {
    let mut node = started();
    for kind in [0, 8, 9, 15, 16, 32, 33, 34, 40, 48, 255] {
        assert_eq!(refused(&mut node, &[2, 0, kind, 0]), 3);
        assert_eq!(refused(&mut node, &[4, 0, kind, 0, 9, 9]), 3);
    }
    assert_eq!(refused(&mut node, &[2, 0, 1, 1]), 3);
    assert_eq!(refused(&mut node, &[4, 0, 7, 1, 1, 0]), 3);
}

#[test]
fn number_4_for_body_lengths() {
    let mut node = with_station();
    let bodies = [(1, 0), (2, 2), (3, 1), (4, 2), (5, 12), (7, 2)];
    for (kind, good) in bodies {
        for length in (0..20).filter(|&length| length != good) {
            let mut record = vec![2 + length, 0, kind, 0];
            record.extend(vec![0; usize::from(length)]);
            assert_eq!(refused(&mut node, &record), 4, "kind {kind}, {length}");
        }
    }
    for length in 0..7 {
        let mut record = vec![2 + length, 0, 6, 0];
        record.extend(vec![0; usize::from(length)]);
        assert_eq!(refused(&mut node, &record), 4);
    }
}

#[test]
fn number_4_for_fields() {
    let mut node = with_station();
    for (kind, fields) in [(2, [2, 0]), (2, [0, 3]), (4, [2, 0]), (4, [0, 1])] {
        let [span, value] = fields;
        assert_eq!(refused(&mut node, &[4, 0, kind, 0, span, value]), 4);
    }
    for request in [1, 3, 4, 6, 255] {
        assert_eq!(refused(&mut node, &[4, 0, 4, 0, 1, request]), 4);
    }
    assert_eq!(refused(&mut node, &[3, 0, 3, 0, 2]), 4);
    for (at, byte) in [(4, 2), (5, 2), (6, 0), (7, 3), (14, 6), (15, 6)] {
        assert_eq!(refused(&mut node, &changed(REPORT, &[(at, byte)])), 4);
    }
    for count in [0, 1_001, 0xE803, 65_535_u16] {
        let [low, high] = count.to_le_bytes();
        assert_eq!(refused(&mut node, &[4, 0, 7, 0, low, high]), 4, "{count}");
    }
    for (at, byte) in [(4, 2), (5, 3)] {
        assert_eq!(refused(&mut node, &changed(ATTRIBUTES, &[(at, byte)])), 4);
    }
}

#[test]
fn number_5_before_6_and_before_the_mark() {
    let mut node = with_station();
    let own = changed(REPORT, &[(12, 1)]);
    assert_eq!(refused(&mut node, &own), 5);
    assert_eq!(refused(&mut node, &changed(own, &[(6, 100)])), 5);
    assert_eq!(refused(&mut node, &changed(own, &[(5, 1)])), 5);
    assert_eq!(refused(&mut node, &changed(ATTRIBUTES, &[(10, 1)])), 5);
}

#[test]
fn number_6() {
    let mut node = with_station();
    for ttl in [1, 100, 192] {
        assert_eq!(refused(&mut node, &changed(REPORT, &[(6, ttl)])), 6);
    }
}

#[test]
fn numbers_7_and_8_after_21() {
    let mut node = with_station();
    let unknown = changed(ATTRIBUTES, &[(10, 9)]);
    assert_eq!(refused(&mut node, &unknown), 7);
    let malformed = [10, 0, 6, 0, 0, 2, 0, 0, 0, 0, 2, 0x80];
    assert_eq!(refused(&mut node, &malformed), 8);
    assert_eq!(refused(&mut node, &changed(malformed, &[(10, 9)])), 7);
    node.record(&[4, 0, 2, 0, 0, 2], &mut [0; 7]);
    assert_eq!(node.record(&unknown, &mut [0; 7]), (21, 0));
    assert_eq!(node.record(&malformed, &mut [0; 7]), (21, 0));
}

#[test]
fn number_20_sets_the_mark_at_hop_1_alone() {
    let mut node = with_station();
    let far = changed(REPORT, &[(5, 1), (6, 254)]);
    assert_eq!(node.record(&far, &mut [0; 7]), (20, 0));
    assert_eq!((node.west_request(), node.station_count()), (0, 1));
    let near = changed(REPORT, &[(5, 1)]);
    assert_eq!(node.record(&near, &mut [0; 7]), (20, 1));
    assert_eq!((node.west_request(), node.station_count()), (4, 0));
    // Only a right report at hop 1 clears it, and is learned in the same event.
    let right = changed(REPORT, &[(6, 254)]);
    assert_eq!(node.record(&right, &mut [0; 7]), (21, 0));
    assert_eq!(node.record(&REPORT, &mut [0; 7]), (0, 1));
    assert_eq!((node.west_request(), node.station_count()), (0, 1));
}

#[test]
fn numbers_22_and_24_and_a_64th_station() {
    let mut node = with_station();
    let old = changed(REPORT, &[(13, 6)]);
    assert_eq!(node.record(&old, &mut [0; 7]), (22, 0));
    let unknown = [13, 0, 6, 0, 0, 2, 0, 0, 0, 0, 2, 0x80, 0, 0, 0];
    assert_eq!(node.record(&unknown, &mut [0; 7]), (24, 0));
    let behind = Shown {
        reply: 1,
        ..Shown::default()
    };
    assert_eq!(node.attributes(0x0200_0000_0002), behind);
    for hop in 2..=63_u8 {
        let report = changed(REPORT, &[(6, hop.wrapping_neg()), (12, hop + 1)]);
        assert_eq!(node.record(&report, &mut [0; 7]).0, 0);
    }
    let newcomer = changed(REPORT, &[(4, 1), (5, 1), (12, 200)]);
    assert_eq!(node.record(&newcomer, &mut [0; 7]), (0, 0));
    assert_eq!(node.station_count(), 64);
}

#[test]
fn refused_start_has_the_defaults_and_address_zero() {
    let refusals = [
        (2, &SETTINGS[..18]),
        (2, &[]),
        (3, &[2, 0, 1, 0]),
        (4, &[2, 0, 32, 0]),
    ];
    for (number, record) in refusals {
        let (result, mut node) = Node::start(record);
        assert_eq!(result, number);
        let zero = changed(REPORT, &[(7, 0), (12, 0)]);
        assert_eq!(refused(&mut node, &zero), 5);
        for _ in 0..3 {
            assert_eq!(node.west_request(), 0);
            node.record(&[2, 0, 1, 0], &mut [0; 7]);
        }
        assert_eq!((node.west_request(), node.east_request()), (4, 4));
    }
}

#[test]
fn addresses_no_station_can_have_are_3() {
    let node = with_station();
    let not_there = Shown {
        reply: 3,
        ..Shown::default()
    };
    let no_way = Way {
        reply: 3,
        ..Way::default()
    };
    for address in [0x0200_0000_0001, 0x0300_0000_0002, 1 << 48, u64::MAX] {
        assert_eq!(node.steer(address), no_way);
        assert_eq!(node.attributes(address), not_there);
    }
}
