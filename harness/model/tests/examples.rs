//! The worked drill, the twelve examples and that of the hold-off that runs on, through the public calls alone.

use model::drill;
use model::faults::RIGHT;
use model::{Node, Shown, Way};

/// The settings of the worked drill: level 2, no WTR, no hold-off, keepalive 50.
const SETTINGS: [u8; 19] = [
    0x11, 0, 0x20, 0, 2, 2, 0, 0, 0, 0, 1, 0, 0, 0, 0x32, 0x0A, 2, 0x0A, 0,
];
const TICK: [u8; 4] = [2, 0, 1, 0];
const B: u8 = 2;

fn started(level: u8, hold_off: u8) -> Node {
    let mut record = SETTINGS;
    (record[4], record[13]) = (level, hold_off);
    let (result, node) = Node::start(&record);
    assert_eq!(result, 0);
    node
}

fn address(last: u8) -> u64 {
    0x0200_0000_0000 + u64::from(last)
}

fn way(reply: u8, hops: u8) -> Way {
    // Nobody asks for anything, so that the first span with the worst request is span 1.
    Way {
        reply,
        hops,
        worst: 0,
        span: 1,
    }
}

fn link(span: u8, status: u8) -> Vec<u8> {
    vec![4, 0, 2, 0, span, status]
}

fn report(ringlet: u8, ttl: u8, last: u8, sequence: u8, requests: [u8; 2]) -> Vec<u8> {
    let [west, east] = requests;
    let mut record = vec![14, 0, 5, 0, ringlet, ringlet, ttl, 2, 0, 0, 0, 0, last];
    record.extend([sequence, west, east]);
    record
}

fn attributes(last: u8, block: &[u8]) -> Vec<u8> {
    let length = u16::try_from(9 + block.len()).unwrap().to_le_bytes();
    let mut record = vec![length[0], length[1], 6, 0, 0, 2, 0, 0, 0, 0, last];
    record.extend(block);
    record
}

fn give(node: &mut Node, record: &[u8]) -> u8 {
    node.record(record, &mut [0; 7]).0
}

/// Stores one sequence and hears another.
fn then_hears(stored: u8, heard: u8) -> (Node, u8) {
    let mut node = started(2, 0);
    assert_eq!(give(&mut node, &report(0, 255, B, stored, [0, 0])), 0);
    let result = give(&mut node, &report(0, 255, B, heard, [0, 0]));
    (node, result)
}

#[test]
fn worked_drill() {
    let mut input = SETTINGS.to_vec();
    input.extend(link(0, 2));
    input.extend(link(0, 0));
    input.extend(report(0, 255, B, 7, [0, 0]));
    input.extend(report(0, 255, B, 135, [0, 0]));
    input.extend(report(0, 255, B, 134, [0, 0]));
    input.extend([4, 0, 4, 0, 0, 2]);
    input.extend(link(0, 1));
    input.extend(TICK);
    let said = String::from_utf8(drill::say::<RIGHT>(&input)).unwrap();
    let lines = [
        "1 0 4 0 1 0 1",
        "2 0 0 0 2 0 1",
        "3 0 0 0 2 1 0",
        "4 0 0 0 2 1 0",
        "5 22 0 0 2 1 0",
        "6 0 2 0 3 1 1",
        "7 0 3 0 4 1 1",
        "8 0 3 0 4 1 0",
    ];
    assert_eq!(said, lines.join("\n") + "\n");
}

#[test]
fn p1_p2_p3_sequences() {
    assert_eq!(then_hears(200, 72).1, 0);
    assert_eq!(then_hears(200, 73).1, 22);
    let (mut node, result) = then_hears(7, 135);
    assert_eq!(result, 0);
    assert_eq!(give(&mut node, &report(0, 255, B, 7, [0, 0])), 0);
}

#[test]
fn p4_p5_hops() {
    let mut node = started(2, 0);
    assert_eq!(give(&mut node, &report(0, 255, B, 0, [0, 0])), 0);
    assert_eq!(node.steer(address(B)), way(0, 1));
    assert_eq!(give(&mut node, &report(0, 193, 3, 0, [0, 0])), 0);
    assert_eq!(node.station_count(), 2);
    assert_eq!(give(&mut node, &report(0, 192, 4, 0, [0, 0])), 6);
    // With every hop below it held, TTL 193 is reached: it is hop 63.
    for hop in 2..=62_u8 {
        let result = give(
            &mut node,
            &report(0, hop.wrapping_neg(), 10 + hop, 0, [0, 0]),
        );
        assert_eq!(
            (result, node.steer(address(3)).reply),
            (0, 2 * u8::from(hop < 62))
        );
    }
    assert_eq!(node.steer(address(3)), way(0, 63));
}

/// Ticks with keepalives coming, after each of which the west request is this one and the east IDLE.
fn lasts(node: &mut Node, ticks: usize, west: u8) {
    for tick in 1..=ticks {
        for span in 0..2 {
            give(node, &[3, 0, 3, 0, span]);
        }
        give(node, &TICK);
        let requests = (node.west_request(), node.east_request());
        assert_eq!(requests, (west, 0), "after {tick} ticks");
    }
}

#[test]
fn p6_hold_off_of_three_steps() {
    let mut node = started(2, 3);
    assert_eq!(give(&mut node, &link(0, 2)), 0);
    lasts(&mut node, 29, 0);
    lasts(&mut node, 1, 4);
}

#[test]
fn failed_then_degraded_after_two_of_three_steps() {
    let mut node = started(2, 3);
    assert_eq!(give(&mut node, &link(0, 2)), 0);
    lasts(&mut node, 20, 0);
    assert_eq!(give(&mut node, &link(0, 1)), 0);
    lasts(&mut node, 9, 0);
    lasts(&mut node, 1, 3);
}

fn shown_after(level: u8, block: &[u8]) -> (u8, Shown) {
    let mut node = started(level, 0);
    give(&mut node, &report(0, 255, B, 0, [0, 0]));
    let result = give(&mut node, &attributes(B, block));
    (result, node.attributes(address(B)))
}

#[test]
fn p7_to_p10_blocks() {
    let values = |weights| Shown {
        weights,
        ..Shown::default()
    };
    let p7 = shown_after(2, &[0x80, 1, 0, 2, 3, 5]);
    assert_eq!(p7, (0, values([3, 5])));
    assert_eq!(shown_after(2, &[]), (0, values([1, 1])));
    let behind = Shown {
        reply: 1,
        behind: 2,
        ..Shown::default()
    };
    let p9 = shown_after(1, &[0x80, 2, 0, 4, 3, 0xE8, 0, 0]);
    assert_eq!(p9, (24, behind));
    let p10 = shown_after(1, &[0, 2, 0, 4, 3, 0xE8, 0, 0]);
    assert_eq!(p10, (0, values([1, 1])));
}

#[test]
fn p11_p12_ways() {
    let mut node = started(2, 0);
    // Own A; B, C, D are 2, 3, 4: hops 1, 2, 3 west and 3, 2, 1 east.
    for (last, west, east) in [(2, 255, 253), (3, 254, 254), (4, 253, 255)] {
        give(&mut node, &report(0, west, last, 0, [0, 0]));
        give(&mut node, &report(1, east, last, 0, [0, 0]));
    }
    assert_eq!(node.steer(address(3)), way(0, 2));
    give(&mut node, &report(0, 255, 2, 1, [3, 0]));
    assert_eq!(node.steer(address(3)), way(1, 2));
}

#[test]
fn a_written_report_has_the_own_pair() {
    let mut node = started(2, 0);
    let mut out = [0xEE; 9];
    assert_eq!(node.record(&link(1, 2), &mut out), (0, 1));
    assert_eq!(out, [5, 0, 16, 0, 1, 0, 4, 0xEE, 0xEE]);
}
