//! The way to a station with its three numbers, worked out by hand, through the public calls alone.

use model::{Node, Way};

const IDLE: u8 = 0;
const WTR: u8 = 1;
const MS: u8 = 2;
const SD: u8 = 3;
const SF: u8 = 4;
const FS: u8 = 5;

/// Ringlet 0 is heard on the west span, ringlet 1 on the east span.
const WEST: u8 = 0;
const EAST: u8 = 1;

/// The own station is A, 02-00-00-00-00-01.
const A: u8 = 1;
const B: u8 = 2;
const C: u8 = 3;
const D: u8 = 4;
const E: u8 = 5;
const F: u8 = 6;

fn started() -> Node {
    let settings = [
        0x11, 0, 0x20, 0, 2, 2, 0, 0, 0, 0, A, 0, 0, 0, 0x32, 0x0A, 2, 0x0A, 0,
    ];
    let (result, node) = Node::start(&settings);
    assert_eq!(result, 0);
    node
}

fn take(node: &mut Node, record: &[u8]) {
    assert_eq!(node.record(record, &mut [0; 7]).0, 0, "{record:?}");
}

fn operator(node: &mut Node, span: u8, request: u8) {
    take(node, &[4, 0, 4, 0, span, request]);
}

fn link(node: &mut Node, span: u8, status: u8) {
    take(node, &[4, 0, 2, 0, span, status]);
}

/// A station with its sequence, and its requests west and east.
type Said = (u8, u8, [u8; 2]);

fn hear(node: &mut Node, ringlet: u8, hop: u8, (last, sequence, [west, east]): Said) {
    let ttl = hop.wrapping_neg();
    let mut record = vec![14, 0, 5, 0, ringlet, ringlet, ttl, 2, 0, 0, 0, 0, last];
    record.extend([sequence, west, east]);
    take(node, &record);
}

fn address(last: u8) -> u64 {
    0x0200_0000_0000 + u64::from(last)
}

/// Reply, hop count, worst request, span.
fn ask(node: &Node, last: u8) -> (u8, u8, u8, u8) {
    numbers(node.steer(address(last)))
}

fn numbers(way: Way) -> (u8, u8, u8, u8) {
    (way.reply, way.hops, way.worst, way.span)
}

const NO_WAY: (u8, u8, u8, u8) = (2, 0, 0, 0);
const NOT_IN_TABLE: (u8, u8, u8, u8) = (3, 0, 0, 0);

/// B, C, D and so on at hops 1, 2, 3 of one ringlet alone, with these requests west and east.
fn open(ringlet: u8, requests: &[[u8; 2]]) -> Node {
    let mut node = started();
    for ((hop, last), &pair) in (1..).zip(B..).zip(requests) {
        hear(&mut node, ringlet, hop, (last, 0, pair));
    }
    node
}

/// B, C and D with these requests, closed: at hops 1, 2, 3 going west and 3, 2, 1 going east.
fn closed(requests: [[u8; 2]; 3]) -> Node {
    let mut node = open(WEST, &requests);
    for ((hop, last), pair) in [(3, B), (2, C), (1, D)].into_iter().zip(requests) {
        hear(&mut node, EAST, hop, (last, 0, pair));
    }
    node
}

const QUIET: [u8; 2] = [IDLE, IDLE];

#[test]
fn p11_and_p12() {
    let mut node = closed([QUIET; 3]);
    assert_eq!(ask(&node, C), (0, 2, IDLE, 1));
    hear(&mut node, WEST, 1, (B, 1, [SD, IDLE]));
    // East of us are D and C, and nothing is wrong up to there.
    assert_eq!(ask(&node, C), (1, 2, IDLE, 1));
    // The west end of B is beyond B, and for D the way west would have it at span 2.
    assert_eq!(ask(&node, B), (0, 1, IDLE, 1));
    assert_eq!(ask(&node, D), (1, 1, IDLE, 1));
}

#[test]
fn p12_with_no_way_but_west() {
    let node = open(WEST, &[[SD, IDLE], QUIET, QUIET]);
    assert_eq!(ask(&node, B), (0, 1, IDLE, 1));
    assert_eq!(ask(&node, C), (0, 2, SD, 2));
    assert_eq!(ask(&node, D), (0, 3, SD, 2));
}

#[test]
fn worst_idle_is_at_span_1_however_long_the_way() {
    for ringlet in [WEST, EAST] {
        let node = open(ringlet, &[QUIET; 63]);
        for (hops, last) in (1..=63).zip(B..) {
            assert_eq!(ask(&node, last), (ringlet, hops, IDLE, 1));
        }
    }
}

/// Four stations on one ringlet, with a request at one end of a span; the own end of span 1 is not tried here.
fn with_end(ringlet: u8, span: usize, near: bool, request: u8) -> Node {
    let mut requests = [QUIET; 4];
    // Going west a station looks back at us with its east end, and on with its west end.
    let (back, on) = (usize::from(1 - ringlet), usize::from(ringlet));
    if near {
        requests[span - 2][on] = request;
    } else {
        requests[span - 1][back] = request;
    }
    open(ringlet, &requests)
}

#[test]
fn the_worst_request_at_any_end_of_any_span() {
    for ringlet in [WEST, EAST] {
        for request in [WTR, MS, SD] {
            let first = with_end(ringlet, 1, false, request);
            assert_eq!(ask(&first, E), (ringlet, 4, request, 1));
            for near in [true, false] {
                let second = with_end(ringlet, 2, near, request);
                assert_eq!(ask(&second, E), (ringlet, 4, request, 2));
                let third = with_end(ringlet, 3, near, request);
                assert_eq!(ask(&third, E), (ringlet, 4, request, 3));
                let last = with_end(ringlet, 4, near, request);
                assert_eq!(ask(&last, E), (ringlet, 4, request, 4));
            }
        }
    }
}

#[test]
fn the_own_request_alone_is_at_span_1() {
    for (ringlet, other) in [(WEST, EAST), (EAST, WEST)] {
        let mut node = open(ringlet, &[QUIET; 3]);
        operator(&mut node, ringlet, MS);
        assert_eq!(ask(&node, B), (ringlet, 1, MS, 1));
        assert_eq!(ask(&node, D), (ringlet, 3, MS, 1));
        link(&mut node, ringlet, 1);
        assert_eq!(ask(&node, D), (ringlet, 3, SD, 1));
        // The own other span is not on the way.
        let mut node = open(ringlet, &[QUIET; 3]);
        operator(&mut node, other, FS);
        assert_eq!(ask(&node, D), (ringlet, 3, IDLE, 1));
    }
}

#[test]
fn of_equal_requests_the_first_span_counts() {
    // Going west the spans have WTR, MS, IDLE, MS, WTR.
    let node = open(
        WEST,
        &[[MS, WTR], [IDLE, WTR], QUIET, [WTR, MS], [SD, IDLE]],
    );
    assert_eq!(node.runs()[0], [WTR, MS, IDLE, MS, WTR]);
    assert_eq!(ask(&node, B), (0, 1, WTR, 1));
    assert_eq!(ask(&node, C), (0, 2, MS, 2));
    assert_eq!(ask(&node, F), (0, 5, MS, 2));
    // The same going east.
    let node = open(
        EAST,
        &[[WTR, MS], [WTR, IDLE], QUIET, [MS, WTR], [IDLE, SD]],
    );
    assert_eq!(node.runs()[1], [WTR, MS, IDLE, MS, WTR]);
    assert_eq!(ask(&node, B), (1, 1, WTR, 1));
    assert_eq!(ask(&node, F), (1, 5, MS, 2));
    // All spans alike.
    let node = open(WEST, &[[SD, SD]; 4]);
    assert_eq!(ask(&node, E), (0, 4, SD, 1));
}

#[test]
fn both_ends_of_a_span_count_once() {
    let node = open(WEST, &[[MS, IDLE], [IDLE, MS], [IDLE, MS]]);
    assert_eq!(ask(&node, D), (0, 3, MS, 2));
}

#[test]
fn of_unequal_ends_the_higher_counts() {
    let node = open(WEST, &[[WTR, IDLE], [IDLE, SD], QUIET]);
    assert_eq!(ask(&node, D), (0, 3, SD, 2));
    let node = open(WEST, &[[SD, IDLE], [IDLE, WTR], QUIET]);
    assert_eq!(ask(&node, D), (0, 3, SD, 2));
    let node = open(EAST, &[[IDLE, WTR], [SD, IDLE], QUIET]);
    assert_eq!(ask(&node, D), (1, 3, SD, 2));
    // The own end of span 1 and the one of B that faces it.
    let mut node = open(WEST, &[[WTR, SD], QUIET]);
    operator(&mut node, WEST, MS);
    assert_eq!(ask(&node, C), (0, 2, SD, 1));
    let mut node = open(WEST, &[[WTR, WTR], QUIET]);
    operator(&mut node, WEST, MS);
    assert_eq!(ask(&node, C), (0, 2, MS, 1));
}

#[test]
fn a_worse_request_behind_a_lower_one_moves_the_span() {
    // Spans with WTR, MS, SD: each target has its own worst at its last span.
    let node = open(WEST, &[[IDLE, WTR], [SD, MS], QUIET]);
    assert_eq!(ask(&node, B), (0, 1, WTR, 1));
    assert_eq!(ask(&node, C), (0, 2, MS, 2));
    assert_eq!(ask(&node, D), (0, 3, SD, 3));
    // Spans with SD, MS, WTR: the first stays the worst.
    let node = open(WEST, &[[MS, SD], [WTR, IDLE], QUIET]);
    assert_eq!(ask(&node, D), (0, 3, SD, 1));
}

#[test]
fn what_is_beyond_the_target_does_not_count() {
    let node = open(WEST, &[QUIET, [SD, IDLE], QUIET, [IDLE, FS]]);
    assert_eq!(ask(&node, C), (0, 2, IDLE, 1));
    assert_eq!(ask(&node, D), (0, 3, SD, 3));
    assert_eq!(ask(&node, E), NO_WAY);
    // On a closed ring the way west to B ends before what the way east has to pass.
    let node = closed([[IDLE, WTR], [SD, SD], [SD, SD]]);
    assert_eq!(ask(&node, B), (0, 1, WTR, 1));
}

#[test]
fn a_way_that_is_not_usable_tells_nothing() {
    for request in [SF, FS] {
        let node = open(WEST, &[QUIET, [IDLE, request], QUIET]);
        assert_eq!(ask(&node, B), (0, 1, IDLE, 1));
        assert_eq!(ask(&node, C), NO_WAY);
        assert_eq!(ask(&node, D), NO_WAY);
    }
    let mut node = closed([QUIET; 3]);
    operator(&mut node, WEST, FS);
    operator(&mut node, EAST, FS);
    for last in [B, C, D] {
        assert_eq!(ask(&node, last), NO_WAY);
    }
}

#[test]
fn a_gap_tells_nothing() {
    let mut node = started();
    hear(&mut node, WEST, 1, (B, 0, [MS, MS]));
    hear(&mut node, WEST, 3, (D, 0, [MS, MS]));
    assert_eq!(ask(&node, B), (0, 1, MS, 1));
    assert_eq!(ask(&node, D), NO_WAY);
    // Heard on the other ringlet too, and there without a gap.
    hear(&mut node, EAST, 1, (D, 0, [MS, MS]));
    assert_eq!(ask(&node, D), (1, 1, MS, 1));
}

#[test]
fn who_is_not_in_the_table_tells_nothing() {
    let mut node = open(WEST, &[[MS, MS], [MS, MS]]);
    operator(&mut node, WEST, MS);
    for last in [A, D, 0] {
        assert_eq!(ask(&node, last), NOT_IN_TABLE);
    }
    for other in [address(B) | 1 << 40, address(B) | 1 << 48, u64::MAX] {
        assert_eq!(numbers(node.steer(other)), NOT_IN_TABLE);
    }
}

#[test]
fn the_numbers_are_those_of_the_way_chosen() {
    // Spans going west: MS, IDLE, WTR; going east: IDLE, WTR, IDLE.
    let node = closed([[IDLE, MS], [WTR, IDLE], QUIET]);
    assert_eq!(node.runs(), [vec![MS, IDLE, WTR], vec![IDLE, WTR, IDLE]]);
    assert_eq!(ask(&node, B), (1, 3, WTR, 2));
    assert_eq!(ask(&node, C), (1, 2, WTR, 2));
    assert_eq!(ask(&node, D), (1, 1, IDLE, 1));
    // Spans going west: IDLE, WTR, IDLE; going east: MS, IDLE, WTR.
    let node = closed([[WTR, IDLE], QUIET, [MS, IDLE]]);
    assert_eq!(node.runs(), [vec![IDLE, WTR, IDLE], vec![MS, IDLE, WTR]]);
    assert_eq!(ask(&node, D), (0, 3, WTR, 2));
    assert_eq!(ask(&node, C), (0, 2, WTR, 2));
    assert_eq!(ask(&node, B), (0, 1, IDLE, 1));
}

#[test]
fn of_equal_requests_the_numbers_of_the_shorter_way() {
    // Spans going west: IDLE, SD, IDLE; going east: SD, IDLE, SD.
    let node = closed([[SD, IDLE], QUIET, [SD, IDLE]]);
    assert_eq!(node.runs(), [vec![IDLE, SD, IDLE], vec![SD, IDLE, SD]]);
    assert_eq!(ask(&node, D), (1, 1, SD, 1));
    assert_eq!(ask(&node, B), (0, 1, IDLE, 1));
}

#[test]
fn of_equal_requests_and_hops_the_numbers_of_the_way_west() {
    // To C: west spans IDLE, MS; east spans MS, IDLE. The nearer trouble is no reason to go the other way.
    let node = closed([[MS, IDLE], QUIET, [MS, IDLE]]);
    assert_eq!(node.runs(), [vec![IDLE, MS, IDLE], vec![MS, IDLE, MS]]);
    assert_eq!(ask(&node, C), (0, 2, MS, 2));
    // And west spans MS, IDLE; east spans IDLE, MS.
    let node = closed([[IDLE, MS], QUIET, [IDLE, MS]]);
    assert_eq!(node.runs(), [vec![MS, IDLE, MS], vec![IDLE, MS, IDLE]]);
    assert_eq!(ask(&node, C), (0, 2, MS, 1));
}

#[test]
fn where_one_way_is_not_usable_the_numbers_of_the_other() {
    // West: span 1 has SF. East: spans with WTR, IDLE, MS.
    let node = closed([[MS, SF], QUIET, [WTR, IDLE]]);
    assert_eq!(node.runs()[1], [WTR, IDLE, MS]);
    assert_eq!(ask(&node, B), (1, 3, MS, 3));
    assert_eq!(ask(&node, C), (1, 2, WTR, 1));
    // East not usable, and west long and bad.
    let mut node = closed([[MS, WTR], [SD, IDLE], QUIET]);
    operator(&mut node, EAST, FS);
    assert_eq!(node.runs(), [vec![WTR, MS, SD], vec![FS, SD, MS]]);
    assert_eq!(ask(&node, D), (0, 3, SD, 3));
    assert_eq!(ask(&node, C), (0, 2, MS, 2));
}

#[test]
fn the_longest_way_and_its_last_span() {
    for ringlet in [WEST, EAST] {
        let (back, on) = (usize::from(1 - ringlet), usize::from(ringlet));
        let mut requests = [QUIET; 63];
        requests[62][back] = WTR;
        requests[62][on] = FS;
        let node = open(ringlet, &requests);
        assert_eq!(ask(&node, 64), (ringlet, 63, WTR, 63));
        assert_eq!(ask(&node, 63), (ringlet, 62, IDLE, 1));
        // The nearer end of span 63 is the far end of the station at hop 62.
        requests[62] = QUIET;
        requests[61][on] = SD;
        let node = open(ringlet, &requests);
        assert_eq!(ask(&node, 64), (ringlet, 63, SD, 63));
        assert_eq!(ask(&node, 63), (ringlet, 62, IDLE, 1));
        // Span 32 has it first, and spans 50 and 63 have it too.
        requests[31][back] = SD;
        requests[49][back] = SD;
        let node = open(ringlet, &requests);
        assert_eq!(ask(&node, 64), (ringlet, 63, SD, 32));
        assert_eq!(ask(&node, 33), (ringlet, 32, SD, 32));
        assert_eq!(ask(&node, 32), (ringlet, 31, IDLE, 1));
    }
}

#[test]
fn the_numbers_follow_what_happens() {
    let mut node = open(WEST, &[[MS, IDLE], QUIET]);
    assert_eq!(ask(&node, C), (0, 2, MS, 2));
    // A copy brings no requests; a newer report does.
    hear(&mut node, WEST, 1, (B, 0, [SD, SD]));
    assert_eq!(ask(&node, C), (0, 2, MS, 2));
    hear(&mut node, WEST, 1, (B, 1, [IDLE, SD]));
    assert_eq!(ask(&node, C), (0, 2, SD, 1));
    // Nobody is at hop 2 when C comes nearer; B has lost its hop, and has no other.
    hear(&mut node, WEST, 1, (C, 1, [IDLE, WTR]));
    assert_eq!(ask(&node, C), (0, 1, WTR, 1));
    assert_eq!(ask(&node, B), NOT_IN_TABLE);
}
