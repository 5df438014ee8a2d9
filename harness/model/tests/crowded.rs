//! Two rings that are joined: both ringlets full of different stations, 126 in all, with every number worked out by hand.

use model::{Node, Shown};

/// The settings of the worked drill: level 2, keepalive 50, forget 1,000 ms; the own address ends in 1.
const SETTINGS: [u8; 19] = [
    0x11, 0, 0x20, 0, 2, 2, 0, 0, 0, 0, 1, 0, 0, 0, 0x32, 0x0A, 2, 0x0A, 0,
];
/// The highest hop.
const HIGHEST: u8 = 63;
/// All places.
const PLACES: usize = 126;
/// A newcomer, whose address is above all others.
const STRANGER: u8 = 200;

fn address(last: u8) -> u64 {
    0x0200_0000_0000 + u64::from(last)
}

fn give(node: &mut Node, record: &[u8]) -> u8 {
    node.record(record, &mut [0; 7]).0
}

/// Hears a station at a hop of a ringlet, over a span.
fn hear_over(node: &mut Node, span: u8, last: u8, ringlet: u8, hop: u8, requests: [u8; 2]) -> u8 {
    let head = [14, 0, 5, 0, span, ringlet, hop.wrapping_neg()];
    let rest = [2, 0, 0, 0, 0, last, 0, requests[0], requests[1]];
    give(node, &[&head[..], &rest].concat())
}

fn hear(node: &mut Node, last: u8, ringlet: u8, hop: u8) -> u8 {
    hear_over(node, ringlet, last, ringlet, hop, [0, 0])
}

/// The last byte of the station at a hop of a ringlet: 2 to 64 on ringlet 0, 65 to 127 on ringlet 1.
fn at(ringlet: u8, hop: u8) -> u8 {
    1 + HIGHEST * ringlet + hop
}

/// Every hop of every ringlet.
fn slots() -> impl Iterator<Item = (u8, u8)> {
    (0..2).flat_map(|ringlet| (1..=HIGHEST).map(move |hop| (ringlet, hop)))
}

/// All slots heard in an order; each report is taken, and each brings one station more.
fn filled(order: &[(u8, u8)]) -> Node {
    let (result, mut node) = Node::start(&SETTINGS);
    assert_eq!(result, 0);
    for (count, &(ringlet, hop)) in (1..).zip(order) {
        assert_eq!(hear(&mut node, at(ringlet, hop), ringlet, hop), 0);
        assert_eq!(node.station_count(), count);
    }
    node
}

fn full() -> Node {
    filled(&slots().collect::<Vec<_>>())
}

fn reply(node: &Node, last: u8) -> u8 {
    node.steer(address(last)).reply
}

#[test]
fn in_every_order_126_are_taken() {
    let ascending: Vec<(u8, u8)> = slots().collect();
    let descending: Vec<(u8, u8)> = slots().collect::<Vec<_>>().into_iter().rev().collect();
    let east_first: Vec<(u8, u8)> = slots().map(|(ringlet, hop)| (1 - ringlet, hop)).collect();
    let by_turns: Vec<(u8, u8)> = (1..=HIGHEST).flat_map(|hop| [(1, hop), (0, hop)]).collect();
    let expected = full().hops();
    assert_eq!(expected.len(), PLACES);
    for order in [ascending, descending, east_first, by_turns] {
        assert_eq!(filled(&order).hops(), expected);
    }
}

#[test]
fn a_newcomer_at_any_slot_displaces_exactly_one() {
    for (ringlet, hop) in slots() {
        let mut node = full();
        assert_eq!(hear(&mut node, STRANGER, ringlet, hop), 0);
        assert_eq!(node.station_count(), PLACES);
        assert_eq!(reply(&node, at(ringlet, hop)), 3, "it has left");
        assert_eq!(reply(&node, STRANGER), ringlet, "all hops are held");
        let others = slots().filter(|&slot| slot != (ringlet, hop));
        for (ringlet, hop) in others {
            assert_eq!(reply(&node, at(ringlet, hop)), ringlet);
        }
    }
}

#[test]
fn second_hops_and_newcomers_by_turns() {
    let mut node = full();
    for hop in 1..=HIGHEST {
        // A known one takes the hop of another on its second ringlet.
        assert_eq!(hear(&mut node, at(0, hop), 1, hop), 0);
        assert_eq!(node.station_count(), PLACES - 1);
        assert_eq!(reply(&node, at(1, hop)), 3);
        // A newcomer takes its first hop: it stays with the second.
        assert_eq!(hear(&mut node, STRANGER, 0, hop), 0);
        assert_eq!(node.station_count(), PLACES);
        // The newcomer is displaced by who has left.
        assert_eq!(hear(&mut node, at(1, hop), 0, hop), 0);
        assert_eq!(node.station_count(), PLACES);
        assert_eq!(reply(&node, STRANGER), 3);
    }
    // The two ringlets have changed places.
    for (ringlet, hop) in slots() {
        assert_eq!(reply(&node, at(ringlet, hop)), 1 - ringlet);
    }
}

#[test]
fn known_on_both_ringlets_126_become_63() {
    let mut node = full();
    for hop in 1..=HIGHEST {
        assert_eq!(hear(&mut node, at(0, hop), 1, 64 - hop), 0);
        assert_eq!(node.station_count(), PLACES - usize::from(hop));
    }
    // 63 stations with 126 hops: each newcomer finds a place, and at 126 again.
    for hop in 1..=HIGHEST {
        assert_eq!(hear(&mut node, at(1, hop), 1, hop), 0);
        assert_eq!(node.station_count(), 63 + usize::from(hop));
    }
    assert_eq!(node.hops(), full().hops());
}

#[test]
fn a_known_station_that_moves_to_a_held_hop_displaces_one() {
    let mut node = full();
    assert_eq!(hear(&mut node, at(0, 1), 0, 63), 0);
    assert_eq!(node.station_count(), PLACES - 1);
    assert_eq!(reply(&node, at(0, 63)), 3);
    // Hop 1 is free now, so that a newcomer displaces nobody; before it there is no way west.
    assert_eq!(reply(&node, at(0, 2)), 2);
    assert_eq!(hear(&mut node, STRANGER, 0, 1), 0);
    assert_eq!(node.station_count(), PLACES);
    assert_eq!(reply(&node, at(0, 2)), 0);
}

#[test]
fn wrong_ringlet_span_down_and_old_report_change_nothing_at_126() {
    let mut node = full();
    assert_eq!(hear_over(&mut node, 0, STRANGER, 1, 2, [0, 0]), 20);
    assert_eq!(node.station_count(), PLACES);
    let old = [14, 0, 5, 0, 1, 1, 250, 2, 0, 0, 0, 0, at(1, 63), 255, 0, 0];
    assert_eq!(give(&mut node, &old), 22);
    assert_eq!(node.hops(), full().hops());
    assert_eq!(give(&mut node, &[4, 0, 2, 0, 0, 2]), 0);
    assert_eq!(hear(&mut node, STRANGER, 0, 1), 21);
    assert_eq!(node.station_count(), 63);
}

#[test]
fn a_purge_leaves_exactly_the_63_others() {
    for ringlet in 0..2 {
        let mut node = full();
        assert_eq!(give(&mut node, &[4, 0, 2, 0, ringlet, 2]), 0);
        let others: Vec<(u64, [u8; 2])> = full()
            .hops()
            .into_iter()
            .filter(|(_, hops)| hops[usize::from(ringlet)] == 0)
            .collect();
        assert_eq!((others.len(), node.hops()), (63, others));
        // The span is good again, and 63 newcomers fit.
        assert_eq!(give(&mut node, &[4, 0, 2, 0, ringlet, 0]), 0);
        for hop in 1..=HIGHEST {
            assert_eq!(hear(&mut node, 130 + hop, ringlet, hop), 0);
        }
        assert_eq!(node.station_count(), PLACES);
    }
}

#[test]
fn a_cable_mark_at_126_purges_and_a_newcomer_at_hop_1_clears_it() {
    let mut node = full();
    assert_eq!(hear_over(&mut node, 1, STRANGER, 0, 1, [0, 0]), 20);
    assert_eq!((node.east_request(), node.station_count()), (4, 63));
    assert_eq!(hear(&mut node, STRANGER, 1, 1), 0);
    assert_eq!((node.east_request(), node.station_count()), (0, 64));
    assert_eq!(node.hops().last(), Some(&(address(STRANGER), [0, 1])));
}

#[test]
fn who_is_silent_is_forgotten_at_any_place() {
    let tick = [2, 0, 1, 0];
    for (ringlet, hop) in [(0, 1), (0, 63), (1, 1), (1, 62), (1, 63)] {
        let mut node = full();
        for passed in 0..1_500 {
            if passed == 500 {
                assert_eq!(hear(&mut node, at(ringlet, hop), ringlet, hop), 0);
            }
            let left = match passed {
                0..=999 => PLACES,
                _ => 1,
            };
            assert_eq!(node.station_count(), left, "before tick {}", passed + 1);
            for span in 0..2 {
                give(&mut node, &[3, 0, 3, 0, span]);
            }
            give(&mut node, &tick);
        }
        assert_eq!(node.station_count(), 0);
    }
}

#[test]
fn attributes_at_every_place() {
    let mut node = full();
    for last in 2..=127 {
        let block = [0x80, 1, 0, 2, last, 1, 0x80, 2, 0, 4, 0, last, last, 0];
        let head = [23, 0, 6, 0, last % 2, 2, 0, 0, 0, 0, last];
        assert_eq!(give(&mut node, &[&head[..], &block].concat()), 0);
    }
    for last in 2..=127 {
        let shown = Shown {
            weights: [last, 1],
            bandwidths: [u16::from(last), 256 * u16::from(last)],
            ..Shown::default()
        };
        assert_eq!(node.attributes(address(last)), shown);
    }
    // A newcomer has none, and who comes back has lost its own.
    let absent = Shown {
        weights: [1, 1],
        ..Shown::default()
    };
    assert_eq!(hear(&mut node, STRANGER, 1, 63), 0);
    assert_eq!(node.attributes(address(STRANGER)), absent);
    assert_eq!(node.attributes(address(127)).reply, 3);
    assert_eq!(hear(&mut node, 127, 1, 63), 0);
    assert_eq!(node.attributes(address(127)), absent);
}

#[test]
fn ways_at_every_place_and_the_trouble_on_them() {
    let mut node = full();
    for (ringlet, hop) in slots() {
        let way = node.steer(address(at(ringlet, hop)));
        assert_eq!(
            (way.reply, way.hops, way.worst, way.span),
            (ringlet, hop, 0, 1)
        );
    }
    // The end of the last station of ringlet 1 that faces us: SD on span 63, for that one alone.
    let sequence = 1;
    let facing = [14, 0, 5, 0, 1, 1, 193, 2, 0, 0, 0, 0, 127, sequence, 3, 0];
    assert_eq!(give(&mut node, &facing), 0);
    let way = node.steer(address(127));
    assert_eq!((way.reply, way.hops, way.worst, way.span), (1, 63, 3, 63));
    assert_eq!(node.steer(address(126)).worst, 0);
}

/// Splitmix64: enough chance for a test.
struct Chance(u64);

impl Chance {
    fn below(&mut self, limit: u64) -> u64 {
        self.0 = self.0.wrapping_add(0x9E37_79B9_7F4A_7C15);
        let z = (self.0 ^ (self.0 >> 30)).wrapping_mul(0xBF58_476D_1CE4_E5B9);
        let z = (z ^ (z >> 27)).wrapping_mul(0x94D0_49BB_1331_11EB);
        (z ^ (z >> 31)) % limit
    }
}

/// What makes room for every newcomer: hops from 1 to 63 that no two share, and at least one for each station.
fn is_sound(node: &Node) {
    let stations = node.hops();
    assert!(stations.windows(2).all(|pair| pair[0].0 < pair[1].0));
    for ringlet in 0..2 {
        let hops = stations.iter().map(|(_, hops)| hops[ringlet]);
        let mut held: Vec<u8> = hops.filter(|&hop| hop > 0).collect();
        assert!(held.iter().all(|&hop| hop <= HIGHEST));
        let count = held.len();
        held.sort_unstable();
        held.dedup();
        assert_eq!(held.len(), count);
    }
    assert!(stations.iter().all(|(_, hops)| *hops != [0, 0]));
    assert!(stations.len() <= PLACES);
}

#[test]
fn every_newcomer_finds_a_place_whatever_comes() {
    let mut chance = Chance(6);
    let (_, mut node) = Node::start(&SETTINGS);
    let (mut crowded, mut displaced) = (0, 0);
    for _ in 0..60_000 {
        let before = node.station_count();
        let last = 2 + chance.below(250) as u8;
        let is_new = node.steer(address(last)).reply == 3;
        // About two have the same seat, and mostly they keep to it, so that all places are taken now and then.
        let (ringlet, hop) = match chance.below(200) {
            0 => (chance.below(2) as u8, 1 + chance.below(63) as u8),
            _ => (last % 2, 1 + last / 2 % HIGHEST),
        };
        let (result, report) = match chance.below(2_000) {
            // A ringlet is purged now and then, and time passes; keepalives come.
            0 => (give(&mut node, &[4, 0, 2, 0, ringlet, 2]), false),
            1..=20 => (give(&mut node, &[4, 0, 2, 0, ringlet, 0]), false),
            21..=30 => (give(&mut node, &[2, 0, 1, 0]), false),
            31..=90 => (give(&mut node, &[3, 0, 3, 0, ringlet]), false),
            _ => (hear(&mut node, last, ringlet, hop), true),
        };
        assert!([0, 21].contains(&result), "{result}");
        is_sound(&node);
        if report && is_new && result == 0 {
            assert_eq!(
                node.hops()
                    .iter()
                    .filter(|at| at.0 == address(last))
                    .count(),
                1
            );
            crowded += usize::from(before > 63);
            displaced += usize::from(before == PLACES && node.station_count() == PLACES);
        }
    }
    assert!(crowded > 5_000 && displaced > 100, "{crowded} {displaced}");
}
