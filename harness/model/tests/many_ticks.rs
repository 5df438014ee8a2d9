//! Kind 7: n single ticks in one record, through the public calls alone. States are compared whole, as they are printed.

use model::{Node, OUTPUT_ROOM};

const TICK: [u8; 4] = [2, 0, 1, 0];
/// What the output holds before a record.
const BEFORE: u8 = 0xEE;

/// WTR seconds, hold-off, keepalive, fast, slow and forget of a settings record.
type Times = (u16, u8, u8, u8, u8, u16);

/// No WTR, no hold-off, keepalive 50 ms, fast 10 ms, slow 100 ms, forget 1,000 ms.
const USUAL: Times = (0, 0, 50, 10, 2, 10);

fn started(times: Times) -> Node {
    let (wtr, hold_off, keepalive, fast, slow, forget) = times;
    let [wtr, forget] = [wtr, forget].map(u16::to_le_bytes);
    let mut record = vec![0x11, 0, 0x20, 0, 2, 2, 0, 0, 0, 0, 1, wtr[0], wtr[1]];
    record.extend([hold_off, keepalive, fast, slow, forget[0], forget[1]]);
    let (result, node) = Node::start(&record);
    assert_eq!(result, 0);
    node
}

fn ticks(count: u16) -> Vec<u8> {
    let [low, high] = count.to_le_bytes();
    vec![4, 0, 7, 0, low, high]
}

fn link(span: u8, status: u8) -> Vec<u8> {
    vec![4, 0, 2, 0, span, status]
}

fn operator(span: u8, request: u8) -> Vec<u8> {
    vec![4, 0, 4, 0, span, request]
}

fn keepalive(span: u8) -> Vec<u8> {
    vec![3, 0, 3, 0, span]
}

/// The station whose address ends so, at a hop of a ringlet.
fn report(ringlet: u8, hop: u8, last: u8) -> Vec<u8> {
    let mut record = vec![14, 0, 5, 0, ringlet, ringlet, hop.wrapping_neg()];
    record.extend([2, 0, 0, 0, 0, last, 7, 0, 0]);
    record
}

fn state(node: &Node) -> String {
    format!("{node:?}")
}

/// Gives a record with so much room: result, reports, and the whole output.
fn give(node: &mut Node, record: &[u8], room: usize) -> (u8, usize, Vec<u8>) {
    let mut out = vec![BEFORE; room];
    let (result, reports) = node.record(record, &mut out);
    (result, reports, out)
}

/// Gives records that have to be taken, each of which writes one report at most.
fn take(node: &mut Node, records: &[Vec<u8>]) {
    for record in records {
        assert_eq!(give(node, record, 7).0, 0, "{record:?}");
    }
}

/// So many single ticks: the bytes of all reports.
fn singly(node: &mut Node, count: u16) -> Vec<u8> {
    let mut all = Vec::new();
    for _ in 0..count {
        let (result, reports, out) = give(node, &TICK, 7);
        assert!(result == 0 && reports <= 1);
        all.extend(&out[..7 * reports]);
    }
    all
}

/// One record of so many ticks does what the single ones do: state, reports, and the bytes behind the last stay. The reports.
fn at_once(node: &mut Node, count: u16) -> usize {
    let mut apart = node.clone();
    let all = singly(&mut apart, count);
    let room = 7 * usize::from(count);
    for room in [room, room + 1, room + 5, OUTPUT_ROOM] {
        let mut same = node.clone();
        let (result, reports, out) = give(&mut same, &ticks(count), room);
        assert_eq!((result, reports), (0, all.len() / 7), "{count} ticks");
        assert_eq!(out[..all.len()], all, "{count} ticks");
        assert!(out[all.len()..].iter().all(|&byte| byte == BEFORE));
        assert_eq!(state(&same), state(&apart), "{count} ticks");
    }
    *node = apart;
    all.len() / 7
}

/// Nothing changes: neither the node nor the output.
fn refused(node: &mut Node, record: &[u8], room: usize) -> u8 {
    let before = state(node);
    let (result, reports, out) = give(node, record, room);
    assert_eq!(reports, 0);
    assert_eq!(out, vec![BEFORE; room]);
    assert_eq!(state(node), before);
    result
}

#[test]
fn room_is_tested_first_for_7_bytes_and_last_for_7_a_tick() {
    let mut node = started(USUAL);
    // Up to tick 9 no report comes, and still there has to be room for each tick.
    let rooms = [
        (0, 1, 1),
        (6, 1, 1),
        (7, 1, 0),
        (7, 2, 1),
        (13, 1, 0),
        (13, 2, 1),
        (14, 2, 0),
        (14, 3, 1),
        (6_999, 999, 0),
        (6_999, 1_000, 1),
        (7_000, 1_000, 0),
        (7_001, 1_000, 0),
    ];
    for (room, count, wanted) in rooms {
        let mut again = node.clone();
        let result = match wanted {
            1 => refused(&mut again, &ticks(count), room),
            _ => give(&mut again, &ticks(count), room).0,
        };
        assert_eq!(result, wanted, "{count} ticks, room {room}");
    }
    // Before all else below 7 bytes; behind 2, 3 and 4 from there on.
    let bad: [(&[u8], u8); 8] = [
        (&[5, 0, 7, 0, 1, 0], 2),
        (&[4, 0, 8, 0, 1, 0], 3),
        (&[2, 0, 7, 0], 4),
        (&[3, 0, 7, 0, 1], 4),
        (&[5, 0, 7, 0, 1, 0, 0], 4),
        (&[4, 0, 7, 0, 0, 0], 4),
        (&[4, 0, 7, 0, 0xE9, 3], 4),
        (&[4, 0, 7, 0, 255, 255], 4),
    ];
    for (record, number) in bad {
        for (room, wanted) in [
            (0, 1),
            (6, 1),
            (7, number),
            (13, number),
            (14, number),
            (6_999, number),
            (7_000, number),
        ] {
            assert_eq!(refused(&mut node, record, room), wanted, "{record:?}");
        }
    }
}

#[test]
fn other_kinds_need_room_for_one_report_alone() {
    let mut node = started(USUAL);
    assert_eq!(refused(&mut node, &TICK, 6), 1);
    assert_eq!(give(&mut node, &link(0, 2), 7).0, 0);
    let longest = [&[9, 4, 6, 0, 0][..], &[0; 1_030]].concat();
    assert_eq!(give(&mut node, &longest, 7).0, 21);
}

#[test]
fn counts_from_1_to_1000_are_taken() {
    for count in [1, 2, 3, 255, 256, 257, 512, 999, 1_000] {
        at_once(&mut started(USUAL), count);
    }
    let mut node = started(USUAL);
    for count in [0, 1_001, 1_256, 0xE803, 0x8001, 65_535] {
        assert_eq!(refused(&mut node, &ticks(count), OUTPUT_ROOM), 4, "{count}");
    }
    // 00 01 are 256 ticks: 50 until both spans are silent, with reports at 10 to 40; the change at 50, and then 60 to 130 and 230.
    assert_eq!(at_once(&mut node, 256), 4 + 1 + 8 + 1);
    assert_eq!((node.west_request(), node.sequence()), (4, 1));
}

#[test]
fn p6_in_one_record() {
    let mut node = started((0, 3, 50, 20, 2, 10));
    take(&mut node, &[link(0, 2)]);
    let mut one = node.clone();
    // Reports come at tick 20, and with the change at tick 30.
    assert_eq!(at_once(&mut one, 30), 2);
    assert_eq!((one.west_request(), one.east_request()), (4, 0));
    assert_eq!(at_once(&mut node, 29), 1);
    assert_eq!((node.west_request(), node.east_request()), (0, 0));
    assert_eq!(at_once(&mut node, 1), 1);
    assert_eq!(state(&node), state(&one));
}

#[test]
fn reports_stand_one_after_another() {
    let mut node = started((0, 0, 3, 1, 1, 10));
    // Both spans fall silent with the third tick, so that the sequence rises within the record.
    let (result, reports, out) = give(&mut node, &ticks(5), 40);
    assert_eq!((result, reports), (0, 5));
    let reports: Vec<&[u8]> = out.chunks(7).take(5).collect();
    let idle: &[u8] = &[5, 0, 16, 0, 0, 0, 0];
    let down: &[u8] = &[5, 0, 16, 0, 1, 4, 4];
    assert_eq!(reports, [idle, idle, down, down, down]);
    assert_eq!(out[35..], [BEFORE; 5]);
}

#[test]
fn wtr_runs_out_within_a_record() {
    let mut node = started((1, 0, 50, 10, 2, 10));
    take(&mut node, &[link(0, 2), link(0, 0)]);
    for _ in 0..24 {
        take(&mut node, &[keepalive(0), keepalive(1)]);
        at_once(&mut node, 40);
    }
    take(&mut node, &[keepalive(0), keepalive(1), operator(0, 2)]);
    assert_eq!(at_once(&mut node, 30), 3);
    take(&mut node, &[operator(0, 0)]);
    // 990 of 1,000 have passed, and the operator's going is reported.
    assert_eq!(node.west_request(), 1);
    let mut nine = node.clone();
    assert_eq!(at_once(&mut nine, 9), 0);
    assert_eq!(nine.west_request(), 1);
    // The tenth brings the change and no other report; the next fast one comes ten ticks later.
    assert_eq!(at_once(&mut node, 19), 1);
    assert_eq!(node.west_request(), 0);
}

#[test]
fn silence_purges_within_a_record() {
    let mut node = started((0, 0, 5, 10, 2, 10));
    take(
        &mut node,
        &[report(0, 1, 2), report(1, 1, 3), report(0, 2, 3)],
    );
    assert_eq!(at_once(&mut node, 4), 0);
    take(&mut node, &[keepalive(1)]);
    assert_eq!(at_once(&mut node, 4), 1);
    assert_eq!((node.west_request(), node.east_request()), (4, 0));
    assert_eq!(node.hops(), [(0x0200_0000_0003, [0, 1])]);
    assert_eq!(at_once(&mut node, 1), 1);
    assert_eq!((node.west_request(), node.station_count()), (4, 0));
}

#[test]
fn a_station_is_forgotten_within_a_record() {
    let mut node = started((0, 0, 50, 20, 2, 2));
    take(&mut node, &[report(0, 1, 2)]);
    for _ in 0..4 {
        take(&mut node, &[keepalive(0), keepalive(1)]);
        at_once(&mut node, 40);
    }
    take(&mut node, &[keepalive(0), keepalive(1), report(0, 2, 3)]);
    let mut one = node.clone();
    at_once(&mut one, 39);
    assert_eq!(one.station_count(), 2);
    at_once(&mut node, 41);
    assert_eq!(node.hops(), [(0x0200_0000_0003, [2, 0])]);
}

/// Splitmix64: enough chance for a test.
struct Chance(u64);

impl Chance {
    fn below(&mut self, limit: u64) -> u64 {
        self.0 = self.0.wrapping_add(0x9E37_79B9_7F4A_7C15);
        let z = (self.0 ^ (self.0 >> 30)).wrapping_mul(0xBF58_476D_1CE4_E5B9);
        let z = (z ^ (z >> 27)).wrapping_mul(0x94D0_49BB_1331_11EB);
        (z ^ (z >> 31)) % limit
    }

    fn pick<T: Copy>(&mut self, list: &[T]) -> T {
        list[self.below(list.len() as u64) as usize]
    }
}

/// Something that is taken, or refused as a report may be.
fn any_record(chance: &mut Chance) -> Vec<u8> {
    let span = chance.below(2) as u8;
    match chance.below(8) {
        0 | 1 => link(span, chance.below(3) as u8),
        2 => operator(span, chance.pick(&[0, 0, 2, 5])),
        3 | 4 => keepalive(span),
        _ => report(span, 1 + chance.below(5) as u8, 2 + chance.below(6) as u8),
    }
}

#[test]
fn states_of_all_sorts_pass_as_in_single_ticks() {
    let mut chance = Chance(7);
    let mut several = 0;
    for _ in 0..400 {
        let times = (
            chance.pick(&[0, 0, 1, 2]),
            chance.pick(&[0, 1, 2, 3, 20]),
            chance.pick(&[2, 3, 10, 50]),
            chance.pick(&[1, 2, 10, 20]),
            chance.pick(&[1, 2, 5]),
            chance.pick(&[2, 3, 10]),
        );
        let mut node = started(times);
        let near = [
            10 * u16::from(times.1),
            u16::from(times.2),
            u16::from(times.3),
            8 * u16::from(times.3),
            50 * u16::from(times.4),
            100 * times.5,
            1_000 * times.0,
        ];
        for _ in 0..30 {
            for _ in 0..chance.below(6) {
                give(&mut node, &any_record(&mut chance), 7);
            }
            let some = chance.below(60) as u16;
            let about = (chance.pick(&near) + chance.pick(&[0, 1, 2])).saturating_sub(1);
            let count = chance.pick(&[1, 2, some, some, about, about]);
            several += usize::from(at_once(&mut node, count.clamp(1, 1_000)) > 1);
        }
    }
    assert!(several > 1_000, "{several}");
}
