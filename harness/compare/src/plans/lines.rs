//! The lines of a plan: which record each belongs to, what is counted of them, and the plan in words.

use model::Node;
use text::names::Names;
use text::pieces::{length, pieces};
use text::record::Record;
use text::writing;

use crate::many::Counter;
use crate::plans::planning::behind;
use crate::plans::questions::KIND;
use crate::ring::{LARGEST, PLACES};
use crate::tally::{Tally, OTHER};

const END: &str = "end '2'";
const DEFECT: &str = "0, with the defect";
const ZERO: &str = "0, a number exactly 0";
const BELOW_0: &str = "0, below zero on ringlet 0 alone";
const BELOW_1: &str = "0, below zero on ringlet 1 alone";
const BELOW_BOTH: &str = "0, below zero on both ringlets";
const EMPTY: &str = "0, no station";
const OPEN: &str = "0, open: no station on both ringlets";
const PARTLY: &str = "0, some stations on both ringlets";
const CLOSED: &str = "0, closed: all stations on both ringlets";
const GAP: &str = "0, a gap between hops";
/// More stations than one ringlet has hops.
pub const ABOVE_63: &str = "0, more than 63 stations";
/// As many stations as the table has places.
pub const FULL: &str = "0, all 126 places taken";
/// As many, and each reserves something.
pub const ALL_RESERVE: &str = "0, all 126 stations reserve";
/// A number below what 63 stations and the own one can reserve.
pub const LOWEST: &str = "0, less than 63 stations can leave";
const OTHER_LENGTH: &str = "4, a question of another length";
const SEVERAL: &str = "31, several stations behind";
/// The lowest address that is behind is at a place above the 63rd.
pub const HIGH_BEHIND: &str = "31, lowest behind at a place above 63";
/// It is at the last place.
pub const LAST_BEHIND: &str = "31, lowest behind at place 126";
const BEHIND_TOO: &str = "32, a station behind";

/// What is counted beside kind 7: each line by its result, and then how many of a result are of which sort.
pub const LABELS: [&str; 27] = [
    "result 0",
    "result 4",
    "result 31",
    "result 32",
    "settings 2",
    "settings 3",
    "settings 4",
    END,
    DEFECT,
    ZERO,
    BELOW_0,
    BELOW_1,
    BELOW_BOTH,
    EMPTY,
    OPEN,
    PARTLY,
    CLOSED,
    GAP,
    ABOVE_63,
    FULL,
    ALL_RESERVE,
    LOWEST,
    OTHER_LENGTH,
    SEVERAL,
    HIGH_BEHIND,
    LAST_BEHIND,
    BEHIND_TOO,
];

/// True if the planner's program has a line for a record: a question, or what ends the plan.
pub fn has_line(record: &[u8]) -> bool {
    let whole = length(record).is_some_and(|length| length + 2 == record.len());
    !whole || record[2..].starts_with(&KIND.to_le_bytes())
}

/// The records of a plan, settings first, each with its line if it has one.
fn answered<'a>(input: &'a [u8], said: &'a str) -> Vec<(&'a [u8], Option<&'a str>)> {
    let mut lines = said.lines();
    let refused = said.starts_with("settings ");
    let records = pieces(input).into_iter().enumerate();
    records
        .map(|(place, record)| {
            let speaks = if place == 0 {
                refused
            } else {
                has_line(record)
            };
            (record, if speaks { lines.next() } else { None })
        })
        .collect()
}

/// Counts what was said to a plan.
pub fn count(input: &[u8], said: &[u8], tally: &mut Tally) {
    let said = String::from_utf8_lossy(said);
    tally.inputs += 1;
    for line in said.lines() {
        tally.lines += 1;
        count_line(line, tally);
    }
    let answered = answered(input, &said);
    let settings = answered.first().map_or(&[][..], |(settings, _)| settings);
    let (result, mut node) = Node::start(settings);
    if result != 0 {
        return;
    }
    let mut counter = Counter::default();
    for (record, line) in answered.into_iter().skip(1) {
        match line {
            Some(line) => count_table(&node, record, line, tally),
            None => {
                counter.give(&mut node, record, tally);
            }
        }
    }
}

/// Counts what a line tells by itself.
fn count_line(line: &str, tally: &mut Tally) {
    let fields: Vec<&str> = line.split(' ').collect();
    match fields[..] {
        ["settings", refusal] => tally.count(&format!("settings {refusal}")),
        ["2", "0", "0", "0", "0"] => tally.count(END),
        [result, _, zero, one, defect] => {
            tally.count(&format!("result {result}"));
            if result == "0" {
                count_numbers([zero, one], defect, tally);
            }
        }
        _ => tally.count(OTHER),
    }
}

fn count_numbers(ringlets: [&str; 2], defect: &str, tally: &mut Tally) {
    if defect == "1" {
        tally.count(DEFECT);
    }
    if ringlets.contains(&"0") {
        tally.count(ZERO);
    }
    // 63 stations and the own one reserve no more than this.
    let lowest = -64 * 65_535;
    let numbers = ringlets.map(|free| free.parse().unwrap_or(0_i64));
    if numbers.iter().any(|&free| free < lowest) {
        tally.count(LOWEST);
    }
    match ringlets.map(|free| free.starts_with('-')) {
        [true, false] => tally.count(BELOW_0),
        [false, true] => tally.count(BELOW_1),
        [true, true] => tally.count(BELOW_BOTH),
        [false, false] => {}
    }
}

/// Counts what the table tells that a question was asked of.
fn count_table(node: &Node, record: &[u8], line: &str, tally: &mut Tally) {
    let (result, _) = line.split_once(' ').unwrap_or((line, ""));
    match result {
        "0" => {
            count_stations(&node.hops(), tally);
            count_reserving(node, tally);
        }
        "4" if asked(record).is_none() => tally.count(OTHER_LENGTH),
        "31" => count_behind(node, tally),
        "32" if !behind(node).is_empty() => tally.count(BEHIND_TOO),
        _ => {}
    }
}

fn count_stations(stations: &[(u64, [u8; 2])], tally: &mut Tally) {
    let both = stations.iter().filter(|(_, hops)| !hops.contains(&0));
    tally.count(match (both.count(), stations.len()) {
        (_, 0) => EMPTY,
        (0, _) => OPEN,
        (both, all) if both < all => PARTLY,
        _ => CLOSED,
    });
    if (0..2).any(|ringlet| has_gap(stations, ringlet)) {
        tally.count(GAP);
    }
    if stations.len() > LARGEST {
        tally.count(ABOVE_63);
    }
    if stations.len() == PLACES {
        tally.count(FULL);
    }
}

/// Counts a full table in which nobody reserves nothing.
fn count_reserving(node: &Node, tally: &mut Tally) {
    let stations = node.hops();
    let reserves = |address: u64| node.attributes(address).bandwidths != [0, 0];
    if stations.len() == PLACES && stations.iter().all(|(address, _)| reserves(*address)) {
        tally.count(ALL_RESERVE);
    }
}

fn count_behind(node: &Node, tally: &mut Tally) {
    let behind = behind(node);
    if behind.len() > 1 {
        tally.count(SEVERAL);
    }
    let stations = node.hops();
    let lowest = behind.first();
    let place = stations.iter().position(|(at, _)| Some(at) == lowest);
    if place >= Some(LARGEST) {
        tally.count(HIGH_BEHIND);
    }
    if place == Some(PLACES - 1) {
        tally.count(LAST_BEHIND);
    }
}

/// No two stations share a hop, so there is a gap if the highest hop is above the number of them.
fn has_gap(stations: &[(u64, [u8; 2])], ringlet: usize) -> bool {
    let hops = stations.iter().map(|(_, hops)| usize::from(hops[ringlet]));
    let held = hops.clone().filter(|&hop| hop > 0);
    hops.max().unwrap_or(0) > held.count()
}

/// Link rate and own reservations of a question; none if it has another length, or is no question.
pub fn asked(record: &[u8]) -> Option<(u32, [u16; 2])> {
    let &[10, 0, low, high, a, b, c, d, e, f, g, h] = record else {
        return None;
    };
    let own = [u16::from_le_bytes([e, f]), u16::from_le_bytes([g, h])];
    let rate = u32::from_le_bytes([a, b, c, d]);
    (u16::from_le_bytes([low, high]) == KIND).then_some((rate, own))
}

/// A plan in words, with what was said to it. Nothing reads these words back.
pub fn words(input: &[u8], said: &[u8]) -> String {
    let said = String::from_utf8_lossy(said);
    let answered = answered(input, &said).into_iter();
    let lines = answered.map(|(record, line)| match line {
        Some(line) => format!("{}  => {line}", in_words(record)),
        None => in_words(record),
    });
    let lines: Vec<String> = lines.collect();
    let runs = lines.chunk_by(|one, next| one == "tick" && one == next);
    let folded = runs.map(|run| match run {
        [one] => one.clone(),
        run => writing::ticks(run.len()),
    });
    folded.map(|line| line + "\n").collect()
}

fn in_words(record: &[u8]) -> String {
    match asked(record) {
        Some((rate, [zero, one])) => format!("free rate {rate} own {zero} {one}"),
        None => writing::words(&Record::of(record), &Names::default()),
    }
}

#[cfg(test)]
mod tests {
    use super::*;
    use crate::plans::questions;
    use crate::plans::Plans;
    use crate::subject::{right, Subject};
    use text::records::{self, Report, Settings};

    /// B at a hop of a ringlet.
    fn heard(ringlet: u8, ttl: u8) -> Vec<u8> {
        records::report(&Report {
            span: ringlet,
            ringlet,
            ttl,
            address: 0x0200_0000_0002,
            sequence: 0,
            requests: [0, 0],
        })
    }

    fn settings(level: u8) -> Vec<u8> {
        let address = 0x0200_0000_0001;
        records::settings(&Settings {
            level,
            address,
            ..Settings::DEFAULT
        })
    }

    fn aside() -> Vec<u8> {
        records::attributes(0, 0x0200_0000_0002, &[0x80, 9, 0, 0])
    }

    fn sample() -> Vec<u8> {
        [
            settings(2),
            questions::record(7, [7, 8]),
            records::tick(),
            records::tick(),
            heard(0, 254),
            questions::record(0, [0, 0]),
            records::question(2),
            records::record(KIND, &[1]),
            heard(1, 255),
            questions::record(1, [2, 2]),
            aside(),
            questions::record(1, [0, 0]),
            vec![1, 0],
        ]
        .concat()
    }

    #[test]
    fn a_plan_has_words() {
        let input = sample();
        let wanted = "\
settings address 02-00-00-00-00-01 wtr 10 keepalive 3 forget 10
free rate 7 own 7 8  => 0 0 0 -1 1
tick 2
report west from 02-00-00-00-00-02 hop 2 sequence 0 idle idle
free rate 0 own 0 0  => 0 0 0 0 0
way 00-00-00-00-00-02
bytes 03 00 29 00 01  => 4 0 0 0 0
report east from 02-00-00-00-00-02 hop 1 sequence 0 idle idle
free rate 1 own 2 2  => 0 0 -1 -1 1
attributes west from 02-00-00-00-00-02 block 80 09 00 00
free rate 1 own 0 0  => 31 2199023255554 0 0 0
bytes 01 00  => 2 0 0 0 0
";
        assert_eq!(words(&input, &right(&Plans, &input)), wanted);
        let refused = [settings(3), records::tick()].concat();
        let said = words(&refused, &right(&Plans, &refused));
        assert!(said.contains(" level 3 ") && said.ends_with("  => settings 4\ntick\n"));
    }

    #[test]
    fn each_sort_of_line_has_its_count() {
        let inputs = [
            sample(),
            vec![],
            [
                settings(1),
                heard(0, 255),
                aside(),
                questions::record(1, [0, 0]),
            ]
            .concat(),
        ];
        let mut sum = Plans.nothing();
        for input in inputs {
            sum.add(&Plans.count(&input, &right(&Plans, &input)));
        }
        assert_eq!((sum.inputs, sum.lines), (3, 8));
        let counts = [
            ("result 0", 3),
            ("result 4", 1),
            ("result 31", 1),
            ("result 32", 1),
            ("settings 2", 1),
            (END, 1),
            (DEFECT, 2),
            (ZERO, 2),
            (BELOW_0, 0),
            (BELOW_1, 1),
            (BELOW_BOTH, 1),
            (EMPTY, 1),
            (OPEN, 1),
            (CLOSED, 1),
            (GAP, 2),
            (OTHER_LENGTH, 1),
            (SEVERAL, 0),
            (BEHIND_TOO, 1),
            (OTHER, 0),
        ];
        for (label, count) in counts {
            assert_eq!(sum.of(label), count, "{label}");
        }
    }
}
