//! Where an input reaches the larger table: more than 63 stations, all 126 places taken, and what comes then.

use model::Node;
use text::records;

use crate::ring::{LARGEST, PLACES};
use crate::tally::Tally;

/// Inputs in which all places are taken.
pub const INPUTS: &str = "inputs with 126 stations";
/// Records after which all places are taken.
pub const FULL: &str = "126 stations";
/// A newcomer is taken beside 63 stations or more.
pub const ABOVE_63: &str = "newcomer beside 63 stations or more";
/// A newcomer displaces another when all places are taken.
pub const AT_FULL: &str = "newcomer displaces at 126";
/// A newcomer is the 126th at a hop that is free.
pub const FREE_HOP: &str = "newcomer at a free hop is the 126th";
/// A newcomer is the 126th at the hop of a station that stays with its other one.
pub const OTHER_STAYS: &str = "newcomer is the 126th, who is displaced stays";
/// A known station takes the hop of another when all places are taken.
pub const SECOND_HOP: &str = "known station displaces at 126";
/// An old report when all places are taken.
pub const OLD: &str = "old report at 126";
/// A newcomer clears a cable mark beside 63 others: there was no place for it once.
pub const MARK_CLEARED: &str = "newcomer clears a cable mark beside 63";
/// A ringlet is purged when all places are taken.
pub const PURGED: &str = "purge at 126";
/// Stations are forgotten when all places are taken.
pub const FORGOTTEN: &str = "forgotten at 126";
/// Attributes of a station at a place above the 63rd.
pub const ATTRIBUTES: &str = "attributes at a place above 63";
/// Attributes of the station at the last place.
pub const LAST_ATTRIBUTES: &str = "attributes at place 126";
/// The way to a station at a place above the 63rd.
pub const WAY: &str = "way to a place above 63";
/// The way to the station at the last place.
pub const LAST_WAY: &str = "way to place 126";
/// Two full ringlets have become one ring: 63 stations with both hops each.
pub const ONE_RING: &str = "63 stations on both ringlets";

/// The labels of all that is counted here.
pub const LABELS: [&str; 16] = [
    INPUTS,
    FULL,
    ABOVE_63,
    AT_FULL,
    FREE_HOP,
    OTHER_STAYS,
    SECOND_HOP,
    OLD,
    MARK_CLEARED,
    PURGED,
    FORGOTTEN,
    ATTRIBUTES,
    LAST_ATTRIBUTES,
    WAY,
    LAST_WAY,
    ONE_RING,
];

const SF: u8 = 4;

/// The records of an input behind its settings, counted one after another.
#[derive(Default)]
pub struct Counter {
    some: bool,
}

/// The node as a record finds it.
pub struct Before {
    hops: Vec<(u64, [u8; 2])>,
    requests: [u8; 2],
}

impl Before {
    /// None if there are fewer stations than the smaller table had places.
    pub fn of(node: &Node) -> Option<Before> {
        (node.station_count() >= LARGEST).then(|| Before {
            hops: node.hops(),
            requests: [node.west_request(), node.east_request()],
        })
    }

    fn place(&self, address: u64) -> Option<usize> {
        self.hops.iter().position(|(known, _)| *known == address)
    }

    fn is_full(&self) -> bool {
        self.hops.len() == PLACES
    }
}

impl Counter {
    /// Counts what a record did, with this result if it was an event.
    pub fn see(
        &mut self,
        before: &Before,
        record: &[u8],
        result: u8,
        node: &Node,
        tally: &mut Tally,
    ) {
        let after = node.station_count();
        if after == PLACES {
            tally.count(FULL);
            if !self.some {
                tally.count(INPUTS);
            }
            self.some = true;
        }
        match *record {
            [_, _, 5, 0, span, _, ttl, a, b, c, d, e, f, _, _, _] => {
                let address = records::address([a, b, c, d, e, f]);
                let slot = (usize::from(span), 0_u8.wrapping_sub(ttl));
                count_report(before, address, slot, result, node, tally);
            }
            [_, _, 6, 0, _, a, b, c, d, e, f, ..] if matches!(result, 0 | 8 | 24) => {
                let place = before.place(records::address([a, b, c, d, e, f]));
                count_place(place, ATTRIBUTES, LAST_ATTRIBUTES, tally);
            }
            [8, 0, 40, 0, a, b, c, d, e, f] => {
                let place = before.place(records::address([a, b, c, d, e, f]));
                count_place(place, WAY, LAST_WAY, tally);
            }
            [2, 0, 1, 0] | [_, _, 7, 0, ..] if result == 0 && before.is_full() => {
                let purged = node.west_request() == SF || node.east_request() == SF;
                count_if(after < PLACES && !purged, FORGOTTEN, tally);
                count_if(after < PLACES && purged, PURGED, tally);
            }
            _ => count_if(before.is_full() && after < PLACES, PURGED, tally),
        }
    }
}

fn count_report(
    before: &Before,
    address: u64,
    (ringlet, hop): (usize, u8),
    result: u8,
    node: &Node,
    tally: &mut Tally,
) {
    let after = node.station_count();
    count_if(result == 22 && before.is_full(), OLD, tally);
    count_if(
        result == 20 && before.is_full() && after < PLACES,
        PURGED,
        tally,
    );
    if result != 0 {
        return;
    }
    let held = before.hops.iter().find(|(_, hops)| hops[ringlet] == hop);
    if before.place(address).is_some() {
        count_if(before.is_full() && after < PLACES, SECOND_HOP, tally);
        let both = node.hops().iter().all(|(_, hops)| !hops.contains(&0));
        count_if(
            after == LARGEST && before.hops.len() > LARGEST && both,
            ONE_RING,
            tally,
        );
        return;
    }
    tally.count(ABOVE_63);
    count_if(before.is_full() && after == PLACES, AT_FULL, tally);
    let last = before.hops.len() + 1 == PLACES && after == PLACES;
    count_if(last && held.is_none(), FREE_HOP, tally);
    count_if(last && held.is_some(), OTHER_STAYS, tally);
    let request = [node.west_request(), node.east_request()][ringlet];
    let cleared = hop == 1 && before.requests[ringlet] == SF && request < SF;
    count_if(cleared, MARK_CLEARED, tally);
}

/// Counts a place, from 0, if it is above the 63rd, and again if it is the last.
fn count_place(place: Option<usize>, above: &str, last: &str, tally: &mut Tally) {
    let Some(place) = place else {
        return;
    };
    count_if(place >= LARGEST, above, tally);
    count_if(place + 1 == PLACES, last, tally);
}

fn count_if(is_so: bool, label: &str, tally: &mut Tally) {
    if is_so {
        tally.count(label);
    }
}

#[cfg(test)]
mod tests {
    use text::pieces::pieces;
    use text::reading::Text;

    use super::*;
    use crate::drills::Drills;
    use crate::reach;
    use crate::subject::Subject;

    fn counted(source: &str) -> Vec<(&'static str, u64)> {
        let bytes = Text::read(source.as_bytes()).unwrap().bytes();
        assert!(pieces(&bytes).len() > 1);
        let mut tally = Drills.nothing();
        reach::count(&bytes, &mut tally);
        let counts = LABELS.map(|label| (label, tally.of(label)));
        counts.into_iter().filter(|(_, count)| *count > 0).collect()
    }

    /// So many stations on ringlet 0, and so many others on ringlet 1; their addresses end in 80 and above.
    fn filled(west: u8, east: u8) -> String {
        let report = |span: &str, ringlet: u8, hop: u8| {
            let last = 128 + hop;
            format!("report {span} from 02-00-00-00-0{ringlet}-{last:02X} hop {hop}\n")
        };
        let west = (1..=west).map(|hop| report("west", 1, hop));
        let east = (1..=east).map(|hop| report("east", 2, hop));
        let reports: String = west.chain(east).collect();
        format!("settings address 02-00-00-00-00-01 keepalive 50 forget 2\n{reports}")
    }

    #[test]
    fn a_smaller_crowd_is_not_counted() {
        assert_eq!(counted(&filled(63, 0)), []);
        assert_eq!(counted(&filled(40, 30)), [(ABOVE_63, 7)]);
    }

    #[test]
    fn newcomers_and_second_hops_are_counted() {
        let full = filled(63, 63);
        let first = [(INPUTS, 1), (FULL, 1), (ABOVE_63, 63), (FREE_HOP, 1)];
        assert_eq!(counted(&full), first);
        let more = full
            + "report west from 02-00-00-00-00-02 hop 5\n"
            + "report east from 02-00-00-00-00-02 hop 5\n"
            + "report east from 02-00-00-00-00-03 hop 5\n"
            + "report east from 02-00-00-00-00-03 hop 5 sequence 200\n"
            + "attributes west from 02-00-00-00-02-BF\n"
            + "attributes west from 02-00-00-00-00-02\n"
            + "way 02-00-00-00-02-BF\n"
            + "way 02-00-00-00-02-BE\n";
        let counts = [
            (INPUTS, 1),
            (FULL, 8),
            (ABOVE_63, 65),
            (AT_FULL, 1),
            (FREE_HOP, 1),
            (OTHER_STAYS, 1),
            (SECOND_HOP, 1),
            (OLD, 1),
            (ATTRIBUTES, 1),
            (LAST_ATTRIBUTES, 1),
            (WAY, 2),
            (LAST_WAY, 1),
        ];
        assert_eq!(counted(&more), counts);
    }

    #[test]
    fn who_leaves_is_counted() {
        let full = filled(63, 63);
        let counts = |more: &str| -> Vec<(&'static str, u64)> {
            let all = counted(&(full.clone() + more));
            all.into_iter().skip(4).collect()
        };
        assert_eq!(counts("link west failed\n"), [(PURGED, 1)]);
        let crossed = "report east from 02-00-00-00-02-81 hop 1 ringlet 0\n";
        assert_eq!(counts(crossed), [(PURGED, 1)]);
        let right = "report east from 02-00-00-00-00-02 hop 1\n";
        let cleared = counts(&format!("{crossed}{right}"));
        assert_eq!(cleared, [(MARK_CLEARED, 1), (PURGED, 1)]);
        assert_eq!(counts("tick 200 keepalive 40\n"), [(FORGOTTEN, 1)]);
        assert_eq!(counts("ticks 60\n"), [(PURGED, 1)]);
    }

    #[test]
    fn two_rings_that_become_one_are_counted() {
        let report = |hop: u8| {
            let last = 128 + hop;
            format!(
                "report east from 02-00-00-00-01-{last:02X} hop {}\n",
                64 - hop
            )
        };
        let both: String = (1..=63).map(report).collect();
        let counts = counted(&(filled(63, 63) + &both));
        assert_eq!(counts.last(), Some(&(ONE_RING, 1)));
    }
}
