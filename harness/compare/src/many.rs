//! Where an input reaches kind 7: many ticks in one record.

use model::{Node, OUTPUT_ROOM};

use crate::tally::Tally;

/// Taken.
pub const TAKEN: &str = "kind 7 taken";
/// Refused, for its count or for its length.
pub const REFUSED: &str = "kind 7 refused";
/// With 2 reports or more.
pub const SEVERAL: &str = "kind 7 with 2 or more reports";
/// A request was another one after it.
pub const CHANGED: &str = "kind 7 in which a request changed";
/// Stations left.
pub const LEFT: &str = "kind 7 in which a station left";
/// Inputs in which such a record was taken.
pub const INPUTS: &str = "inputs with kind 7 taken";

/// The labels of all that is counted here.
pub const LABELS: [&str; 6] = [TAKEN, REFUSED, SEVERAL, CHANGED, LEFT, INPUTS];

/// The records of an input behind its settings, counted one after another.
#[derive(Default)]
pub struct Counter {
    some: bool,
}

impl Counter {
    /// Gives a record to the node, and counts it if it is of kind 7; the result.
    pub fn give(&mut self, node: &mut Node, record: &[u8], tally: &mut Tally) -> u8 {
        let before = (requests(node), node.station_count());
        let (result, reports) = node.record(record, &mut [0; OUTPUT_ROOM]);
        match (record, result) {
            ([_, _, 7, 0, ..], 0) => self.taken(node, before, reports, tally),
            ([_, _, 7, 0, ..], 4) => tally.count(REFUSED),
            _ => {}
        }
        result
    }

    /// Counts what was taken; the node had these requests and stations before it.
    fn taken(&mut self, node: &Node, before: ([u8; 2], usize), reports: usize, tally: &mut Tally) {
        tally.count(TAKEN);
        let (pair, stations) = before;
        for (label, is_so) in [
            (SEVERAL, reports > 1),
            (CHANGED, requests(node) != pair),
            (LEFT, node.station_count() < stations),
            (INPUTS, !self.some),
        ] {
            if is_so {
                tally.count(label);
            }
        }
        self.some = true;
    }
}

fn requests(node: &Node) -> [u8; 2] {
    [node.west_request(), node.east_request()]
}

#[cfg(test)]
mod tests {
    use text::pieces::pieces;
    use text::reading::Text;

    use super::*;

    fn counted(source: &str) -> [u64; 6] {
        let bytes = Text::read(source.as_bytes()).unwrap().bytes();
        let pieces = pieces(&bytes);
        let (_, mut node) = Node::start(pieces[0]);
        let mut tally = Tally::new("drill", &LABELS);
        let mut counter = Counter::default();
        for record in &pieces[1..] {
            counter.give(&mut node, record, &mut tally);
        }
        LABELS.map(|label| tally.of(label))
    }

    #[test]
    fn records_of_kind_7_are_counted_and_no_others() {
        let others = "settings keepalive 50\ntick 9\nbytes 04 00 08 00 01 00\nbytes 04 00 07 01 01 00\nlink west failed\n";
        assert_eq!(counted(others), [0; 6]);
        let source = "\
settings keepalive 50
report west from 02-00-00-00-00-02 hop 1
ticks 19
ticks 0
ticks 1001
bytes 02 00 07 00
ticks 21
ticks 10
ticks 1
";
        assert_eq!(counted(source), [4, 3, 1, 1, 1, 1]);
    }
}
