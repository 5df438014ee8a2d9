//! Where a drill reaches the three numbers of a way: how long the ways are that are chosen, and where their worst request stands.

use model::{Node, Way};
use text::records;

use crate::tally::Tally;

/// Its worst request is above IDLE.
pub const ABOVE_IDLE: &str = "way with a worst request above IDLE";
/// The first span that has such a worst request is the first of several.
pub const FIRST: &str = "way with it at the first span";
/// It is neither the first nor the last.
pub const MIDDLE: &str = "way with it at a middle span";
/// It is the last of several.
pub const LAST: &str = "way with it at the last span";
/// Several spans have it.
pub const SEVERAL: &str = "way with it at several spans";
/// A request beyond the target is worse than those of the way.
pub const BEYOND: &str = "way with a worse request beyond the target";
/// The other way is usable too, and its numbers are others.
pub const OTHER: &str = "way beside another with other numbers";
/// It has 32 hops or more.
pub const LONG: &str = "way of 32 hops or more";
/// It has 63 hops.
pub const LONGEST: &str = "way of 63 hops";
/// Every hop is held, one way or both, and still there is no way to go.
pub const UNUSABLE: &str = "no way, but one that is not usable";

/// The labels of all that is counted here.
pub const LABELS: [&str; 10] = [
    ABOVE_IDLE, FIRST, MIDDLE, LAST, SEVERAL, BEYOND, OTHER, LONG, LONGEST, UNUSABLE,
];

/// A worst request of this and above makes a way unusable.
const SF: u8 = 4;

/// Counts a record if it is a question. The node is as the question finds it.
pub fn count(node: &Node, record: &[u8], tally: &mut Tally) {
    let &[8, 0, 40, 0, a, b, c, d, e, f] = record else {
        return;
    };
    let address = records::address([a, b, c, d, e, f]);
    let stations = node.hops();
    let Some((_, hops)) = stations.iter().find(|(known, _)| *known == address) else {
        return;
    };
    let runs = node.runs();
    // Empty where the target is not heard, or a hop before it is missing.
    let ways = [0, 1].map(|ringlet| {
        let way = runs[ringlet].get(..usize::from(hops[ringlet]));
        way.unwrap_or_default()
    });
    let way = node.steer(address);
    match way.reply {
        reply @ 0..=1 => {
            let chosen = usize::from(reply);
            count_way(&way, ways[chosen], &runs[chosen], tally);
            count_if(is_other(ways[chosen], ways[1 - chosen]), OTHER, tally);
        }
        _ => count_if(ways.iter().any(|way| !way.is_empty()), UNUSABLE, tally),
    }
}

fn count_if(is_so: bool, label: &str, tally: &mut Tally) {
    if is_so {
        tally.count(label);
    }
}

/// Counts a way with the requests of its spans, and of those beyond it too.
fn count_way(way: &Way, spans: &[u8], run: &[u8], tally: &mut Tally) {
    let Way {
        hops, worst, span, ..
    } = *way;
    let above = worst > 0;
    let having = spans.iter().filter(|&&request| request == worst).count();
    for (label, is_so) in [
        (ABOVE_IDLE, above),
        (FIRST, above && span == 1 && hops > 1),
        (MIDDLE, above && span > 1 && span < hops),
        (LAST, above && span > 1 && span == hops),
        (SEVERAL, above && having > 1),
        (
            BEYOND,
            run[spans.len()..].iter().any(|&request| request > worst),
        ),
        (LONG, hops >= 32),
        (LONGEST, hops == 63),
    ] {
        count_if(is_so, label, tally);
    }
}

/// True if the way not chosen is usable too, and differs in a number.
fn is_other(chosen: &[u8], other: &[u8]) -> bool {
    let worst = |spans: &[u8]| spans.iter().copied().max().unwrap_or(SF);
    let numbers = |spans: &[u8]| {
        let worst = worst(spans);
        let first = spans.iter().position(|&request| request == worst);
        (spans.len(), worst, first)
    };
    worst(other) < SF && numbers(other) != numbers(chosen)
}

#[cfg(test)]
mod tests {
    use text::reading::Text;

    use super::*;
    use crate::reach;

    /// What is counted of a drill, in the order of the labels.
    fn counted(source: &str) -> [u64; 10] {
        let text = Text::read(source.as_bytes()).unwrap();
        let mut tally = Tally::new("drill", &LABELS);
        reach::count(&text.bytes(), &mut tally);
        LABELS.map(|label| tally.of(label))
    }

    /// Stations B, C and D at hops 1, 2 and 3 going west, with these requests, and then some questions.
    fn three(requests: [&str; 3], rest: &str) -> [u64; 10] {
        let mut source = "settings address 02-00-00-00-00-01 keepalive 50\n".to_string();
        for (hop, (name, pair)) in (1..).zip(["B", "C", "D"].iter().zip(requests)) {
            let address = format!("02-00-00-00-00-0{}", hop + 1);
            source += &format!("name {name} {address}\nreport west from {name} hop {hop} {pair}\n");
        }
        counted(&(source + rest))
    }

    #[test]
    fn where_the_worst_request_stands() {
        let quiet = "idle idle";
        let all = "way B\nway C\nway D\n";
        assert_eq!(three([quiet; 3], all), [0; 10]);
        let first = three(["idle sd", quiet, quiet], all);
        assert_eq!(first, [3, 2, 0, 0, 0, 0, 0, 0, 0, 0]);
        // The way to B ends before it, for C it is the last span, and for D it is in the middle.
        let middle = three(["sd idle", quiet, quiet], all);
        assert_eq!(middle, [2, 0, 1, 1, 0, 1, 0, 0, 0, 0]);
        let last = three([quiet, quiet, "idle ms"], all);
        assert_eq!(last, [1, 0, 0, 1, 0, 2, 0, 0, 0, 0]);
        let several = three(["idle ms", quiet, "wtr ms"], all);
        assert_eq!(several, [3, 2, 0, 0, 1, 0, 0, 0, 0, 0]);
    }

    #[test]
    fn ways_not_chosen_and_ways_not_usable() {
        let quiet = "idle idle";
        let both = "report east from D hop 1\nreport east from C hop 2\nway C\nway D\n";
        // To C both are alike; to D they differ in hops.
        assert_eq!(three([quiet; 3], both), [0, 0, 0, 0, 0, 0, 1, 0, 0, 0]);
        let closed = format!("operator east fs\n{both}");
        assert_eq!(three([quiet; 3], &closed), [0; 10]);
        let failed = three([quiet, "idle sf", quiet], "way B\nway C\nway D\n");
        assert_eq!(failed, [0, 0, 0, 0, 0, 1, 0, 0, 0, 2]);
        let unknown = "way 02-00-00-00-00-09\nway 03-00-00-00-00-02\nbytes 03 00 28 00 00\n";
        assert_eq!(three(["sd sd"; 3], unknown), [0; 10]);
    }

    #[test]
    fn long_ways() {
        let mut source = "settings address 02-00-00-00-00-01 keepalive 50\n".to_string();
        for hop in 1..=63 {
            source += &format!("report west from 04-00-00-00-00-{hop:02} hop {hop}\n");
        }
        for hop in [1, 31, 32, 33, 62, 63] {
            source += &format!("way 04-00-00-00-00-{hop:02}\n");
        }
        assert_eq!(counted(&source), [0, 0, 0, 0, 0, 0, 0, 4, 1, 0]);
    }
}
