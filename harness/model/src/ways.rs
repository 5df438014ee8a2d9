//! The way to a station: a walk along each ringlet, and the choice between the two.
//! A walk needs every hop up to the station; the worst request on it must be below SF.
//! Of the way chosen the operator is told how long it is, and where the trouble is.

use crate::crowding::is_hidden;
use crate::faults::{wrong, Fault, RIGHT};
use crate::records::HIGHEST_HOP;
use crate::spans::Request;
use crate::stations::{Station, Table};

/// Go west.
pub const WEST: u8 = 0;
/// Go east.
pub const EAST: u8 = 1;
/// Neither direction is usable.
pub const NO_WAY: u8 = 2;
/// Not in the table; so too for the own address or an odd one.
pub const NOT_IN_TABLE: u8 = 3;

/// The answer to "which way?". The three numbers are those of the way chosen, and zeros where there is none.
#[derive(Clone, Copy, Debug, Default, PartialEq, Eq)]
pub struct Way {
    /// 0 west, 1 east, 2 no way, 3 not in the table.
    pub reply: u8,
    /// Its hop count.
    pub hops: u8,
    /// Its worst request.
    pub worst: u8,
    /// The number of the first span along it that has this request; span 1 touches us.
    pub span: u8,
}

/// What the walk along a way gives.
#[derive(Clone, Copy, Debug, PartialEq, Eq)]
pub struct Walk {
    /// Its hop count.
    pub hops: u8,
    /// Its worst request.
    pub worst: Request,
    /// The number of the first span along it that has this request.
    pub span: u8,
}

/// The stations of one ringlet by hop.
type Chain<'a> = [Option<&'a Station>; HIGHEST_HOP as usize + 1];

/// The requests at the two ends of a span: the end nearer to us, and that of the next station, which faces us.
pub type Ends = [Request; 2];

/// The answer to "which way?", given the own west and east request.
pub fn steer<const F: u8>(table: &Table, own: [Request; 2], address: u64) -> Way {
    let hidden = table.hides::<F>(Fault::HighNotSteered, Fault::LastNotSteered, address);
    let Some(target) = table.find(address).filter(|_| !hidden) else {
        return Way::none(NOT_IN_TABLE);
    };
    let walk = |ringlet| walk::<F>(table, own, ringlet, target);
    let usable = |walk: &Walk| walk.worst < Request::Sf;
    match (walk(0).filter(usable), walk(1).filter(usable)) {
        (None, None) => Way::none(NO_WAY),
        (Some(west), None) => west.chosen(WEST),
        (None, Some(east)) => east.chosen(EAST),
        (Some(west), Some(east)) if is_west::<F>(&west, &east) => west.chosen(WEST),
        (Some(_), Some(east)) => east.chosen(EAST),
    }
}

/// Both are usable: the lower request, then fewer hops, then west.
fn is_west<const F: u8>(west: &Walk, east: &Walk) -> bool {
    let order = if wrong::<F>(Fault::HopsFirst) {
        (west.hops, west.worst).cmp(&(east.hops, east.worst))
    } else if wrong::<F>(Fault::HopsIgnored) {
        west.worst.cmp(&east.worst)
    } else if wrong::<F>(Fault::SpanBreaksTie) {
        (west.worst, west.hops, west.span).cmp(&(east.worst, east.hops, east.span))
    } else {
        (west.worst, west.hops).cmp(&(east.worst, east.hops))
    };
    order.is_lt() || (order.is_eq() && !wrong::<F>(Fault::TieEast))
}

impl Way {
    /// A reply without a way to go.
    fn none(reply: u8) -> Way {
        Way {
            reply,
            ..Way::default()
        }
    }
}

impl Walk {
    /// The answer if this is the way chosen.
    pub fn chosen(self, reply: u8) -> Way {
        Way {
            reply,
            hops: self.hops,
            worst: self.worst as u8,
            span: self.span,
        }
    }
}

/// The walk along a ringlet; none if the station is not heard there, or a lower hop is not held.
fn walk<const F: u8>(
    table: &Table,
    own: [Request; 2],
    ringlet: usize,
    target: &Station,
) -> Option<Walk> {
    let hops = target.hops[ringlet];
    let run = run::<F>(table, own, ringlet);
    let mut requests = requests(run.get(..usize::from(hops))?);
    if let (true, Some(last)) = (wrong::<F>(Fault::TargetFarEnd), requests.last_mut()) {
        *last = target.requests[ringlet].max(*last);
    }
    let worst = *requests.iter().max()?;
    let (span, _) = (1..).zip(requests).find(|(_, has)| *has == worst)?;
    Some(Walk { hops, worst, span })
}

/// The request on a span is the higher of its two ends.
pub fn requests(spans: &[Ends]) -> Vec<Request> {
    spans.iter().map(|[near, far]| *near.max(far)).collect()
}

/// The spans along a ringlet, span 1 first, as far as every hop is held.
pub fn run<const F: u8>(table: &Table, own: [Request; 2], ringlet: usize) -> Vec<Ends> {
    let mut near = if wrong::<F>(Fault::OwnEndLeftOut) {
        Request::Idle
    } else {
        own[ringlet]
    };
    let mut spans = Vec::new();
    for held in &chain::<F>(table, ringlet)[1..] {
        let (far, next) = match held {
            Some(station) => (station.requests[1 - ringlet], station.requests[ringlet]),
            None if wrong::<F>(Fault::GapsAllowed) => (Request::Idle, near),
            None => break,
        };
        spans.push([near, far]);
        near = next;
    }
    spans
}

/// The request on each span west and east, as far as every hop is held.
pub fn runs(table: &Table, own: [Request; 2]) -> [Vec<Request>; 2] {
    [0, 1].map(|ringlet| requests(&run::<RIGHT>(table, own, ringlet)))
}

/// Slot 0 gathers the stations not heard on this ringlet; nobody looks at it.
fn chain<const F: u8>(table: &Table, ringlet: usize) -> Chain<'_> {
    let mut chain: Chain = [None; HIGHEST_HOP as usize + 1];
    for (at, station) in table.stations().iter().enumerate() {
        let hidden = is_hidden::<F>(Fault::HighNotWalked, Fault::LastNotWalked, at);
        // Only a wrong model has a hop without a slot.
        let slot = chain.get_mut(usize::from(station.hops[ringlet]));
        if let (Some(slot), false) = (slot, hidden) {
            *slot = Some(station);
        }
    }
    chain
}

#[cfg(test)]
mod tests {
    use super::*;
    use crate::records::Report;

    const IDLE: [Request; 2] = [Request::Idle; 2];
    const OWN: [Request; 2] = IDLE;

    fn hear(table: &mut Table, address: u64, ringlet: usize, hop: u8, requests: [Request; 2]) {
        table.heard::<RIGHT>(&Report {
            span: ringlet,
            ringlet,
            hop,
            address,
            sequence: table.find(address).map_or(0, |s| s.sequence + 1),
            requests,
        });
    }

    /// Own A; west B, C, D are 1, 2, 3; east D, C, B.
    fn ring() -> Table {
        let mut table = Table::new();
        for address in 1..=3 {
            hear(&mut table, address, 0, address as u8, IDLE);
            hear(&mut table, address, 1, 4 - address as u8, IDLE);
        }
        table
    }

    fn ask(table: &Table, own: [Request; 2], address: u64) -> u8 {
        steer::<RIGHT>(table, own, address).reply
    }

    #[test]
    fn p11_and_p12() {
        let mut table = ring();
        assert_eq!(ask(&table, OWN, 2), WEST);
        hear(&mut table, 1, 0, 1, [Request::Sd, Request::Idle]);
        assert_eq!(ask(&table, OWN, 2), EAST);
        assert_eq!(ask(&table, OWN, 1), WEST);
    }

    #[test]
    fn fewer_hops_then_west() {
        let table = ring();
        assert_eq!(ask(&table, OWN, 1), WEST);
        assert_eq!(ask(&table, OWN, 3), EAST);
        assert_eq!(ask(&table, [Request::Ms, Request::Idle], 1), EAST);
        assert_eq!(ask(&table, [Request::Fs, Request::Sf], 1), NO_WAY);
        assert_eq!(ask(&table, OWN, 4), NOT_IN_TABLE);
    }

    #[test]
    fn the_end_that_faces_us_counts_and_the_far_one_does_not() {
        let mut table = ring();
        hear(&mut table, 1, 0, 1, [Request::Sf, Request::Idle]);
        assert_eq!(ask(&table, OWN, 1), WEST);
        hear(&mut table, 1, 0, 1, [Request::Idle, Request::Sf]);
        assert_eq!(ask(&table, OWN, 1), EAST);
        assert_eq!(ask(&table, OWN, 2), EAST);
    }

    #[test]
    fn a_gap_closes_a_direction() {
        let mut table = Table::new();
        hear(&mut table, 1, 0, 2, IDLE);
        assert_eq!(ask(&table, OWN, 1), NO_WAY);
        hear(&mut table, 2, 0, 1, IDLE);
        assert_eq!(ask(&table, OWN, 1), WEST);
        hear(&mut table, 1, 1, 63, IDLE);
        assert_eq!(ask(&table, [Request::Sf, Request::Idle], 1), NO_WAY);
    }
}
