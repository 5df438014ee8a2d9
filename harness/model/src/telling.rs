//! Wrong models of what is told of a way: they choose as the right one does, and tell other numbers.
//! `T` is their switch; it is off in all models that are wrong elsewhere, and these tell what the walk gave.

use crate::faults::{wrong, Fault, RIGHT};
use crate::spans::Request;
use crate::stations::Table;
use crate::ways::{requests, run, Ends, Walk, Way, EAST, NO_WAY, WEST};

/// The five low bits of a number.
const FIVE_BITS: u8 = 31;

/// What there is around a question, of which a wrong model tells another part.
struct Around {
    /// The own west and east request.
    own: [Request; 2],
    /// The target's hop on each ringlet; 0 also if it is not in the table.
    hops: [u8; 2],
    /// The target's west and east request.
    target: [Request; 2],
    /// The spans along each ringlet, those beyond the target too.
    runs: [Vec<Ends>; 2],
}

/// An answer as this model tells it.
pub fn told<const T: u8>(way: Way, table: &Table, own: [Request; 2], address: u64) -> Way {
    if T == RIGHT {
        return way;
    }
    let around = Around::of(table, own, address);
    match way.reply {
        WEST | EAST => around.with_way::<T>(way.reply),
        _ => around.without_way::<T>(way),
    }
}

impl Around {
    fn of(table: &Table, own: [Request; 2], address: u64) -> Around {
        let target = table.find(address);
        Around {
            own,
            hops: target.map_or([0; 2], |target| target.hops),
            target: target.map_or([Request::Idle; 2], |target| target.requests),
            runs: [0, 1].map(|ringlet| run::<RIGHT>(table, own, ringlet)),
        }
    }

    /// The spans of the way along a ringlet.
    fn way(&self, ringlet: usize) -> Option<&[Ends]> {
        let way = self.runs[ringlet].get(..usize::from(self.hops[ringlet]))?;
        (!way.is_empty()).then_some(way)
    }

    /// What the right walk gives.
    fn walk(&self, ringlet: usize) -> Option<Walk> {
        let requests = requests(self.way(ringlet)?);
        let (worst, span) = first_worst(&requests);
        let hops = self.hops[ringlet];
        Some(Walk { hops, worst, span })
    }

    fn is_usable(&self, ringlet: usize) -> bool {
        let walk = self.walk(ringlet);
        walk.is_some_and(|walk| walk.worst < Request::Sf)
    }

    /// There is no way to go.
    fn without_way<const T: u8>(&self, way: Way) -> Way {
        let mut way = way;
        let walk = self.walk(0).or(self.walk(1));
        if let (true, Some(walk)) = (wrong::<T>(Fault::UnusableTold), walk) {
            return walk.chosen(way.reply);
        }
        if wrong::<T>(Fault::HopsWithoutWay) {
            way.hops = self.hops[0].max(self.hops[1]);
        }
        if wrong::<T>(Fault::SfWithoutWay) && way.reply == NO_WAY {
            way.worst = Request::Sf as u8;
        }
        if wrong::<T>(Fault::Span1WithoutWay) {
            way.span = 1;
        }
        way
    }

    /// There is a way to go.
    fn with_way<const T: u8>(&self, reply: u8) -> Way {
        let ringlet = self.ringlet::<T>(usize::from(reply));
        let spans = self.spans::<T>(ringlet);
        let (worst, span) = trouble::<T>(&spans);
        let hops = self.hops::<T>(ringlet);
        let worst = self.worst::<T>(worst);
        let span = numbered::<T>(span, worst, self.hops[ringlet], reply);
        Walk { hops, worst, span }.chosen(reply)
    }

    /// The ringlet of which is told.
    fn ringlet<const T: u8>(&self, chosen: usize) -> usize {
        let other = 1 - chosen;
        if wrong::<T>(Fault::OtherWayTold) && self.is_usable(other) {
            other
        } else if wrong::<T>(Fault::WestTold) && self.way(0).is_some() {
            0
        } else {
            chosen
        }
    }

    /// The spans that are looked at.
    fn spans<const T: u8>(&self, ringlet: usize) -> Vec<Ends> {
        let mut spans = self.way(ringlet).unwrap_or_default().to_vec();
        let far = self.target[ringlet];
        if wrong::<T>(Fault::BeyondTargetTold) {
            spans = self.runs[ringlet].clone();
        } else if wrong::<T>(Fault::OwnEndUntold) {
            spans[0][0] = Request::Idle;
        } else if wrong::<T>(Fault::OwnEndsSwapped) {
            spans[0][0] = self.own[1 - ringlet];
        } else if wrong::<T>(Fault::EastNotMirrored) && ringlet == 1 {
            spans = unmirrored(&spans, far);
        } else if wrong::<T>(Fault::TargetFarEndTold) {
            spans.extend([[Request::Idle, far]]);
        } else if wrong::<T>(Fault::LastSpanUntold) {
            spans.pop();
        } else if wrong::<T>(Fault::Span63Untold) {
            spans.truncate(62);
        } else if wrong::<T>(Fault::WtrUntold) {
            spans = spans.iter().map(|ends| ends.map(without_wtr)).collect();
        }
        spans
    }

    /// The hop count that is told.
    fn hops<const T: u8>(&self, ringlet: usize) -> u8 {
        let hops = self.hops[ringlet];
        if wrong::<T>(Fault::HopsOneFewer) {
            hops - 1
        } else if wrong::<T>(Fault::HopsOneMore) {
            hops + 1
        } else if wrong::<T>(Fault::HopsOfRun) {
            self.runs[ringlet].len() as u8
        } else if wrong::<T>(Fault::HopsOfRinglet0) {
            self.hops[0]
        } else if wrong::<T>(Fault::HopsInFiveBits) {
            hops & FIVE_BITS
        } else {
            hops
        }
    }

    /// The worst request that is told, if this is the worst of the spans looked at.
    fn worst<const T: u8>(&self, worst: Request) -> Request {
        if wrong::<T>(Fault::WorstOfBoth) {
            let walks = [self.walk(0), self.walk(1)].into_iter().flatten();
            walks.map(|walk| walk.worst).max().unwrap_or(worst)
        } else {
            worst
        }
    }
}

/// The worst request of these, and where it stands first, from 1.
fn first_worst(requests: &[Request]) -> (Request, u8) {
    let worst = requests.iter().max().copied().unwrap_or(Request::Idle);
    (worst, first(requests, |request| request == worst))
}

/// The first of these that is so, from 1; 1 if none is.
fn first(requests: &[Request], is_so: impl Fn(Request) -> bool) -> u8 {
    let found = (1..).zip(requests).find(|(_, &request)| is_so(request));
    found.map_or(1, |(span, _)| span)
}

/// The worst request of these spans, and the span that is told for it.
fn trouble<const T: u8>(spans: &[Ends]) -> (Request, u8) {
    let requests = seen::<T>(spans);
    let (worst, span) = first_worst(&requests);
    let span = if wrong::<T>(Fault::LastSpanTold) {
        let last = (1..).zip(&requests).filter(|(_, &has)| has == worst).last();
        last.map_or(span, |(span, _)| span)
    } else if wrong::<T>(Fault::FirstTroubleTold) {
        first(&requests, |request| request > Request::Idle)
    } else if wrong::<T>(Fault::SpansCounted) {
        requests.iter().filter(|&&has| has == worst).count() as u8
    } else if wrong::<T>(Fault::NearEndKeepsSpan) {
        moved_by(spans, 1)
    } else if wrong::<T>(Fault::FarEndKeepsSpan) {
        moved_by(spans, 0)
    } else if wrong::<T>(Fault::SpanOfStation) {
        of_station(spans, worst)
    } else {
        span
    };
    (worst, span)
}

/// The request that is seen on each span.
fn seen<const T: u8>(spans: &[Ends]) -> Vec<Request> {
    let by = |of: fn(Ends) -> Request| spans.iter().copied().map(of).collect();
    if wrong::<T>(Fault::NearEndsTold) {
        by(|[near, _]| near)
    } else if wrong::<T>(Fault::FarEndsTold) {
        by(|[_, far]| far)
    } else if wrong::<T>(Fault::LowerEndsTold) {
        by(|[near, far]| near.min(far))
    } else {
        requests(spans)
    }
}

/// Both ends make the worst request worse, but only one of them moves the span.
fn moved_by(spans: &[Ends], moving: usize) -> u8 {
    let (mut worst, mut span) = (Request::Idle, 1);
    for (number, ends) in (1..).zip(spans) {
        for (end, &request) in ends.iter().enumerate() {
            if request > worst && end == moving {
                span = number;
            }
            worst = worst.max(request);
        }
    }
    span
}

/// The hop of the first station that has the worst request at either of its ends on the way; 1 if it is the own request.
fn of_station(spans: &[Ends], worst: Request) -> u8 {
    let holders = (1..).zip(spans).flat_map(|(hop, &[near, far])| {
        let before: u8 = hop - 1;
        [(before.max(1), near), (hop, far)]
    });
    let mut holding = holders.filter(|&(_, request)| request == worst);
    holding.next().map_or(1, |(hop, _)| hop)
}

/// The spans with each station's requests the wrong way round. The end of the target that faces away comes in.
fn unmirrored(spans: &[Ends], far: Request) -> Vec<Ends> {
    let mut turned = spans.to_vec();
    for (place, [near, _]) in turned.iter_mut().enumerate().skip(1) {
        *near = spans[place - 1][1];
    }
    let behind = spans.iter().skip(1).map(|[near, _]| *near).chain([far]);
    for ([_, facing], behind) in turned.iter_mut().zip(behind) {
        *facing = behind;
    }
    turned
}

fn without_wtr(request: Request) -> Request {
    if request == Request::Wtr {
        Request::Idle
    } else {
        request
    }
}

/// The number that a span is told by.
fn numbered<const T: u8>(span: u8, worst: Request, hops: u8, reply: u8) -> u8 {
    let from_target = (hops + 1).saturating_sub(span);
    if wrong::<T>(Fault::SpansFrom0) {
        span - 1
    } else if wrong::<T>(Fault::SpansFromTarget)
        || (wrong::<T>(Fault::EastFromTarget) && reply == EAST)
    {
        from_target
    } else if wrong::<T>(Fault::IdleSpan0) && worst == Request::Idle {
        0
    } else if wrong::<T>(Fault::SpanInFiveBits) {
        span & FIVE_BITS
    } else {
        span
    }
}

#[cfg(test)]
mod tests {
    use super::*;
    use crate::records::Report;
    use crate::ways::steer;

    const SOME: [Request; 4] = [Request::Idle, Request::Wtr, Request::Sd, Request::Sf];

    /// Three stations, heard both ways, with requests that the digits of a number choose.
    fn ring(number: usize) -> Table {
        let mut table = Table::new();
        let request = |place: u32| SOME[number / 4_usize.pow(place) % 4];
        for (hop, place) in (1..).zip([0, 2, 4]) {
            for (ringlet, hop) in [hop, 4 - hop].into_iter().enumerate() {
                table.heard::<RIGHT>(&Report {
                    span: ringlet,
                    ringlet,
                    hop,
                    address: u64::from(place),
                    sequence: 0,
                    requests: [request(place), request(place + 1)],
                });
            }
        }
        table
    }

    #[test]
    fn without_its_fault_each_tells_what_the_walk_gave() {
        for number in 0..4_096 {
            let table = ring(number);
            for own in [[Request::Idle; 2], [Request::Ms, Request::Wtr]] {
                for address in [0, 2, 4, 6] {
                    let way = steer::<RIGHT>(&table, own, address);
                    let around = Around::of(&table, own, address);
                    let told = match way.reply {
                        WEST | EAST => around.with_way::<RIGHT>(way.reply),
                        _ => around.without_way::<RIGHT>(way),
                    };
                    assert_eq!(told, way, "{table:?}");
                }
            }
        }
    }
}
