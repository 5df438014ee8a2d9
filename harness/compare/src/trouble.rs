//! Trouble along a way: a quiet ring, often a long one, with a few requests at chosen ends of spans.
//! The questions are for the stations on either side of these, and for those at the end of the way.

use crate::chance::Chance;
use crate::maker::{Maker, NONE_DEAF};
use crate::ring::LARGEST;

/// Puts a request at one end of a span, counted along a side.
type End = fn(&mut Maker, usize, usize, u8);

/// The way that a scene looks along.
struct Along {
    /// West or east.
    side: usize,
    /// The hop of the station that is asked for above all.
    target: usize,
}

/// Requests come and go on a quiet ring.
pub fn along(m: &mut Maker) {
    let before = m.ring.members.len();
    let long = m.chance.percent(60);
    if long {
        let any = m.chance.range(before, LARGEST);
        let count = m.chance.pick(&[any, LARGEST, LARGEST]);
        m.ring.grow(&mut m.chance, count);
    }
    if long || m.chance.percent(50) {
        empty(m);
    }
    let side = m.span();
    calm(m, side);
    close_other(m, 1 - side);
    for _ in 0..m.chance.range(2, 6) {
        let members = m.ring.members.len();
        let any = m.chance.range(1, members);
        let target = m.chance.pick(&[any, members]);
        trouble(m, &Along { side, target });
    }
    if long {
        m.ring.members.truncate(before);
        empty(m);
        m.heal();
    }
}

/// Both cables are crossed, so that nobody is left in the table.
fn empty(m: &mut Maker) {
    for span in 0..2 {
        let neighbour = m.ring.at_hop(1, span);
        let mut crossed = m.ring.report(neighbour, span);
        crossed.ringlet = 1 - crossed.ringlet;
        m.hear(&crossed);
    }
}

/// Both spans are good again and nobody asks for anything, or all do for the same; mostly both ringlets bring it.
fn calm(m: &mut Maker, side: usize) {
    let request = m.chance.pick(&[0, 0, 0, 0, 0, 1]);
    for member in &mut m.ring.members {
        member.sequence = member.sequence.wrapping_add(1);
        member.requests = [request, request];
    }
    m.heal();
    m.operator(side, 0);
    m.announce(side);
    if m.chance.percent(70) {
        m.announce(1 - side);
    }
}

/// The operator closes the way round the other side, makes it worse, or leaves it.
fn close_other(m: &mut Maker, span: usize) {
    let request = m.chance.pick(&[0, 2, 5, 5]);
    m.operator(span, request);
}

/// Some ends get a request, often all the same one, and mostly lose it again.
fn trouble(m: &mut Maker, along: &Along) {
    let same = m.chance.pick(&[1, 2, 2, 3, 3]);
    let mut ends = Vec::new();
    for _ in 0..m.chance.pick(&[1, 1, 1, 2, 2, 3]) {
        let span = span(m, along.target);
        let end = m.chance.pick(&[near as End, far]);
        let request = request(&mut m.chance, same);
        end(m, along.side, span, request);
        ends.push((end, span));
        if m.chance.percent(40) {
            ask_hop(m, along.side, along.target);
        }
    }
    for &(_, span) in &ends {
        // The way to the station before the span does not have it, and those to the next two do.
        for hop in [span.saturating_sub(1), span, span + 1] {
            ask_hop(m, along.side, hop);
        }
    }
    for hop in [along.target, m.ring.members.len()] {
        ask_hop(m, along.side, hop);
    }
    m.ask_member();
    if m.chance.percent(75) {
        for (end, span) in ends {
            end(m, along.side, span, 0);
        }
    }
}

/// A span of the way: the first, the last, the one beyond the target, or any.
fn span(m: &mut Maker, target: usize) -> usize {
    let any = m.chance.range(1, target);
    let beyond = (target + 1).min(m.ring.members.len());
    m.chance.pick(&[any, any, any, 1, target, target, beyond])
}

/// Mostly the same request as the others; seldom one that makes the way unusable, and seldom none.
fn request(chance: &mut Chance, same: u8) -> u8 {
    let other = chance.pick(&[0, 1, 2, 3]);
    match chance.below(20) {
        0 => chance.pick(&[4, 5]),
        1..=4 => other,
        _ => same,
    }
}

/// A request at the nearer end of a span; span 1 has the own one there.
fn near(m: &mut Maker, side: usize, span: usize, request: u8) {
    if span > 1 {
        return say(m, side, span - 1, side, request);
    }
    match request {
        3 => {
            m.link(side, 1);
            m.ticks(10 * usize::from(m.opening.settings.hold_off), NONE_DEAF);
        }
        2 => m.operator(side, request),
        // WTR cannot be had at will, and SF or FS would close the way: what ends the two.
        _ => {
            m.link(side, 0);
            m.operator(side, 0);
        }
    }
}

/// A request at the end of a span that faces us.
fn far(m: &mut Maker, side: usize, span: usize, request: u8) {
    say(m, side, span, 1 - side, request);
}

/// The station at a hop has a request at its west or east end, and is heard.
fn say(m: &mut Maker, side: usize, hop: usize, end: usize, request: u8) {
    let at = m.ring.at_hop(hop, side);
    let member = &mut m.ring.members[at];
    member.sequence = member.sequence.wrapping_add(1);
    member.requests[end] = request;
    let first = m.chance.pick(&[side, side, side, 1 - side]);
    m.hear_member(at, first);
    if m.chance.percent(20) {
        m.hear_member(at, 1 - first);
    }
}

/// Asks the way to the station at a hop, if there is one.
fn ask_hop(m: &mut Maker, side: usize, hop: usize) {
    if (1..=m.ring.members.len()).contains(&hop) {
        let at = m.ring.at_hop(hop, side);
        m.ask(m.ring.members[at].address);
    }
}
