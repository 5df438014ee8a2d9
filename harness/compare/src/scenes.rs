//! Scenes of a drill: what happens on a ring, each with the rules that it strains.
//! A scene leaves the spans as they are; the drill heals them now and then.

use text::records::{self, Report};

use crate::blocks;
use crate::chance::Chance;
use crate::joining;
use crate::maker::{Maker, NONE_DEAF};
use crate::owed;
use crate::ring::{self, HIGHEST_HOP, LARGEST};
use crate::trouble;
use crate::wild;

/// A scene gives its records to the maker.
pub type Scene = fn(&mut Maker);

/// Scenes and how often each comes.
const SCENES: [(usize, Scene); 22] = [
    (8, learn),
    (10, quarrel),
    (7, displace),
    (6, flap),
    (5, operate),
    (5, silence),
    (7, cross),
    (5, fill),
    (7, joining::join),
    (4, wait),
    (5, forget),
    (4, pace),
    (6, hold),
    (8, dirty),
    (2, wrap),
    (7, owed::spell),
    (7, trouble::along),
    (7, block_round),
    (6, wild::refusals),
    (6, wild::mixture),
    (5, wild::mutations),
    (4, wild::questions),
];

/// Any scene, by how often each should come.
pub fn any(chance: &mut Chance) -> Scene {
    chance.weighted(&SCENES)
}

/// The ring is heard, one way or both, whole or with a gap, and changes here and there.
pub fn learn(m: &mut Maker) {
    let ways = m.chance.pick(&[1, 2, 3, 3, 3]);
    for ringlet in (0..2).filter(|ringlet| ways & (1 << ringlet) != 0) {
        m.announce(ringlet);
    }
    m.ask_around();
    for _ in 0..m.chance.range(2, 12) {
        let at = m.ring.any(&mut m.chance);
        m.ring.change(&mut m.chance, at);
        let first = m.span();
        m.hear_member(at, first);
        if m.chance.percent(70) {
            m.hear_member(at, 1 - first);
        }
        m.ask_around();
    }
}

/// A sequence as far from the stored one as a report's may be.
fn sequence(chance: &mut Chance, stored: u8) -> u8 {
    let any = chance.byte();
    let distance = chance.pick(&[1, 1, 1, 1, 0, 0, 2, 127, 128, 129, 130, 255, 254, any]);
    stored.wrapping_add(distance)
}

/// A hop near the one that is right, or any.
fn hop_near(chance: &mut Chance, right: usize, members: usize) -> usize {
    let any = chance.range(1, HIGHEST_HOP);
    let inside = chance.range(1, members);
    let near = [
        right,
        right,
        right,
        right + 1,
        right.max(2) - 1,
        inside,
        any,
    ];
    chance.pick(&near).min(HIGHEST_HOP)
}

/// Reports with sequences of every distance, copies with other requests, hops that move.
pub fn quarrel(m: &mut Maker) {
    for _ in 0..m.chance.range(8, 50) {
        let at = m.ring.any(&mut m.chance);
        let ringlet = m.span();
        let mut report = m.ring.report(at, ringlet);
        report.sequence = sequence(&mut m.chance, report.sequence);
        let hop = m.ring.hop(at, ringlet);
        let members = m.ring.members.len();
        report.ttl = (256 - hop_near(&mut m.chance, hop, members)) as u8;
        if m.chance.percent(60) {
            report.requests = ring::requests(&mut m.chance);
        }
        if m.chance.percent(4) {
            report.span = 1 - report.span;
        }
        m.hear(&report);
        let member = &mut m.ring.members[at];
        if (1..=128).contains(&report.sequence.wrapping_sub(member.sequence)) {
            member.sequence = report.sequence;
            member.requests = report.requests;
        }
        if m.chance.percent(40) {
            m.ask_member();
        }
    }
}

/// Two members change seats, one leaves, or a stranger comes between.
pub fn displace(m: &mut Maker) {
    for _ in 0..m.chance.range(2, 8) {
        let at = m.ring.any(&mut m.chance);
        let other = m.ring.any(&mut m.chance);
        match m.chance.below(3) {
            0 => m.ring.members.swap(at, other),
            1 if m.ring.members.len() > 2 => {
                m.ring.members.remove(at);
            }
            _ if m.ring.members.len() < LARGEST => {
                let stranger = m.ring.stranger(&mut m.chance);
                m.ring.members.insert(at, stranger);
            }
            _ => {}
        }
        let few = m.chance.percent(50);
        for ringlet in 0..2 {
            for place in [at, other] {
                if place < m.ring.members.len() {
                    m.hear_member(place, ringlet);
                }
            }
            if !few {
                m.announce(ringlet);
            }
        }
        m.ask_around();
    }
}

/// Links go bad and good again, with a few ticks between.
pub fn flap(m: &mut Maker) {
    for _ in 0..m.chance.range(4, 20) {
        let span = m.span();
        let status = m.chance.pick(&[0, 0, 1, 1, 2]);
        m.link(span, status);
        let most = 2 + 10 * usize::from(m.opening.settings.hold_off.min(3));
        let ticks = m.chance.below(most);
        m.ticks(ticks, NONE_DEAF);
        match m.chance.below(4) {
            0 => m.announce(span),
            1 => m.ask_around(),
            2 => {
                let at = m.ring.any(&mut m.chance);
                m.hear_member(at, span);
            }
            _ => {}
        }
    }
}

/// The operator asks for switches; steering follows.
fn operate(m: &mut Maker) {
    for _ in 0..m.chance.range(4, 16) {
        let span = m.span();
        let request = m.chance.pick(&[0, 0, 2, 2, 5]);
        m.operator(span, request);
        match m.chance.below(6) {
            0 => m.ticks(3, NONE_DEAF),
            1 => m.announce(span),
            2 => {
                let at = m.ring.any(&mut m.chance);
                let address = m.ring.members[at].address;
                m.give(records::attributes(span as u8, address, &[]));
            }
            _ => m.ask_around(),
        }
    }
}

/// A span, or both, hear no keepalives for about as long as the setting says.
pub fn silence(m: &mut Maker) {
    for _ in 0..m.chance.range(1, 4) {
        let deaf = m.chance.pick(&[[true, false], [false, true], [true, true]]);
        let about = usize::from(m.opening.settings.keepalive);
        let ticks = (about + m.chance.below(4)).saturating_sub(2);
        m.ticks(ticks, deaf);
        let span = m.span();
        let at = m.ring.any(&mut m.chance);
        if m.chance.percent(50) {
            m.hear_member(at, span);
        }
        if m.chance.percent(30) {
            m.link(span, 0);
        }
        m.ask_around();
        for span in 0..2 {
            if m.chance.percent(80) {
                m.give(records::keepalive(span as u8));
            }
        }
        if m.chance.percent(60) {
            m.announce(span);
        }
        m.ask_around();
    }
}

/// A neighbour heard on the wrong span marks the cable; only a right neighbour clears it.
pub fn cross(m: &mut Maker) {
    for _ in 0..m.chance.range(2, 10) {
        let span = m.span();
        let neighbour = m.ring.at_hop(1, span);
        let mut wrong = m.ring.report(neighbour, span);
        wrong.ringlet = 1 - wrong.ringlet;
        wrong.ttl = m.chance.pick(&[255, 255, 254, 193]);
        m.hear(&wrong);
        for _ in 0..m.chance.below(4) {
            while_crossed(m, span);
        }
        let mut right = m.ring.report(neighbour, span);
        right.sequence = sequence(&mut m.chance, right.sequence);
        m.hear(&right);
        if m.chance.percent(50) {
            m.announce(span);
        }
        m.ask_around();
    }
}

/// What may happen while the cable of a span may be crossed.
fn while_crossed(m: &mut Maker, span: usize) {
    let at = m.ring.any(&mut m.chance);
    match m.chance.below(6) {
        0 => m.hear_member(at, span),
        1 => m.hear_member(at, 1 - span),
        2 => {
            let address = m.ring.members[at].address;
            let block = blocks::block(&mut m.chance);
            m.give(records::attributes(span as u8, address, &block));
        }
        3 => {
            let status = m.chance.pick(&[0, 1, 2]);
            m.link(span, status);
        }
        4 => m.ticks(2, NONE_DEAF),
        _ => m.ask_around(),
    }
}

/// All 63 hops of one ringlet are held; then newcomers and second hops come, for which there are places.
pub fn fill(m: &mut Maker) {
    let ringlet = m.span();
    m.ring.grow(&mut m.chance, LARGEST);
    m.heal();
    m.announce(ringlet);
    for _ in 0..m.chance.range(10, 40) {
        match m.chance.below(8) {
            0 | 1 => {
                let at = m.ring.any(&mut m.chance);
                m.hear_member(at, 1 - ringlet);
            }
            2 => {
                let at = m.ring.any(&mut m.chance);
                m.hear_member(at, ringlet);
            }
            3 => crossed_newcomer(m, ringlet),
            4 => m.ask_member(),
            _ => newcomer(m, ringlet),
        }
    }
    m.ask_around();
    let left = m.chance.pick(&[3, 8, 20, LARGEST]);
    m.ring.members.truncate(left);
}

/// A stranger takes a member's hop; whether the member leaves depends on its other hop.
fn newcomer(m: &mut Maker, ringlet: usize) {
    let at = m.ring.any(&mut m.chance);
    let on = m.chance.pick(&[ringlet, ringlet, 1 - ringlet]);
    let stranger = m.ring.stranger(&mut m.chance);
    let report = Report {
        address: stranger.address,
        sequence: stranger.sequence,
        requests: stranger.requests,
        ..m.ring.report(at, on)
    };
    m.hear(&report);
    m.ask(stranger.address);
    m.ask(m.ring.members[at].address);
    if m.chance.percent(40) {
        m.ring.members[at] = stranger;
    }
}

/// A crossed neighbour, then a stranger as the right one beside 63 others: it is taken, and the mark goes.
fn crossed_newcomer(m: &mut Maker, ringlet: usize) {
    let span = 1 - ringlet;
    let neighbour = m.ring.at_hop(1, span);
    let mut wrong = m.ring.report(neighbour, span);
    wrong.ringlet = 1 - wrong.ringlet;
    m.hear(&wrong);
    let address = m.ring.free_address(&mut m.chance);
    let report = Report {
        address,
        ..m.ring.report(neighbour, span)
    };
    m.hear(&report);
    m.ask_member();
}

/// Long runs of ticks are rare, and the longest settings are never waited for.
pub fn affordable(chance: &mut Chance, ticks: usize) -> bool {
    ticks <= 1_000
        || (ticks <= 2_000 && chance.percent(50))
        || (ticks <= 10_000 && chance.percent(8))
}

/// WTR runs out, or is broken off, with operator requests above it.
fn wait(m: &mut Maker) {
    let all = 1_000 * usize::from(m.opening.settings.wtr);
    let span = m.span();
    let bad = m.chance.pick(&[1, 2]);
    m.link(span, bad);
    let hold_off = 10 * usize::from(m.opening.settings.hold_off);
    m.ticks(hold_off, NONE_DEAF);
    m.link(span, 0);
    if !affordable(&mut m.chance, all) {
        return above_wtr(m, span);
    }
    let mut passed = 0;
    let end = if m.chance.percent(70) {
        all + 3
    } else {
        all / 2
    };
    while passed < end {
        let ticks = m.chance.range(1, 400).min(end - passed);
        m.ticks(ticks, NONE_DEAF);
        passed += ticks;
        above_wtr(m, span);
    }
    m.ask_around();
}

/// An operator request comes above WTR and mostly goes again.
fn above_wtr(m: &mut Maker, span: usize) {
    if m.chance.percent(60) {
        let request = m.chance.pick(&[2, 2, 5]);
        m.operator(span, request);
        let ticks = m.chance.below(4);
        m.ticks(ticks, NONE_DEAF);
        m.ask_member();
        if m.chance.percent(80) {
            m.operator(span, 0);
        }
    }
}

/// Members are heard, then most fall silent until they are forgotten.
fn forget(m: &mut Maker) {
    let all = 100 * usize::from(m.opening.settings.forget);
    if !affordable(&mut m.chance, all) {
        return learn(m);
    }
    m.restore();
    let part = m.chance.range(1, all - 1);
    m.ticks(part, NONE_DEAF);
    for _ in 0..m.chance.range(1, 6) {
        renew(m);
    }
    m.ticks(all - part - 1, NONE_DEAF);
    m.ask_around();
    m.ticks(2, NONE_DEAF);
    m.ask_around();
    if m.chance.percent(50) {
        m.ticks(part, NONE_DEAF);
        m.ask_around();
    }
}

/// Something is heard of a member: some of it renews its age, some does not.
pub fn renew(m: &mut Maker) {
    let at = m.ring.any(&mut m.chance);
    let ringlet = m.span();
    let mut report = m.ring.report(at, ringlet);
    match m.chance.below(5) {
        0 => {
            let address = report.address;
            m.give(records::attributes(ringlet as u8, address, &[]));
            return;
        }
        1 => report.sequence = report.sequence.wrapping_sub(1),
        2 => report.ringlet = 1 - report.ringlet,
        3 => {
            m.ring.change(&mut m.chance, at);
            report = m.ring.report(at, ringlet);
        }
        _ => {}
    }
    m.hear(&report);
}

/// Ticks enough for the eight fast reports and slow ones, with a change somewhere.
fn pace(m: &mut Maker) {
    let fast = usize::from(m.opening.settings.fast);
    let mut slow = 50 * usize::from(m.opening.settings.slow);
    if !affordable(&mut m.chance, 3 * slow) {
        slow = 50;
    }
    for _ in 0..m.chance.range(1, 3) {
        if m.chance.percent(60) {
            let span = m.span();
            let request = m.chance.pick(&[0, 2, 5]);
            m.operator(span, request);
        }
        let most = 8 * fast + 2 * slow + 2;
        let ticks = m.chance.pick(&[fast, 7 * fast + 1, 8 * fast + slow, most]);
        m.ticks(ticks, NONE_DEAF);
    }
    if m.chance.percent(50) {
        // The change comes within a tick: a span falls silent, and fast ones follow.
        let deaf = m.chance.pick(&[[true, false], [false, true]]);
        let ticks = usize::from(m.opening.settings.keepalive) + 3 * fast;
        m.ticks(ticks, deaf);
    }
}

/// Link statuses that come, change and go while hold-off runs.
fn hold(m: &mut Maker) {
    let all = 10 * usize::from(m.opening.settings.hold_off);
    if all == 0 {
        return flap(m);
    }
    let span = m.span();
    for _ in 0..m.chance.range(3, 10) {
        let status = m.chance.pick(&[0, 1, 1, 2, 2]);
        m.link(span, status);
        let some = m.chance.below(all);
        let ticks = m.chance.pick(&[0, 1, some, all - 1, all, all + 1]);
        m.ticks(ticks, NONE_DEAF);
        if m.chance.percent(20) {
            m.ask_around();
        }
    }
}

/// A dirty connector: a link, or both, swing every few ticks for about as long as hold-off, or longer.
fn dirty(m: &mut Maker) {
    let all = 10 * usize::from(m.opening.settings.hold_off);
    if all == 0 {
        return flap(m);
    }
    for _ in 0..m.chance.range(1, 3) {
        let spans = m.chance.pick(&[&[0][..], &[1], &[0, 1]]);
        m.heal();
        if m.chance.percent(35) {
            degrade(m, spans, all);
        }
        if spans.len() > 1 && m.chance.percent(50) {
            // One is ahead, so that the two times end apart.
            let ahead = m.chance.range(1, all);
            change(m, &spans[1..], &[1, 2]);
            m.ticks(ahead, NONE_DEAF);
        }
        // The last change comes just before the last tick of hold-off, just after it, a tick later, or much later.
        let much = m.chance.range(all, 3 * all);
        let ticks = m.chance.pick(&[all - 1, all - 1, all, all + 1, much]);
        swing(m, spans, ticks);
        m.ticks(1, NONE_DEAF);
        m.ask_around();
    }
}

/// Links are degraded for the whole of hold-off, so that this comes into force.
fn degrade(m: &mut Maker, spans: &[usize], all: usize) {
    change(m, spans, &[1]);
    m.ticks(all, NONE_DEAF);
}

/// Links change every few ticks, and once more after the last.
fn swing(m: &mut Maker, spans: &[usize], ticks: usize) {
    // A good status ends hold-off, so that most swings have none.
    let statuses = [&[1, 2][..], &[1, 2], &[1, 2, 2, 2], &[0, 1, 1, 2, 2, 2]];
    let statuses = m.chance.pick(&statuses);
    let few = m.chance.pick(&[2, 4, 9]);
    let mut left = ticks;
    while left > 0 {
        change(m, spans, statuses);
        let some = m.chance.range(1, few).min(left);
        m.ticks(some, NONE_DEAF);
        left -= some;
    }
    change(m, spans, statuses);
}

/// Each of these links reports one of these statuses, maybe the one that it has.
fn change(m: &mut Maker, spans: &[usize], statuses: &[u8]) {
    for &span in spans {
        let status = m.chance.pick(statuses);
        m.link(span, status);
    }
}

/// So many changes that the own sequence passes 255.
fn wrap(m: &mut Maker) {
    let span = m.span();
    for turn in 0..m.chance.range(100, 300) {
        let request = [0, 2, 5, 2][turn % 4];
        m.operator(span, request);
        if m.chance.percent(2) {
            m.ticks(1, NONE_DEAF);
        }
    }
}

/// Blocks of every sort for members, and some for stations that are not there.
pub fn block_round(m: &mut Maker) {
    for _ in 0..m.chance.range(10, 40) {
        let span = m.span() as u8;
        let at = m.ring.any(&mut m.chance);
        let address = match m.chance.below(20) {
            0 => m.opening.settings.address,
            1 => m.ring.free_address(&mut m.chance),
            2 => m.ring.members[at].address | 1 << 40,
            _ => m.ring.members[at].address,
        };
        let block = blocks::block(&mut m.chance);
        m.give(records::attributes(span, address, &block));
    }
}
