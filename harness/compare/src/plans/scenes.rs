//! Scenes of a plan: who is in the table, what each reserves, who is behind, and who leaves.

use text::records::{self, Report};

use crate::blocks;
use crate::chance::Chance;
use crate::joining::Joined;
use crate::maker::{Maker, NONE_DEAF};
use crate::owed;
use crate::plans::planning::Planning;
use crate::plans::questions::{ask, ask_once};
use crate::ring::LARGEST;
use crate::scenes as drill;
use crate::wild;

/// A scene gives its records to the maker.
pub type Scene = fn(&mut Planning);

/// Scenes and how often each comes.
pub const SCENES: [(usize, Scene); 9] = [
    (12, gather),
    (12, reserve),
    (6, fall_behind),
    (5, fail),
    (5, displace),
    (4, forget),
    (4, crowd),
    (4, join),
    (6, of_a_drill),
];

/// Scenes of drills by which stations come, move and leave. Their own questions are of an unknown kind here.
const OF_A_DRILL: [(usize, drill::Scene); 11] = [
    (2, drill::learn),
    (2, drill::quarrel),
    (1, drill::displace),
    (1, drill::flap),
    (1, drill::silence),
    (1, drill::cross),
    (1, drill::fill),
    (2, drill::block_round),
    (1, owed::spell),
    (1, wild::refusals),
    (1, wild::mutations),
];

fn of_a_drill(p: &mut Planning) {
    let scene = p.maker.chance.weighted(&OF_A_DRILL);
    scene(&mut p.maker);
}

/// Members are heard on one ringlet, on the other or on both: a closed ring, an open one, or any; with gaps now and then.
fn gather(p: &mut Planning) {
    let m = &mut p.maker;
    if m.chance.percent(60) {
        clear(m);
        if m.chance.percent(20) {
            ask(p);
        }
    }
    let m = &mut p.maker;
    let members = m.ring.members.len();
    let cut = m.chance.range(0, members);
    let shape = m.chance.below(5);
    let gaps = m.chance.percent(30);
    for at in any_order(&mut m.chance, members) {
        let ringlets = match shape {
            0 | 1 => [true, true],
            2 | 3 => [at < cut, at >= cut],
            _ => [m.chance.percent(50), m.chance.percent(50)],
        };
        let missed = gaps && m.chance.percent(25);
        for ringlet in (0..2).filter(|&ringlet| ringlets[ringlet] && !missed) {
            m.hear_member(at, ringlet);
        }
    }
    if m.chance.percent(70) {
        reserve(p);
    }
}

fn any_order(chance: &mut Chance, count: usize) -> Vec<usize> {
    let mut order: Vec<usize> = (0..count).collect();
    chance.shuffle(&mut order);
    order
}

/// Both spans fail, so that nobody is left, and are good again.
fn clear(m: &mut Maker) {
    for span in 0..2 {
        break_span(m, span);
        mend_span(m, span);
    }
}

fn break_span(m: &mut Maker, span: usize) {
    m.link(span, 2);
    m.ticks(10 * usize::from(m.opening.settings.hold_off), NONE_DEAF);
}

fn mend_span(m: &mut Maker, span: usize) {
    m.give(records::keepalive(span as u8));
    m.link(span, 0);
}

/// How much is reserved on a ringlet.
#[derive(Clone, Copy)]
enum Load {
    /// So little by each that all together may leave something, or exactly nothing.
    Shared,
    /// All of it, by nearly each.
    Heavy,
    /// Nothing at all.
    Nothing,
    /// Any number.
    Any,
}

impl Load {
    fn any(chance: &mut Chance) -> Load {
        let loads = [
            (10, Load::Shared),
            (4, Load::Heavy),
            (2, Load::Nothing),
            (2, Load::Any),
        ];
        chance.weighted(&loads)
    }

    /// What one of so many members reserves.
    fn part(self, chance: &mut Chance, members: usize) -> u16 {
        let any = (chance.next() >> 48) as u16;
        match self {
            Load::Shared => chance.range(0, 65_535 / members.max(2)) as u16,
            Load::Heavy => chance.pick(&[65_535, 65_535, 65_535, 65_535, 0, 1, any]),
            Load::Nothing => 0,
            Load::Any => any,
        }
    }
}

/// Members reserve, mostly all of them. Some of their blocks reserve nothing, or are of any sort.
fn reserve(p: &mut Planning) {
    let members = p.maker.ring.members.iter().map(|member| member.address);
    let addresses = members.collect();
    reserve_all(p, addresses);
}

/// The same of any stations.
fn reserve_all(p: &mut Planning, mut addresses: Vec<u64>) {
    let m = &mut p.maker;
    let loads = [Load::any(&mut m.chance), Load::any(&mut m.chance)];
    let part = m.chance.pick(&[100, 100, 60, 20]);
    m.chance.shuffle(&mut addresses);
    for &address in &addresses {
        if m.chance.percent(part) {
            reserve_for(m, address, loads, addresses.len());
        }
    }
}

/// What one of so many reserves.
fn reserve_for(m: &mut Maker, address: u64, loads: [Load; 2], stations: usize) {
    let chance = &mut m.chance;
    let bandwidths = loads.map(|load| load.part(chance, stations));
    let block = match chance.below(40) {
        0 => blocks::block(chance),
        1..=3 => Vec::new(),
        _ => blocks::reserving(chance, bandwidths),
    };
    let span = m.span() as u8;
    m.give(records::attributes(span, address, &block));
}

/// Blocks of some members are set aside, in any order of addresses; mostly other blocks follow.
fn fall_behind(p: &mut Planning) {
    for _ in 0..p.maker.chance.pick(&[1, 1, 2, 3, 5, 8]) {
        let m = &mut p.maker;
        let at = m.ring.any(&mut m.chance);
        let address = m.ring.members[at].address;
        let block = blocks::set_aside(&mut m.chance);
        let span = m.span() as u8;
        m.give(records::attributes(span, address, &block));
        if m.chance.percent(30) {
            ask_once(p);
        }
    }
    ask(p);
    if p.maker.chance.percent(75) {
        catch_up(p);
    }
}

/// Who is behind sends a block that is taken, one after another.
pub fn catch_up(p: &mut Planning) {
    let mut behind = p.behind();
    p.maker.chance.shuffle(&mut behind);
    let loads = [Load::Shared, Load::Shared];
    let members = p.maker.ring.members.len();
    for address in behind {
        reserve_for(&mut p.maker, address, loads, members);
        if p.maker.chance.percent(30) {
            ask_once(p);
        }
    }
}

/// A span fails and is good again; who is heard on its ringlet alone leaves, and has nothing reserved on coming back.
fn fail(p: &mut Planning) {
    let span = p.maker.span();
    break_span(&mut p.maker, span);
    ask(p);
    if p.maker.chance.percent(85) {
        mend_span(&mut p.maker, span);
    }
    if p.maker.chance.percent(60) {
        p.maker.announce(span);
        ask(p);
    }
}

/// Strangers take the hops of members, which leave if they have no other.
fn displace(p: &mut Planning) {
    for _ in 0..p.maker.chance.range(1, 6) {
        let m = &mut p.maker;
        let at = m.ring.any(&mut m.chance);
        let ringlet = m.span();
        let stranger = m.ring.stranger(&mut m.chance);
        m.hear(&Report {
            address: stranger.address,
            sequence: stranger.sequence,
            ..m.ring.report(at, ringlet)
        });
        if m.chance.percent(60) {
            let loads = [Load::any(&mut m.chance), Load::any(&mut m.chance)];
            let members = m.ring.members.len();
            reserve_for(m, stranger.address, loads, members);
        }
        if m.chance.percent(50) {
            m.ring.members[at] = stranger;
        }
        ask_once(p);
    }
}

/// Members fall silent, save a few; questions stand on both sides of the tick in which the others are forgotten.
fn forget(p: &mut Planning) {
    let all = 100 * usize::from(p.maker.opening.settings.forget);
    gather(p);
    if !drill::affordable(&mut p.maker.chance, all) {
        return;
    }
    let m = &mut p.maker;
    let part = m.chance.range(1, all - 1);
    m.ticks(part, NONE_DEAF);
    for _ in 0..m.chance.below(4) {
        drill::renew(m);
    }
    m.ticks(all - part - 1, NONE_DEAF);
    ask(p);
    p.maker.ticks(1, NONE_DEAF);
    ask(p);
    if p.maker.chance.percent(40) {
        p.maker.ticks(part, NONE_DEAF);
    }
}

/// All 63 hops of a ringlet are held, and all who hold them reserve.
fn crowd(p: &mut Planning) {
    let m = &mut p.maker;
    m.ring.grow(&mut m.chance, LARGEST);
    clear(m);
    let ringlet = m.span();
    m.announce(ringlet);
    reserve(p);
    ask(p);
    if p.maker.chance.percent(50) {
        catch_up(p);
        ask(p);
    }
    let m = &mut p.maker;
    let left = m.chance.pick(&[1, 3, 8, 20, LARGEST]);
    m.ring.members.truncate(left);
}

/// Two rings are joined: all 126 places are taken. Their stations reserve, fall behind and catch up, are displaced, and leave.
fn join(p: &mut Planning) {
    let before = p.maker.records.len();
    let mut joined = Joined::fill(&mut p.maker);
    if p.maker.chance.percent(40) {
        reserve_surely(&mut p.maker, &joined.addresses());
    } else {
        reserve_all(p, joined.addresses());
    }
    ask(p);
    if p.maker.chance.percent(60) {
        catch_up(p);
        ask(p);
    }
    for _ in 0..p.maker.chance.range(1, 8) {
        crowded(p, &mut joined);
        ask_once(p);
    }
    if p.maker.chance.percent(50) {
        catch_up(p);
        let span = p.maker.span();
        break_span(&mut p.maker, span);
        ask(p);
        mend_span(&mut p.maker, span);
    }
    joined.part(&mut p.maker);
    p.maker.spare_since(before);
}

/// Each of these stations reserves something on both ringlets.
fn reserve_surely(m: &mut Maker, addresses: &[u64]) {
    let loads = [Load::any(&mut m.chance), Load::any(&mut m.chance)];
    for &address in addresses {
        let chance = &mut m.chance;
        let bandwidths = loads.map(|load| load.part(chance, addresses.len()).max(1));
        let block = blocks::reserving(chance, bandwidths);
        let span = m.span() as u8;
        m.give(records::attributes(span, address, &block));
    }
}

/// Somebody of a full table falls behind and catches up, reserves something else, or is displaced by who reserves too.
fn crowded(p: &mut Planning, joined: &mut Joined) {
    let m = &mut p.maker;
    let seat = joined.seat(&mut m.chance);
    let loads = [Load::any(&mut m.chance), Load::any(&mut m.chance)];
    let stations = joined.addresses().len();
    match m.chance.below(3) {
        0 => {
            let address = joined.report(seat).address;
            let block = blocks::set_aside(&mut m.chance);
            let span = m.span() as u8;
            m.give(records::attributes(span, address, &block));
            ask_once(p);
            reserve_for(&mut p.maker, address, loads, stations);
        }
        1 => reserve_for(m, joined.report(seat).address, loads, stations),
        _ => {
            joined.newcomer(m, seat);
            if m.chance.percent(70) {
                reserve_for(m, joined.report(seat).address, loads, stations);
            }
        }
    }
}
