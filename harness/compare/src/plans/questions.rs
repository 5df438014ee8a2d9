//! The planner's questions: link rates and own reservations of every sort, above all those with nothing or next to nothing free.

use text::records::{self, Bytes};

use crate::chance::Chance;
use crate::maker::Maker;
use crate::plans::planning::Planning;
use crate::wild;

/// The kind of the planner's question.
pub const KIND: u16 = 41;
/// The greatest link rate.
const HIGHEST_RATE: i64 = 65_535;

/// A question: link rate, and own reservation on each ringlet.
pub fn record(rate: u32, own: [u16; 2]) -> Bytes {
    let [zero, one] = own.map(u16::to_le_bytes);
    records::record(KIND, &[&rate.to_le_bytes()[..], &zero, &one].concat())
}

/// Asks some questions.
pub fn ask(p: &mut Planning) {
    for _ in 0..p.maker.chance.range(1, 6) {
        ask_once(p);
    }
}

/// Asks one question.
pub fn ask_once(p: &mut Planning) {
    let question = match p.maker.chance.below(20) {
        0..=6 => fitting_own(p),
        7..=10 => fitting_rate(p),
        11 | 12 => out_of_range(&mut p.maker.chance),
        13 => other_length(&mut p.maker.chance),
        _ => anything(&mut p.maker.chance),
    };
    p.maker.give(question);
}

/// Asks a few questions whatever the table is.
pub fn ask_blindly(m: &mut Maker) {
    for _ in 0..m.chance.range(1, 4) {
        let question = anything(&mut m.chance);
        m.give(question);
    }
}

/// A good record of any kind that the planner's program reads, a question as often as not.
pub fn or_event(m: &mut Maker) -> Bytes {
    if m.chance.percent(50) {
        anything(&mut m.chance)
    } else {
        wild::event(m)
    }
}

/// What is wanted to be free on a ringlet: nothing, or one more or less than that, or some more or less.
fn wanted(chance: &mut Chance) -> i64 {
    let some = chance.range(0, 600) as i64 - 300;
    chance.pick(&[0, 0, 0, 1, -1, -1, some])
}

/// Own reservations that leave what is wanted on both ringlets, as far as they can.
fn fitting_own(p: &mut Planning) -> Bytes {
    let reserved = p.reserved();
    let chance = &mut p.maker.chance;
    let taken = reserved.map(|sum| sum + wanted(chance));
    let least = taken[0].max(taken[1]).clamp(0, HIGHEST_RATE);
    let above = chance.range(0, (HIGHEST_RATE - least) as usize) as i64;
    let rate = chance.pick(&[least, least, least + above, HIGHEST_RATE]);
    let own = taken.map(|taken| (rate - taken).clamp(0, HIGHEST_RATE) as u16);
    record(rate as u32, own)
}

/// A link rate that leaves what is wanted on one ringlet, as far as it can.
fn fitting_rate(p: &mut Planning) -> Bytes {
    let reserved = p.reserved();
    let chance = &mut p.maker.chance;
    let own = [own(chance), own(chance)];
    let ringlet = chance.below(2);
    let rate = reserved[ringlet] + i64::from(own[ringlet]) + wanted(chance);
    record(rate.clamp(0, HIGHEST_RATE + 2) as u32, own)
}

/// An own reservation; small ones leave room for those of the others.
fn own(chance: &mut Chance) -> u16 {
    let any = (chance.next() >> 48) as u16;
    chance.pick(&[0, 0, 1, any % 1_000, any % 1_000, any, 65_535])
}

fn anything(chance: &mut Chance) -> Bytes {
    let any = (chance.next() >> 48) as u32;
    let rate = chance.pick(&[0, 1, 1_000, 65_534, 65_535, 65_535, any, any]);
    record(rate, [own(chance), own(chance)])
}

/// Some of these are in range if only their low half is read.
fn out_of_range(chance: &mut Chance) -> Bytes {
    let any = (chance.next() >> 32) as u32 | 1 << 16;
    let rates = [65_536, 65_536, 65_537, 131_071, 1 << 24, 1 << 31, u32::MAX];
    let rate = chance.pick(&rates);
    let rate = chance.pick(&[rate, rate, any]);
    record(rate, [own(chance), own(chance)])
}

fn other_length(chance: &mut Chance) -> Bytes {
    let length = chance.pick(&[0, 1, 2, 4, 6, 7, 9, 10, 16, 300, 1_031]);
    records::record(KIND, &vec![chance.byte(); length])
}
