//! Ticks that the card owes after a busy spell: many in one record, with counts of every sort, and counts that are refused.

use text::records::{self, record, Bytes};

use crate::chance::Chance;
use crate::maker::{Maker, MOST_SHARED, NONE_DEAF};

/// Something happens, and then the ticks that passed meanwhile come in one record; some such records are bad.
pub fn spell(m: &mut Maker) {
    for _ in 0..m.chance.range(2, 8) {
        for _ in 0..m.chance.below(3) {
            happen(m);
        }
        if m.chance.percent(25) {
            let record = bad(&mut m.chance);
            m.give(record);
        } else {
            let count = count(m);
            m.give(records::ticks(count));
        }
        if m.chance.percent(30) {
            m.ask_around();
        }
    }
}

/// What the ticks may end, or what they may not reach.
fn happen(m: &mut Maker) {
    let span = m.span();
    match m.chance.below(8) {
        0 => m.restore(),
        1 => {
            let status = m.chance.pick(&[0, 1, 2]);
            m.link(span, status);
        }
        2 => {
            let request = m.chance.pick(&[0, 0, 2, 5]);
            m.operator(span, request);
        }
        3 => {
            let at = m.ring.any(&mut m.chance);
            m.hear_member(at, span);
        }
        4 => m.give(records::keepalive(span as u8)),
        5 => m.heal(),
        6 => {
            let ticks = m.chance.range(1, 12);
            m.ticks(ticks, NONE_DEAF);
        }
        _ => {
            for span in 0..2 {
                m.give(records::keepalive(span));
            }
        }
    }
}

/// A count that is taken: about as long as something lasts by the settings, short, at the edges of a byte, or of the range.
fn count(m: &mut Maker) -> u16 {
    let settings = &m.opening.settings;
    let fast = usize::from(settings.fast);
    let lasts = [
        10 * usize::from(settings.hold_off),
        usize::from(settings.keepalive),
        fast,
        7 * fast,
        8 * fast,
        50 * usize::from(settings.slow),
        100 * usize::from(settings.forget),
        1_000 * usize::from(settings.wtr),
    ];
    let about = m.chance.pick(&lasts) + m.chance.pick(&[0, 1, 2]);
    let about = about.saturating_sub(1);
    let some = m.chance.range(1, 60);
    let any = m.chance.range(1, MOST_SHARED);
    let edge = m
        .chance
        .pick(&[1, 2, 255, 256, 257, 512, 999, 1_000, 1_000]);
    let count = m
        .chance
        .pick(&[about, about, about, about, some, some, any, edge]);
    count.clamp(1, MOST_SHARED) as u16
}

/// A record of kind 7 that is refused, or one of a kind that is not 7.
pub fn bad(chance: &mut Chance) -> Bytes {
    let good = chance.pick(&[1_u16, 2, 30, 256, 1_000]).to_le_bytes();
    match chance.below(4) {
        0 | 1 => {
            let any = (chance.next() >> 48) as u16;
            // Some are in range with their bytes swapped, or if only one of them is read.
            let counts = [
                0, 0, 1_001, 1_001, 1_002, 1_280, 4_096, 0x8001, 0xE803, 65_535,
            ];
            let count = chance.pick(&counts);
            records::ticks(chance.pick(&[count, count, any.max(1_001)]))
        }
        2 => {
            let length = chance.pick(&[0, 1, 1, 3, 3, 4, 12, 200]);
            let mut body = good.to_vec();
            body.resize(length, 0);
            record(7, &body)
        }
        _ => record(chance.pick(&[8, 8, 9, 0x0107, 0x0700]), &good),
    }
}
