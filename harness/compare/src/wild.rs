//! Records that are wrong in one field or many, mutated records, and odd questions.

use text::records::{self, record, wire, Bytes, Report};

use crate::blocks;
use crate::chance::Chance;
use crate::maker::Maker;
use crate::owed;
use crate::ring;

/// Kinds that are not events, among them the good ones with a high byte added.
const NOT_EVENTS: [u16; 22] = [
    0, 8, 9, 15, 16, 31, 32, 33, 34, 39, 41, 48, 127, 255, 256, 257, 262, 263, 0x0128, 0x0500,
    0x0700, 0xFFFF,
];

/// Records that are mostly refused.
pub fn refusals(m: &mut Maker) {
    for _ in 0..m.chance.range(10, 40) {
        let record = match m.chance.below(7) {
            6 => owed::bad(&mut m.chance),
            0 => other_kind(&mut m.chance),
            1 => other_length(&mut m.chance),
            2 => short_event(&mut m.chance),
            3 => attributes(m),
            _ => report(m),
        };
        m.give(record);
    }
    m.ask_around();
}

/// Good records of all kinds, in no order.
pub fn mixture(m: &mut Maker) {
    for _ in 0..m.chance.range(20, 120) {
        let record = event(m);
        m.give(record);
    }
    m.ask_around();
}

/// Good records with a byte or two changed; the length stays, so that the next record is found.
pub fn mutations(m: &mut Maker) {
    for _ in 0..m.chance.range(10, 40) {
        let mut record = event(m);
        for _ in 0..m.chance.pick(&[0, 1, 1, 2]) {
            let at = m.chance.range(2, record.len() - 1);
            record[at] = match m.chance.below(3) {
                0 => m.chance.byte(),
                1 => record[at] ^ (1 << m.chance.below(8)),
                _ => m.chance.pick(&[0, 1, 2, 5, 6, 255]),
            };
        }
        m.give(record);
    }
    m.ask_around();
}

/// Questions about stations that are there, are not, cannot be, and of wrong length.
pub fn questions(m: &mut Maker) {
    for _ in 0..m.chance.range(6, 25) {
        let at = m.ring.any(&mut m.chance);
        let member = m.ring.members[at].address;
        match m.chance.below(8) {
            0 => m.ask(m.opening.settings.address),
            1 => {
                let address = m.ring.free_address(&mut m.chance);
                m.ask(address);
            }
            2 => m.ask(member | 1 << 40),
            3 => {
                let length = m.chance.pick(&[0, 1, 5, 7, 12, 100]);
                let mut body = wire(member).to_vec();
                body.resize(length, 0);
                m.give(record(40, &body));
            }
            _ => m.ask(member),
        }
    }
}

/// A good record of any kind that the drill program reads on from.
pub fn event(m: &mut Maker) -> Bytes {
    let span = m.span();
    let at = m.ring.any(&mut m.chance);
    let address = m.ring.members[at].address;
    match m.chance.below(9) {
        8 => records::ticks(m.chance.pick(&[1, 2, 3, 10, 30])),
        0 => records::tick(),
        1 => records::link(span as u8, m.chance.pick(&[0, 0, 1, 2])),
        2 => records::keepalive(span as u8),
        3 => records::operator(span as u8, m.chance.pick(&[0, 0, 2, 5])),
        4 => records::attributes(span as u8, address, &blocks::block(&mut m.chance)),
        5 => records::question(address),
        _ => {
            if m.chance.percent(50) {
                m.ring.change(&mut m.chance, at);
            }
            records::report(&m.ring.report(at, span))
        }
    }
}

fn other_kind(chance: &mut Chance) -> Bytes {
    let any = (chance.next() >> 48) as u16;
    let kind = match chance.below(5) {
        0 => any.max(41),
        _ => chance.pick(&NOT_EVENTS),
    };
    let length = chance.pick(&[0, 1, 2, 6, 7, 12, 15, 15, 200, 1_031]);
    let body: Vec<u8> = (0..length).map(|_| chance.pick(&[0, 1, 2])).collect();
    record(kind, &body)
}

/// Kinds 1 to 7 with bodies of another length.
fn other_length(chance: &mut Chance) -> Bytes {
    let kind = chance.range(1, 7) as u16;
    let length = chance.pick(&[0, 1, 2, 3, 5, 6, 11, 13, 255, 1_031]);
    record(kind, &vec![0; length])
}

/// Kinds 2 to 4 with fields in range and beyond.
fn short_event(chance: &mut Chance) -> Bytes {
    let span = chance.pick(&[0, 1, 1, 2, 255]);
    let value = chance.pick(&[0, 1, 2, 3, 4, 5, 6, 255]);
    match chance.below(3) {
        0 => records::link(span, value),
        1 => records::operator(span, value),
        _ => records::keepalive(span),
    }
}

/// An address that may be a member's, the own one, free, or odd.
fn address(m: &mut Maker) -> u64 {
    let at = m.ring.any(&mut m.chance);
    let any = match m.chance.below(8) {
        0 | 1 => m.opening.settings.address,
        2 => m.ring.free_address(&mut m.chance),
        _ => m.ring.members[at].address,
    };
    if m.chance.percent(8) {
        any | 1 << 40
    } else {
        any
    }
}

fn attributes(m: &mut Maker) -> Bytes {
    let span = m.chance.pick(&[0, 0, 1, 1, 2]);
    let address = address(m);
    let block = blocks::block(&mut m.chance);
    records::attributes(span, address, &block)
}

/// Each field may be wrong, so that the order of the refusals shows.
fn report(m: &mut Maker) -> Bytes {
    let span = m.chance.pick(&[0, 0, 0, 1, 1, 1, 2]);
    let other = m.chance.pick(&[0, 1, 2, 255]);
    let ringlet = if m.chance.percent(75) { span } else { other };
    let near = 255 - m.chance.below(m.ring.members.len()) as u8;
    let any = m.chance.byte();
    let mut requests = ring::requests(&mut m.chance);
    if m.chance.percent(10) {
        let at = m.chance.below(2);
        requests[at] = m.chance.pick(&[6, 7, 128, 255]);
    }
    records::report(&Report {
        span,
        ringlet,
        ttl: m.chance.pick(&[near, near, near, 255, 193, 192, 1, 0, any]),
        address: address(m),
        sequence: m.chance.byte(),
        requests,
    })
}
