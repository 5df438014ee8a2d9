//! One record of a drill: what the words of the rules can say, or bytes.

use crate::pieces::length;
use crate::records::{self, Bytes, Report, Settings};

/// A record. Every field takes any number that its bytes can hold.
#[derive(Clone, Debug, PartialEq, Eq)]
pub enum Record {
    /// Kind 32.
    Settings(Settings),
    /// Kind 33, with the own address.
    ShortSettings(u64),
    /// Kind 1.
    Tick,
    /// Kind 2: span and status.
    Link(u8, u8),
    /// Kind 3: span.
    Keepalive(u8),
    /// Kind 4: span and request.
    Operator(u8, u8),
    /// Kind 5.
    Report(Report),
    /// Kind 6: span, address and block.
    Attributes(u8, u64, Bytes),
    /// Kind 7: how many ticks.
    Ticks(u16),
    /// Kind 40, with the address asked for.
    Way(u64),
    /// What the words cannot say: another kind, a wrong body length, a cut record.
    Bytes(Bytes),
}

impl Record {
    /// The bytes of the record.
    pub fn bytes(&self) -> Bytes {
        match self {
            Record::Settings(settings) => records::settings(settings),
            Record::ShortSettings(address) => records::short_settings(*address),
            Record::Tick => records::tick(),
            Record::Link(span, status) => records::link(*span, *status),
            Record::Keepalive(span) => records::keepalive(*span),
            Record::Operator(span, request) => records::operator(*span, *request),
            Record::Report(report) => records::report(report),
            Record::Attributes(span, address, block) => records::attributes(*span, *address, block),
            Record::Ticks(count) => records::ticks(*count),
            Record::Way(address) => records::question(*address),
            Record::Bytes(bytes) => bytes.clone(),
        }
    }

    /// The record that these bytes are: in words if there are any for it.
    pub fn of(piece: &[u8]) -> Record {
        let in_words = body(piece).and_then(|(kind, body)| said(kind, body));
        in_words.unwrap_or_else(|| Record::Bytes(piece.to_vec()))
    }
}

/// Kind and body of a whole record.
fn body(piece: &[u8]) -> Option<(u16, &[u8])> {
    let [_, _, kind_low, kind_high, body @ ..] = piece else {
        return None;
    };
    let whole = length(piece) == Some(piece.len() - 2);
    whole.then_some((u16::from_le_bytes([*kind_low, *kind_high]), body))
}

/// The record of a kind, if the body has the length for it.
fn said(kind: u16, body: &[u8]) -> Option<Record> {
    Some(match (kind, body) {
        (1, []) => Record::Tick,
        (2, [span, status]) => Record::Link(*span, *status),
        (3, [span]) => Record::Keepalive(*span),
        (4, [span, request]) => Record::Operator(*span, *request),
        (5, [span, ringlet, ttl, from @ .., sequence, west, east]) => Record::Report(Report {
            span: *span,
            ringlet: *ringlet,
            ttl: *ttl,
            address: records::address(from.try_into().ok()?),
            sequence: *sequence,
            requests: [*west, *east],
        }),
        (6, [span, rest @ ..]) => {
            let (from, block) = rest.split_first_chunk()?;
            Record::Attributes(*span, records::address(*from), block.to_vec())
        }
        (7, [low, high]) => Record::Ticks(u16::from_le_bytes([*low, *high])),
        (32, body) => Record::Settings(settings(body.try_into().ok()?)),
        (33, body) => Record::ShortSettings(records::address(body.try_into().ok()?)),
        (40, body) => Record::Way(records::address(body.try_into().ok()?)),
        _ => return None,
    })
}

fn settings(body: &[u8; 15]) -> Settings {
    let [level, a, b, c, d, e, f, wtr_low, wtr_high, hold_off, keepalive, fast, slow, forget_low, forget_high] =
        *body;
    Settings {
        level,
        address: records::address([a, b, c, d, e, f]),
        wtr: u16::from_le_bytes([wtr_low, wtr_high]),
        hold_off,
        keepalive,
        fast,
        slow,
        forget: u16::from_le_bytes([forget_low, forget_high]),
    }
}

#[cfg(test)]
mod tests {
    use super::*;

    /// One of each sort, with fields that no two share.
    fn samples() -> Vec<Record> {
        vec![
            Record::Settings(Settings {
                level: 1,
                address: 0x0203_0405_0607,
                wtr: 0x0809,
                hold_off: 10,
                keepalive: 11,
                fast: 12,
                slow: 13,
                forget: 0x0E0F,
            }),
            Record::ShortSettings(0x0203_0405_0607),
            Record::Tick,
            Record::Link(1, 2),
            Record::Keepalive(255),
            Record::Operator(0, 5),
            Record::Report(Report {
                span: 1,
                ringlet: 0,
                ttl: 2,
                address: 0x0304_0506_0708,
                sequence: 9,
                requests: [10, 11],
            }),
            Record::Attributes(1, 0x0203_0405_0607, vec![8, 9]),
            Record::Attributes(1, 0x0203_0405_0607, vec![0; records::LONGEST_BLOCK]),
            Record::Ticks(0x0102),
            Record::Way(0x0203_0405_0607),
        ]
    }

    #[test]
    fn records_are_read_back() {
        for record in samples() {
            assert_eq!(Record::of(&record.bytes()), record);
        }
    }

    #[test]
    fn a_byte_more_or_less_is_no_longer_in_words() {
        for record in samples() {
            let bytes = record.bytes();
            let cut = &bytes[..bytes.len() - 1];
            assert_eq!(Record::of(cut), Record::Bytes(cut.to_vec()));
            let more = [&bytes[..], &[0]].concat();
            assert_eq!(Record::of(&more), Record::Bytes(more));
        }
    }
}
