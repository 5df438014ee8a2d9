//! Bytes of the house records. Any field takes any byte.

/// A record that comes with its length field.
pub type Bytes = Vec<u8>;

/// The greatest length of a record.
pub const LONGEST: usize = 1_033;
/// The most bytes of a block: what the longest record of kind 6 has room for.
pub const LONGEST_BLOCK: usize = LONGEST - 9;

/// A record of this kind and body.
pub fn record(kind: u16, body: &[u8]) -> Bytes {
    let length = u16::try_from(body.len() + 2).unwrap_or(u16::MAX);
    [&length.to_le_bytes(), &kind.to_le_bytes(), body].concat()
}

/// The six bytes of an address.
pub fn wire(address: u64) -> [u8; 6] {
    let [_, _, rest @ ..] = address.to_be_bytes();
    rest
}

/// The address that six bytes are.
pub fn address(wire: [u8; 6]) -> u64 {
    wire.iter().fold(0, |sum, &byte| sum << 8 | u64::from(byte))
}

/// Kind 1.
pub fn tick() -> Bytes {
    record(1, &[])
}

/// Kind 2.
pub fn link(span: u8, status: u8) -> Bytes {
    record(2, &[span, status])
}

/// Kind 3.
pub fn keepalive(span: u8) -> Bytes {
    record(3, &[span])
}

/// Kind 4.
pub fn operator(span: u8, request: u8) -> Bytes {
    record(4, &[span, request])
}

/// What kind 5 carries.
#[derive(Clone, Copy, Debug, PartialEq, Eq)]
pub struct Report {
    /// Span that hears it.
    pub span: u8,
    /// Ringlet it names.
    pub ringlet: u8,
    /// 256 - hop.
    pub ttl: u8,
    /// Who sent it.
    pub address: u64,
    /// The sender's sequence.
    pub sequence: u8,
    /// The sender's west and east request.
    pub requests: [u8; 2],
}

/// Kind 5.
pub fn report(report: &Report) -> Bytes {
    let [a, b, c, d, e, f] = wire(report.address);
    let [west, east] = report.requests;
    let Report {
        span,
        ringlet,
        ttl,
        sequence,
        ..
    } = *report;
    record(
        5,
        &[span, ringlet, ttl, a, b, c, d, e, f, sequence, west, east],
    )
}

/// Kind 6.
pub fn attributes(span: u8, address: u64, block: &[u8]) -> Bytes {
    let mut body = vec![span];
    body.extend(wire(address));
    body.extend(block);
    record(6, &body)
}

/// Kind 7: so many ticks, the low byte first.
pub fn ticks(count: u16) -> Bytes {
    record(7, &count.to_le_bytes())
}

/// What kind 32 carries, in the units of the record.
#[derive(Clone, Copy, Debug, PartialEq, Eq)]
pub struct Settings {
    /// Level.
    pub level: u8,
    /// The own address.
    pub address: u64,
    /// Wait to restore, in seconds.
    pub wtr: u16,
    /// Hold-off, in steps of 10 ms.
    pub hold_off: u8,
    /// Keepalive, in milliseconds.
    pub keepalive: u8,
    /// Between fast reports, in milliseconds.
    pub fast: u8,
    /// Between slow reports, in steps of 50 ms.
    pub slow: u8,
    /// Forget time, in steps of 100 ms.
    pub forget: u16,
}

impl Settings {
    /// The default settings of the rules; their address is zero.
    pub const DEFAULT: Settings = Settings {
        level: 2,
        address: 0,
        wtr: 10,
        hold_off: 0,
        keepalive: 3,
        fast: 10,
        slow: 2,
        forget: 10,
    };
}

/// Kind 32.
pub fn settings(settings: &Settings) -> Bytes {
    let mut body = vec![settings.level];
    body.extend(wire(settings.address));
    body.extend(settings.wtr.to_le_bytes());
    body.extend([settings.hold_off, settings.keepalive]);
    body.extend([settings.fast, settings.slow]);
    body.extend(settings.forget.to_le_bytes());
    record(32, &body)
}

/// Kind 33.
pub fn short_settings(address: u64) -> Bytes {
    record(33, &wire(address))
}

/// Kind 40, the drill program's own question.
pub fn question(address: u64) -> Bytes {
    record(40, &wire(address))
}

#[cfg(test)]
mod tests {
    use super::*;
    use crate::hex::list;

    #[test]
    fn a_report_has_the_bytes_of_the_worked_drill() {
        let heard = Report {
            span: 0,
            ringlet: 0,
            ttl: 255,
            address: 0x0200_0000_0002,
            sequence: 7,
            requests: [0, 0],
        };
        let text = "0E 00 05 00 00 00 FF 02 00 00 00 00 02 07 00 00";
        assert_eq!(list(&report(&heard)), text);
    }

    #[test]
    fn settings_have_the_bytes_of_the_worked_drill() {
        let worked = Settings {
            address: 0x0200_0000_0001,
            wtr: 0,
            keepalive: 50,
            ..Settings::DEFAULT
        };
        let text = "11 00 20 00 02 02 00 00 00 00 01 00 00 00 32 0A 02 0A 00";
        assert_eq!(list(&settings(&worked)), text);
    }
}
