//! Settings of a controller: units, ranges, defaults, and the two settings records.
//! A settings record counts in five units; in here all of them have become ticks of 1 ms.

use crate::records::{self, BAD_FIELD, BAD_KIND};

/// A count of seconds.
struct Seconds(u16);
/// A count of 100 ms steps.
struct Steps100(u16);
/// A count of 50 ms steps.
struct Steps50(u8);
/// A count of 10 ms steps.
struct Steps10(u8);
/// A count of milliseconds.
struct Milliseconds(u8);

impl Seconds {
    fn ticks(self) -> u32 {
        u32::from(self.0) * 1_000
    }
}

impl Steps100 {
    fn ticks(self) -> u32 {
        u32::from(self.0) * 100
    }
}

impl Steps50 {
    fn ticks(self) -> u32 {
        u32::from(self.0) * 50
    }
}

impl Steps10 {
    fn ticks(self) -> u32 {
        u32::from(self.0) * 10
    }
}

impl Milliseconds {
    fn ticks(self) -> u32 {
        u32::from(self.0)
    }
}

/// Settings in force; every time is in ticks.
#[derive(Clone, Debug, PartialEq, Eq)]
pub struct Settings {
    /// Which attribute types are known: 1 or 2.
    pub level: u8,
    /// The own address.
    pub address: u64,
    /// Wait to restore.
    pub wtr: u32,
    /// Wait before a worse link status comes into force.
    pub hold_off: u32,
    /// Time without a keepalive after which a span is down.
    pub keepalive: u32,
    /// Time between the fast reports.
    pub fast: u32,
    /// Time between the other reports.
    pub slow: u32,
    /// Time without a report after which a station leaves.
    pub forget: u32,
}

impl Settings {
    /// The default settings with this address.
    pub fn defaults(address: u64) -> Settings {
        Settings {
            level: 2,
            address,
            wtr: Seconds(10).ticks(),
            hold_off: Steps10(0).ticks(),
            keepalive: Milliseconds(3).ticks(),
            fast: Milliseconds(10).ticks(),
            slow: Steps50(2).ticks(),
            forget: Steps100(10).ticks(),
        }
    }

    /// Reads a settings record, or gives 2, 3 or 4.
    pub fn read(record: &[u8]) -> Result<Settings, u8> {
        let (kind, body) = records::split(record)?;
        let read = match kind {
            32 => Settings::whole(body),
            33 => Settings::short(body),
            _ => return Err(BAD_KIND),
        };
        read.filter(|settings| !records::is_odd(settings.address))
            .ok_or(BAD_FIELD)
    }

    fn whole(body: &[u8]) -> Option<Settings> {
        let &[level, a, b, c, d, e, f, wtr_low, wtr_high, hold_off, keepalive, fast, slow, forget_low, forget_high] =
            body
        else {
            return None;
        };
        let wtr = u16::from_le_bytes([wtr_low, wtr_high]);
        let forget = u16::from_le_bytes([forget_low, forget_high]);
        let good = (1..=2).contains(&level)
            && wtr <= 1_440
            && hold_off <= 20
            && (2..=50).contains(&keepalive)
            && (1..=20).contains(&fast)
            && (1..=200).contains(&slow)
            && (2..=600).contains(&forget);
        good.then(|| Settings {
            level,
            address: records::address([a, b, c, d, e, f]),
            wtr: Seconds(wtr).ticks(),
            hold_off: Steps10(hold_off).ticks(),
            keepalive: Milliseconds(keepalive).ticks(),
            fast: Milliseconds(fast).ticks(),
            slow: Steps50(slow).ticks(),
            forget: Steps100(forget).ticks(),
        })
    }

    fn short(body: &[u8]) -> Option<Settings> {
        let bytes = <[u8; 6]>::try_from(body).ok()?;
        Some(Settings::defaults(records::address(bytes)))
    }
}

#[cfg(test)]
mod tests {
    use super::*;
    use crate::records::BAD_LENGTH;

    const WORKED: [u8; 19] = [
        0x11, 0, 0x20, 0, 2, 2, 0, 0, 0, 0, 1, 0, 0, 0, 0x32, 0x0A, 2, 0x0A, 0,
    ];

    fn with(at: usize, byte: u8) -> Result<Settings, u8> {
        let mut record = WORKED;
        record[at] = byte;
        Settings::read(&record)
    }

    #[test]
    fn worked_settings_become_ticks() {
        let settings = Settings::read(&WORKED).unwrap();
        assert_eq!(settings.address, 0x0200_0000_0001);
        assert_eq!((settings.wtr, settings.hold_off), (0, 0));
        assert_eq!((settings.keepalive, settings.fast), (50, 10));
        assert_eq!((settings.slow, settings.forget), (100, 1_000));
    }

    #[test]
    fn short_settings_are_the_defaults() {
        let record = [8, 0, 33, 0, 2, 0, 0, 0, 0, 5];
        let settings = Settings::read(&record).unwrap();
        assert_eq!(settings, Settings::defaults(0x0200_0000_0005));
        assert_eq!(settings.wtr, 10_000);
        assert_eq!(Settings::read(&[8, 0, 33, 0, 3, 0, 0, 0, 0, 5]), Err(4));
        assert_eq!(Settings::read(&[7, 0, 33, 0, 2, 0, 0, 0, 0]), Err(4));
    }

    #[test]
    fn each_range_ends_where_it_says() {
        // (place in the record, last good value, first bad one)
        let ends = [
            (4, 2, 3),
            (4, 1, 0),
            (5, 2, 3),
            (13, 20, 21),
            (14, 50, 51),
            (14, 2, 1),
            (15, 20, 21),
            (15, 1, 0),
            (16, 200, 201),
            (16, 1, 0),
            (17, 2, 1),
        ];
        for (at, good, bad) in ends {
            assert!(with(at, good).is_ok(), "place {at}, {good}");
            assert_eq!(with(at, bad), Err(BAD_FIELD), "place {at}, {bad}");
        }
    }

    #[test]
    fn two_byte_ranges_are_little_endian() {
        let mut record = WORKED;
        (record[11], record[12]) = (0xA0, 0x05);
        (record[17], record[18]) = (0x58, 0x02);
        let settings = Settings::read(&record).unwrap();
        assert_eq!((settings.wtr, settings.forget), (1_440_000, 60_000));
        record[11] = 0xA1;
        assert_eq!(Settings::read(&record), Err(BAD_FIELD));
        (record[11], record[17]) = (0xA0, 0x59);
        assert_eq!(Settings::read(&record), Err(BAD_FIELD));
    }

    #[test]
    fn other_kinds_are_3_and_bad_heads_2() {
        assert_eq!(with(2, 34), Err(BAD_KIND));
        assert_eq!(with(3, 1), Err(BAD_KIND));
        assert_eq!(with(0, 0x12), Err(BAD_LENGTH));
        assert_eq!(Settings::read(&[2, 0, 40, 0]), Err(BAD_KIND));
        assert_eq!(Settings::read(&[2, 0, 32, 0]), Err(BAD_FIELD));
    }
}
