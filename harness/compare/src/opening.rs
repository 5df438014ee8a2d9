//! The settings that a drill or a plan opens with, and the settings records that a start refuses.

use text::records::{self, record, Bytes, Settings};

use crate::chance::Chance;

/// Settings, and the kind of record that carries them.
#[derive(Clone, Debug)]
pub struct Opening {
    /// As the settings record counts them.
    pub settings: Settings,
    /// Given as short settings, kind 33.
    pub short: bool,
}

impl Opening {
    /// Settings that a start takes.
    pub fn new(chance: &mut Chance) -> Opening {
        let own = own_address(chance);
        match chance.below(20) {
            0 => Opening::defaults(own),
            1 | 2 => Opening::full(anywhere(chance, own)),
            3..=6 => Opening::full(waiting(chance, own)),
            7..=10 => Opening::full(holding(chance, own)),
            _ => Opening::full(brisk(chance, own)),
        }
    }

    fn defaults(own: u64) -> Opening {
        let address = own;
        Opening {
            settings: Settings {
                address,
                ..Settings::DEFAULT
            },
            short: true,
        }
    }

    fn full(settings: Settings) -> Opening {
        Opening {
            settings,
            short: false,
        }
    }

    /// The settings record.
    pub fn bytes(&self) -> Bytes {
        if self.short {
            records::short_settings(self.settings.address)
        } else {
            records::settings(&self.settings)
        }
    }
}

/// Short times, so that a few hundred ticks see all of them run out.
fn brisk(chance: &mut Chance, address: u64) -> Settings {
    Settings {
        level: chance.pick(&[1, 1, 2, 2, 2]),
        address,
        wtr: chance.pick(&[0, 0, 0, 1]),
        hold_off: chance.pick(&[0, 0, 0, 1, 2]),
        keepalive: chance.pick(&[2, 3, 5, 10, 20, 50, 50]),
        fast: chance.pick(&[1, 2, 3, 7]),
        slow: chance.pick(&[1, 1, 2]),
        forget: chance.pick(&[2, 2, 2, 3]),
    }
}

/// WTR that can run out within a drill.
fn waiting(chance: &mut Chance, address: u64) -> Settings {
    Settings {
        wtr: chance.pick(&[1, 1, 1, 2]),
        keepalive: chance.pick(&[20, 40, 49, 50]),
        forget: chance.pick(&[2, 5, 12, 600]),
        fast: chance.pick(&[1, 5, 20]),
        ..brisk(chance, address)
    }
}

/// Hold-off of every size.
fn holding(chance: &mut Chance, address: u64) -> Settings {
    Settings {
        hold_off: chance.pick(&[1, 1, 2, 3, 5, 20]),
        keepalive: chance.pick(&[5, 20, 50]),
        forget: chance.pick(&[2, 5, 600]),
        ..brisk(chance, address)
    }
}

/// Anything in range, the ends most often.
fn anywhere(chance: &mut Chance, address: u64) -> Settings {
    let between = |chance: &mut Chance, first: usize, last: usize| {
        let any = chance.range(first, last);
        chance.pick(&[first, last, any])
    };
    Settings {
        level: between(chance, 1, 2) as u8,
        address,
        wtr: between(chance, 0, 1_440) as u16,
        hold_off: between(chance, 0, 20) as u8,
        keepalive: between(chance, 2, 50) as u8,
        fast: between(chance, 1, 20) as u8,
        slow: between(chance, 1, 200) as u8,
        forget: between(chance, 2, 600) as u16,
    }
}

fn own_address(chance: &mut Chance) -> u64 {
    let any = (chance.next() >> 16) & !(1 << 40);
    chance.pick(&[0x0200_0000_0001, 0x0200_0000_0080, 0, 0xFEFF_FFFF_FFFF, any])
}

/// The beginning of an input that ends with its settings.
pub fn refused(chance: &mut Chance) -> Bytes {
    let opening = Opening::new(chance);
    let mut good = opening.bytes();
    match chance.below(8) {
        0 => Vec::new(),
        1 => {
            let left = chance.range(1, good.len() - 1);
            good.truncate(left);
            good
        }
        2 => {
            let length = chance.pick(&[0_u16, 1, 1_034, 1_035, 0x2000, 65_535]);
            good[..2].copy_from_slice(&length.to_le_bytes());
            good
        }
        3 => {
            let kind = chance.pick(&[0, 1, 2, 3, 5, 7, 16, 31, 34, 40, 48, 0x0120, 0x2000]);
            record(kind, &good[4..])
        }
        4 => {
            let kind = chance.pick(&[32, 33]);
            let length = chance.pick(&[0, 1, 5, 7, 14, 16, 17, 300]);
            record(kind, &vec![2; length])
        }
        _ => out_of_range(chance, opening),
    }
}

/// One field out of its range, or an odd own address.
fn out_of_range(chance: &mut Chance, mut opening: Opening) -> Bytes {
    opening.short = false;
    let settings = &mut opening.settings;
    match chance.below(8) {
        0 => settings.level = chance.pick(&[0, 3, 255]),
        1 => settings.wtr = chance.pick(&[1_441, 0x0A00, 65_535]),
        2 => settings.hold_off = chance.pick(&[21, 255]),
        3 => settings.keepalive = chance.pick(&[0, 1, 51, 255]),
        4 => settings.fast = chance.pick(&[0, 21, 255]),
        5 => settings.slow = chance.pick(&[0, 201, 255]),
        6 => settings.forget = chance.pick(&[0, 1, 601, 0x0A00, 65_535]),
        _ => {
            settings.address |= 1 << 40;
            opening.short = chance.percent(50);
        }
    }
    opening.bytes()
}

#[cfg(test)]
mod tests {
    use super::*;
    use model::Node;

    #[test]
    fn openings_are_taken_and_refused_ones_are_not() {
        let mut chance = Chance::new(3);
        let mut seen = [0; 5];
        for _ in 0..2_000 {
            assert_eq!(Node::start(&Opening::new(&mut chance).bytes()).0, 0);
            let (result, _) = Node::start(&refused(&mut chance));
            seen[usize::from(result)] += 1;
        }
        assert_eq!((seen[0], seen[1]), (0, 0));
        assert!(seen[2..].iter().all(|&count| count > 100), "{seen:?}");
    }
}
