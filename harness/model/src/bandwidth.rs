//! Free bandwidth of each ringlet: the link rate less all reservations, the own ones and those of every station in the table.
//! A station that is behind shows no reservations, so there are no numbers as long as one is.

use crate::blocks::Attributes;
use crate::crowding::is_hidden;
use crate::faults::{wrong, Fault};
use crate::records::BAD_FIELD;
use crate::stations::{Station, Table};

/// A station is behind.
const BEHIND: u8 = 31;
/// The level does not know reservations.
const LEVEL_TOO_LOW: u8 = 32;
/// The lowest level that knows reservations.
const KNOWING_LEVEL: u8 = 2;
/// The greatest link rate.
const HIGHEST_RATE: u32 = 65_535;

/// What is free; fields not used are 0.
#[derive(Clone, Copy, Debug, Default, PartialEq, Eq)]
pub struct Free {
    /// 0, 4, 31 or 32.
    pub result: u8,
    /// With 31, the lowest address of a station that is behind.
    pub address: u64,
    /// What is free on each ringlet; below zero if more is reserved than there is.
    pub ringlets: [i64; 2],
    /// More is reserved than there is, on either ringlet.
    pub defect: bool,
}

impl Free {
    /// No numbers, for the reason that this result tells.
    pub fn refused(result: u8) -> Free {
        Free {
            result,
            ..Free::default()
        }
    }
}

/// What is free at this level and link rate, with these own reservations.
pub fn free<const F: u8>(table: &Table, level: u8, rate: u32, own: [u16; 2]) -> Free {
    match refusal::<F>(table, level, rate) {
        None => numbers::<F>(table, rate, own),
        Some(refused) if wrong::<F>(Fault::BehindNumbersGiven) && refused.result == BEHIND => {
            Free {
                result: BEHIND,
                address: refused.address,
                ..numbers::<F>(table, rate, own)
            }
        }
        Some(refused) => refused,
    }
}

/// The first refusal that applies: 4, then 32, then 31.
fn refusal<const F: u8>(table: &Table, level: u8, rate: u32) -> Option<Free> {
    let rate = (!is_rate::<F>(rate)).then_some(Free::refused(BAD_FIELD));
    let level = (level < KNOWING_LEVEL).then_some(Free::refused(LEVEL_TOO_LOW));
    let behind = behind::<F>(table).map(|address| Free {
        address,
        ..Free::refused(BEHIND)
    });
    let order = if wrong::<F>(Fault::LevelBeforeRate) {
        [level, rate, behind]
    } else if wrong::<F>(Fault::BehindBeforeLevel) {
        [rate, behind, level]
    } else if wrong::<F>(Fault::BehindBeforeRate) {
        [behind, rate, level]
    } else {
        [rate, level, behind]
    };
    order.into_iter().flatten().next()
}

fn is_rate<const F: u8>(rate: u32) -> bool {
    let in_range = rate <= HIGHEST_RATE || wrong::<F>(Fault::RateCut);
    in_range && !(wrong::<F>(Fault::HighestRateRefused) && rate == HIGHEST_RATE)
}

/// The lowest address of a station that is behind.
fn behind<const F: u8>(table: &Table) -> Option<u64> {
    let [high, last] = [Fault::HighBehindPassedOver, Fault::LastBehindPassedOver];
    let stations = table.stations().iter().enumerate();
    let looked_at = stations.filter(|(at, _)| !is_hidden::<F>(high, last, *at));
    let behind = looked_at.filter(|(_, station)| is_behind::<F>(station));
    let addresses = behind.map(|(_, station)| station.address);
    if wrong::<F>(Fault::HighestBehind) {
        addresses.max()
    } else {
        addresses.min()
    }
}

fn is_behind<const F: u8>(station: &Station) -> bool {
    match station.attributes {
        Attributes::Known(_) => false,
        Attributes::Behind(_) if wrong::<F>(Fault::BehindPassedOver) => false,
        Attributes::Behind(0) if wrong::<F>(Fault::TypeZeroNotBehind) => false,
        Attributes::Behind(_) => true,
    }
}

/// The answer to a question that is not refused.
fn numbers<const F: u8>(table: &Table, rate: u32, own: [u16; 2]) -> Free {
    let rate = if wrong::<F>(Fault::RateCut) {
        rate & HIGHEST_RATE
    } else {
        rate
    };
    let own = if wrong::<F>(Fault::OwnReservedLeftOut) {
        [0, 0]
    } else if wrong::<F>(Fault::OwnReservedSwapped) {
        [own[1], own[0]]
    } else {
        own
    };
    let reserved = reserved::<F>(table);
    let left = |ringlet| i64::from(rate) - i64::from(own[ringlet]) - reserved[ringlet];
    let ringlets = [left(0), left(1)];
    Free {
        ringlets: ringlets.map(|free| free.max(lowest::<F>())),
        defect: defect::<F>(ringlets),
        ..Free::default()
    }
}

/// The lowest number given. All places and the own node reserve no more than a signed number of 64 bits holds.
fn lowest<const F: u8>() -> i64 {
    if wrong::<F>(Fault::FreeNotBelowZero) {
        0
    } else if wrong::<F>(Fault::LowestOf63) {
        -64 * i64::from(u16::MAX)
    } else {
        i64::MIN
    }
}

/// More is reserved than there is. Exactly 0 is all of it, and no more.
fn defect<const F: u8>(ringlets: [i64; 2]) -> bool {
    let [zero, one] = if wrong::<F>(Fault::DefectAtZero) {
        ringlets.map(|free| free <= 0)
    } else {
        ringlets.map(|free| free < 0)
    };
    if wrong::<F>(Fault::DefectOnRinglet0) {
        zero
    } else if wrong::<F>(Fault::DefectOnRinglet1) {
        one
    } else if wrong::<F>(Fault::DefectOnBoth) {
        zero && one
    } else {
        zero || one
    }
}

/// The reservations of all stations on each ringlet.
fn reserved<const F: u8>(table: &Table) -> [i64; 2] {
    let mut sums = [0; 2];
    for (at, station) in table.stations().iter().enumerate() {
        let Attributes::Known(values) = station.attributes else {
            continue;
        };
        if is_hidden::<F>(Fault::HighPlacesLeftOut, Fault::LastPlaceLeftOut, at) {
            continue;
        }
        for (ringlet, sum) in sums.iter_mut().enumerate() {
            let from = if wrong::<F>(Fault::ReservedSwapped) {
                1 - ringlet
            } else {
                ringlet
            };
            *sum += times::<F>(table, station, ringlet) * i64::from(values.bandwidths[from]);
        }
    }
    if wrong::<F>(Fault::SumInSixteenBits) {
        sums.map(|sum| sum & i64::from(u16::MAX))
    } else {
        sums
    }
}

/// How often the reservation of a station counts on a ringlet: once, wherever it was heard.
fn times<const F: u8>(table: &Table, station: &Station, ringlet: usize) -> i64 {
    let heard = station.hops.map(|hop| i64::from(hop > 0));
    if wrong::<F>(Fault::CountedPerRinglet) {
        heard[0] + heard[1]
    } else if wrong::<F>(Fault::CountedWhereHeard) {
        heard[ringlet]
    } else if wrong::<F>(Fault::GapNotCounted) {
        i64::from(is_reached(table, station))
    } else {
        1
    }
}

/// On some ringlet every hop up to the station is held. The rules do not ask for it.
fn is_reached(table: &Table, station: &Station) -> bool {
    let held = |ringlet: usize, hop: u8| {
        let mut stations = table.stations().iter();
        stations.any(|other| other.hops[ringlet] == hop)
    };
    (0..2).any(|ringlet| {
        let last = station.hops[ringlet];
        last > 0 && (1..last).all(|hop| held(ringlet, hop))
    })
}
