//! The station table: at most 126 stations in ascending address order, changed in place.
//! No two stations share a hop on a ringlet, and every station has at least one hop; so there is always a place.

use std::ops::RangeFrom;

use crate::blocks::{Attributes, Values};
use crate::crowding::{is_hidden, Crowd};
use crate::faults::{wrong, Fault, RIGHT};
use crate::records::{Report, HIGHEST_HOP, OLD_REPORT, TAKEN};
use crate::spans::Request;

/// Places in the table.
pub const PLACES: usize = 126;
// One for each hop of each ringlet; with fewer a newcomer could find none.
const _: () = assert!(PLACES == 2 * HIGHEST_HOP as usize);
/// The greatest distance that is newer.
const NEWEST: u8 = 128;

/// One station.
#[derive(Clone, Debug)]
pub struct Station {
    /// Its address.
    pub address: u64,
    /// Its hop on each ringlet; 0 if not heard there.
    pub hops: [u8; 2],
    /// Its last sequence.
    pub sequence: u8,
    /// Its west and east request.
    pub requests: [Request; 2],
    /// Ticks since its last report.
    pub age: u32,
    /// What its last block said.
    pub attributes: Attributes,
}

impl Station {
    /// A station as its first report gives it, not yet at a hop.
    fn new(report: &Report) -> Station {
        Station {
            address: report.address,
            hops: [0; 2],
            sequence: report.sequence,
            requests: report.requests,
            age: 0,
            attributes: Attributes::Known(Values::ABSENT),
        }
    }

    fn is_heard(&self) -> bool {
        self.hops != [0; 2]
    }
}

/// All stations heard.
#[derive(Debug)]
pub struct Table {
    stations: Vec<Station>,
}

impl Clone for Table {
    /// A clone has all its places set apart too, so that it never grows either.
    fn clone(&self) -> Table {
        let mut table = Table::new();
        table.stations.extend_from_slice(&self.stations);
        table
    }
}

impl Table {
    /// An empty table with its places set apart once.
    pub fn new() -> Table {
        Table {
            stations: Vec::with_capacity(PLACES),
        }
    }

    /// The stations in ascending address order.
    pub fn stations(&self) -> &[Station] {
        &self.stations
    }

    /// The station with this address.
    pub fn find(&self, address: u64) -> Option<&Station> {
        let place = self.place(address).ok()?;
        self.stations.get(place)
    }

    /// The station with this address, to be changed.
    pub fn find_mut(&mut self, address: u64) -> Option<&mut Station> {
        let place = self.place(address).ok()?;
        self.stations.get_mut(place)
    }

    /// True if this fault, at places above the 63rd, or that one, at the last, hides the station with this address.
    pub fn hides<const F: u8>(&self, high: Fault, last: Fault, address: u64) -> bool {
        let place = self.place(address);
        place.is_ok_and(|at| is_hidden::<F>(high, last, at))
    }

    /// Where the station is, or where it would go.
    fn place(&self, address: u64) -> Result<usize, usize> {
        self.stations
            .binary_search_by_key(&address, |station| station.address)
    }

    /// Steps (d) and (e) of a report heard, and what follows: 0 or 22.
    pub fn heard<const F: u8>(&mut self, report: &Report) -> u8 {
        let place = self.place_heard::<F>(report.address);
        if let Ok(at) = place {
            if let Some(result) = self.known_too_old::<F>(at, report) {
                return result;
            }
        }
        let other = self.other_at_hop::<F>(report);
        let crowd = Crowd::of(&self.stations, other, report.ringlet);
        if place.is_err() {
            if crowd.displaces_first::<F>() {
                self.displace::<F>(other, report.ringlet);
            }
            if let Some(result) = crowd.turned_away::<F>() {
                return result;
            }
        }
        let left = self.displace::<F>(other, report.ringlet);
        // The station that left may have stood before this one.
        let shift = |at: usize| at - usize::from(left.is_some_and(|gone| gone < at));
        match place {
            Ok(at) => self.stations[shift(at)].renew::<F>(report),
            Err(at) => {
                // The slot of the report is free now; each station holds another one.
                debug_assert!(F != RIGHT || self.stations.len() < PLACES);
                self.join(shift(at), report, crowd.gives_hop::<F>());
                if crowd.loses_last::<F>(shift(at)) {
                    self.stations.pop();
                }
            }
        }
        if place.is_err() && crowd.evicts::<F>() {
            self.evict_oldest();
        }
        TAKEN
    }

    /// Where a report finds its station, or where it puts it.
    fn place_heard<const F: u8>(&self, address: u64) -> Result<usize, usize> {
        let [high, last] = [Fault::HighHeardAsNew, Fault::LastHeardAsNew];
        self.place(address).and_then(|at| {
            if is_hidden::<F>(high, last, at) {
                Err(at)
            } else {
                Ok(at)
            }
        })
    }

    /// Step (d) for the known station at a place.
    fn known_too_old<const F: u8>(&mut self, at: usize, report: &Report) -> Option<u8> {
        let station = &mut self.stations[at];
        let distance = report.sequence.wrapping_sub(station.sequence);
        if wrong::<F>(Fault::CopyDropped) && distance == 0 {
            return Some(TAKEN);
        }
        let old = if wrong::<F>(Fault::PlainSequences) {
            report.sequence < station.sequence
        } else if wrong::<F>(Fault::Distance128Old) {
            distance >= NEWEST
        } else {
            distance > NEWEST
        };
        if wrong::<F>(Fault::OldReportRenews) && old {
            station.age = 0;
        }
        old.then_some(OLD_REPORT)
    }

    /// The place of another station at the hop and ringlet of a report.
    fn other_at_hop<const F: u8>(&self, report: &Report) -> Option<usize> {
        let stored = || self.find(report.address).map(|known| known.sequence);
        if wrong::<F>(Fault::CopyStandsBeside) && stored() == Some(report.sequence) {
            return None;
        }
        let [high, last] = [Fault::HighNotDisplaced, Fault::LastNotDisplaced];
        let other = self.stations.iter().position(|station| {
            station.hops[report.ringlet] == report.hop && station.address != report.address
        });
        other.filter(|&at| !is_hidden::<F>(high, last, at))
    }

    /// Step (e): takes the hop away; gives the place of the station if it leaves.
    fn displace<const F: u8>(&mut self, other: Option<usize>, ringlet: usize) -> Option<usize> {
        let at = other?;
        let full = self.stations.len() >= PLACES;
        self.stations[at].hops[ringlet] = 0;
        if self.stations[at].is_heard() && !wrong::<F>(Fault::DisplacedLeaves) {
            return None;
        }
        if wrong::<F>(Fault::DisplacedStays) || wrong::<F>(Fault::FullDisplacedStays) && full {
            return None;
        }
        self.stations.remove(at);
        Some(at)
    }

    fn join(&mut self, at: usize, report: &Report, with_hop: bool) {
        let mut station = Station::new(report);
        if with_hop {
            station.hops[report.ringlet] = report.hop;
        }
        self.stations.insert(at, station);
    }

    /// Whoever was heard longest ago leaves; only a wrong model does this.
    fn evict_oldest(&mut self) {
        let oldest = (0..self.stations.len()).max_by_key(|&at| self.stations[at].age);
        if let Some(at) = oldest {
            self.stations.remove(at);
        }
    }

    /// A tick raises every age; who reaches the forget time leaves.
    pub fn tick<const F: u8>(&mut self, forget: u32) {
        let limit = forget + u32::from(wrong::<F>(Fault::ForgetLate));
        let mut places = 0..;
        self.stations.retain_mut(|station| {
            let ages = !is_next_hidden::<F>(Fault::HighNotAged, Fault::LastNotAged, &mut places);
            station.age += u32::from(ages);
            station.age < limit
        });
    }

    /// Closing step for a ringlet whose span is down.
    pub fn purge<const F: u8>(&mut self, ringlet: usize) {
        let [high, last] = [Fault::HighNotPurged, Fault::LastNotPurged];
        let mut places = 0..;
        self.stations.retain_mut(|station| {
            if is_next_hidden::<F>(high, last, &mut places) {
                return true;
            }
            station.hops[ringlet] = 0;
            station.is_heard()
        });
    }
}

/// The same of the next place, when the table is gone through.
fn is_next_hidden<const F: u8>(high: Fault, last: Fault, places: &mut RangeFrom<usize>) -> bool {
    places
        .next()
        .is_some_and(|at| is_hidden::<F>(high, last, at))
}

impl Default for Table {
    fn default() -> Table {
        Table::new()
    }
}

impl Station {
    /// A report that is not old: hop and age always, the rest unless it is a copy.
    fn renew<const F: u8>(&mut self, report: &Report) {
        self.hops[report.ringlet] = report.hop;
        self.age = 0;
        if report.sequence != self.sequence || wrong::<F>(Fault::CopyTakesRequests) {
            self.sequence = report.sequence;
            self.requests = report.requests;
        }
    }

    /// A block that is not malformed replaces all attributes.
    pub fn replace<const F: u8>(&mut self, attributes: Attributes) {
        let before = std::mem::replace(&mut self.attributes, attributes);
        match (before, &mut self.attributes) {
            (Attributes::Behind(_), Attributes::Known(_)) if wrong::<F>(Fault::BehindStays) => {
                self.attributes = before;
            }
            (Attributes::Known(before), Attributes::Known(values))
                if wrong::<F>(Fault::ReservedKept) && values.bandwidths == [0, 0] =>
            {
                values.bandwidths = before.bandwidths;
            }
            _ => {}
        }
    }
}

#[cfg(test)]
mod tests {
    use super::*;
    use crate::faults::RIGHT;

    fn report(address: u64, ringlet: usize, hop: u8, sequence: u8) -> Report {
        Report {
            span: ringlet,
            ringlet,
            hop,
            address,
            sequence,
            requests: [Request::Idle; 2],
        }
    }

    /// 63 stations on each ringlet, none on both: 3 to 189 on ringlet 0, 1003 to 1189 on ringlet 1.
    fn full() -> Table {
        let mut table = Table::new();
        for ringlet in 0..2 {
            for hop in 1..=HIGHEST_HOP {
                let address = 1_000 * ringlet as u64 + u64::from(hop) * 3;
                let result = table.heard::<RIGHT>(&report(address, ringlet, hop, 0));
                assert_eq!(result, TAKEN);
            }
        }
        assert_eq!(table.stations().len(), PLACES);
        table
    }

    #[test]
    fn p1_to_p3() {
        let mut table = Table::new();
        table.heard::<RIGHT>(&report(9, 0, 1, 200));
        assert_eq!(table.heard::<RIGHT>(&report(9, 0, 1, 73)), OLD_REPORT);
        assert_eq!(table.heard::<RIGHT>(&report(9, 0, 1, 72)), TAKEN);
        let mut table = Table::new();
        table.heard::<RIGHT>(&report(9, 0, 1, 7));
        assert_eq!(table.heard::<RIGHT>(&report(9, 0, 1, 135)), TAKEN);
        assert_eq!(table.heard::<RIGHT>(&report(9, 0, 1, 7)), TAKEN);
        assert_eq!(table.stations()[0].sequence, 7);
    }

    #[test]
    fn a_copy_brings_the_second_hop_and_no_requests() {
        let mut table = Table::new();
        table.heard::<RIGHT>(&report(9, 0, 1, 7));
        let mut copy = report(9, 1, 4, 7);
        copy.requests = [Request::Sd; 2];
        assert_eq!(table.heard::<RIGHT>(&copy), TAKEN);
        assert_eq!(table.stations()[0].hops, [1, 4]);
        assert_eq!(table.stations()[0].requests, [Request::Idle; 2]);
    }

    #[test]
    fn a_64th_station_is_taken() {
        let mut table = full();
        table.purge::<RIGHT>(1);
        assert_eq!(table.stations().len(), 63);
        assert_eq!(table.heard::<RIGHT>(&report(1, 1, 5, 0)), TAKEN);
        assert_eq!(table.stations().len(), 64);
        assert_eq!(table.find(1).unwrap().hops, [0, 5]);
    }

    #[test]
    fn a_newcomer_at_any_slot_of_a_full_table_displaces_one() {
        let before = full();
        for ringlet in 0..2 {
            for hop in 1..=HIGHEST_HOP {
                let mut table = before.clone();
                let displaced = 1_000 * ringlet as u64 + u64::from(hop) * 3;
                assert_eq!(table.heard::<RIGHT>(&report(500, ringlet, hop, 0)), TAKEN);
                assert_eq!(table.stations().len(), PLACES);
                let is_new = |station: &&Station| before.find(station.address).is_none();
                let new: Vec<&Station> = table.stations().iter().filter(is_new).collect();
                assert_eq!((new.len(), new[0].address), (1, 500));
                assert_eq!(new[0].hops[ringlet], hop);
                assert!(table.find(displaced).is_none());
            }
        }
    }

    #[test]
    fn a_second_hop_frees_a_place_and_a_newcomer_takes_it() {
        let mut table = full();
        // 15 takes hop 7 of ringlet 1 from 1021, which leaves.
        assert_eq!(table.heard::<RIGHT>(&report(15, 1, 7, 0)), TAKEN);
        assert_eq!(table.stations().len(), PLACES - 1);
        assert!(table.find(1_021).is_none());
        // 1 takes hop 5 of ringlet 0 from 15, which stays at its other hop.
        assert_eq!(table.heard::<RIGHT>(&report(1, 0, 5, 0)), TAKEN);
        assert_eq!(table.stations().len(), PLACES);
        assert_eq!(table.find(15).unwrap().hops, [0, 7]);
        // 1021 takes it from 1, and a stranger that from 15.
        assert_eq!(table.heard::<RIGHT>(&report(1_021, 0, 5, 0)), TAKEN);
        assert_eq!(table.heard::<RIGHT>(&report(2, 1, 7, 0)), TAKEN);
        assert_eq!(table.stations().len(), PLACES);
        assert!(table.find(1).is_none() && table.find(15).is_none());
    }

    #[test]
    fn two_rings_that_are_joined_go_from_126_to_63() {
        let mut table = full();
        for (hop, left) in (1..=HIGHEST_HOP).zip((63..PLACES).rev()) {
            let known = u64::from(hop) * 3;
            assert_eq!(table.heard::<RIGHT>(&report(known, 1, 64 - hop, 0)), TAKEN);
            assert_eq!(table.stations().len(), left);
        }
        let ends = |s: &Station| s.hops[0] + s.hops[1] == HIGHEST_HOP + 1;
        assert!(table.stations().iter().all(ends));
    }

    #[test]
    fn order_survives_when_a_lower_address_is_displaced() {
        let mut table = Table::new();
        table.heard::<RIGHT>(&report(2, 0, 1, 0));
        table.heard::<RIGHT>(&report(4, 0, 2, 0));
        table.heard::<RIGHT>(&report(6, 0, 3, 0));
        table.heard::<RIGHT>(&report(5, 0, 1, 0));
        table.heard::<RIGHT>(&report(6, 0, 2, 1));
        let order: Vec<u64> = table.stations().iter().map(|s| s.address).collect();
        assert_eq!(order, [5, 6]);
        assert_eq!(table.find(6).unwrap().sequence, 1);
    }

    #[test]
    fn age_and_purge_free_places() {
        let mut table = full();
        table.heard::<RIGHT>(&report(15, 1, 7, 0));
        table.purge::<RIGHT>(0);
        assert_eq!(table.stations().len(), 63);
        assert_eq!(table.find(15).unwrap().hops, [0, 7]);
        for _ in 0..199 {
            table.tick::<RIGHT>(200);
        }
        assert_eq!(table.stations().len(), 63);
        table.heard::<RIGHT>(&report(1_189, 1, 63, 0));
        table.tick::<RIGHT>(200);
        assert_eq!(table.stations().len(), 1);
        for _ in 0..199 {
            table.tick::<RIGHT>(200);
        }
        assert_eq!(table.stations().len(), 0);
    }

    #[test]
    fn a_purge_of_a_full_table_leaves_exactly_the_others() {
        for ringlet in 0..2 {
            let mut table = full();
            table.purge::<RIGHT>(ringlet);
            let order: Vec<u64> = table.stations().iter().map(|s| s.address).collect();
            let others = 1_000 * (1 - ringlet as u64);
            let wanted: Vec<u64> = (1..=63).map(|hop| others + 3 * hop).collect();
            assert_eq!(order, wanted);
        }
    }

    #[test]
    fn the_places_set_apart_suffice() {
        let mut table = full();
        let room = table.stations.capacity();
        for hop in 1..=HIGHEST_HOP {
            table.heard::<RIGHT>(&report(5_000 + u64::from(hop), 0, hop, 0));
            table.heard::<RIGHT>(&report(6_000 + u64::from(hop), 1, hop, 0));
        }
        assert_eq!(table.stations().len(), PLACES);
        assert_eq!(table.stations.capacity(), room);
    }
}
