//! Wrong models of a crowded table: a newcomer turned away, and places that are forgotten, those above the 63rd or the last alone.
//! In the right model there is a place for every newcomer, and every place is like any other.

use crate::faults::{wrong, Fault};
use crate::records::{BAD_FIELD, HIGHEST_HOP, TAKEN};
use crate::stations::{Station, PLACES};

/// "No place", a result that is no more; only wrong models give it.
const NO_PLACE: u8 = 23;
/// The places of the smaller table that was.
const FORMER_PLACES: usize = 63;

/// True for a place that a wrong model forgets: any above the 63rd with the first fault, the last with the second.
pub fn is_hidden<const F: u8>(high: Fault, last: Fault, at: usize) -> bool {
    wrong::<F>(high) && at >= FORMER_PLACES || wrong::<F>(last) && at + 1 >= PLACES
}

/// The table as a report finds it.
pub struct Crowd {
    /// Stations.
    stations: usize,
    /// The same once the displaced station has left.
    staying: usize,
    /// Hops held on the ringlet of the report and on the other one.
    held: [usize; 2],
}

impl Crowd {
    /// Who is there when another station, or none, is at the hop of a report.
    pub fn of(stations: &[Station], other: Option<usize>, ringlet: usize) -> Crowd {
        let leaves = other.is_some_and(|at| stations[at].hops[1 - ringlet] == 0);
        let held = |ringlet: usize| {
            let held = stations.iter().filter(|station| station.hops[ringlet] > 0);
            held.count()
        };
        Crowd {
            stations: stations.len(),
            staying: stations.len() - usize::from(leaves),
            held: [held(ringlet), held(1 - ringlet)],
        }
    }

    fn is_full(&self) -> bool {
        self.stations >= PLACES
    }

    /// What a newcomer gets that is not stored; in the right model there is none.
    pub fn turned_away<const F: u8>(&self) -> Option<u8> {
        let highest = usize::from(HIGHEST_HOP);
        let answers = [
            (Fault::PlaceTestedFirst, self.is_full(), NO_PLACE),
            (Fault::Places63, self.staying >= FORMER_PLACES, NO_PLACE),
            (Fault::Places63Dropped, self.staying >= FORMER_PLACES, TAKEN),
            (Fault::Places64, self.staying > FORMER_PLACES, NO_PLACE),
            (Fault::Places125, self.staying + 1 >= PLACES, NO_PLACE),
            (Fault::FullRefused, self.is_full(), BAD_FIELD),
            (Fault::FullDropped, self.is_full(), TAKEN),
            (Fault::FullEmptied, self.is_full(), TAKEN),
            (Fault::DisplacedThen23, self.is_full(), NO_PLACE),
            (
                Fault::BothHopsTwoPlaces,
                self.held[0] + self.held[1] >= PLACES,
                NO_PLACE,
            ),
            (Fault::RingletFull, self.held[0] >= highest, NO_PLACE),
            (Fault::OtherRingletFull, self.held[1] >= highest, NO_PLACE),
        ];
        let answer = answers
            .iter()
            .find(|(fault, is_so, _)| wrong::<F>(*fault) && *is_so);
        answer.map(|(_, _, result)| *result)
    }

    /// True if the hop is taken away before a newcomer is turned away.
    pub fn displaces_first<const F: u8>(&self) -> bool {
        self.is_full() && (wrong::<F>(Fault::FullEmptied) || wrong::<F>(Fault::DisplacedThen23))
    }

    /// True if a newcomer gets its hop.
    pub fn gives_hop<const F: u8>(&self) -> bool {
        !(wrong::<F>(Fault::FullWithoutHop) && self.is_full())
    }

    /// True if the station at the last place is lost when those behind a newcomer's place move: up to the 126th, or down from it and up again.
    pub fn loses_last<const F: u8>(&self, at: usize) -> bool {
        let comes = self.staying + 1 == PLACES && at < self.staying;
        comes && wrong::<F>(Fault::LastLostComing) && !self.is_full()
            || comes && wrong::<F>(Fault::LastLostLeaving) && self.is_full()
    }

    /// True if the oldest station leaves for a newcomer, too.
    pub fn evicts<const F: u8>(&self) -> bool {
        wrong::<F>(Fault::FullOldestLeaves) && self.is_full()
    }
}
