//! Which stations are in the table and at which hops: the program prints only how many there are, so the table is followed from
//! the records and from what was printed for them. No rule of spans is known here; where a span has failed is read from a second run.

use std::collections::BTreeMap;

use crate::pieces::joined;
use crate::record::Record;
use crate::records::{Bytes, Settings};
use crate::said::{Answer, Full, Said};
use crate::told::{Play, Told};

/// The request that takes a ringlet's hops away.
const SF: u8 = 4;
/// Ticks in a step of the forget time.
const FORGET_STEP: u64 = 100;

/// One stay of a station in the table. Records are told by their place in the play.
#[derive(Clone, Debug, PartialEq, Eq)]
pub struct Stay {
    /// Who it is.
    pub address: u64,
    /// The record that let it in.
    pub from: usize,
    /// The record that made it leave, if it left.
    pub to: Option<usize>,
    /// Its hops on both ringlets, each with the record from which on they hold.
    pub hops: Vec<(usize, [u8; 2])>,
}

/// The same drill in which every operator that was heard asks for none. The program then shows what the spans find by themselves,
/// and nothing else in the drill turns on an operator's request.
pub fn without_operators(play: &Play) -> Bytes {
    let records: Vec<Record> = play.told.iter().map(without_operator).collect();
    joined(&records)
}

fn without_operator(told: &Told) -> Record {
    let is_taken = full(told).is_some_and(|full| full.result == 0);
    match &told.record {
        Record::Operator(span, _) if is_taken => Record::Operator(*span, 0),
        record => record.clone(),
    }
}

/// The stays of a drill by address and then by time. `quiet` is the run without operators. It is an error if the number of stations
/// is not the printed one after any record: then nothing that is told here could be trusted.
pub fn follow(play: &Play, quiet: &Play) -> Result<Vec<Stay>, String> {
    let mut table = Table::new(play.told.first());
    for (place, told) in play.told.iter().enumerate().skip(1) {
        let Some(full) = full(told) else {
            continue;
        };
        if full.result == 0 {
            table.take(place, &told.record);
        }
        if matches!(full.result, 0 | 20..) {
            table.purge(place, failed(quiet, place)?);
        }
        if table.stations.len() != usize::from(full.stations) {
            return Err(format!(
                "printed line {place}: {} stations are printed where {} were followed; a picture would be wrong, and is not drawn",
                full.stations,
                table.stations.len()
            ));
        }
    }
    Ok(table.stays())
}

/// The spans that have failed by themselves after a record.
fn failed(quiet: &Play, place: usize) -> Result<[bool; 2], String> {
    let told = quiet.told.get(place).and_then(full);
    let full = told.ok_or(format!(
        "printed line {place} is not there in the run without operators"
    ))?;
    Ok(full.requests.map(|request| request == SF))
}

fn full(told: &Told) -> Option<Full> {
    match Said::of(told.line.as_deref()?)? {
        Said::Line(_, Answer::Full(full)) => Some(full),
        _ => None,
    }
}

/// A station that is in the table.
struct Open {
    stay: Stay,
    hops: [u8; 2],
    /// Ticks at its last report.
    renewed: u64,
}

/// The table as it stands after some records.
struct Table {
    forget: u64,
    ticks: u64,
    stations: BTreeMap<u64, Open>,
    closed: Vec<Stay>,
}

impl Table {
    fn new(settings: Option<&Told>) -> Table {
        let forget = match settings.map(|told| &told.record) {
            Some(Record::Settings(settings)) => settings.forget,
            _ => Settings::DEFAULT.forget,
        };
        Table {
            forget: FORGET_STEP * u64::from(forget),
            ticks: 0,
            stations: BTreeMap::new(),
            closed: Vec::new(),
        }
    }

    /// A record that was taken.
    fn take(&mut self, place: usize, record: &Record) {
        match record {
            Record::Tick => self.pass(place, 1),
            Record::Ticks(count) => self.pass(place, u64::from(*count)),
            Record::Report(report) => {
                let hop = report.ttl.wrapping_neg();
                self.hear(place, report.address, usize::from(report.span), hop);
            }
            _ => {}
        }
    }

    /// Ticks pass. A span that fails within them has failed after them too, so that the purge may come last.
    fn pass(&mut self, place: usize, ticks: u64) {
        self.ticks += ticks;
        let (now, forget) = (self.ticks, self.forget);
        self.leave(place, |open| now - open.renewed >= forget);
    }

    /// Any other station at this hop loses it.
    fn hear(&mut self, place: usize, address: u64, ringlet: usize, hop: u8) {
        for (&other, open) in &mut self.stations {
            if other != address && open.hops.get(ringlet) == Some(&hop) {
                open.set(place, ringlet, 0);
            }
        }
        let open = self.stations.entry(address).or_insert_with(|| Open {
            stay: Stay {
                address,
                from: place,
                to: None,
                hops: Vec::new(),
            },
            hops: [0, 0],
            renewed: 0,
        });
        open.renewed = self.ticks;
        open.set(place, ringlet, hop);
        self.leave(place, |open| open.hops == [0, 0]);
    }

    fn purge(&mut self, place: usize, failed: [bool; 2]) {
        if failed == [false, false] {
            return;
        }
        for open in self.stations.values_mut() {
            for (ringlet, _) in failed.iter().enumerate().filter(|(_, failed)| **failed) {
                open.set(place, ringlet, 0);
            }
        }
        self.leave(place, |open| open.hops == [0, 0]);
    }

    /// Those who have to leave do.
    fn leave(&mut self, place: usize, must: impl Fn(&Open) -> bool) {
        if !self.stations.values().any(&must) {
            return;
        }
        let (leaving, staying) = std::mem::take(&mut self.stations)
            .into_iter()
            .partition(|(_, open)| must(open));
        self.stations = staying;
        let leaving: BTreeMap<u64, Open> = leaving;
        self.closed.extend(leaving.into_values().map(|open| Stay {
            to: Some(place),
            ..open.stay
        }));
    }

    fn stays(self) -> Vec<Stay> {
        let open = self.stations.into_values().map(|open| open.stay);
        let mut stays: Vec<Stay> = self.closed.into_iter().chain(open).collect();
        for stay in &mut stays {
            // What changes with its leaving is no longer seen.
            let to = stay.to;
            stay.hops.retain(|&(place, _)| Some(place) != to);
        }
        stays.retain(|stay| stay.to != Some(stay.from));
        stays.sort_by_key(|stay| (stay.address, stay.from));
        stays
    }
}

impl Open {
    fn set(&mut self, place: usize, ringlet: usize, hop: u8) {
        let Some(stored) = self.hops.get_mut(ringlet) else {
            return;
        };
        if *stored == hop {
            return;
        }
        *stored = hop;
        let hops = self.hops;
        match self.stay.hops.last_mut() {
            Some((last, known)) if *last == place => *known = hops,
            _ => self.stay.hops.push((place, hops)),
        }
    }
}
