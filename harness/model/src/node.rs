//! The node: start, one record at a time, steering, attributes, free bandwidth.
//! Refusals 1 to 8 change nothing; after every other result the closing steps run.

mod ticks;

use crate::bandwidth::{self, Free};
use crate::blocks::{self, Attributes, Reading};
use crate::faults::{wrong, Fault, RIGHT};
use crate::pacer::Pacer;
use crate::records::{self, Event, Report, REPORT_BYTES};
use crate::settings::Settings;
use crate::spans::{Request, Span, Status};
use crate::stations::{Table, PLACES};
use crate::telling;
use crate::ways::{self, Way};

/// The right model.
pub type Node = NodeOf<RIGHT>;

/// A controller with its state; `F` is the fault switch.
#[derive(Clone, Debug)]
pub struct NodeOf<const F: u8> {
    settings: Settings,
    spans: [Span; 2],
    table: Table,
    pacer: Pacer,
}

/// What is shown of a station's attributes; fields not used are 0.
#[derive(Clone, Copy, Debug, Default, PartialEq, Eq)]
pub struct Shown {
    /// 0 with values, 1 behind, 3 not in the table.
    pub reply: u8,
    /// The type it is behind with.
    pub behind: u16,
    /// Two weights.
    pub weights: [u8; 2],
    /// Two reserved bandwidths.
    pub bandwidths: [u16; 2],
}

impl<const F: u8> NodeOf<F> {
    /// Starts a node from a settings record: 0, 2, 3 or 4. Refused, it has the defaults and address zero.
    pub fn start(record: &[u8]) -> (u8, NodeOf<F>) {
        let (result, settings) = match Settings::read(record) {
            Ok(settings) => (records::TAKEN, settings),
            Err(refusal) => (refusal, Settings::defaults(0)),
        };
        let node = NodeOf {
            spans: [Span::new(), Span::new()],
            table: Table::new(),
            pacer: Pacer::new(&settings),
            settings,
        };
        (result, node)
    }

    /// Takes one record: the result, and how many reports of 7 bytes were written, one after another from the front of the output.
    pub fn record(&mut self, record: &[u8], out: &mut [u8]) -> (u8, usize) {
        let Some(room) = out.first_chunk_mut() else {
            return (records::NO_ROOM, 0);
        };
        match records::event::<F>(record) {
            Err(refusal) => (refusal, 0),
            Ok(Event::Ticks(count)) => self.ticks(count, out),
            Ok(event) => {
                let (result, report) = self.single(&event);
                if let Some(report) = report {
                    *room = report;
                }
                (result, usize::from(report.is_some()))
            }
        }
    }

    /// One event: its handler and, unless that refuses, the closing steps. The result, and the report to be written.
    fn single(&mut self, event: &Event) -> (u8, Option<[u8; REPORT_BYTES]>) {
        let before = self.automatic();
        let result = self.take(event);
        let unclosed = wrong::<F>(Fault::NotClosed) && result != records::TAKEN;
        if records::is_refusal(result) || unclosed {
            return (result, None);
        }
        let reports = self.close(before, matches!(event, Event::Tick));
        (result, reports.then(|| self.report()))
    }

    fn report(&self) -> [u8; REPORT_BYTES] {
        records::report_to_send(self.pacer.sequence(), self.pacer.last())
    }

    fn automatic(&self) -> [Request; 2] {
        let [west, east] = &self.spans;
        [
            west.automatic(&self.settings),
            east.automatic(&self.settings),
        ]
    }

    fn take(&mut self, event: &Event) -> u8 {
        let settings = &self.settings;
        match *event {
            Event::Tick => {
                for span in &mut self.spans {
                    span.tick::<F>(settings);
                }
                self.table.tick::<F>(settings.forget);
            }
            // Each of these is an event of its own; `record` gives them one by one.
            Event::Ticks(_) => {}
            Event::Link(at, status) => self.spans[at].link::<F>(status, settings),
            Event::Keepalive(at) => self.spans[at].keepalive(),
            Event::Operator(at, request) => self.spans[at].operator::<F>(request),
            Event::Report(report) => return self.heard(&report),
            Event::Attributes(at, address, block) => {
                return self.attributes_heard(at, address, block)
            }
        }
        records::TAKEN
    }

    /// The span is down: its automatic request is SF, whatever the operator asks.
    fn is_down(&self, at: usize) -> bool {
        let span = &self.spans[at];
        let request = if wrong::<F>(Fault::OperatorDown) {
            span.request(&self.settings)
        } else {
            span.automatic(&self.settings)
        };
        request >= Request::Sf
    }

    /// A report heard: refusals 5 and 6, steps (a) to (c), then the table's steps.
    fn heard(&mut self, report: &Report) -> u8 {
        let highest = if wrong::<F>(Fault::HopsTo126) {
            PLACES as u8
        } else {
            records::HIGHEST_HOP
        };
        let too_high = report.hop > highest;
        if wrong::<F>(Fault::HopBeforeOwn) && too_high {
            return records::HOP_TOO_HIGH;
        }
        if report.address == self.settings.address {
            return records::OWN_ADDRESS;
        }
        if too_high {
            return records::HOP_TOO_HIGH;
        }
        let was_down = wrong::<F>(Fault::MarkTooLate) && self.is_down(report.span);
        let before = wrong::<F>(Fault::MarkUndone).then(|| self.spans.clone());
        if report.hop == 1 {
            self.spans[report.span].mark::<F>(report.ringlet != report.span);
        }
        if report.ringlet != report.span {
            return records::WRONG_RINGLET;
        }
        if was_down || self.is_down(report.span) {
            return records::SPAN_DOWN;
        }
        let result = self.table.heard::<F>(report);
        match before {
            Some(before) if result != records::TAKEN => self.spans = before,
            _ => {}
        }
        result
    }

    /// Attributes heard: 5, 21, 7 and 8 in that order, then 24 or 0.
    fn attributes_heard(&mut self, at: usize, address: u64, block: &[u8]) -> u8 {
        if address == self.settings.address {
            return records::OWN_ADDRESS;
        }
        let down = self.is_down(at);
        if down && !wrong::<F>(Fault::UnknownBeforeDown) {
            return records::SPAN_DOWN;
        }
        let [high, last] = [Fault::HighNoAttributes, Fault::LastNoAttributes];
        if !down && self.table.hides::<F>(high, last, address) {
            return records::UNKNOWN_STATION;
        }
        let [high, last] = [Fault::HighNotStored, Fault::LastNotStored];
        let unstored = self.table.hides::<F>(high, last, address);
        let Some(station) = self.table.find_mut(address) else {
            return records::UNKNOWN_STATION;
        };
        if down {
            return records::SPAN_DOWN;
        }
        let Reading::Whole(attributes) = blocks::read::<F>(self.settings.level, block) else {
            return records::MALFORMED;
        };
        if !unstored {
            station.replace::<F>(attributes);
        }
        if wrong::<F>(Fault::AttributesRenew) {
            station.age = 0;
        }
        match attributes {
            Attributes::Known(_) => records::TAKEN,
            Attributes::Behind(_) => records::SET_ASIDE,
        }
    }

    /// The closing steps: WTR, the purge, the report. True if a report is to be written.
    fn close(&mut self, before: [Request; 2], tick: bool) -> bool {
        self.settle(before);
        self.pace(tick)
    }

    /// The closing steps but for the report.
    fn settle(&mut self, before: [Request; 2]) {
        for (span, before) in self.spans.iter_mut().zip(before) {
            span.close(before, &self.settings);
        }
        for ringlet in 0..2 {
            if self.is_down(ringlet) {
                self.table.purge::<F>(ringlet);
                if wrong::<F>(Fault::PurgeBoth) {
                    self.table.purge::<F>(1 - ringlet);
                }
            }
        }
    }

    /// The last closing step. True if a report is to be written.
    fn pace(&mut self, tick: bool) -> bool {
        let pair = self.own_pair();
        self.pacer.step::<F>(pair, tick, &self.settings)
    }

    fn own_pair(&self) -> [Request; 2] {
        let [west, east] = &self.spans;
        [west.request(&self.settings), east.request(&self.settings)]
    }

    /// Which way to a station, and where the trouble is on it.
    pub fn steer(&self, address: u64) -> Way {
        ways::steer::<F>(&self.table, self.own_pair(), address)
    }

    /// The same as the drill program tells it; `T` is the fault switch for this alone.
    pub(crate) fn told<const T: u8>(&self, address: u64) -> Way {
        let way = self.steer(address);
        telling::told::<T>(way, &self.table, self.own_pair(), address)
    }

    /// The attributes of a station.
    pub fn attributes(&self, address: u64) -> Shown {
        let nothing = Shown::default();
        match self.table.find(address).map(|station| station.attributes) {
            None => Shown {
                reply: ways::NOT_IN_TABLE,
                ..nothing
            },
            Some(Attributes::Behind(behind)) => Shown {
                reply: 1,
                behind,
                ..nothing
            },
            Some(Attributes::Known(values)) => Shown {
                weights: values.weights,
                bandwidths: values.bandwidths,
                ..nothing
            },
        }
    }

    /// What is free on each ringlet, for a link rate and the own reservations.
    pub fn free_bandwidth(&self, rate: u32, own: [u16; 2]) -> Free {
        bandwidth::free::<F>(&self.table, self.settings.level, rate, own)
    }

    /// The request on the west span.
    pub fn west_request(&self) -> u8 {
        self.spans[0].request(&self.settings) as u8
    }

    /// The request on the east span.
    pub fn east_request(&self) -> u8 {
        self.spans[1].request(&self.settings) as u8
    }

    /// The stored link status and the hold-off ticks left, west and east.
    pub fn links(&self) -> [(Status, u32); 2] {
        self.spans.each_ref().map(Span::stored)
    }

    /// The own sequence.
    pub fn sequence(&self) -> u8 {
        self.pacer.sequence()
    }

    /// Stations in the table.
    pub fn station_count(&self) -> usize {
        self.table.stations().len()
    }

    /// The stations in the table, each with its hops on both ringlets, by address.
    pub fn hops(&self) -> Vec<(u64, [u8; 2])> {
        let stations = self.table.stations().iter();
        stations
            .map(|station| (station.address, station.hops))
            .collect()
    }

    /// The request on each span west and east, span 1 first, as far as every hop is held.
    pub fn runs(&self) -> [Vec<u8>; 2] {
        let codes = |run: Vec<Request>| run.iter().map(|&request| request as u8).collect();
        ways::runs(&self.table, self.own_pair()).map(codes)
    }
}
