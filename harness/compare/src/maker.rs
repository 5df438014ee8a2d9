//! The maker of a drill: it plays on a ring and writes down each record that it gives.
//! It follows the keepalives so that a span goes down when a scene wants it, not by chance.

use text::records::{self, Bytes, Report};

use crate::chance::Chance;
use crate::opening::Opening;
use crate::ring::Ring;

/// No span, or every span, hears keepalives.
pub const NONE_DEAF: [bool; 2] = [false, false];
/// The most ticks that share a record.
pub const MOST_SHARED: usize = 1_000;
/// In so many of 100 runs of ticks some share a record.
const SHARING: usize = 30;
/// So many ticks that share a record are as long as a record, when a drill's length is counted.
const AS_A_RECORD: usize = 4;

/// A drill in the making.
pub struct Maker {
    /// Where all choices come from.
    pub chance: Chance,
    /// The settings of the drill.
    pub opening: Opening,
    /// The ring as it is by now.
    pub ring: Ring,
    /// What has been given so far.
    pub records: Vec<Bytes>,
    /// Ticks since the last keepalive of each span.
    silent: [usize; 2],
    /// Ticks that shared a record.
    shared: usize,
    /// Records that do not count when a drill's length is counted.
    spared: usize,
}

impl Maker {
    /// A drill on a ring of this many stations beside the own one.
    pub fn new(mut chance: Chance, opening: Opening, stations: usize) -> Maker {
        let ring = Ring::new(&mut chance, opening.settings.address, stations);
        Maker {
            chance,
            opening,
            ring,
            records: Vec::new(),
            silent: [0; 2],
            shared: 0,
            spared: 0,
        }
    }

    /// Gives a record.
    pub fn give(&mut self, record: Bytes) {
        match record[..] {
            [2, 0, 1, 0] => self.pass(1),
            [4, 0, 7, 0, low, high] => {
                let count = usize::from(u16::from_le_bytes([low, high]));
                if count <= MOST_SHARED {
                    self.pass(count);
                    self.shared += count;
                }
            }
            [3, 0, 3, 0, span @ 0..=1] => self.silent[usize::from(span)] = 0,
            _ => {}
        }
        self.records.push(record);
    }

    fn pass(&mut self, ticks: usize) {
        self.silent = self.silent.map(|silent| silent + ticks);
    }

    /// How long the drill is by now: its records, and some more for ticks that share one.
    pub fn length(&self) -> usize {
        self.records.len() - self.spared + self.shared / AS_A_RECORD
    }

    /// Of the records since there were so many, most do not count, so that a long scene leaves time for others.
    pub fn spare_since(&mut self, records: usize) {
        self.spared += (self.records.len() - records) * 3 / 4;
    }

    /// West or east.
    pub fn span(&mut self) -> usize {
        self.chance.below(2)
    }

    /// Passes ticks. Keepalives come just in time, save on a span that is deaf. In some runs those between keepalives share records.
    pub fn ticks(&mut self, count: usize, deaf: [bool; 2]) {
        let sharing = self.chance.percent(SHARING);
        let mut left = count;
        while left > 0 {
            for span in (0..2).filter(|&span| !deaf[span]) {
                if self.before_silence(span) == 0 {
                    self.give(records::keepalive(span as u8));
                }
            }
            let ticks = if sharing { self.part(left, deaf) } else { 1 };
            let alone = ticks == 1 && (!sharing || self.chance.percent(70));
            self.give(if alone {
                records::tick()
            } else {
                records::ticks(ticks as u16)
            });
            left -= ticks;
        }
    }

    /// How many ticks may pass before a span has to hear a keepalive.
    fn before_silence(&self, span: usize) -> usize {
        let keepalive = usize::from(self.opening.settings.keepalive);
        keepalive.saturating_sub(self.silent[span] + 1)
    }

    /// How many ticks share the next record: all that may, or fewer.
    fn part(&mut self, left: usize, deaf: [bool; 2]) -> usize {
        let hearing = (0..2).filter(|&span| !deaf[span]);
        let silence = hearing.map(|span| self.before_silence(span)).min();
        let most = left.min(silence.unwrap_or(left)).clamp(1, MOST_SHARED);
        let some = self.chance.range(1, most);
        self.chance.pick(&[most, most, some, some, 1])
    }

    /// Lets the link of a span report a status.
    pub fn link(&mut self, span: usize, status: u8) {
        self.give(records::link(span as u8, status));
    }

    /// Lets the operator ask for something on a span.
    pub fn operator(&mut self, span: usize, request: u8) {
        self.give(records::operator(span as u8, request));
    }

    /// Hears a report.
    pub fn hear(&mut self, report: &Report) {
        self.give(records::report(report));
    }

    /// Hears a member on a ringlet, with nothing wrong.
    pub fn hear_member(&mut self, at: usize, ringlet: usize) {
        let report = self.ring.report(at, ringlet);
        self.hear(&report);
    }

    /// Hears every member on a ringlet, in the order of hops or in any order.
    pub fn announce(&mut self, ringlet: usize) {
        let mut order: Vec<usize> = (0..self.ring.members.len()).collect();
        if self.chance.percent(50) {
            self.chance.shuffle(&mut order);
        }
        for at in order {
            self.hear_member(at, ringlet);
        }
    }

    /// Asks the way to an address.
    pub fn ask(&mut self, address: u64) {
        self.give(records::question(address));
    }

    /// Asks the way to a member.
    pub fn ask_member(&mut self) {
        let at = self.ring.any(&mut self.chance);
        self.ask(self.ring.members[at].address);
    }

    /// Asks the way to some members, or to all of them.
    pub fn ask_around(&mut self) {
        if self.chance.percent(40) {
            for at in 0..self.ring.members.len() {
                self.ask(self.ring.members[at].address);
            }
        } else {
            for _ in 0..self.chance.range(1, 5) {
                self.ask_member();
            }
        }
    }

    /// Makes both spans good again: keepalives, links, cable, and mostly the operator.
    pub fn heal(&mut self) {
        let clear = self.chance.percent(75);
        for span in 0..2 {
            self.give(records::keepalive(span as u8));
            self.link(span, 0);
            let neighbour = self.ring.at_hop(1, span);
            self.hear_member(neighbour, span);
            if clear {
                self.operator(span, 0);
            }
        }
    }

    /// Heals, and lets all members be heard both ways.
    pub fn restore(&mut self) {
        self.heal();
        for ringlet in 0..2 {
            self.announce(ringlet);
        }
    }
}
