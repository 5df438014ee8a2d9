//! A record that comes once, or ticks that come in a row.

use crate::record::Record;

/// The bytes of a tick.
const TICK: usize = 4;
/// The bytes of two keepalives.
const KEEPALIVES: usize = 10;

/// A record, and how often it comes.
#[derive(Clone, Debug, PartialEq, Eq)]
pub struct Run {
    /// The record.
    pub record: Record,
    /// More than once only for ticks.
    pub times: u64,
    /// Keepalives on both spans before the first tick, and again after every so many.
    pub alive: Option<u64>,
}

impl Run {
    /// The record, once.
    pub fn once(record: Record) -> Run {
        Run {
            record,
            times: 1,
            alive: None,
        }
    }

    /// The records of the run, in order.
    pub fn records(&self) -> impl Iterator<Item = Record> + '_ {
        (0..self.times).flat_map(move |time| {
            let alive = self.alive.is_some_and(|every| time % every == 0);
            let spans: &[u8] = if alive { &[0, 1] } else { &[] };
            let keepalives = spans.iter().map(|&span| Record::Keepalive(span));
            keepalives.chain([self.record.clone()])
        })
    }

    /// How many bytes the run has.
    pub fn length(&self) -> usize {
        let one = match self.record {
            Record::Tick => TICK,
            _ => self.record.bytes().len(),
        };
        let pairs = self.alive.map_or(0, |every| self.times.div_ceil(every));
        let count = |number| usize::try_from(number).unwrap_or(usize::MAX);
        count(self.times).saturating_mul(one) + count(pairs).saturating_mul(KEEPALIVES)
    }
}
