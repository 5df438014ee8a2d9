//! The records behind the settings, each with what its line says.

use crate::record::Record;
use crate::said::{Answer, Said};
use crate::told::{Play, Told};

/// A record of the drill and where the node stands after it. Its place is one less than in the play, where the settings are first.
#[derive(Clone, Debug)]
pub struct Step<'p> {
    /// The number of its line.
    pub number: u64,
    /// The record.
    pub record: &'p Record,
    /// What became of it, and what was answered.
    pub answer: Answer,
    /// West and east request after it; none before the first line that tells them.
    pub requests: Option<[u8; 2]>,
    /// The own sequence before it; none before the first line that tells it.
    pub before: Option<u8>,
}

impl Step<'_> {
    /// The number returned, if it is not that the record was taken or answered.
    pub fn refusal(&self) -> Option<u8> {
        match self.answer {
            Answer::Full(full) if full.result == 0 => None,
            Answer::Full(full) => Some(full.result),
            Answer::Short(refusal) => Some(refusal),
            Answer::Way(_) => None,
        }
    }

    /// Whether the drill ends here although there are more bytes.
    pub fn is_end(&self) -> bool {
        self.answer == Answer::Short(2)
    }

    /// Whether it belongs to a run of time: ticks, or a keepalive, that were taken.
    pub fn is_time(&self) -> bool {
        let passes = matches!(self.record, Record::Tick | Record::Ticks(_));
        let of_time = passes || matches!(self.record, Record::Keepalive(_));
        of_time && self.refusal().is_none()
    }

    /// How many ticks pass.
    pub fn ticks(&self) -> u64 {
        match self.record {
            Record::Tick if self.is_time() => 1,
            Record::Ticks(count) if self.is_time() => u64::from(*count),
            _ => 0,
        }
    }

    /// How many reports were sent, and the sequence of the last.
    pub fn sent(&self) -> Option<(u16, u8)> {
        let full = self.answer.full()?;
        (full.reports > 0).then_some((full.reports, full.sequence))
    }
}

/// The number by which the settings were refused.
pub fn refused_settings(play: &Play) -> Option<u8> {
    let line = match play.told.first() {
        Some(told) => told.line.as_deref(),
        None => play.beyond.first().map(String::as_str),
    };
    match Said::of(line?)? {
        Said::Settings(refusal) => Some(refusal),
        Said::Line(..) => None,
    }
}

/// The steps of a drill whose settings were taken, or why its lines do not tell them.
pub fn steps(play: &Play) -> Result<Vec<Step<'_>>, String> {
    if let Some(line) = play.beyond.first() {
        return Err(format!("'{line}' is printed where the drill has ended"));
    }
    let (mut requests, mut sequence) = (None, None);
    let records = play.told.iter().enumerate().skip(1);
    let steps = records.map(|(place, told)| {
        let mut step = step(place, told, requests)?;
        requests = step.requests;
        step.before = sequence;
        sequence = step.answer.full().map(|full| full.sequence).or(sequence);
        Ok(step)
    });
    steps.collect()
}

fn step(place: usize, told: &Told, before: Option<[u8; 2]>) -> Result<Step<'_>, String> {
    let line = told.line.as_deref();
    let line = line.ok_or(format!("no line {place} is printed by the program"))?;
    match Said::of(line) {
        Some(Said::Line(number, answer)) if usize::try_from(number) == Ok(place) => Ok(Step {
            number,
            record: &told.record,
            answer,
            requests: answer.full().map(|full| full.requests).or(before),
            before: None,
        }),
        _ => Err(format!(
            "'{line}' is printed where line {place} of the program should stand"
        )),
    }
}
