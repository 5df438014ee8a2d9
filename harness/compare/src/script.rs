//! What a program is run on: a drill or a plan, in pieces that can be dropped one by one.

use text::records::{self, Bytes, LONGEST};

use crate::maker::Maker;

/// The settings and the records behind them; any of them may be damaged.
#[derive(Clone, Debug, PartialEq, Eq)]
pub struct Script {
    /// The first bytes.
    pub settings: Bytes,
    /// What follows them, one piece for each record.
    pub records: Vec<Bytes>,
}

impl Script {
    /// What a maker gave, behind its own settings or behind these. Empty settings end the input at once.
    pub fn made(maker: Maker, settings: Option<Bytes>) -> Script {
        let settings = settings.unwrap_or_else(|| maker.opening.bytes());
        let records = if settings.is_empty() {
            Vec::new()
        } else {
            maker.records
        };
        Script { settings, records }
    }

    /// All bytes.
    pub fn bytes(&self) -> Bytes {
        let mut bytes = self.settings.clone();
        bytes.extend(self.records.iter().flatten());
        bytes
    }
}

/// Input stops between records, within one, or goes on behind a length that ends it.
/// `event` gives some good record, and `ask` what would show that the program still reads.
pub fn end(m: &mut Maker, event: fn(&mut Maker) -> Bytes, ask: fn(&mut Maker)) {
    match m.chance.below(10) {
        0..=2 => {
            let mut record = last_record(m, event);
            let left = m.chance.range(1, record.len() - 1);
            record.truncate(left);
            m.give(record);
        }
        3 => {
            let length = m.chance.pick(&[0_u16, 1, 1_034, 1_035, 4_096, 65_535]);
            let mut record = last_record(m, event);
            record[..2].copy_from_slice(&length.to_le_bytes());
            m.give(record);
            ask(m);
        }
        4 => {
            // Bytes without any order, which may or may not look like records.
            let count = m.chance.range(1, 60);
            let bytes = (0..count).map(|_| m.chance.pick(&[0, 0, 0, 1, 2, 3, 4]));
            let tail = bytes.collect();
            m.give(tail);
        }
        _ => {}
    }
}

/// Some record, now and then one of the longest.
fn last_record(m: &mut Maker, event: fn(&mut Maker) -> Bytes) -> Bytes {
    if m.chance.percent(15) {
        let kind = m.chance.pick(&[5, 6, 7, 40, 99]);
        return records::record(kind, &vec![0; LONGEST - 2]);
    }
    event(m)
}
