//! Kind 7: many ticks in one record. Each is a single tick with all its closing steps, and may write a report.
//! The wrong models of it differ in what they do in each of the ticks, or in what they do once for all of them.

use crate::faults::{wrong, Fault};
use crate::node::NodeOf;
use crate::records::{Event, NO_ROOM, REPORT_BYTES, TAKEN};

impl<const F: u8> NodeOf<F> {
    /// So many single ticks: the result, and how many reports were written.
    pub(super) fn ticks(&mut self, count: u16, out: &mut [u8]) -> (u8, usize) {
        // Each tick may write a report, so there has to be room for all of them, even if fewer come.
        let needed = REPORT_BYTES * usize::from(count);
        if out.len() < needed && !wrong::<F>(Fault::CountUnlimited) {
            return (NO_ROOM, 0);
        }
        if let Some(reports) = self.closed_apart(count) {
            return (TAKEN, reports);
        }
        let mut places = out.chunks_exact_mut(REPORT_BYTES);
        let mut reports = 0;
        for place in 0..passing::<F>(count) {
            let Some(report) = self.one_of_many(place > 0) else {
                continue;
            };
            reports += 1;
            if let Some(room) = places.next() {
                room.copy_from_slice(&report);
            }
            if wrong::<F>(Fault::ReportEndsTicks) {
                break;
            }
        }
        if wrong::<F>(Fault::ReportsAsFlag) {
            reports = reports.min(1);
        }
        (TAKEN, reports)
    }

    /// One tick of a record; `again` if another stood before it. In the right model it is a single tick like any other.
    fn one_of_many(&mut self, again: bool) -> Option<[u8; REPORT_BYTES]> {
        let in_part = [
            Fault::SilenceOnce,
            Fault::HoldOffOnce,
            Fault::WtrOnce,
            Fault::AgesOnce,
            Fault::PurgeLeftOut,
        ];
        if !in_part.iter().any(|&fault| wrong::<F>(fault)) {
            return self.single(&Event::Tick).1;
        }
        let before = self.automatic();
        self.pass_in_part(again);
        if !wrong::<F>(Fault::PurgeLeftOut) {
            self.settle(before);
        }
        self.pace(true).then(|| self.report())
    }

    /// A tick in a wrong model that does a part of it only once for all ticks of a record.
    fn pass_in_part(&mut self, again: bool) {
        let once = |fault| again && wrong::<F>(fault);
        for span in &mut self.spans {
            if !once(Fault::SilenceOnce) {
                span.grow_silent(&self.settings);
            }
            if !once(Fault::HoldOffOnce) {
                span.hold();
            }
            if !once(Fault::WtrOnce) {
                span.wait::<F>();
            }
        }
        if !once(Fault::AgesOnce) {
            self.table.tick::<F>(self.settings.forget);
        }
    }

    /// The reports of a wrong model that does not close after each tick; no drill shows their bytes. None in all other models.
    fn closed_apart(&mut self, count: u16) -> Option<usize> {
        if wrong::<F>(Fault::ClosedOnce) {
            let before = self.automatic();
            for _ in 0..count {
                self.take(&Event::Tick);
            }
            return Some(usize::from(self.close(before, true)));
        }
        if wrong::<F>(Fault::PacedOnce) {
            self.unpaced(count);
            return Some(usize::from(self.pace(true)));
        }
        if wrong::<F>(Fault::PacedAfterwards) {
            self.unpaced(count);
            let steps = (0..count).filter(|_| self.pace(true));
            return Some(steps.count());
        }
        None
    }

    /// So many ticks with their closing steps, but for the reports.
    fn unpaced(&mut self, count: u16) {
        for _ in 0..count {
            let before = self.automatic();
            self.take(&Event::Tick);
            self.settle(before);
        }
    }
}

/// How many ticks pass for a count.
fn passing<const F: u8>(count: u16) -> u16 {
    if wrong::<F>(Fault::OneTickFewer) {
        count - 1
    } else if wrong::<F>(Fault::OneTickMore) {
        count + 1
    } else {
        count
    }
}
