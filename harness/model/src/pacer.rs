//! When a report is written: at once on a changed pair, then eight fast ones, then slow ones.
//! The last step of every event that is not refused.

use crate::faults::{wrong, Fault};
use crate::settings::Settings;
use crate::spans::Request;

/// Fast reports after start and after a change.
const FAST_REPORTS: u8 = 8;

/// Own sequence, last reported pair, fast reports left and timer.
#[derive(Clone, Debug)]
pub struct Pacer {
    sequence: u8,
    last: [Request; 2],
    fast_left: u8,
    timer: u32,
}

impl Pacer {
    /// The pacer at start.
    pub fn new(settings: &Settings) -> Pacer {
        Pacer {
            sequence: 0,
            last: [Request::Idle; 2],
            fast_left: FAST_REPORTS,
            timer: settings.fast,
        }
    }

    /// The own sequence.
    pub fn sequence(&self) -> u8 {
        self.sequence
    }

    /// The pair of requests last reported; after every event it is the own pair.
    pub fn last(&self) -> [Request; 2] {
        self.last
    }

    /// Takes the own pair after an event; true if a report is to be written.
    pub fn step<const F: u8>(
        &mut self,
        pair: [Request; 2],
        tick: bool,
        settings: &Settings,
    ) -> bool {
        if pair != self.last {
            self.change::<F>(pair, tick, settings);
            return true;
        }
        if !tick {
            return false;
        }
        self.timer = self.timer.saturating_sub(1);
        if self.timer > 0 {
            return false;
        }
        let before = self.fast_left;
        self.fast_left = before.saturating_sub(1);
        let left = if wrong::<F>(Fault::SlowLate) {
            before
        } else {
            self.fast_left
        };
        self.timer = if left > 0 {
            settings.fast
        } else {
            settings.slow
        };
        true
    }

    fn change<const F: u8>(&mut self, pair: [Request; 2], tick: bool, settings: &Settings) {
        self.sequence = if wrong::<F>(Fault::SequenceStops) {
            self.sequence.saturating_add(1)
        } else {
            self.sequence.wrapping_add(1)
        };
        self.last = pair;
        self.fast_left = FAST_REPORTS;
        self.timer = settings.fast;
        if wrong::<F>(Fault::TimerFallsOnChange) && tick {
            self.timer -= 1;
        }
    }
}

#[cfg(test)]
mod tests {
    use super::*;
    use crate::faults::RIGHT;

    const IDLE: [Request; 2] = [Request::Idle; 2];

    fn ticks_to_report(pacer: &mut Pacer, pair: [Request; 2], settings: &Settings) -> u32 {
        let mut ticks = 1;
        while !pacer.step::<RIGHT>(pair, true, settings) {
            ticks += 1;
        }
        ticks
    }

    #[test]
    fn eight_fast_reports_then_slow_ones() {
        let settings = Settings::defaults(0);
        let mut pacer = Pacer::new(&settings);
        for _ in 0..8 {
            assert_eq!(ticks_to_report(&mut pacer, IDLE, &settings), 10);
        }
        assert_eq!(ticks_to_report(&mut pacer, IDLE, &settings), 100);
        assert_eq!(ticks_to_report(&mut pacer, IDLE, &settings), 100);
        assert_eq!(pacer.sequence(), 0);
    }

    #[test]
    fn a_change_is_reported_at_once_and_then_fast() {
        let settings = Settings::defaults(0);
        let mut pacer = Pacer::new(&settings);
        let pair = [Request::Sf, Request::Idle];
        assert!(pacer.step::<RIGHT>(pair, true, &settings));
        assert_eq!((pacer.sequence(), pacer.last()), (1, pair));
        assert_eq!(ticks_to_report(&mut pacer, pair, &settings), 10);
        assert!(!pacer.step::<RIGHT>(pair, false, &settings));
    }

    #[test]
    fn the_sequence_wraps() {
        let settings = Settings::defaults(0);
        let mut pacer = Pacer::new(&settings);
        for turn in 0..256 {
            let west = if turn % 2 == 0 {
                Request::Ms
            } else {
                Request::Idle
            };
            assert!(pacer.step::<RIGHT>([west, Request::Idle], false, &settings));
        }
        assert_eq!(pacer.sequence(), 0);
    }
}
