//! One span: link status, hold-off, keepalive age, cable mark, operator request and WTR.
//! The span request is the highest of what these ask for; a lower one goes on beneath.

use crate::faults::{wrong, Fault};
use crate::settings::Settings;

/// A request on a span, low to high.
#[derive(Clone, Copy, Debug, PartialEq, Eq, PartialOrd, Ord)]
#[repr(u8)]
pub enum Request {
    /// Nothing asked for.
    Idle = 0,
    /// Wait to restore.
    Wtr = 1,
    /// Manual switch.
    Ms = 2,
    /// Signal degraded.
    Sd = 3,
    /// Signal failed.
    Sf = 4,
    /// Forced switch.
    Fs = 5,
}

impl Request {
    /// The request with this code.
    pub fn from_code(code: u8) -> Option<Request> {
        match code {
            0 => Some(Request::Idle),
            1 => Some(Request::Wtr),
            2 => Some(Request::Ms),
            3 => Some(Request::Sd),
            4 => Some(Request::Sf),
            5 => Some(Request::Fs),
            _ => None,
        }
    }
}

/// Link status, good to bad.
#[derive(Clone, Copy, Debug, PartialEq, Eq, PartialOrd, Ord)]
pub enum Status {
    /// Nothing wrong.
    Good,
    /// Usable.
    Degraded,
    /// Not usable.
    Failed,
}

impl Status {
    /// The status with this code.
    pub fn from_code(code: u8) -> Option<Status> {
        match code {
            0 => Some(Status::Good),
            1 => Some(Status::Degraded),
            2 => Some(Status::Failed),
            _ => None,
        }
    }
}

/// The state of one span.
#[derive(Clone, Debug)]
pub struct Span {
    link: Status,
    in_force: Status,
    hold_off: u32,
    age: u32,
    crossed: bool,
    operator: Request,
    wtr: u32,
}

impl Span {
    /// A span at start.
    pub fn new() -> Span {
        Span {
            link: Status::Good,
            in_force: Status::Good,
            hold_off: 0,
            age: 0,
            crossed: false,
            operator: Request::Idle,
            wtr: 0,
        }
    }

    /// A link record came. A status worse than the one in force waits for hold-off; where that runs already, it runs on.
    pub fn link<const F: u8>(&mut self, status: Status, settings: &Settings) {
        if status == self.link || self.is_passed_over::<F>(status) {
            return;
        }
        let waits = self.waits::<F>(status);
        let starts = self.hold_off == 0 || self.starts_anew::<F>(status);
        let goes_on = wrong::<F>(Fault::BetterRunsOn) && status < self.in_force;
        self.link = status;
        if !waits || settings.hold_off == 0 {
            self.in_force = status;
            if !goes_on {
                self.hold_off = 0;
            }
        } else if starts {
            self.hold_off = settings.hold_off;
        } else if wrong::<F>(Fault::StepAnew) {
            self.hold_off = self.hold_off.next_multiple_of(10);
        }
    }

    /// Whether a status has to wait: if it is worse than the one in force. All wrong models but the first differ only while hold-off runs.
    fn waits<const F: u8>(&self, status: Status) -> bool {
        let worse = status > self.in_force;
        let again = status == self.in_force;
        let bad = status > Status::Good;
        if wrong::<F>(Fault::HoldOffForBetter) {
            bad
        } else if self.hold_off == 0 {
            worse
        } else if wrong::<F>(Fault::ChangeAtOnce) {
            false
        } else if wrong::<F>(Fault::EasingAtOnce) {
            worse && status > self.link
        } else if wrong::<F>(Fault::EqualRunsOn) {
            worse || again
        } else if wrong::<F>(Fault::DegradedRunsOn) {
            worse || (again && bad)
        } else if wrong::<F>(Fault::BetterWaits) {
            worse || !again
        } else {
            worse
        }
    }

    /// Whether a running hold-off starts anew; in the right model it never does.
    fn starts_anew<const F: u8>(&self, status: Status) -> bool {
        wrong::<F>(Fault::HoldOffAnew)
            || (wrong::<F>(Fault::EasingAnew) && status < self.link)
            || (wrong::<F>(Fault::WorseningAnew) && status > self.link)
    }

    /// Whether a status is not stored while hold-off runs; in the right model it always is.
    fn is_passed_over<const F: u8>(&self, status: Status) -> bool {
        let swings = self.hold_off > 0 && status > self.in_force;
        let first = wrong::<F>(Fault::FirstStatusStays);
        let worst = wrong::<F>(Fault::WorstStatusStays) && status < self.link;
        swings && (first || worst)
    }

    /// A tick passes.
    pub fn tick<const F: u8>(&mut self, settings: &Settings) {
        self.grow_silent(settings);
        self.hold();
        self.wait::<F>();
    }

    /// The keepalive age rises, up to the setting.
    pub fn grow_silent(&mut self, settings: &Settings) {
        self.age = settings.keepalive.min(self.age + 1);
    }

    /// Hold-off falls; at its end the stored status comes into force.
    pub fn hold(&mut self) {
        if self.hold_off > 0 {
            self.hold_off -= 1;
            if self.hold_off == 0 {
                self.in_force = self.link;
            }
        }
    }

    /// WTR falls.
    pub fn wait<const F: u8>(&mut self) {
        if !wrong::<F>(Fault::WtrWaitsUnderMs) || self.operator != Request::Ms {
            self.wtr = self.wtr.saturating_sub(1);
        }
    }

    /// A keepalive came.
    pub fn keepalive(&mut self) {
        self.age = 0;
    }

    /// An operator record came; it replaces the one before.
    pub fn operator<const F: u8>(&mut self, request: Request) {
        if wrong::<F>(Fault::WtrLostUnderMs) && request == Request::Ms {
            self.wtr = 0;
        }
        self.operator = request;
    }

    /// A neighbour's report shows whether the cable is crossed.
    pub fn mark<const F: u8>(&mut self, crossed: bool) {
        self.crossed = crossed || (wrong::<F>(Fault::MarkStays) && self.crossed);
    }

    /// The stored status and the hold-off ticks left.
    pub fn stored(&self) -> (Status, u32) {
        (self.link, self.hold_off)
    }

    /// SF, SD or, for none, IDLE.
    pub fn automatic(&self, settings: &Settings) -> Request {
        let silent = self.age >= settings.keepalive;
        if self.in_force == Status::Failed || silent || self.crossed {
            Request::Sf
        } else if self.in_force == Status::Degraded {
            Request::Sd
        } else {
            Request::Idle
        }
    }

    /// Closing step: WTR starts when the automatic request goes and ends when one comes.
    pub fn close(&mut self, before: Request, settings: &Settings) {
        let after = self.automatic(settings);
        match (before, after) {
            (Request::Idle, Request::Idle) => {}
            (Request::Idle, _) => self.wtr = 0,
            (_, Request::Idle) => self.wtr = settings.wtr,
            _ => {}
        }
    }

    /// The span request.
    pub fn request(&self, settings: &Settings) -> Request {
        let waiting = if self.wtr > 0 {
            Request::Wtr
        } else {
            Request::Idle
        };
        self.operator.max(self.automatic(settings)).max(waiting)
    }
}

impl Default for Span {
    fn default() -> Span {
        Span::new()
    }
}

#[cfg(test)]
mod tests {
    use super::*;
    use crate::faults::RIGHT;

    fn settings(wtr: u32, hold_off: u32) -> Settings {
        Settings {
            wtr,
            hold_off,
            ..Settings::defaults(0)
        }
    }

    /// One event as the node runs it: the handler, then the closing step.
    fn event(span: &mut Span, settings: &Settings, handler: impl Fn(&mut Span)) -> Request {
        let before = span.automatic(settings);
        handler(span);
        span.close(before, settings);
        span.request(settings)
    }

    #[test]
    fn the_highest_shows_and_the_lower_goes_on() {
        let set = settings(3, 0);
        let mut span = Span::new();
        let failed = event(&mut span, &set, |s| s.link::<RIGHT>(Status::Failed, &set));
        assert_eq!(failed, Request::Sf);
        let good = event(&mut span, &set, |s| s.link::<RIGHT>(Status::Good, &set));
        assert_eq!(good, Request::Wtr);
        let ms = event(&mut span, &set, |s| s.operator::<RIGHT>(Request::Ms));
        assert_eq!(ms, Request::Ms);
        event(&mut span, &set, |s| s.tick::<RIGHT>(&set));
        event(&mut span, &set, |s| s.keepalive());
        let back = event(&mut span, &set, |s| s.operator::<RIGHT>(Request::Idle));
        assert_eq!(back, Request::Wtr);
        event(&mut span, &set, |s| s.tick::<RIGHT>(&set));
        let last = event(&mut span, &set, |s| s.tick::<RIGHT>(&set));
        assert_eq!(last, Request::Idle);
    }

    #[test]
    fn better_than_in_force_comes_at_once() {
        let set = settings(0, 5);
        let mut span = Span::new();
        span.link::<RIGHT>(Status::Failed, &set);
        for _ in 0..5 {
            span.keepalive();
            span.tick::<RIGHT>(&set);
        }
        assert_eq!(span.automatic(&set), Request::Sf);
        span.link::<RIGHT>(Status::Degraded, &set);
        assert_eq!(span.automatic(&set), Request::Sd);
    }

    /// Ticks with keepalives coming, after each of which the automatic request is this one.
    fn lasts(span: &mut Span, settings: &Settings, ticks: u32, request: Request) {
        for tick in 1..=ticks {
            span.keepalive();
            span.tick::<RIGHT>(settings);
            assert_eq!(span.automatic(settings), request, "after {tick} ticks");
        }
    }

    /// A span whose link is degraded in force.
    fn degraded(settings: &Settings) -> Span {
        let mut span = Span::new();
        span.link::<RIGHT>(Status::Degraded, settings);
        lasts(&mut span, settings, settings.hold_off - 1, Request::Idle);
        lasts(&mut span, settings, 1, Request::Sd);
        span
    }

    #[test]
    fn another_worse_status_lets_hold_off_run_on() {
        let set = settings(0, 5);
        let mut span = Span::new();
        span.link::<RIGHT>(Status::Degraded, &set);
        lasts(&mut span, &set, 2, Request::Idle);
        span.link::<RIGHT>(Status::Failed, &set);
        lasts(&mut span, &set, 2, Request::Idle);
        lasts(&mut span, &set, 1, Request::Sf);
    }

    #[test]
    fn the_status_stored_at_the_end_comes_into_force_whichever_came_first() {
        let set = settings(0, 5);
        let ends = [
            (Status::Degraded, Status::Failed, Request::Sd),
            (Status::Failed, Status::Degraded, Request::Sf),
        ];
        for (last, other, request) in ends {
            for swings in 0..5_u32 {
                let mut span = Span::new();
                // The last swing may come just before the last tick.
                for left in (0..=swings).rev() {
                    let status = if left % 2 == 0 { last } else { other };
                    span.link::<RIGHT>(status, &set);
                    lasts(&mut span, &set, u32::from(left > 0), Request::Idle);
                }
                lasts(&mut span, &set, 4 - swings, Request::Idle);
                lasts(&mut span, &set, 1, request);
            }
        }
    }

    #[test]
    fn the_status_in_force_ends_hold_off() {
        let set = settings(0, 5);
        for (mut span, in_force, request) in [
            (Span::new(), Status::Good, Request::Idle),
            (degraded(&set), Status::Degraded, Request::Sd),
        ] {
            span.link::<RIGHT>(Status::Failed, &set);
            lasts(&mut span, &set, 4, request);
            span.link::<RIGHT>(in_force, &set);
            lasts(&mut span, &set, 3, request);
            // What is worse has the whole time again.
            span.link::<RIGHT>(Status::Failed, &set);
            lasts(&mut span, &set, 4, request);
            lasts(&mut span, &set, 1, Request::Sf);
        }
    }

    #[test]
    fn a_better_status_ends_hold_off() {
        let set = settings(0, 5);
        let mut span = degraded(&set);
        span.link::<RIGHT>(Status::Failed, &set);
        lasts(&mut span, &set, 4, Request::Sd);
        span.link::<RIGHT>(Status::Good, &set);
        assert_eq!(span.automatic(&set), Request::Idle);
        span.link::<RIGHT>(Status::Degraded, &set);
        lasts(&mut span, &set, 4, Request::Idle);
        lasts(&mut span, &set, 1, Request::Sd);
    }

    #[test]
    fn a_worse_status_after_the_end_has_a_hold_off_of_its_own() {
        let set = settings(0, 5);
        let mut span = Span::new();
        span.link::<RIGHT>(Status::Failed, &set);
        lasts(&mut span, &set, 3, Request::Idle);
        span.link::<RIGHT>(Status::Degraded, &set);
        lasts(&mut span, &set, 1, Request::Idle);
        lasts(&mut span, &set, 1, Request::Sd);
        span.link::<RIGHT>(Status::Failed, &set);
        lasts(&mut span, &set, 4, Request::Sd);
        lasts(&mut span, &set, 1, Request::Sf);
    }

    #[test]
    fn silence_and_the_cable_mark_are_failures() {
        let set = settings(0, 20);
        let mut span = Span::new();
        span.tick::<RIGHT>(&set);
        span.tick::<RIGHT>(&set);
        assert_eq!(span.automatic(&set), Request::Idle);
        span.tick::<RIGHT>(&set);
        assert_eq!(span.automatic(&set), Request::Sf);
        span.tick::<RIGHT>(&set);
        span.keepalive();
        assert_eq!(span.automatic(&set), Request::Idle);
        span.mark::<RIGHT>(true);
        assert_eq!(span.automatic(&set), Request::Sf);
        span.mark::<RIGHT>(false);
        assert_eq!(span.automatic(&set), Request::Idle);
    }
}
