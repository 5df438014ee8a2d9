//! Where a drill reaches the rule that hold-off runs on: a link record changes the stored status, and the time left stays.

use model::Status;

use crate::tally::Tally;

/// A link record changed a status that waits for the end of hold-off, and the time ran on.
pub const RAN_ON: &str = "status changed, hold-off ran on";
/// A tick ended a hold-off that had such a change, and the status stored last came into force.
pub const ENDED: &str = "hold-off ended after such a change";

/// The stored status of a link and the hold-off ticks left.
pub type Link = (Status, u32);

/// The links of a drill, counted from record to record.
#[derive(Default)]
pub struct Counter {
    /// For each link, whether the running hold-off had a change.
    swung: [bool; 2],
}

impl Counter {
    /// Counts what a record did on the links.
    pub fn see(&mut self, before: [Link; 2], after: [Link; 2], tally: &mut Tally) {
        for (span, swung) in self.swung.iter_mut().enumerate() {
            count_one(before[span], after[span], swung, tally);
        }
    }
}

/// Counts what a record did on one link; `swung` tells whether the running hold-off had a change.
fn count_one(before: Link, after: Link, swung: &mut bool, tally: &mut Tally) {
    let (old, left) = before;
    let (new, still) = after;
    if left > 0 && still == left && new != old {
        *swung = true;
        tally.count(RAN_ON);
    } else if still == 0 {
        // A link record may end hold-off too; the stored status is another one then.
        if *swung && new == old {
            tally.count(ENDED);
        }
        *swung = false;
    }
}

#[cfg(test)]
mod tests {
    use text::reading::Text;

    use super::*;
    use crate::reach;

    fn counted(source: &str) -> (u64, u64) {
        let mut tally = Tally::new("drill", &[RAN_ON, ENDED]);
        let text = Text::read(source.as_bytes()).unwrap();
        reach::count(&text.bytes(), &mut tally);
        (tally.of(RAN_ON), tally.of(ENDED))
    }

    #[test]
    fn a_swing_is_counted_and_so_is_its_end() {
        let start = "settings hold-off 1 keepalive 50\nlink west failed\n";
        let with = |rest: &str| counted(&format!("{start}{rest}"));
        assert_eq!(with("tick 10\n"), (0, 0));
        assert_eq!(with("tick 9\nlink west degraded\n"), (1, 0));
        assert_eq!(with("tick 9\nlink west degraded\ntick\n"), (1, 1));
        let back = "link west degraded\nlink west failed\nlink west failed\n";
        assert_eq!(with(&format!("{back}tick 10\ntick 10\n")), (2, 1));
        assert_eq!(with(&format!("{back}link west good\ntick 10\n")), (2, 0));
        assert_eq!(with("tick 10\nlink west degraded\ntick 10\n"), (0, 0));
        let both = "link east degraded\ntick 5\nlink west degraded\nlink east failed\ntick 5\n";
        assert_eq!(with(both), (2, 2));
        assert_eq!(with("ticks 9\nlink west degraded\nticks 30\n"), (1, 1));
    }

    #[test]
    fn without_hold_off_or_settings_nothing_is_counted() {
        let swing = "link west failed\nlink west degraded\ntick 10\n";
        assert_eq!(counted(&format!("settings keepalive 50\n{swing}")), (0, 0));
        assert_eq!(counted(&format!("settings level 3\n{swing}")), (0, 0));
        assert_eq!(counted(""), (0, 0));
    }
}
