//! Errors that look right, each behind a switch that is fixed when the program is compiled.
//! `compare --self-test` needs models that are wrong in one known place; nothing else turns these on.

/// The switch of the right model.
pub const RIGHT: u8 = 0;

macro_rules! faults {
    (
        drill { $($name:ident, $short:literal, $what:literal;)* }
        telling { $($told_name:ident, $told_short:literal, $told_what:literal;)* }
        planner { $($own_name:ident, $own_short:literal, $own_what:literal;)* }
    ) => {
        /// One deliberate error. The numbers start after `RIGHT`.
        #[derive(Clone, Copy, Debug, PartialEq, Eq)]
        #[repr(u8)]
        pub enum Fault {
            /// Number 0 is the right model, so that no fault has it.
            Nothing = RIGHT,
            $(#[doc = $what] $name,)*
            $(#[doc = $told_what] $told_name,)*
            $(#[doc = $own_what] $own_name,)*
        }

        impl Fault {
            /// The faults that a drill shows.
            pub const OF_DRILL: &'static [Fault] = &[$(Fault::$name,)* $(Fault::$told_name,)*];
            /// The faults that only a plan shows.
            pub const OF_PLANNER: &'static [Fault] = &[$(Fault::$own_name),*];

            /// A short name, and what is wrong, in a few words.
            pub fn words(self) -> (&'static str, &'static str) {
                match self {
                    Fault::Nothing => ("nothing", "the right model"),
                    $(Fault::$name => ($short, $what),)*
                    $(Fault::$told_name => ($told_short, $told_what),)*
                    $(Fault::$own_name => ($own_short, $own_what),)*
                }
            }

            /// The drill program of the model with this fault.
            pub fn drill(self) -> fn(&[u8]) -> Vec<u8> {
                match self {
                    Fault::Nothing => crate::drill::say::<RIGHT>,
                    $(Fault::$name => crate::drill::say::<{ Fault::$name as u8 }>,)*
                    $(Fault::$told_name => crate::drill::tell::<{ Fault::$told_name as u8 }>,)*
                    // No drill shows these.
                    $(Fault::$own_name)|* => crate::drill::say::<RIGHT>,
                }
            }

            /// The planner's program of the model with this fault.
            pub fn planner(self) -> fn(&[u8]) -> Vec<u8> {
                match self {
                    Fault::Nothing => crate::planner::say::<RIGHT>,
                    $(Fault::$name => crate::planner::say::<{ Fault::$name as u8 }>,)*
                    // The planner is told of no way.
                    $(Fault::$told_name)|* => crate::planner::say::<RIGHT>,
                    $(Fault::$own_name => crate::planner::say::<{ Fault::$own_name as u8 }>,)*
                }
            }
        }
    };
}

faults! {
    drill {
        PlainSequences, "plain-sequences", "sequences compared as plain numbers";
        Distance128Old, "distance-128-old", "distance 128 counted as old";
        CopyDropped, "copy-dropped", "copy dropped before its hop is stored";
        CopyTakesRequests, "copy-takes-requests", "requests of a copy stored";
        OldReportRenews, "old-report-renews", "an old report sets the age to 0";
        PlaceTestedFirst, "place-tested-first", "place tested before the displaced station has left, so that 126 stations give 23";
        Places63, "places-63", "still 63 places, and 23 for a newcomer";
        Places63Dropped, "places-63-dropped", "still 63 places, and a newcomer dropped with 0";
        Places64, "places-64", "64 places, and 23 for a newcomer";
        Places125, "places-125", "125 places, and 23 for the 126th station";
        FullRefused, "full-refused", "126 stations: a newcomer refused with 4";
        FullDropped, "full-dropped", "126 stations: a newcomer dropped with 0, and nobody displaced";
        FullEmptied, "full-emptied", "126 stations: a newcomer displaces and is dropped with 0";
        DisplacedThen23, "displaced-then-23", "126 stations: a newcomer displaces and gets 23";
        FullDisplacedStays, "full-displaced-stays", "126 stations: who is displaced keeps its place without a hop";
        FullWithoutHop, "full-without-hop", "126 stations: a newcomer stored without its hop";
        LastLostComing, "last-lost-coming", "the station at place 125 lost when the 126th comes before it";
        LastLostLeaving, "last-lost-leaving", "126 stations: the one at the last place lost when another leaves and a newcomer comes before it";
        FullOldestLeaves, "full-oldest-leaves", "126 stations: the oldest leaves for a newcomer, beside who is displaced";
        BothHopsTwoPlaces, "both-hops-two-places", "a station with two hops takes two places, and 23 when all are taken";
        RingletFull, "ringlet-full", "23 for a newcomer if its ringlet has 63 stations";
        OtherRingletFull, "other-ringlet-full", "23 for a newcomer if the other ringlet has 63 stations";
        DisplacedLeaves, "displaced-leaves", "a displaced station leaves although it has another hop";
        DisplacedStays, "displaced-stays", "a displaced station keeps its place without a hop";
        HopsTo126, "hops-to-126", "hops up to 126 taken";
        HighNotAged, "high-not-aged", "places above 63 not aged";
        LastNotAged, "last-not-aged", "place 126 not aged";
        HighNotPurged, "high-not-purged", "places above 63 not purged";
        LastNotPurged, "last-not-purged", "place 126 not purged";
        HighNotDisplaced, "high-not-displaced", "a station at a place above 63 not displaced";
        LastNotDisplaced, "last-not-displaced", "the station at place 126 not displaced";
        HighHeardAsNew, "high-heard-as-new", "a report of a station at a place above 63 taken for a newcomer's";
        LastHeardAsNew, "last-heard-as-new", "a report of the station at place 126 taken for a newcomer's";
        HighNotSteered, "high-not-steered", "a station at a place above 63 not found by a question";
        LastNotSteered, "last-not-steered", "the station at place 126 not found by a question";
        HighNotWalked, "high-not-walked", "stations at places above 63 left out of ways";
        LastNotWalked, "last-not-walked", "the station at place 126 left out of ways";
        HighNoAttributes, "high-no-attributes", "attributes of a station at a place above 63 refused with 7";
        LastNoAttributes, "last-no-attributes", "attributes of the station at place 126 refused with 7";
        StationsShownTo63, "stations-shown-to-63", "more than 63 stations shown as 63";
        StationsInSixBits, "stations-in-six-bits", "the number of stations shown in six bits";
        CopyStandsBeside, "copy-stands-beside", "a copy does not displace the other station at its hop";
        ForgetLate, "forget-late", "a station forgotten one tick late";
        WtrLostUnderMs, "wtr-lost-under-ms", "WTR lost when MS comes";
        WtrWaitsUnderMs, "wtr-waits-under-ms", "WTR does not go on beneath MS";
        HoldOffAnew, "hold-off-anew", "a change while hold-off runs starts it anew";
        EasingAnew, "easing-anew", "failed to degraded while hold-off runs starts it anew";
        WorseningAnew, "worsening-anew", "degraded to failed while hold-off runs starts it anew";
        StepAnew, "step-anew", "a change while hold-off runs starts its 10 ms step anew";
        FirstStatusStays, "first-status-stays", "the first status heard comes into force when hold-off ends";
        WorstStatusStays, "worst-status-stays", "the worst status heard comes into force when hold-off ends";
        ChangeAtOnce, "change-at-once", "a change while hold-off runs comes into force at once";
        EasingAtOnce, "easing-at-once", "failed to degraded while hold-off runs comes into force at once";
        EqualRunsOn, "equal-runs-on", "the status in force heard again lets hold-off run on";
        DegradedRunsOn, "degraded-runs-on", "degraded in force heard again lets hold-off run on";
        BetterRunsOn, "better-runs-on", "a status better than the one in force lets hold-off run on";
        BetterWaits, "better-waits", "a status better than the one in force waits for the end of hold-off";
        HoldOffForBetter, "hold-off-for-better", "failed to degraded waits for hold-off";
        MarkStays, "mark-stays", "cable mark never cleared";
        MarkUndone, "mark-undone", "cable mark as before if the report is old";
        MarkTooLate, "mark-too-late", "span down tested with the mark as it was";
        OperatorDown, "operator-down", "operator FS counted as span down";
        PurgeBoth, "purge-both", "the purge takes the hops of both ringlets";
        NotClosed, "not-closed", "closing steps left out after 20 to 22 and 24";
        HopBeforeOwn, "hop-before-own", "hop above 63 tested before the own address";
        UnknownBeforeDown, "unknown-before-down", "attributes: unknown station tested before span down";
        AttributesRenew, "attributes-renew", "attributes set the age to 0";
        MandatoryStops, "mandatory-stops", "an unknown mandatory entry stops the tests of the block";
        TypeZeroSkipped, "type-zero-skipped", "mandatory type 0 skipped";
        OptionalUntested, "optional-untested", "known types tested only if mandatory";
        TwiceByMandatoryBit, "twice-by-mandatory-bit", "twice only if the mandatory bits are alike";
        ReservedBitsRead, "reserved-bits-read", "reserved bits of the length read";
        LevelIgnored, "level-ignored", "type 2 known at level 1";
        TimerFallsOnChange, "timer-falls-on-change", "the timer falls in the tick of a change";
        SlowLate, "slow-late", "timer set before the fast reports left fall";
        SequenceStops, "sequence-stops", "own sequence stays at 255";
        TargetFarEnd, "target-far-end", "the far end of the target counts";
        OwnEndLeftOut, "own-end-left-out", "the own request left out of the way";
        HopsFirst, "hops-first", "fewer hops before the lower request";
        HopsIgnored, "hops-ignored", "of equal requests west, whatever the hops";
        TieEast, "tie-east", "a tie goes east";
        GapsAllowed, "gaps-allowed", "a lower hop that is not held does not matter";
        SpanBreaksTie, "span-breaks-tie", "of equal requests and hops the way with the nearer span";
        ClosedOnce, "closed-once", "kind 7: closing steps once, behind the last tick";
        PacedOnce, "paced-once", "kind 7: the report's step once, behind the last tick";
        PacedAfterwards, "paced-afterwards", "kind 7: reports paced when all ticks have passed, with the last pair";
        PurgeLeftOut, "purge-left-out", "kind 7: WTR and the purge left out of the closing steps";
        ReportEndsTicks, "report-ends-ticks", "kind 7: ticks behind the first report lost";
        ReportsAsFlag, "reports-as-flag", "kind 7: several reports counted as one";
        SilenceOnce, "silence-once", "kind 7: keepalive ages raised once for all ticks";
        HoldOffOnce, "hold-off-once", "kind 7: hold-off falls once for all ticks";
        WtrOnce, "wtr-once", "kind 7: WTR falls once for all ticks";
        AgesOnce, "ages-once", "kind 7: ages of stations raised once for all ticks";
        OneTickFewer, "one-tick-fewer", "kind 7: one tick fewer";
        OneTickMore, "one-tick-more", "kind 7: one tick more";
        CountHighFirst, "count-high-first", "kind 7: the count read with the highest byte first";
        CountInOneByte, "count-in-one-byte", "kind 7: the low byte of the count alone read";
        CountZeroTaken, "count-zero-taken", "kind 7: count 0 taken as no tick";
        Count1000Refused, "count-1000-refused", "kind 7: count 1,000 refused";
        CountUnlimited, "count-unlimited", "kind 7: counts above 1,000 taken";
        LongerBodyTaken, "longer-body-taken", "kind 7: a body of three bytes taken";
        ShorterBodyTaken, "shorter-body-taken", "kind 7: a body of one byte taken";
        Kind7Unknown, "kind-7-unknown", "kind 7 refused with 3";
        Kind8Taken, "kind-8-taken", "kind 8 taken as kind 7";
        RoomOfOne, "room-of-one", "the drill has room for one report, so that most counts are refused with 1";
    }
    telling {
        LastSpanTold, "last-span-told", "the last span with the worst request told";
        SpansFrom0, "spans-from-0", "spans counted from 0";
        SpansFromTarget, "spans-from-target", "spans counted from the target";
        EastFromTarget, "east-from-target", "spans of the way east counted from the target";
        SpanOfStation, "span-of-station", "the hop of the station told that has the worst request";
        FirstTroubleTold, "first-trouble-told", "the first span with any request told";
        SpansCounted, "spans-counted", "how many spans have the worst request told";
        IdleSpan0, "idle-span-0", "span 0 told where all is IDLE";
        SpanInFiveBits, "span-in-five-bits", "the span told in five bits";
        NearEndsTold, "near-ends-told", "the worst of the nearer ends told";
        FarEndsTold, "far-ends-told", "the worst of the ends that face us told";
        LowerEndsTold, "lower-ends-told", "the lower of the two ends of a span told";
        NearEndKeepsSpan, "near-end-keeps-span", "a worse request at the nearer end leaves the span told as it was";
        FarEndKeepsSpan, "far-end-keeps-span", "a worse request at the end that faces us leaves the span told as it was";
        OwnEndUntold, "own-end-untold", "the own request left out of what is told";
        OwnEndsSwapped, "own-ends-swapped", "the own request of the other span told";
        EastNotMirrored, "east-not-mirrored", "on the way east, west and east of the stations swapped in what is told";
        TargetFarEndTold, "target-far-end-told", "the far end of the target told as one more span";
        BeyondTargetTold, "beyond-target-told", "worse requests beyond the target told";
        LastSpanUntold, "last-span-untold", "the last span left out of what is told";
        Span63Untold, "span-63-untold", "span 63 left out of what is told";
        WtrUntold, "wtr-untold", "WTR told as IDLE";
        HopsOneFewer, "hops-one-fewer", "one hop too few told";
        HopsOneMore, "hops-one-more", "one hop too many told";
        HopsOfRun, "hops-of-run", "all hops told that are held without a gap, beyond the target too";
        HopsOfRinglet0, "hops-of-ringlet-0", "the hop on ringlet 0 told for both ways";
        HopsInFiveBits, "hops-in-five-bits", "the hop count told in five bits";
        OtherWayTold, "other-way-told", "both usable: the numbers of the way not chosen told";
        WestTold, "west-told", "the numbers of the way west told for the way east, if there is one";
        WorstOfBoth, "worst-of-both", "the worst request of both ways told";
        UnusableTold, "unusable-told", "no way: the numbers of one that is not usable told";
        HopsWithoutWay, "hops-without-way", "no way: a hop count told";
        SfWithoutWay, "sf-without-way", "no way: SF told as worst request";
        Span1WithoutWay, "span-1-without-way", "no way: span 1 told";
        NumbersStay, "numbers-stay", "no way: the numbers of the way before told";
        NoZeros, "no-zeros", "no way: a line without numbers";
        WorstToldFirst, "worst-told-first", "the worst request told before the hop count";
        SpanToldSecond, "span-told-second", "the span told before the worst request";
        ZerosBehind4, "zeros-behind-4", "a bad question: zeros told behind the 4";
    }
    planner {
        CountedPerRinglet, "counted-per-ringlet", "a station counted once for each ringlet that it is heard on";
        CountedWhereHeard, "counted-where-heard", "a reservation counted only on a ringlet where the station has a hop";
        GapNotCounted, "gap-not-counted", "only stations reached without a gap counted";
        HighPlacesLeftOut, "high-places-left-out", "stations at places above 63 not counted";
        LastPlaceLeftOut, "last-place-left-out", "the station at place 126 not counted";
        HighNotStored, "high-not-stored", "attributes of a station at a place above 63 taken and not stored";
        LastNotStored, "last-not-stored", "attributes of the station at place 126 taken and not stored";
        HighBehindPassedOver, "high-behind-passed-over", "a station that is behind at a place above 63 passed over";
        LastBehindPassedOver, "last-behind-passed-over", "the station at place 126 passed over if it is behind";
        LowestOf63, "lowest-of-63", "a number below what 63 stations and the own one can reserve given as that";
        ReservedSwapped, "reserved-swapped", "the stations' reservations on the two ringlets swapped";
        ReservedLowFirst, "reserved-low-first", "reservations in a block read with the lowest byte first";
        ReservedKept, "reserved-kept", "a block without reservations leaves those of the one before";
        OwnReservedLeftOut, "own-reserved-left-out", "own reservations left out";
        OwnReservedSwapped, "own-reserved-swapped", "own reservations on the two ringlets swapped";
        SumInSixteenBits, "sum-in-sixteen-bits", "reservations summed in sixteen bits";
        FreeNotBelowZero, "free-not-below-zero", "a number below zero given as 0";
        DefectOnRinglet0, "defect-on-ringlet-0", "the defect tested on ringlet 0 alone";
        DefectOnRinglet1, "defect-on-ringlet-1", "the defect tested on ringlet 1 alone";
        DefectOnBoth, "defect-on-both", "the defect only if both ringlets have it";
        DefectAtZero, "defect-at-zero", "exactly 0 is a defect";
        HighestRateRefused, "highest-rate-refused", "link rate 65,535 refused";
        RateCut, "rate-cut", "the low sixteen bits of a link rate taken, and none refused";
        LevelBeforeRate, "level-before-rate", "32 tested before 4";
        BehindBeforeLevel, "behind-before-level", "31 tested before 32";
        BehindBeforeRate, "behind-before-rate", "31 tested before 4";
        HighestBehind, "highest-behind", "31 with the highest address";
        BehindPassedOver, "behind-passed-over", "a station that is behind passed over";
        BehindNumbersGiven, "behind-numbers-given", "31, and numbers given";
        BehindStays, "behind-stays", "behind although a later block was taken";
        TypeZeroNotBehind, "type-zero-not-behind", "behind with type 0 taken for not behind";
        PlannerRoomOfOne, "planner-room-of-one", "the planner has room for one report, so that most counts are refused with 1";
    }
}

impl Fault {
    /// The fault with this short name; `nothing` is one.
    pub fn named(short: &str) -> Option<Fault> {
        let mut all = std::iter::once(Fault::Nothing).chain(Fault::all());
        all.find(|fault| fault.words().0 == short)
    }

    /// Every fault, without `Nothing`.
    pub fn all() -> impl Iterator<Item = Fault> {
        Fault::OF_DRILL.iter().chain(Fault::OF_PLANNER).copied()
    }
}

/// True if the switch `F` turns this fault on. A constant: the right model carries no test.
#[inline(always)]
pub const fn wrong<const F: u8>(fault: Fault) -> bool {
    F == fault as u8
}

#[cfg(test)]
mod tests {
    use super::*;

    #[test]
    fn names_are_unique_and_found() {
        for fault in Fault::all() {
            assert_eq!(Fault::named(fault.words().0), Some(fault));
        }
        assert_eq!(Fault::named("nothing"), Some(Fault::Nothing));
        assert_eq!(Fault::named("unheard of"), None);
    }
}
