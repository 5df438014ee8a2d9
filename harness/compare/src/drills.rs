//! The drill of a seed: settings, scenes on a ring, and one of several ends.

use model::faults::Fault;
use text::accepting::accept;
use text::program::RUN;
use text::reading::Text;
use text::records::Bytes;
use text::source::{Source, WORKED};
use text::writing;

use crate::chance::Chance;
use crate::crowds;
use crate::maker::Maker;
use crate::many;
use crate::opening::{self, Opening};
use crate::reach;
use crate::ring::LARGEST;
use crate::scenes;
use crate::script::{end, Script};
use crate::subject::{right, Subject};
use crate::swings::{ENDED, RAN_ON};
use crate::tally::{Tally, OTHER};
use crate::ways;
use crate::wild;

/// The drill program on drills.
pub struct Drills;

impl Subject for Drills {
    fn word(&self) -> &'static str {
        "drill"
    }

    fn command(&self) -> &'static str {
        RUN
    }

    fn make(&self, seed: u64) -> Script {
        drill(seed)
    }

    fn probe(&self) -> Result<(&'static str, Bytes), String> {
        let name = "the worked drill";
        Ok((name, Source::of(name, WORKED.to_vec())?.bytes()))
    }

    fn read(&self, file: &str) -> Result<Bytes, String> {
        Ok(Source::read(file)?.bytes())
    }

    fn model(&self, fault: Fault) -> fn(&[u8]) -> Vec<u8> {
        fault.drill()
    }

    fn faults(&self) -> &'static [Fault] {
        Fault::OF_DRILL
    }

    fn nothing(&self) -> Tally {
        let labels = [&LABELS[..], &ways::LABELS, &many::LABELS, &crowds::LABELS];
        Tally::new(self.word(), &labels.concat())
    }

    fn count(&self, input: &[u8], said: &[u8]) -> Tally {
        let mut tally = tally(said);
        reach::count(input, &mut tally);
        tally
    }

    /// Each record has its line.
    fn records_read(&self, _: &Script, line: usize) -> usize {
        line
    }

    fn words(&self, script: &Script) -> String {
        let bytes = script.bytes();
        let plain = writing::text(&bytes);
        match Text::read(plain.as_bytes()) {
            Ok(text) => accept(&text, &String::from_utf8_lossy(&right(self, &bytes))).source,
            // A drill that no text can hold is too long to be read.
            Err(_) => plain,
        }
    }

    fn kept(&self, script: &Script) -> (Bytes, &'static str) {
        (self.words(script).into_bytes(), "with the model's lines")
    }
}

/// The drill of this seed.
fn drill(seed: u64) -> Script {
    let mut chance = Chance::new(seed);
    let refused = chance.percent(6);
    let budget = match chance.below(10) {
        0 => chance.range(50, 200),
        1..=6 => chance.range(300, 1_200),
        _ => chance.range(1_200, 2_500),
    };
    if refused {
        let settings = opening::refused(&mut chance);
        return play(chance, 30, Some(settings));
    }
    play(chance, budget, None)
}

/// Plays scenes until there are enough records.
fn play(mut chance: Chance, budget: usize, settings: Option<Bytes>) -> Script {
    let opening = Opening::new(&mut chance);
    let small = chance.range(2, 8);
    let large = chance.range(9, LARGEST);
    let stations = chance.pick(&[small, small, small, 1, large]);
    let mut maker = Maker::new(chance, opening, stations);
    while maker.length() < budget {
        match maker.chance.below(10) {
            0..=3 => maker.restore(),
            4..=5 => maker.heal(),
            _ => {}
        }
        let scene = scenes::any(&mut maker.chance);
        scene(&mut maker);
    }
    end(&mut maker, wild::event, Maker::ask_around);
    Script::made(maker, settings)
}

/// What is counted beside kind 7 and the numbers of a way: results of full lines, replies, refused settings, ends, and more.
const LABELS: [&str; 23] = [
    "result 0",
    "result 3",
    "result 4",
    "result 5",
    "result 6",
    "result 7",
    "result 8",
    "result 20",
    "result 21",
    "result 22",
    "result 24",
    "way 0",
    "way 1",
    "way 2",
    "way 3",
    "settings 2",
    "settings 3",
    "settings 4",
    END,
    REFUSED_QUESTION,
    REPORTS,
    RAN_ON,
    ENDED,
];
const END: &str = "end 'n 2'";
const REFUSED_QUESTION: &str = "question 4";
const REPORTS: &str = "reports";

/// The counts of the lines of one drill.
fn tally(said: &[u8]) -> Tally {
    let mut tally = Drills.nothing();
    tally.inputs = 1;
    for line in String::from_utf8_lossy(said).lines() {
        tally.lines += 1;
        let fields: Vec<&str> = line.split(' ').collect();
        match fields[..] {
            ["settings", refusal] => tally.count(&format!("settings {refusal}")),
            [_, "2"] => tally.count(END),
            [_, "4"] => tally.count(REFUSED_QUESTION),
            [_, "way", reply, _, _, _] => tally.count(&format!("way {reply}")),
            [_, result, _, _, _, _, reports] => {
                tally.count(&format!("result {result}"));
                for _ in 0..reports.parse().unwrap_or(0) {
                    tally.count(REPORTS);
                }
            }
            _ => tally.count(OTHER),
        }
    }
    tally
}

#[cfg(test)]
mod tests {
    use std::thread;

    use model::drill::say;
    use model::faults::RIGHT;
    use model::{Node, OUTPUT_ROOM};
    use text::record::Record;
    use text::records::LONGEST;
    use text::source::is_bytes;
    use text::stations::{follow, without_operators, Stay};
    use text::told::play;

    use super::*;

    #[test]
    fn a_seed_gives_one_drill() {
        assert_eq!(drill(17), drill(17));
        assert_ne!(drill(17), drill(18));
    }

    fn same_text(seed: u64) {
        let bytes = drill(seed).bytes();
        let written = writing::text(&bytes);
        let text = Text::read(written.as_bytes()).unwrap();
        assert!(text.bytes() == bytes, "seed {seed}");
        let records: Vec<Record> = text.records().collect();
        assert!(writing::plain(&records) == written, "seed {seed}");
        // What a command is handed is told apart rightly, too.
        assert!(is_bytes(&bytes), "seed {seed}");
        assert!(
            written.is_empty() || !is_bytes(written.as_bytes()),
            "seed {seed}"
        );
    }

    #[test]
    fn text_to_bytes_to_text_is_the_same() {
        thread::scope(|scope| {
            scope.spawn(|| (1..=5_000).for_each(same_text));
            (5_001..=10_000).for_each(same_text);
        });
    }

    /// The stations and hops that a picture shows at a place.
    fn shown(stays: &[Stay], place: usize) -> Vec<(u64, [u8; 2])> {
        let there = stays
            .iter()
            .filter(|stay| stay.from <= place && stay.to.is_none_or(|to| place < to));
        let last = |stay: &Stay| {
            stay.hops
                .iter()
                .rev()
                .find(|&&(from, _)| from <= place)
                .copied()
        };
        there
            .filter_map(|stay| Some((stay.address, last(stay)?.1)))
            .collect()
    }

    fn same_stations(seed: u64) {
        let told = |bytes: &[u8]| play(bytes, &String::from_utf8(say::<RIGHT>(bytes)).unwrap());
        let played = told(&drill(seed).bytes());
        let quiet = told(&without_operators(&played));
        let stays = follow(&played, &quiet).unwrap();
        let first = played
            .told
            .first()
            .map_or(Vec::new(), |told| told.record.bytes());
        let (_, mut node) = Node::start(&first);
        for (place, told) in played.told.iter().enumerate().skip(1) {
            if told.line.is_none() {
                return;
            }
            node.record(&told.record.bytes(), &mut [0; OUTPUT_ROOM]);
            assert_eq!(
                shown(&stays, place),
                node.hops(),
                "seed {seed}, line {place}"
            );
        }
    }

    #[test]
    fn the_stations_that_a_picture_shows_are_those_of_the_model() {
        (1..=200).for_each(same_stations);
    }

    #[test]
    fn records_are_whole_up_to_the_last() {
        for seed in 0..50 {
            let script = drill(seed);
            let whole = script.records.len().saturating_sub(65);
            for record in &script.records[..whole] {
                let length = u16::from_le_bytes([record[0], record[1]]);
                assert_eq!(usize::from(length) + 2, record.len());
                assert!(usize::from(length) <= LONGEST);
            }
        }
    }

    #[test]
    fn many_drills_see_the_end_of_a_hold_off_that_ran_on() {
        let ends = |seed| {
            let bytes = drill(seed).bytes();
            Drills.count(&bytes, &say::<RIGHT>(&bytes)).of(ENDED)
        };
        let drills = (1..=200).filter(|&seed| ends(seed) > 0).count();
        assert!(drills > 40, "{drills} of 200");
    }

    /// What the first 200 drills reach.
    fn reached() -> Tally {
        let mut sum = Drills.nothing();
        for seed in 1..=200 {
            let bytes = drill(seed).bytes();
            sum.add(&Drills.count(&bytes, &say::<RIGHT>(&bytes)));
        }
        sum
    }

    #[test]
    fn ways_are_long_and_short_and_have_trouble_everywhere() {
        let sum = reached();
        let least = [
            (ways::ABOVE_IDLE, 5_000),
            (ways::FIRST, 1_000),
            (ways::MIDDLE, 1_000),
            (ways::LAST, 1_000),
            (ways::SEVERAL, 1_000),
            (ways::BEYOND, 1_000),
            (ways::OTHER, 1_000),
            (ways::LONG, 300),
            (ways::LONGEST, 50),
            (ways::UNUSABLE, 1_000),
        ];
        for (label, least) in least {
            assert!(sum.of(label) > least, "{label}: {}", sum.of(label));
        }
    }

    #[test]
    fn many_drills_reach_kind_7_in_places_of_every_sort() {
        let sum = reached();
        let least = [
            (many::INPUTS, 150),
            (many::TAKEN, 2_000),
            (many::REFUSED, 200),
            (many::SEVERAL, 500),
            (many::CHANGED, 200),
            (many::LEFT, 50),
        ];
        for (label, least) in least {
            assert!(sum.of(label) > least, "{label}: {}", sum.of(label));
        }
    }

    #[test]
    fn many_drills_crowd_the_table() {
        let sum = reached();
        let least = [
            (crowds::INPUTS, 50),
            (crowds::FULL, 10_000),
            (crowds::ABOVE_63, 5_000),
            (crowds::AT_FULL, 300),
            (crowds::FREE_HOP, 100),
            (crowds::OTHER_STAYS, 80),
            (crowds::SECOND_HOP, 150),
            (crowds::OLD, 40),
            (crowds::MARK_CLEARED, 80),
            (crowds::PURGED, 20),
            (crowds::FORGOTTEN, 20),
            (crowds::ATTRIBUTES, 150),
            (crowds::LAST_ATTRIBUTES, 35),
            (crowds::WAY, 1_000),
            (crowds::LAST_WAY, 200),
            (crowds::ONE_RING, 10),
        ];
        for (label, least) in least {
            assert!(sum.of(label) > least, "{label}: {}", sum.of(label));
        }
    }

    #[test]
    fn each_sort_of_line_has_its_count() {
        let said = b"1 0 4 0 1 0 5\n2 way 3 0 0 0\n3 4\n4 22 0 0 1 0 1\n5 2\n";
        let mut sum = tally(said);
        sum.add(&tally(b"settings 4\n"));
        // Results 1 and 23 are none of a drill.
        sum.add(&tally(b"1 1 0 0 0 0 0\n2 23 0 0 0 63 0\nwhat\n"));
        assert_eq!((sum.inputs, sum.lines), (3, 9));
        assert_eq!((sum.of("result 0"), sum.of("result 22")), (1, 1));
        assert_eq!((sum.of("way 3"), sum.of("settings 4")), (1, 1));
        assert_eq!((sum.of(END), sum.of(REFUSED_QUESTION)), (1, 1));
        assert_eq!((sum.of(REPORTS), sum.of(OTHER)), (6, 3));
    }
}
