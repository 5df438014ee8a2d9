//! The plan of a seed: settings, scenes on a ring, and the planner's questions at many points of them.

mod lines;
mod planning;
mod questions;
mod scenes;

use std::fs;
use std::path::Path;

use model::faults::Fault;
use text::program::cannot;
use text::records::{self, Bytes, Settings};

use crate::chance::Chance;
use crate::maker::Maker;
use crate::many;
use crate::opening::{self, Opening};
use crate::plans::planning::Planning;
use crate::ring::LARGEST;
use crate::script::{end, Script};
use crate::subject::{right, Subject};
use crate::tally::Tally;

/// The planner's program on plans.
pub struct Plans;

impl Subject for Plans {
    fn word(&self) -> &'static str {
        "plan"
    }

    fn command(&self) -> &'static str {
        "drills/plan"
    }

    fn make(&self, seed: u64) -> Script {
        plan(seed)
    }

    fn probe(&self) -> Result<(&'static str, Bytes), String> {
        let settings = records::settings(&Settings::DEFAULT);
        let question = questions::record(65_535, [1, 2]);
        Ok(("a first plan", [settings, question].concat()))
    }

    /// A plan has no text of its own, so that every file is taken as bytes.
    fn read(&self, file: &str) -> Result<Bytes, String> {
        let path = Path::new(file);
        fs::read(path).map_err(|error| cannot("read", path, &error))
    }

    fn model(&self, fault: Fault) -> fn(&[u8]) -> Vec<u8> {
        fault.planner()
    }

    fn faults(&self) -> &'static [Fault] {
        Fault::OF_PLANNER
    }

    fn nothing(&self) -> Tally {
        Tally::new(self.word(), &[&lines::LABELS[..], &many::LABELS].concat())
    }

    fn count(&self, input: &[u8], said: &[u8]) -> Tally {
        let mut tally = self.nothing();
        lines::count(input, said, &mut tally);
        tally
    }

    /// A line belongs to a question, or to the record that ends the plan.
    fn records_read(&self, script: &Script, line: usize) -> usize {
        let speaking = script.records.iter().enumerate();
        let mut speaking = speaking.filter(|(_, record)| lines::has_line(record));
        let last = speaking.nth(line.saturating_sub(1));
        last.map_or(script.records.len(), |(place, _)| place + 1)
    }

    fn words(&self, script: &Script) -> String {
        let bytes = script.bytes();
        lines::words(&bytes, &right(self, &bytes))
    }

    fn kept(&self, script: &Script) -> (Bytes, &'static str) {
        (
            script.bytes(),
            "as bytes; in words, with the model's lines:",
        )
    }
}

/// The plan of this seed.
fn plan(seed: u64) -> Script {
    let mut chance = Chance::new(seed);
    let refused = chance.percent(5);
    let budget = match chance.below(10) {
        0..=2 => chance.range(10, 100),
        3..=7 => chance.range(100, 500),
        _ => chance.range(500, 1_200),
    };
    if refused {
        let settings = opening::refused(&mut chance);
        return play(chance, 30, Some(settings));
    }
    play(chance, budget, None)
}

/// Plays scenes until there are enough records, and asks before the first and after each.
fn play(mut chance: Chance, budget: usize, settings: Option<Bytes>) -> Script {
    let opening = opening(&mut chance);
    let small = chance.range(1, 8);
    let large = chance.range(9, LARGEST);
    let stations = chance.pick(&[small, small, small, large]);
    let mut p = Planning::new(Maker::new(chance, opening, stations));
    questions::ask(&mut p);
    while p.maker.length() < budget {
        match p.maker.chance.below(10) {
            0..=2 => p.maker.heal(),
            3..=5 => scenes::catch_up(&mut p),
            _ => {}
        }
        let scene = p.maker.chance.weighted(&scenes::SCENES);
        scene(&mut p);
        questions::ask(&mut p);
    }
    end(&mut p.maker, questions::or_event, questions::ask_blindly);
    Script::made(p.maker, settings)
}

/// Level 1 answers no question, so that it comes less often than in a drill. Short settings have level 2.
fn opening(chance: &mut Chance) -> Opening {
    let mut opening = Opening::new(chance);
    if !opening.short {
        opening.settings.level = chance.pick(&[1, 2, 2, 2, 2, 2, 2, 2, 2, 2]);
    }
    opening
}

#[cfg(test)]
mod tests {
    use std::collections::BTreeSet;

    use model::{Node, OUTPUT_ROOM};

    use super::*;
    use crate::ring::PLACES;

    #[test]
    fn a_seed_gives_one_plan() {
        assert_eq!(plan(17), plan(17));
        assert_ne!(plan(17), plan(18));
    }

    /// What the first 200 plans reach.
    fn reached() -> Tally {
        let mut sum = Plans.nothing();
        for seed in 1..=200 {
            let bytes = plan(seed).bytes();
            sum.add(&Plans.count(&bytes, &right(&Plans, &bytes)));
        }
        sum
    }

    #[test]
    fn many_plans_crowd_the_table() {
        let sum = reached();
        let least = [
            (lines::ABOVE_63, 350),
            (lines::FULL, 250),
            (lines::ALL_RESERVE, 50),
            (lines::LOWEST, 60),
            (lines::HIGH_BEHIND, 40),
            (lines::LAST_BEHIND, 10),
        ];
        for (label, least) in least {
            assert!(sum.of(label) > least, "{label}: {}", sum.of(label));
        }
    }

    #[test]
    fn many_plans_reach_kind_7() {
        let sum = reached();
        let least = [
            (many::INPUTS, 80),
            (many::TAKEN, 500),
            (many::REFUSED, 20),
            (many::SEVERAL, 80),
            (many::LEFT, 40),
        ];
        for (label, least) in least {
            assert!(sum.of(label) > least, "{label}: {}", sum.of(label));
        }
    }

    /// What a question finds in the table, and what it is answered.
    struct Found {
        stations: usize,
        reserved: [i64; 2],
        free: [i64; 2],
    }

    /// Each question of a plan that is answered with numbers.
    fn found(seed: u64) -> Vec<Found> {
        let script = plan(seed);
        let (result, mut node) = Node::start(&script.settings);
        let mut all = Vec::new();
        for record in script.records.iter().filter(|_| result == 0) {
            node.record(record, &mut [0; OUTPUT_ROOM]);
            let Some((rate, own)) = lines::asked(record) else {
                continue;
            };
            let answer = node.free_bandwidth(rate, own);
            let stations = node.hops();
            let shown = stations
                .iter()
                .map(|(address, _)| node.attributes(*address));
            let reserved = shown.fold([0, 0], |sums, shown| {
                let [zero, one] = shown.bandwidths.map(i64::from);
                [sums[0] + zero, sums[1] + one]
            });
            if answer.result == 0 {
                all.push(Found {
                    stations: stations.len(),
                    reserved,
                    free: answer.ringlets,
                });
            }
        }
        all
    }

    #[test]
    fn tables_of_every_size_and_answers_on_both_sides_of_zero_are_common() {
        let all: Vec<Found> = (1..=200).flat_map(found).collect();
        let sizes: BTreeSet<usize> = all.iter().map(|found| found.stations).collect();
        assert!(sizes.len() > 60, "{sizes:?}");
        for size in [0, LARGEST, LARGEST + 1, PLACES] {
            assert!(sizes.contains(&size), "{size} of {sizes:?}");
        }
        for ringlet in 0..2 {
            let reserving = all.iter().filter(|found| found.reserved[ringlet] > 0);
            let free: Vec<i64> = reserving.map(|found| found.free[ringlet]).collect();
            let count = |is: &dyn Fn(i64) -> bool| free.iter().filter(|&&free| is(free)).count();
            let common = free.len() / 20;
            for wanted in [-1, 0, 1] {
                let seen = count(&|free| free == wanted);
                assert!(seen > common / 2, "{wanted}: {seen} of {}", free.len());
            }
            assert!(count(&|free| free == 0) > common);
            let low = count(&|free| free < -1_000_000);
            assert!(low > common, "{low} of {}", free.len());
            assert!(count(&|free| free > 10_000) > common);
        }
    }
}
