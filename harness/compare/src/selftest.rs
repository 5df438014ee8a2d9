//! The self-test: each wrong model must be found by the same drills and plans, in-process.

use model::faults::Fault;

use crate::difference::Difference;
use crate::drills::Drills;
use crate::options::Options;
use crate::plans::Plans;
use crate::script::Script;
use crate::shorten::shorten;
use crate::subject::{right, Subject};
use crate::voice::tell;

/// Drills or plans within which every fault has to be found.
const USUAL_COUNT: u64 = 300;

/// The search for one wrong model.
struct Search<'a> {
    subject: &'a dyn Subject,
    fault: Fault,
    /// Inputs that show it.
    hits: u64,
    /// The first of them: seed and line.
    first: Option<(u64, usize)>,
}

impl Search<'_> {
    fn new(subject: &dyn Subject, fault: Fault) -> Search<'_> {
        Search {
            subject,
            fault,
            hits: 0,
            first: None,
        }
    }

    fn look(&mut self, seed: u64, bytes: &[u8], right: &[u8]) {
        let wrong = self.subject.model(self.fault)(bytes);
        if let Some(difference) = Difference::between(right, &wrong) {
            self.hits += 1;
            self.first.get_or_insert((seed, difference.line));
        }
    }

    /// What was found, in words.
    fn report(&self, count: u64) -> String {
        let (name, what) = self.fault.words();
        let Some((seed, line)) = self.first else {
            let word = self.subject.word();
            return format!("{name:<23} NOT FOUND in {count} {word}s  ({what})");
        };
        let short = shortened(self.subject, self.fault, seed, line);
        let length = short.records.len();
        format!(
            "{name:<23} seed {seed:<3} line {line:<4} shortened to {length:>4} records, shown by {:>3} of {count}  ({what})",
            self.hits
        )
    }
}

/// Looks for every fault; true if all are found.
pub fn self_test(options: &Options) -> bool {
    let count = options.count.unwrap_or(USUAL_COUNT);
    let mut searches = searched(&Drills, options.from, count);
    searches.extend(searched(&Plans, options.from, count));
    for search in &searches {
        tell(search.report(count));
    }
    let found = searches.iter().filter(|search| search.first.is_some());
    let found = found.count();
    tell(format!("{found} of {} wrong models found", searches.len()));
    found == searches.len()
}

/// Looks for the faults that the inputs of a subject have to show.
fn searched(subject: &dyn Subject, from: u64, count: u64) -> Vec<Search<'_>> {
    let faults = subject.faults().iter();
    let mut searches: Vec<Search> = faults.map(|&fault| Search::new(subject, fault)).collect();
    for seed in from..from.saturating_add(count) {
        let bytes = subject.make(seed).bytes();
        let right = right(subject, &bytes);
        for search in &mut searches {
            search.look(seed, &bytes, &right);
        }
    }
    searches
}

/// The input of a seed, without the records that a fault does not need.
fn shortened(subject: &dyn Subject, fault: Fault, seed: u64, line: usize) -> Script {
    let script = subject.make(seed);
    let differs = |script: &Script| {
        let bytes = script.bytes();
        Ok::<bool, ()>(right(subject, &bytes) != subject.model(fault)(&bytes))
    };
    let read = subject.records_read(&script, line);
    shorten(&script, read, differs).unwrap_or(script)
}
