//! The contest: drill after drill, or plan after plan, through the model and the other program, several at a time.
//! It ends at the lowest seed whose input shows a difference, and shortens that input.

use std::fs;
use std::path::{Path, PathBuf};
use std::sync::atomic::{AtomicBool, AtomicU64, Ordering};
use std::sync::mpsc::{self, Receiver, RecvTimeoutError, Sender};
use std::thread;
use std::time::{Duration, Instant};

use text::program::{cannot, fresh_directory, Desk, Program, Room};

use crate::difference::Difference;
use crate::options::Options;
use crate::probe::probe;
use crate::script::Script;
use crate::shorten::shorten;
use crate::subject::{right, Subject};
use crate::tally::{Tally, OTHER};
use crate::voice::{tell, warn};

/// Time between two progress lines.
const PROGRESS: Duration = Duration::from_secs(5);

/// What is compared with what.
struct Match<'a> {
    subject: &'a dyn Subject,
    program: Program,
}

/// What became of one input.
enum Outcome {
    Agreed(Box<Tally>),
    Differs(u64, Difference),
    Trouble(String),
}

/// The seeds still to be taken, and when to stop.
struct Queue {
    next: AtomicU64,
    end: u64,
    deadline: Option<Instant>,
    stopped: AtomicBool,
}

impl Queue {
    fn take(&self) -> Option<u64> {
        let late = self.deadline.is_some_and(|end| Instant::now() >= end);
        if late || self.stopped.load(Ordering::Relaxed) {
            return None;
        }
        let seed = self.next.fetch_add(1, Ordering::Relaxed);
        (seed < self.end).then_some(seed)
    }
}

/// Runs the contest; true if all agreed.
pub fn contest(subject: &dyn Subject, options: &Options) -> Result<bool, String> {
    let program = Program::find(options.drill.as_deref(), subject.command())?;
    let room = Room::new("compare")?;
    let desk = room.desk(0)?;
    probe(subject, &program, &desk)?;
    let both = Match { subject, program };
    let started = Instant::now();
    let (tally, found) = all_inputs(options, &both, &room)?;
    let seconds = started.elapsed().as_secs_f64();
    tell(&tally);
    tell(format!(
        "{seconds:.1} s, {:.1} ms a {}, {:.0} lines a second, jobs {}",
        1_000.0 * seconds / tally.inputs.max(1) as f64,
        subject.word(),
        tally.lines as f64 / seconds.max(0.001),
        options.jobs
    ));
    match found {
        // Both said what no rule gives, such as a result that is no more.
        None if tally.of(OTHER) > 0 => {
            tell(format!("{} lines are none of the rules", tally.of(OTHER)));
            Ok(false)
        }
        None => {
            tell(format!("all agreed, seeds from {}", options.from));
            Ok(true)
        }
        Some((seed, difference)) => {
            show(options, &both, &desk, seed, &difference)?;
            Ok(false)
        }
    }
}

type Found = Option<(u64, Difference)>;

/// Lets the jobs work until the seeds, the time or the agreement end.
fn all_inputs(options: &Options, both: &Match, room: &Room) -> Result<(Tally, Found), String> {
    let now = Instant::now();
    let queue = Queue {
        next: AtomicU64::new(options.from),
        end: options.end(),
        deadline: options.time.and_then(|time| now.checked_add(time)),
        stopped: AtomicBool::new(false),
    };
    let desks: Result<Vec<Desk>, String> = (1..=options.jobs).map(|job| room.desk(job)).collect();
    let (sender, receiver) = mpsc::channel();
    thread::scope(|scope| {
        for desk in desks? {
            let (sender, queue) = (sender.clone(), &queue);
            scope.spawn(move || job(both, &desk, queue, &sender));
        }
        drop(sender);
        gather(both, &receiver, &queue)
    })
}

/// One job: an input at a time until there is no more to do.
fn job(both: &Match, desk: &Desk, queue: &Queue, sender: &Sender<Outcome>) {
    while let Some(seed) = queue.take() {
        let outcome = match both.play(desk, &both.subject.make(seed)) {
            Ok(Ok(tally)) => Outcome::Agreed(Box::new(tally)),
            Ok(Err(difference)) => Outcome::Differs(seed, difference),
            Err(trouble) => Outcome::Trouble(format!("seed {seed}: {trouble}")),
        };
        if !matches!(outcome, Outcome::Agreed(_)) {
            queue.stopped.store(true, Ordering::Relaxed);
        }
        if sender.send(outcome).is_err() {
            return;
        }
    }
}

impl Match<'_> {
    /// Both programs on one input: the counts, or the difference.
    fn play(&self, desk: &Desk, script: &Script) -> Result<Result<Tally, Difference>, String> {
        let bytes = script.bytes();
        let model = right(self.subject, &bytes);
        let mut said = self.program.say(&bytes, desk)?;
        if let Some(ended) = said.ended {
            // A program that ends badly differs, even if it said all lines before.
            said.lines.extend(format!("({ended})").bytes());
        }
        Ok(match Difference::between(&model, &said.lines) {
            None => Ok(self.subject.count(&bytes, &model)),
            Some(difference) => Err(difference),
        })
    }
}

/// Collects what the jobs send; of several differences the lowest seed counts.
fn gather(
    both: &Match,
    receiver: &Receiver<Outcome>,
    queue: &Queue,
) -> Result<(Tally, Found), String> {
    let started = Instant::now();
    let mut shown = started;
    let mut tally = both.subject.nothing();
    let mut found: Found = None;
    let mut trouble = None;
    loop {
        match receiver.recv_timeout(PROGRESS) {
            Ok(Outcome::Agreed(more)) => tally.add(&more),
            Ok(Outcome::Differs(seed, difference)) => {
                if found.as_ref().is_none_or(|(lowest, _)| seed < *lowest) {
                    found = Some((seed, difference));
                }
            }
            Ok(Outcome::Trouble(what)) => trouble = trouble.or(Some(what)),
            Err(RecvTimeoutError::Timeout) => {}
            Err(RecvTimeoutError::Disconnected) => break,
        }
        if shown.elapsed() >= PROGRESS {
            shown = Instant::now();
            let seconds = started.elapsed().as_secs();
            let next = queue.next.load(Ordering::Relaxed);
            warn(format!(
                "{seconds} s, {} {}s and {} lines agreed, next seed {next}",
                tally.inputs,
                both.subject.word(),
                tally.lines
            ));
        }
    }
    match trouble {
        Some(trouble) if found.is_none() => Err(trouble),
        _ => Ok((tally, found)),
    }
}

/// Shortens the input of a seed, writes it and shows it.
fn show(
    options: &Options,
    both: &Match,
    desk: &Desk,
    seed: u64,
    first: &Difference,
) -> Result<(), String> {
    let subject = both.subject;
    tell(format!("seed {seed} differs in line {}", first.line));
    tell(first.shown(subject.word()));
    let script = subject.make(seed);
    let mut last = first.clone();
    let read = subject.records_read(&script, first.line);
    let shortened = shorten(&script, read, |candidate| {
        let outcome = both.play(desk, candidate)?;
        let differs = outcome.is_err();
        if let Err(difference) = outcome {
            last = difference;
        }
        Ok::<bool, String>(differs)
    });
    let short = shortened.unwrap_or_else(|problem| {
        tell(format!("not shortened: {problem}"));
        last = first.clone();
        script.clone()
    });
    let (content, holds) = subject.kept(&short);
    let name = format!("seed-{seed}.{}", subject.word());
    let file = keep(options, &name, &content)?;
    tell(format!(
        "shortened from {} to {} records, differs in line {}",
        script.records.len(),
        short.records.len(),
        last.line
    ));
    tell(last.shown(subject.word()));
    tell(format!("written to {}, {holds}", file.display()));
    tell(subject.words(&short).trim_end());
    Ok(())
}

/// Writes what is kept where it was asked for.
fn keep(options: &Options, name: &str, content: &[u8]) -> Result<PathBuf, String> {
    let directory = match &options.keep {
        Some(directory) => {
            let path = Path::new(directory);
            fs::create_dir_all(path).map_err(|error| cannot("make", path, &error))?;
            path.to_path_buf()
        }
        None => fresh_directory("compare-kept")?,
    };
    let file = directory.join(name);
    fs::write(&file, content).map_err(|error| cannot("write", &file, &error))?;
    Ok(file)
}
