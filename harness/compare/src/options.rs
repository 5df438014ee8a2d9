//! What the command line asks for.

use std::thread;
use std::time::Duration;

/// The fixed set, if nothing else is asked for.
const USUAL_COUNT: u64 = 2_000;
/// Jobs beyond this are taken only if asked for.
const USUAL_JOBS: usize = 2;
/// More jobs than this are surely a slip.
const MOST_JOBS: usize = 64;

/// How to call the program.
pub const USAGE: &str = "\
usage: compare [--plans] [--from SEED] [--count N] [--seconds T] [--jobs J] [--drill CMD] [--keep DIR]
       compare --self-test [--from SEED] [--count N]
       compare [--plans] --make SEED
       compare [--plans] --as FAULT FILE
       compare --accept FILE..
  --plans        plans and the planner's program, in place of drills and the drill program
  --from SEED    first seed (1)
  --count N      so many drills (2000, or no end with --seconds)
  --seconds T    new drills for so long
  --jobs J       drills at a time (the cores, at most 2)
  --drill CMD    runs a drill; its path becomes the last argument (drills/run here or above; drills/plan for plans)
  --keep DIR     where a differing drill is written (a new temporary directory)
  --self-test    every wrong model must be found within N drills, or N plans if it is one of the planner (300)
  --make SEED    writes the drill of a seed to standard output
  --as FAULT     says what the model with this fault says to FILE; 'nothing' is the right model
  --accept       writes the model's lines into texts; lines marked as worked out by hand stay, and are told
exit status: 0 all agreed, 1 a line differs, 2 bad usage or a program that cannot be run";

/// What to do.
#[derive(Clone, Debug, PartialEq, Eq)]
pub enum Task {
    /// Compare with the other program.
    Compare,
    /// Compare with wrong models.
    SelfTest,
    /// Write the drill of a seed.
    Make(u64),
    /// Be a model, maybe a wrong one: its short name, and the drill's file.
    As(String, String),
    /// Write the model's lines into these texts.
    Accept(Vec<String>),
    /// Say how to call the program.
    Help,
}

/// The command line.
#[derive(Clone, Debug)]
pub struct Options {
    /// What to do.
    pub task: Task,
    /// With plans, not with drills.
    pub plans: bool,
    /// The first seed.
    pub from: u64,
    /// So many drills at most.
    pub count: Option<u64>,
    /// No new drills after this.
    pub time: Option<Duration>,
    /// Drills at a time.
    pub jobs: usize,
    /// The other program.
    pub drill: Option<String>,
    /// Where a differing drill goes.
    pub keep: Option<String>,
}

impl Options {
    fn usual() -> Options {
        let cores = thread::available_parallelism().map_or(1, usize::from);
        Options {
            task: Task::Compare,
            plans: false,
            from: 1,
            count: None,
            time: None,
            jobs: cores.min(USUAL_JOBS),
            drill: None,
            keep: None,
        }
    }

    /// Reads the arguments behind the program's name.
    pub fn read(arguments: impl IntoIterator<Item = String>) -> Result<Options, String> {
        let mut options = Options::usual();
        let mut rest = arguments.into_iter();
        while let Some(name) = rest.next() {
            options.take(&name, &mut rest)?;
        }
        match options.task {
            Task::SelfTest | Task::Accept(_) if options.plans => {
                Err("--plans does not go with --self-test or --accept".to_string())
            }
            _ => Ok(options),
        }
    }

    fn take(&mut self, name: &str, rest: &mut impl Iterator<Item = String>) -> Result<(), String> {
        let mut value = || rest.next().ok_or(format!("{name} needs a value"));
        match name {
            "--plans" => self.plans = true,
            "--from" => self.from = number(name, &value()?)?,
            "--count" => self.count = Some(number(name, &value()?)?),
            "--seconds" => self.time = Some(Duration::from_secs(number(name, &value()?)?)),
            "--jobs" => self.jobs = jobs(&value()?)?,
            "--drill" => self.drill = Some(value()?),
            "--keep" => self.keep = Some(value()?),
            "--self-test" => self.task = Task::SelfTest,
            "--make" => self.task = Task::Make(number(name, &value()?)?),
            "--as" => self.task = Task::As(value()?, value()?),
            "--accept" => self.task = Task::Accept(rest.by_ref().collect()),
            "--help" | "-h" => self.task = Task::Help,
            _ => return Err(format!("{name} is not an option")),
        }
        Ok(())
    }

    /// The seed behind the last one.
    pub fn end(&self) -> u64 {
        let count = match (self.count, self.time) {
            (Some(count), _) => count,
            (None, Some(_)) => u64::MAX,
            (None, None) => USUAL_COUNT,
        };
        self.from.saturating_add(count)
    }
}

fn number(name: &str, text: &str) -> Result<u64, String> {
    text.parse()
        .map_err(|_| format!("{name} needs a number, not '{text}'"))
}

fn jobs(text: &str) -> Result<usize, String> {
    let jobs = number("--jobs", text)?;
    usize::try_from(jobs)
        .ok()
        .filter(|jobs| (1..=MOST_JOBS).contains(jobs))
        .ok_or(format!("--jobs goes from 1 to {MOST_JOBS}"))
}

#[cfg(test)]
mod tests {
    use super::*;

    fn read(line: &str) -> Result<Options, String> {
        Options::read(line.split_whitespace().map(str::to_string))
    }

    #[test]
    fn options_are_read() {
        let options = read("--from 5 --count 7 --jobs 3 --drill a").unwrap();
        assert_eq!((options.from, options.end(), options.jobs), (5, 12, 3));
        assert_eq!(options.drill.as_deref(), Some("a"));
        assert_eq!(read("--seconds 4").unwrap().end(), u64::MAX);
        assert_eq!(read("").unwrap().end(), 1 + USUAL_COUNT);
        assert_eq!(read("--self-test").unwrap().task, Task::SelfTest);
        let plan = read("--make 7 --plans").unwrap();
        assert_eq!((plan.task, plan.plans), (Task::Make(7), true));
        assert!(!options.plans);
    }

    #[test]
    fn bad_usage_is_said() {
        for line in [
            "--count",
            "--count x",
            "--jobs 0",
            "--jobs 65",
            "what",
            "--as x",
            "--plans --self-test",
            "--plans --accept x",
        ] {
            assert!(read(line).is_err(), "{line}");
        }
    }
}
