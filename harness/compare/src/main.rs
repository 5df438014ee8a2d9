//! Compares the model with the proved programs: the drill program on drills, the planner's on plans, all made from seeds.
//! It stops at the first line that differs and writes a shortened drill or plan that still differs.
//! `--self-test` shows that wrong models are found; `--help` lists the options.

mod acceptance;
mod blocks;
mod chance;
mod contest;
mod crowds;
mod difference;
mod drills;
mod joining;
mod maker;
mod many;
mod opening;
mod options;
mod owed;
mod plans;
mod probe;
mod reach;
mod ring;
mod scenes;
mod script;
mod selftest;
mod shorten;
mod subject;
mod swings;
mod tally;
mod trouble;
mod voice;
mod ways;
mod wild;

use std::env;
use std::io::{self, Write};
use std::process::ExitCode;

use model::faults::Fault;

use crate::drills::Drills;
use crate::options::{Options, Task, USAGE};
use crate::plans::Plans;
use crate::subject::Subject;
use crate::voice::{tell, warn};

/// A line differs, or a wrong model was not found.
const DIFFERS: u8 = 1;
/// Bad usage, or a program that cannot be run.
const CANNOT: u8 = 2;

fn main() -> ExitCode {
    let arguments = env::args_os().skip(1);
    let texts = arguments.map(|argument| argument.to_string_lossy().into_owned());
    let options = match Options::read(texts) {
        Ok(options) => options,
        Err(problem) => {
            warn(format!("{problem}\n{USAGE}"));
            return ExitCode::from(CANNOT);
        }
    };
    match perform(&options) {
        Ok(true) => ExitCode::SUCCESS,
        Ok(false) => ExitCode::from(DIFFERS),
        Err(problem) => {
            warn(problem);
            ExitCode::from(CANNOT)
        }
    }
}

fn perform(options: &Options) -> Result<bool, String> {
    let subject: &dyn Subject = if options.plans { &Plans } else { &Drills };
    match &options.task {
        Task::Compare => contest::contest(subject, options),
        Task::SelfTest => Ok(selftest::self_test(options)),
        Task::As(fault, file) => speak_as(subject, fault, file),
        Task::Accept(files) => acceptance::accept_all(files),
        Task::Make(seed) => write_out(&subject.make(*seed).bytes()),
        Task::Help => {
            tell(USAGE);
            Ok(true)
        }
    }
}

/// Says what a model says to a drill or a plan in a file.
fn speak_as(subject: &dyn Subject, name: &str, file: &str) -> Result<bool, String> {
    let fault = Fault::named(name).ok_or(format!("no fault is called '{name}'"))?;
    write_out(&subject.model(fault)(&subject.read(file)?))
}

fn write_out(bytes: &[u8]) -> Result<bool, String> {
    let mut output = io::stdout();
    let written = output.write_all(bytes).and_then(|()| output.flush());
    written.map_err(|error| format!("cannot write: {error}"))?;
    Ok(true)
}
