//! Many texts, some at a time: each has to expect every line that is printed.

use std::io::Write;
use std::sync::atomic::{AtomicUsize, Ordering};
use std::thread;

use crate::checking::{mismatches, unchecked, Table};
use crate::command::{write, CANNOT, DIFFERS, GOOD};
use crate::marks::reports_kept;
use crate::program::{Desk, Program, Room};
use crate::reading::Text;
use crate::source::Source;
use crate::told::Staged;

/// Drills at a time.
const JOBS: usize = 2;

/// What is wrong with a drill: the exit status, and words.
type Wrong = (u8, String);
/// A drill's place in the list, and what became of it.
type Outcome = (usize, Result<(), Wrong>);

/// Runs all of them, tells which are not as expected, and counts.
pub fn run_all(files: &[String], program: &Program, output: &mut dyn Write) -> Result<u8, String> {
    let mut outcomes = outcomes(files, program)?;
    outcomes.sort_by_key(|&(place, _)| place);
    let mut status = GOOD;
    let mut bad = 0;
    for (worse, problem) in outcomes
        .iter()
        .filter_map(|(_, outcome)| outcome.as_ref().err())
    {
        status = status.max(*worse);
        bad += 1;
        write(output, format!("drills: {problem}\n").as_bytes())?;
    }
    let good = outcomes.len() - bad;
    write(
        output,
        format!("drills: {good} as expected, {bad} not\n").as_bytes(),
    )?;
    Ok(status)
}

fn outcomes(files: &[String], program: &Program) -> Result<Vec<Outcome>, String> {
    let room = Room::new("drills")?;
    let next = AtomicUsize::new(0);
    let desks: Result<Vec<Desk>, String> = (0..JOBS).map(|job| room.desk(job)).collect();
    let desks = desks?;
    let next = &next;
    thread::scope(|scope| {
        let start = |desk| scope.spawn(move || job(files, next, program, desk));
        let jobs: Vec<_> = desks.iter().map(start).collect();
        let ended: Result<Vec<_>, _> = jobs.into_iter().map(|job| job.join()).collect();
        let all = ended.map(|outcomes| outcomes.concat());
        all.map_err(|_| "a job ended badly".to_string())
    })
}

/// One job: a file at a time until there is none left.
fn job(files: &[String], next: &AtomicUsize, program: &Program, desk: &Desk) -> Vec<Outcome> {
    let mut outcomes = Vec::new();
    loop {
        let place = next.fetch_add(1, Ordering::Relaxed);
        let Some(name) = files.get(place) else {
            return outcomes;
        };
        outcomes.push((place, one(name, program, desk)));
    }
}

/// Runs one text.
fn one(name: &str, program: &Program, desk: &Desk) -> Result<(), Wrong> {
    let cannot = |problem| (CANNOT, problem);
    let Source::Text(text) = Source::read(name).map_err(cannot)? else {
        return Err((CANNOT, format!("{name} is no text")));
    };
    let said = program.say(&text.bytes(), desk).map_err(cannot)?;
    if let Some(ended) = said.ended {
        return Err((CANNOT, format!("{name}: the program ended badly: {ended}")));
    }
    let printed = String::from_utf8_lossy(&said.lines);
    judged(&text, &printed).map_err(|problem| (DIFFERS, format!("{name}{problem}")))
}

/// What is wrong with a text and what was printed for it.
fn judged(text: &Text, printed: &str) -> Result<(), String> {
    if text.lines.first().is_none_or(|line| line.comment.is_none()) {
        return Err(" does not say in its first line what it shows".to_string());
    }
    if text.lines.iter().all(|line| line.run.is_none()) {
        return Err(" has no record".to_string());
    }
    let staged = Staged::of(text, printed);
    let found = mismatches(text, &staged);
    if !found.is_empty() {
        return Err(format!(" is not as expected\n{}", Table(&found)));
    }
    if let Some(kept) = reports_kept(text, printed).first() {
        return Err(format!(
            ", line {}: {} by hand, {} printed",
            kept.line, kept.stands, kept.printed
        ));
    }
    match unchecked(text, &staged) {
        0 => Ok(()),
        lines => Err(format!(
            ": {lines} lines are printed that it does not expect"
        )),
    }
}
