//! What each command of `./drill` does.

use std::fs;
use std::io::{ErrorKind, Write};
use std::path::Path;
use std::process::Command;

use crate::checking::{mismatches, Table};
use crate::many::run_all;
use crate::marks::reports_kept;
use crate::options::{Options, Task, USAGE};
use crate::picture::{draw, note, Sheet};
use crate::program::{cannot, Program, Room, RUN};
use crate::reading::{Text, MOST_BYTES};
use crate::said::Said;
use crate::saying::{refused_settings, say};
use crate::source::{Source, WORKED};
use crate::stations::{follow, without_operators};
use crate::told::{play, Play, Staged};
use crate::writing;

/// All is as expected.
pub const GOOD: u8 = 0;
/// A line differs from the expected one.
pub const DIFFERS: u8 = 1;
/// A mistake in a text, bad usage, or a file or program that cannot be used.
pub const CANNOT: u8 = 2;

/// Does what the arguments ask for; the exit status.
pub fn perform(
    arguments: impl IntoIterator<Item = String>,
    output: &mut dyn Write,
    errors: &mut dyn Write,
) -> u8 {
    let outcome = match Options::read(arguments) {
        Ok(options) => task(&options, output, errors),
        Err(problem) => Err(format!("{problem}\n{USAGE}")),
    };
    outcome.unwrap_or_else(|problem| {
        // One who has stopped listening is no reason to panic.
        let _ = writeln!(errors, "drill: {problem}");
        CANNOT
    })
}

fn task(options: &Options, output: &mut dyn Write, errors: &mut dyn Write) -> Result<u8, String> {
    match &options.task {
        Task::Help => write(output, format!("{USAGE}\n").as_bytes()),
        Task::All => run_all(&options.files, &program(options)?, output),
        Task::Bytes => write(output, &drill(options)?.1.bytes()),
        Task::Text => write(output, text(&drill(options)?.1.bytes())?.as_bytes()),
        Task::Run => run(options, &drill(options)?.1, output, errors),
        Task::Say => say_it(options, &drill(options)?.1, output, errors),
        Task::Picture(out) => {
            let (name, source) = drill(options)?;
            picture(options, &name, &source, Path::new(out), errors)
        }
    }
}

/// The drill that was asked for, with its name.
fn drill(options: &Options) -> Result<(String, Source), String> {
    match options.files.first() {
        Some(name) if name == "-" => Ok(("standard input".to_string(), Source::read(name)?)),
        Some(name) => Ok((name.clone(), Source::read(name)?)),
        None => Ok((
            "worked.drill".to_string(),
            Source::of("the worked drill", WORKED.to_vec())?,
        )),
    }
}

/// The text of bytes, if one can stand for them.
fn text(bytes: &[u8]) -> Result<String, String> {
    if bytes.len() > MOST_BYTES {
        return Err("too long: a text stands for at most 64 MiB".to_string());
    }
    Ok(writing::text(bytes))
}

/// The program, with what has to be done before it can run.
fn program(options: &Options) -> Result<Program, String> {
    if let Some(before) = &options.before {
        let status = Command::new(before).status();
        let status = status.map_err(|error| format!("cannot run {before}: {error}"))?;
        if !status.success() {
            return Err(format!("{before} ended with {status}"));
        }
    }
    Program::find(options.drill.as_deref(), RUN)
}

/// Prints the program's lines as they come. They are kept as well if there is something to check, and then read to the end, whoever still listens.
fn run(
    options: &Options,
    source: &Source,
    output: &mut dyn Write,
    errors: &mut dyn Write,
) -> Result<u8, String> {
    let is_checked = matches!(source, Source::Text(_));
    let mut printed = Vec::new();
    let mut written = Ok(());
    let room = Room::new("drill")?;
    let ended = program(options)?.stream(&source.bytes(), &room.desk(0)?, &mut |lines| {
        if is_checked {
            printed.extend(lines);
        }
        if written.is_ok() {
            written = output.write_all(lines).and_then(|()| output.flush());
        }
        is_checked || written.is_ok()
    })?;
    if let Err(error) = written {
        stopped_listening(&error)?;
    }
    match ended {
        Some(ended) => Err(format!("the program ended badly: {ended}")),
        None => check(source, &String::from_utf8_lossy(&printed), errors),
    }
}

/// Says the program's lines in words.
fn say_it(
    options: &Options,
    source: &Source,
    output: &mut dyn Write,
    errors: &mut dyn Write,
) -> Result<u8, String> {
    let bytes = source.bytes();
    let program = program(options)?;
    let printed = printed(&program, &bytes)?;
    let played = play(&bytes, &printed);
    // Who comes and goes is told only if it can be told rightly.
    let stays = follow(&played, &without_requests(&program, &bytes, &played)?).unwrap_or_default();
    let mut written = Ok(());
    say(&played, &source.names(), &stays, &mut |row| {
        written = output.write_all(row.as_bytes());
        written.is_ok()
    });
    if let Err(error) = written {
        stopped_listening(&error)?;
    }
    check(source, &printed, errors)
}

/// The same drill without operators' requests: the program runs once more, if there are any.
fn without_requests(program: &Program, bytes: &[u8], played: &Play) -> Result<Play, String> {
    match without_operators(played) {
        same if same == bytes => Ok(played.clone()),
        quiet => Ok(play(&quiet, &printed(program, &quiet)?)),
    }
}

/// Draws the drill.
fn picture(
    options: &Options,
    name: &str,
    source: &Source,
    out: &Path,
    errors: &mut dyn Write,
) -> Result<u8, String> {
    let bytes = source.bytes();
    let program = program(options)?;
    let lines = printed(&program, &bytes)?;
    let played = play(&bytes, &lines);
    let quiet = without_requests(&program, &bytes, &played)?;
    let file = Path::new(name).file_name();
    let drawn = draw(&Sheet {
        name: &file.unwrap_or_default().to_string_lossy(),
        note: note(source).as_deref(),
        names: &source.names(),
        play: &played,
        quiet: &quiet,
    })?;
    fs::write(out, drawn).map_err(|error| cannot("write", out, &error))?;
    check(source, &lines, errors)
}

/// Holds what was printed against the text, and shows what differs.
fn check(source: &Source, printed: &str, errors: &mut dyn Write) -> Result<u8, String> {
    let Source::Text(text) = source else {
        return Ok(GOOD);
    };
    let found = mismatches(text, &Staged::of(text, printed));
    let reports = reports_kept(text, printed);
    if found.is_empty() && reports.is_empty() {
        return tell_refused(text, printed, errors);
    }
    for kept in reports {
        let told = format!(
            "drill: line {}: {}, printed {}\n",
            kept.line, kept.stands, kept.printed
        );
        write(errors, told.as_bytes())?;
    }
    if !found.is_empty() {
        let lines = if found.len() == 1 { "line" } else { "lines" };
        let head = format!(
            "drill: not as expected in {} {lines} of the text",
            found.len()
        );
        write(errors, format!("{head}\n{}\n", Table(&found)).as_bytes())?;
    }
    Ok(DIFFERS)
}

/// One who forgot the settings, or mistook one, would wonder where the lines are.
fn tell_refused(text: &Text, printed: &str, errors: &mut dyn Write) -> Result<u8, String> {
    let refusal = printed.lines().next().and_then(Said::of);
    let is_expected = text.lines.iter().any(|line| line.expected.is_some());
    match refusal {
        Some(Said::Settings(refusal)) if !is_expected => {
            let why = refused_settings(refusal);
            write(
                errors,
                format!("drill: settings refused: {why}\n").as_bytes(),
            )
        }
        _ => Ok(GOOD),
    }
}

/// All that the program prints for a drill.
fn printed(program: &Program, bytes: &[u8]) -> Result<String, String> {
    let room = Room::new("drill")?;
    let mut printed = Vec::new();
    let ended = program.stream(bytes, &room.desk(0)?, &mut |lines| {
        printed.extend(lines);
        true
    })?;
    match ended {
        None => Ok(String::from_utf8_lossy(&printed).into_owned()),
        Some(ended) => Err(format!("the program ended badly: {ended}")),
    }
}

/// Writes bytes for somebody who may have read enough.
pub fn write(output: &mut dyn Write, bytes: &[u8]) -> Result<u8, String> {
    match output.write_all(bytes).and_then(|()| output.flush()) {
        Ok(()) => Ok(GOOD),
        Err(error) => stopped_listening(&error),
    }
}

/// One who has read enough is no reason to complain.
fn stopped_listening(error: &std::io::Error) -> Result<u8, String> {
    match error.kind() {
        ErrorKind::BrokenPipe => Ok(GOOD),
        _ => Err(format!("cannot write: {error}")),
    }
}
