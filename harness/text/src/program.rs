//! The drill program, or another in its place: found, run on a drill in a file of its own, and given up on if it hangs.

use std::env;
use std::ffi::OsString;
use std::fs::{self, File};
use std::io::{ErrorKind, Read};
use std::path::{Path, PathBuf};
use std::process::{Child, Command, ExitStatus, Stdio};
use std::sync::mpsc;
use std::thread;
use std::time::{Duration, Instant};

/// How long one drill of many may take.
const TIME_LIMIT: Duration = Duration::from_secs(120);
/// Between two looks at a program that is about to end.
const PAUSE: Duration = Duration::from_millis(1);
/// The script that runs the proved drill program, from the root of the repository.
pub const RUN: &str = "drills/run";

/// A command that takes a drill's path as its last argument.
#[derive(Clone, Debug)]
pub struct Program {
    words: Vec<OsString>,
}

/// What a program said, and how it ended if not well.
pub struct Said {
    /// Standard output.
    pub lines: Vec<u8>,
    /// The exit status and the first line of standard error, if the status is not 0.
    pub ended: Option<String>,
}

impl Program {
    /// The command as given, or the usual script in this directory or the nearest above that has it.
    pub fn find(given: Option<&str>, usual: &str) -> Result<Program, String> {
        if let Some(command) = given {
            return Program::of(command);
        }
        let here = env::current_dir().map_err(|error| format!("no current directory: {error}"))?;
        let found = here.ancestors().map(|top| top.join(usual));
        match found.into_iter().find(|path| path.is_file()) {
            Some(path) => Ok(Program {
                words: vec![path.into_os_string()],
            }),
            None => Err(format!(
                "no {usual} in this directory or above; name a command with --drill"
            )),
        }
    }

    /// A path that exists is the whole command; otherwise blanks part its words.
    fn of(command: &str) -> Result<Program, String> {
        let words: Vec<OsString> = if Path::new(command).is_file() {
            // A bare name would be looked for among the installed programs.
            let path = std::path::absolute(command);
            vec![path.map_err(|error| error.to_string())?.into_os_string()]
        } else {
            command.split_whitespace().map(OsString::from).collect()
        };
        if words.is_empty() {
            return Err("--drill needs a command".to_string());
        }
        Ok(Program { words })
    }

    /// Runs a drill in a desk's own files, and gives up on it after a time.
    pub fn say(&self, drill: &[u8], desk: &Desk) -> Result<Said, String> {
        let mut child = self.start(drill, desk)?;
        match read_in_time(&mut child) {
            Ok(lines) => {
                let ended = self.ended(&mut child, desk)?;
                Ok(Said { lines, ended })
            }
            Err(trouble) => {
                give_up(&mut child);
                Err(format!("{}: {trouble}", self.name()))
            }
        }
    }

    /// Runs a drill for as long as it takes, and hands on what it says as it comes; it ends if nobody takes it any more. How it ended, if not well.
    pub fn stream(
        &self,
        drill: &[u8],
        desk: &Desk,
        take: &mut dyn FnMut(&[u8]) -> bool,
    ) -> Result<Option<String>, String> {
        let mut child = self.start(drill, desk)?;
        let Some(mut output) = child.stdout.take() else {
            return Err(format!("{}: no output", self.name()));
        };
        let mut buffer = [0; 1 << 16];
        loop {
            match output.read(&mut buffer) {
                Ok(0) => return self.ended(&mut child, desk),
                Ok(count) if take(&buffer[..count]) => {}
                Ok(_) => {
                    give_up(&mut child);
                    return Ok(None);
                }
                Err(error) if error.kind() == ErrorKind::Interrupted => {}
                Err(error) => {
                    give_up(&mut child);
                    return Err(format!("{}: cannot read its output: {error}", self.name()));
                }
            }
        }
    }

    fn start(&self, drill: &[u8], desk: &Desk) -> Result<Child, String> {
        let file = desk.write(drill)?;
        let child = self.command(&file, desk.errors()?).spawn();
        child.map_err(|error| format!("cannot run {}: {error}", self.name()))
    }

    fn ended(&self, child: &mut Child, desk: &Desk) -> Result<Option<String>, String> {
        match wait_in_time(child) {
            Ok(status) => {
                Ok((!status.success()).then(|| format!("{status}{}", desk.first_error())))
            }
            Err(trouble) => {
                give_up(child);
                Err(format!("{}: {trouble}", self.name()))
            }
        }
    }

    fn command(&self, file: &Path, errors: File) -> Command {
        let mut command = Command::new(&self.words[0]);
        command
            .args(&self.words[1..])
            .arg(file)
            .stdin(Stdio::null())
            .stdout(Stdio::piped())
            .stderr(errors);
        command
    }

    fn name(&self) -> String {
        self.words[0].to_string_lossy().into_owned()
    }
}

/// Whether it is still there does not matter any more.
fn give_up(child: &mut Child) {
    let _ = child.kill();
    let _ = child.wait();
}

/// Waits for a program that says nothing any more.
fn wait_in_time(child: &mut Child) -> Result<ExitStatus, String> {
    let began = Instant::now();
    loop {
        match child.try_wait() {
            Ok(Some(status)) => return Ok(status),
            Ok(None) if began.elapsed() < TIME_LIMIT => thread::sleep(PAUSE),
            Ok(None) => return Err(format!("no end after {} s", TIME_LIMIT.as_secs())),
            Err(error) => return Err(error.to_string()),
        }
    }
}

/// Reads standard output to its end, in a thread so that the wait can be cut short.
fn read_in_time(child: &mut Child) -> Result<Vec<u8>, String> {
    let Some(mut output) = child.stdout.take() else {
        return Err("no output".to_string());
    };
    let (sender, receiver) = mpsc::channel();
    thread::spawn(move || {
        let mut lines = Vec::new();
        let read = output.read_to_end(&mut lines).map(|_| lines);
        // Nobody listens any more if the time is over.
        let _ = sender.send(read);
    });
    match receiver.recv_timeout(TIME_LIMIT) {
        Ok(read) => read.map_err(|error| format!("cannot read its output: {error}")),
        Err(_) => Err(format!("no end after {} s", TIME_LIMIT.as_secs())),
    }
}

/// A directory of one job: the drill it runs, and what the program complains about.
pub struct Desk {
    directory: PathBuf,
}

impl Desk {
    fn write(&self, drill: &[u8]) -> Result<PathBuf, String> {
        let file = self.directory.join("drill");
        fs::write(&file, drill).map_err(|error| cannot("write", &file, &error))?;
        Ok(file)
    }

    fn errors(&self) -> Result<File, String> {
        let file = self.directory.join("errors");
        File::create(&file).map_err(|error| cannot("write", &file, &error))
    }

    fn first_error(&self) -> String {
        let errors = fs::read(self.directory.join("errors")).unwrap_or_default();
        match String::from_utf8_lossy(&errors).lines().next() {
            Some(line) => format!(": {line}"),
            None => String::new(),
        }
    }
}

/// A directory for one run of this program; it goes with all that is in it.
pub struct Room {
    directory: PathBuf,
}

impl Room {
    /// A directory that nobody else has.
    pub fn new(purpose: &str) -> Result<Room, String> {
        Ok(Room {
            directory: fresh_directory(purpose)?,
        })
    }

    /// Where it is.
    pub fn path(&self) -> &Path {
        &self.directory
    }

    /// The desk of a job.
    pub fn desk(&self, job: usize) -> Result<Desk, String> {
        let directory = self.directory.join(format!("job-{job}"));
        fs::create_dir(&directory).map_err(|error| cannot("make", &directory, &error))?;
        Ok(Desk { directory })
    }
}

impl Drop for Room {
    fn drop(&mut self) {
        // Nothing depends on it; a directory that stays does no harm.
        let _ = fs::remove_dir_all(&self.directory);
    }
}

/// Makes a directory among the temporary ones that was not there before.
pub fn fresh_directory(purpose: &str) -> Result<PathBuf, String> {
    let top = env::temp_dir();
    for number in 0..1_000 {
        let name = format!("{purpose}-{}-{number}", std::process::id());
        let directory = top.join(name);
        match fs::create_dir(&directory) {
            Ok(()) => return Ok(directory),
            Err(error) if error.kind() == ErrorKind::AlreadyExists => {}
            Err(error) => return Err(cannot("make", &directory, &error)),
        }
    }
    Err(format!("no free name for a directory in {}", top.display()))
}

/// A message about a file.
pub fn cannot(what: &str, path: &Path, error: &std::io::Error) -> String {
    format!("cannot {what} {}: {error}", path.display())
}
