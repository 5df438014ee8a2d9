//! What the command line of `./drill` asks for.

/// How to call the program.
pub const USAGE: &str = "\
usage: drill [FILE]                     runs a drill and prints the program's lines; without FILE the worked drill
       drill --say [FILE]               puts words beside each line
       drill --picture OUT.svg [FILE]   draws the drill
       drill --bytes [FILE]             writes the bytes of the drill to standard output
       drill --text [FILE]              writes the text of the drill to standard output
       drill --all FILE..               runs texts; every line that is printed must be expected
  FILE is a text or bytes, '-' is standard input. It is bytes if one of its first four bytes is below 9, as in
  every record that the program takes, or if it has fewer than two; otherwise it is a text.
  --drill CMD    runs a drill in bytes; its path becomes the last argument (drills/run here or above)
  --before CMD   is run before the first drill, and has to end well
exit status: 0 all as expected, 1 a line differs, 2 a mistake in a text, bad usage, or a file or program that cannot be used";

/// What to do.
#[derive(Clone, Debug, PartialEq, Eq)]
pub enum Task {
    /// Run a drill.
    Run,
    /// Say its lines in words.
    Say,
    /// Write its text.
    Text,
    /// Write its bytes.
    Bytes,
    /// Draw it into this file.
    Picture(String),
    /// Run many texts.
    All,
    /// Say how to call the program.
    Help,
}

/// The command line.
#[derive(Clone, Debug)]
pub struct Options {
    /// What to do.
    pub task: Task,
    /// The program that runs a drill.
    pub drill: Option<String>,
    /// The program that is run before.
    pub before: Option<String>,
    /// The drills; none is the worked drill.
    pub files: Vec<String>,
}

impl Options {
    /// Reads the arguments behind the program's name.
    pub fn read(arguments: impl IntoIterator<Item = String>) -> Result<Options, String> {
        let mut options = Options {
            task: Task::Run,
            drill: None,
            before: None,
            files: Vec::new(),
        };
        let mut rest = arguments.into_iter();
        while let Some(argument) = rest.next() {
            options.take(argument, &mut rest)?;
        }
        match (&options.task, options.files.len()) {
            (Task::All, 0) => Err("--all needs a FILE".to_string()),
            (Task::All | Task::Help, _) | (_, 0 | 1) => Ok(options),
            _ => Err("more than one FILE".to_string()),
        }
    }

    fn take(
        &mut self,
        argument: String,
        rest: &mut impl Iterator<Item = String>,
    ) -> Result<(), String> {
        let mut value = || rest.next().ok_or(format!("{argument} needs a value"));
        match &argument[..] {
            "--drill" => self.drill = Some(value()?),
            "--before" => self.before = Some(value()?),
            "--picture" => self.choose(Task::Picture(picture(value()?)?))?,
            "--say" => self.choose(Task::Say)?,
            "--text" => self.choose(Task::Text)?,
            "--bytes" => self.choose(Task::Bytes)?,
            "--all" => self.choose(Task::All)?,
            "--help" | "-h" => self.choose(Task::Help)?,
            name if name.starts_with('-') && name != "-" => {
                return Err(format!("{name} is not an option"))
            }
            _ => self.files.push(argument),
        }
        Ok(())
    }

    fn choose(&mut self, task: Task) -> Result<(), String> {
        if self.task != Task::Run {
            return Err("more than one of --say, --picture, --bytes, --text, --all".to_string());
        }
        self.task = task;
        Ok(())
    }
}

/// A drill that was named where the picture goes would be lost.
fn picture(out: String) -> Result<String, String> {
    if out.ends_with(".svg") {
        return Ok(out);
    }
    Err(format!(
        "--picture needs the name of a picture that ends in .svg, not '{out}'"
    ))
}
