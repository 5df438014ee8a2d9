//! What is compared: the drill program on drills, or the planner's program on plans.

use model::faults::Fault;
use text::records::Bytes;

use crate::script::Script;
use crate::tally::Tally;

/// A program with its inputs, as far as the comparison has to know them.
pub trait Subject: Sync {
    /// What an input is called.
    fn word(&self) -> &'static str;

    /// The script that runs the proved program, from the root of the repository.
    fn command(&self) -> &'static str;

    /// The input of a seed, the same on every machine.
    fn make(&self, seed: u64) -> Script;

    /// An input to which every program has something to say, and its name.
    fn probe(&self) -> Result<(&'static str, Bytes), String>;

    /// The input in a file.
    fn read(&self, file: &str) -> Result<Bytes, String>;

    /// The program of the model with a fault.
    fn model(&self, fault: Fault) -> fn(&[u8]) -> Vec<u8>;

    /// The faults that its inputs have to show.
    fn faults(&self) -> &'static [Fault];

    /// Nothing counted yet.
    fn nothing(&self) -> Tally;

    /// Counts what the program said to an input.
    fn count(&self, input: &[u8], said: &[u8]) -> Tally;

    /// How many records have been read when a line, counted from 1, is written.
    fn records_read(&self, script: &Script, line: usize) -> usize;

    /// An input in words, with the model's lines.
    fn words(&self, script: &Script) -> String;

    /// What is kept of an input that differs, and what the file then holds.
    fn kept(&self, script: &Script) -> (Bytes, &'static str);
}

/// What the right model says to an input.
pub fn right(subject: &dyn Subject, input: &[u8]) -> Vec<u8> {
    subject.model(Fault::Nothing)(input)
}
