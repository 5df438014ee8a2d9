//! A first input, to see whether the other program can be run at all.

use text::program::{Desk, Program};

use crate::subject::{right, Subject};

/// Fails if the program cannot be run or says nothing at all. What it says is judged later.
pub fn probe(subject: &dyn Subject, program: &Program, desk: &Desk) -> Result<(), String> {
    let (name, input) = subject.probe()?;
    let said = program.say(&input, desk)?;
    if let Some(ended) = said.ended {
        return Err(format!("{name} cannot be run: {ended}"));
    }
    if said.lines.is_empty() && !right(subject, &input).is_empty() {
        return Err(format!("the command says nothing to {name}"));
    }
    Ok(())
}
