//! The drill program of the model: a drill on standard input, its lines on standard output.

use std::process::ExitCode;

use model::faults::RIGHT;
use model::{drill, program};

fn main() -> ExitCode {
    program::standard("model-drill", |input, output| {
        drill::run::<RIGHT>(input, output)
    })
}
