//! The planner's program of the model: a plan on standard input, the answers on standard output.

use std::process::ExitCode;

use model::faults::RIGHT;
use model::{planner, program};

fn main() -> ExitCode {
    program::standard("model-planner", |input, output| {
        planner::run::<RIGHT>(input, output)
    })
}
