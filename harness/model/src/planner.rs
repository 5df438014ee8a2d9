//! The planner's program over any reader and writer: settings, then records, a line for each of its questions.
//! All that is no question goes to the controller and has no line, the drill program's own question too.

use std::io::{self, Read, Write};

use crate::bandwidth::Free;
use crate::faults::{wrong, Fault};
use crate::node::NodeOf;
use crate::program::{self, Program};
use crate::records::{self, BAD_FIELD, BAD_LENGTH, OUTPUT_ROOM, REPORT_BYTES};

/// The kind of the planner's question.
const QUESTION: u16 = 41;

/// The planner's program.
struct Planner;

/// Runs a plan. Only writing can fail; an input that fails counts as one that ends.
pub fn run<const F: u8>(input: impl Read, output: impl Write) -> io::Result<()> {
    program::run::<F>(Planner, input, output)
}

/// What the planner's program says to an input that is at hand.
pub fn say<const F: u8>(input: &[u8]) -> Vec<u8> {
    program::say::<F>(Planner, input)
}

impl<const F: u8> Program<F> for Planner {
    fn take(
        &mut self,
        node: &mut NodeOf<F>,
        record: &[u8],
        output: &mut impl Write,
    ) -> io::Result<()> {
        if let Ok((QUESTION, body)) = records::split(record) {
            return line(&answer(node, body), output);
        }
        let room = if wrong::<F>(Fault::PlannerRoomOfOne) {
            REPORT_BYTES
        } else {
            OUTPUT_ROOM
        };
        node.record(record, &mut [0; OUTPUT_ROOM][..room]);
        Ok(())
    }

    fn cut(&mut self, output: &mut impl Write) -> io::Result<()> {
        line(&Free::refused(BAD_LENGTH), output)
    }
}

/// The answer to a question: link rate in four bytes, own reservations in two each, lowest byte first.
fn answer<const F: u8>(node: &NodeOf<F>, body: &[u8]) -> Free {
    let &[a, b, c, d, e, f, g, h] = body else {
        return Free::refused(BAD_FIELD);
    };
    let rate = u32::from_le_bytes([a, b, c, d]);
    let own = [u16::from_le_bytes([e, f]), u16::from_le_bytes([g, h])];
    node.free_bandwidth(rate, own)
}

fn line(free: &Free, output: &mut impl Write) -> io::Result<()> {
    let Free {
        result,
        address,
        ringlets: [zero, one],
        defect,
    } = free;
    let defect = u8::from(*defect);
    writeln!(output, "{result} {address} {zero} {one} {defect}")
}
