//! What the drill and the planner have in common: settings, then records, from any reader to any writer.
//! One record is held at a time, so memory does not grow with the input.

use std::io::{self, BufWriter, ErrorKind, Read, StdinLock, StdoutLock, Write};
use std::process::ExitCode;

use crate::node::NodeOf;
use crate::records::{LONGEST, RECORD_ROOM};

/// The lines of a program, one record after another.
pub trait Program<const F: u8> {
    /// Takes a whole record, and writes its line if it has one.
    fn take(
        &mut self,
        node: &mut NodeOf<F>,
        record: &[u8],
        output: &mut impl Write,
    ) -> io::Result<()>;

    /// Writes the line for a cut record or a length outside 2 to 1,033; it is the last.
    fn cut(&mut self, output: &mut impl Write) -> io::Result<()>;
}

/// What the input holds next.
enum Next<'a> {
    /// Nothing: the input stopped between records.
    End,
    /// A cut record, or a length outside 2 to 1,033.
    Cut,
    /// A record with its length field.
    Record(&'a [u8]),
}

/// Runs a program. Only writing can fail; an input that fails counts as one that ends.
pub fn run<const F: u8>(
    mut program: impl Program<F>,
    mut input: impl Read,
    mut output: impl Write,
) -> io::Result<()> {
    let mut buffer = [0; RECORD_ROOM];
    let (result, mut node) = match next(&mut input, &mut buffer) {
        Next::Record(record) => NodeOf::start(record),
        Next::End | Next::Cut => NodeOf::start(&[]),
    };
    if result != 0 {
        return writeln!(output, "settings {result}");
    }
    loop {
        match next(&mut input, &mut buffer) {
            Next::End => return Ok(()),
            Next::Cut => return program.cut(&mut output),
            Next::Record(record) => program.take(&mut node, record, &mut output)?,
        }
    }
}

/// What a program says to an input that is at hand.
pub fn say<const F: u8>(program: impl Program<F>, input: &[u8]) -> Vec<u8> {
    let mut said = Vec::new();
    // Writing to a vector does not fail.
    let _ = run(program, input, &mut said);
    said
}

/// Runs a program from standard input to standard output, where lines are gathered and written in larger pieces.
/// Exit status 0, also for refused settings and cut records; 1 if the lines cannot be written.
pub fn standard(
    name: &str,
    run: impl FnOnce(StdinLock, &mut BufWriter<StdoutLock>) -> io::Result<()>,
) -> ExitCode {
    let mut output = BufWriter::new(io::stdout().lock());
    let ran = run(io::stdin().lock(), &mut output);
    match ran.and_then(|()| output.flush()) {
        Ok(()) => ExitCode::SUCCESS,
        Err(error) => {
            eprintln!("{name}: cannot write: {error}");
            ExitCode::FAILURE
        }
    }
}

/// Reads one record into the buffer.
fn next<'b>(input: &mut impl Read, buffer: &'b mut [u8; RECORD_ROOM]) -> Next<'b> {
    let (head, rest) = buffer.split_at_mut(2);
    match fill(input, head) {
        0 => return Next::End,
        1 => return Next::Cut,
        _ => {}
    }
    let length = usize::from(u16::from_le_bytes([head[0], head[1]]));
    if !(2..=LONGEST).contains(&length) || fill(input, &mut rest[..length]) < length {
        return Next::Cut;
    }
    Next::Record(&buffer[..2 + length])
}

/// Reads until the place is full or the input ends; gives the bytes read.
fn fill(input: &mut impl Read, place: &mut [u8]) -> usize {
    let mut filled = 0;
    while filled < place.len() {
        match input.read(&mut place[filled..]) {
            Ok(0) => break,
            Ok(count) => filled += count,
            Err(error) if error.kind() == ErrorKind::Interrupted => {}
            Err(_) => break,
        }
    }
    filled
}
