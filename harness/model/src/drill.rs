//! The drill program over any reader and writer: settings, then records, a line for each.

use std::io::{self, Read, Write};

use crate::faults::{wrong, Fault, RIGHT};
use crate::node::NodeOf;
use crate::program::{self, Program};
use crate::records::{self, BAD_FIELD, BAD_LENGTH, OUTPUT_ROOM, REPORT_BYTES};
use crate::ways::{Way, EAST};

/// The kind of the drill program's own question.
const QUESTION: u16 = 40;

/// The drill program, with the number of the last line. `T` is the fault switch for what it tells of a way.
#[derive(Default)]
struct Drill<const T: u8> {
    number: u64,
    /// The way told last; nothing but a wrong model looks at it.
    last: Way,
}

/// Runs a drill. Only writing can fail; an input that fails counts as one that ends.
pub fn run<const F: u8>(input: impl Read, output: impl Write) -> io::Result<()> {
    program::run::<F>(Drill::<RIGHT>::default(), input, output)
}

/// What the drill program says to an input that is at hand.
pub fn say<const F: u8>(input: &[u8]) -> Vec<u8> {
    program::say::<F>(Drill::<RIGHT>::default(), input)
}

/// The same of one that does all rightly, but has a fault in what it tells of a way.
pub fn tell<const T: u8>(input: &[u8]) -> Vec<u8> {
    program::say::<RIGHT>(Drill::<T>::default(), input)
}

impl<const F: u8, const T: u8> Program<F> for Drill<T> {
    fn take(
        &mut self,
        node: &mut NodeOf<F>,
        record: &[u8],
        output: &mut impl Write,
    ) -> io::Result<()> {
        self.number += 1;
        let number = self.number;
        if let Ok((QUESTION, body)) = records::split(record) {
            let answer = match question::<F, T>(node, body) {
                Some(way) => self.told(way),
                None => refused::<T>(),
            };
            return writeln!(output, "{number} {answer}");
        }
        let room = if wrong::<F>(Fault::RoomOfOne) {
            REPORT_BYTES
        } else {
            OUTPUT_ROOM
        };
        let (result, reports) = node.record(record, &mut [0; OUTPUT_ROOM][..room]);
        let (west, east) = (node.west_request(), node.east_request());
        let (sequence, stations) = (node.sequence(), shown::<F>(node.station_count()));
        writeln!(
            output,
            "{number} {result} {west} {east} {sequence} {stations} {reports}"
        )
    }

    fn cut(&mut self, output: &mut impl Write) -> io::Result<()> {
        let number = self.number + 1;
        writeln!(output, "{number} {BAD_LENGTH}")
    }
}

impl<const T: u8> Drill<T> {
    /// The words for a way: reply, hop count, worst request, span.
    fn told(&mut self, way: Way) -> String {
        let Way {
            reply,
            hops,
            worst,
            span,
        } = self.kept(way);
        if wrong::<T>(Fault::NoZeros) && reply > EAST {
            format!("way {reply}")
        } else if wrong::<T>(Fault::WorstToldFirst) {
            format!("way {reply} {worst} {hops} {span}")
        } else if wrong::<T>(Fault::SpanToldSecond) {
            format!("way {reply} {hops} {span} {worst}")
        } else {
            format!("way {reply} {hops} {worst} {span}")
        }
    }

    /// The way as it is. A wrong model keeps the numbers of the last one where there is none.
    fn kept(&mut self, way: Way) -> Way {
        if wrong::<T>(Fault::NumbersStay) && way.reply > EAST {
            return Way {
                reply: way.reply,
                ..self.last
            };
        }
        self.last = way;
        way
    }
}

/// The number of stations in a line.
fn shown<const F: u8>(stations: usize) -> usize {
    if wrong::<F>(Fault::StationsShownTo63) {
        stations.min(63)
    } else if wrong::<F>(Fault::StationsInSixBits) {
        stations % 64
    } else {
        stations
    }
}

/// The words for a bad question.
fn refused<const T: u8>() -> String {
    if wrong::<T>(Fault::ZerosBehind4) {
        format!("{BAD_FIELD} 0 0 0")
    } else {
        BAD_FIELD.to_string()
    }
}

/// The answer to a question; none for a wrong body length or an odd first byte.
fn question<const F: u8, const T: u8>(node: &NodeOf<F>, body: &[u8]) -> Option<Way> {
    let address = records::address(body.try_into().ok()?);
    (!records::is_odd(address)).then(|| node.told::<T>(address))
}
